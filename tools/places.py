#!/usr/bin/env python3
"""Places of forms of an older language in crates/*/src: python3 tools/places.py [POINT] lists them, with no POINT their counts.

1 enums with a case for nothing, structs with a flag or an outcome beside a value, functions that answer an error's number, constants
  that number kinds, a flag handed in beside the value that it speaks of
2 functions of three lines and more whose bodies differ only in names, numbers and types
3 loops by while
4 functions that write out what a derive or a method of std does, struct literals that copy two fields or more of one value
5 facts that stand in the contracts of three functions or more of a crate, three parameters that three functions or more of a crate share
6 a buffer with a place or a length beside it in a parameter list or a struct, arrays side by side
7 flags and numbers handed in that choose a step
8 each crate's proof files, their lines, and helpers with a number behind their name
"""
import collections, glob, os, re, sys

def sources():
    for path in sorted(glob.glob('crates/*/src/*.rt')):
        yield path, open(path).read()

FN = re.compile(r'^(?:    )?(?:pub(?:\(crate\))? )?(?:extern "C" )?fn (\w+)[^{;]*?\(', re.M)

def functions(text):
    """Each function: its line, name, parameters, contract and body."""
    for m in FN.finditer(text):
        depth, i = 1, m.end()
        while depth and i < len(text):
            depth += {'(': 1, ')': -1}.get(text[i], 0)
            i += 1
        params = text[m.end():i - 1]
        j = re.compile(r'^ *\{', re.M).search(text, i - 1)
        brace = text.find('{\n', i)
        start = i
        # the body is the first block that a line opens by itself, or that ends the signature's line
        line_end = text.find('\n', i)
        if text[i:line_end].rstrip().endswith('{'):
            body_at = line_end
        else:
            b = re.compile(r'^(?:    )?\{$', re.M).search(text, i)
            if not b:
                continue
            body_at = b.end()
        end = re.compile(r'^(?:    )?\}$', re.M).search(text, body_at)
        if not end:
            continue
        yield text.count('\n', 0, m.start()) + 1, m.group(1), params, text[i:body_at], text[body_at:end.start()]

def param_list(params):
    depth, out, cur = 0, [], ''
    for c in params:
        depth += {'(': 1, '[': 1, '<': 1, ')': -1, ']': -1, '>': -1}.get(c, 0)
        if c == ',' and depth == 0:
            out.append(cur); cur = ''
        else:
            cur += c
    out.append(cur)
    return [re.sub(r'\s+', ' ', p).strip() for p in out if ':' in p]

def types(text):
    for m in re.finditer(r'^(?:pub(?:\(crate\))? )?(enum|struct) (\w+)[^{;\n]*\{\n(.*?)^\}', text, re.M | re.S):
        yield text.count('\n', 0, m.start()) + 1, m.group(1), m.group(2), m.group(3)

def point1():
    for path, text in sources():
        for line, kind, name, body in types(text):
            if kind == 'enum' and re.search(r'^    (None|Nothing|Unknown|Done|Missing|End)\b', body, re.M):
                yield path, line, 'enum %s' % name
            if kind == 'struct' and re.search(r'^    (?:pub(?:\(crate\))? )?(found|outcome|well|fault|error|trouble|kind|mark): ', body, re.M):
                yield path, line, 'struct %s' % name
        for line, name, params, contract, body in functions(text):
            if re.search(r'-> (i32|Result<\w+, i32>)', contract) and 'sample' not in name:
                yield path, line, 'fn %s answers a number for an error' % name
            if re.search(r'\b(code|error|outcome): (u32|i32)\b', params):
                yield path, line, 'fn %s takes a number for a refusal or an error' % name
            if re.search(r'\bhas: bool', params):
                yield path, line, 'fn %s takes a flag beside a value' % name
            if re.search(r'\b(form|words?|command|number): (usize|u32)\b', params):
                yield path, line, 'fn %s takes a number for a kind' % name
            if re.search(r'-> (usize|u32)', contract) and re.match(r'(.*_choice|choice_of|sentence_of|form_in|command_of|bit_of|reason_of|which|change_of|kind_of)$', name) and 'word: u64' not in params:
                yield path, line, 'fn %s answers a number for a kind' % name
        for m in re.finditer(r'^(?:pub(?:\(crate\))? )?const (\w+): (u32|usize|i32) = (\d+);', text, re.M):
            if re.search(r'\b%s\b' % m.group(1), re.sub(r'(?m)^.*const.*$', '', text)) and os.path.basename(path) in ('asked.rt', 'saving.rt', 'main.rt', 'lib.rt') and re.search(r'v91/|settings_file/|console/', path) and not re.search(r'BYTES|OCTETS|ROOM', m.group(1)):
                yield path, text.count('\n', 0, m.start()) + 1, 'const %s' % m.group(1)

def shape(body):
    body = re.sub(r'//.*', '', body)
    toks = re.findall(r'b?"(?:\\.|[^"\\])*"|\w+|[^\w\s]', body)
    keep = {'if', 'else', 'while', 'for', 'in', 'let', 'mut', 'return', 'match', 'as', 'Some', 'None', 'Ok', 'Err', 'true', 'false'}
    return ' '.join(t if not re.match(r'\w|b?"', t) or t in keep else 'x' for t in toks)

def point2():
    seen = collections.defaultdict(list)
    for path, text in sources():
        for line, name, params, contract, body in functions(text):
            if len([l for l in body.splitlines() if l.strip()]) >= 3:
                seen[shape(body)].append((path, line, name))
    for places in seen.values():
        if len(places) > 1:
            for path, line, name in places:
                yield path, line, 'fn %s: as %s' % (name, ', '.join(n for p, l, n in places if (p, l) != (path, line)))

def point3():
    for path, text in sources():
        for n, l in enumerate(text.splitlines(), 1):
            if re.match(r'\s*(while|loop)\b', l):
                yield path, n, l.strip()

HAND = ('is_well is_over is_said same small larger wide one_if low_byte clear copy_bytes at_most step_of magnitude law_of digit value_of '
        'all_digits is_binary told_as number_of number_in code_of_refusal refused unread own_bits shown half_of front first_of with_line').split()

def point4():
    for path, text in sources():
        for line, name, params, contract, body in functions(text):
            if name in HAND:
                yield path, line, 'fn %s' % name
            for m in re.finditer(r'\b[A-Z]\w+ \{([^{}]*)\}', body):
                froms = collections.Counter(re.findall(r'(\w+): (\w+)\.\1\b', m.group(1)) and [v for _, v in re.findall(r'(\w+): (\w+)\.\1\b', m.group(1))])
                if froms and max(froms.values()) >= 2:
                    yield path, line, 'fn %s copies fields' % name

def facts(contract):
    for m in re.finditer(r'\b(requires|ensures)\b[^{]*\{(.*?)\}\s*(?=requires|ensures|\{?\s*$|$)', contract, re.S):
        for f in re.split(r'\)\s*×\s*\(', m.group(2).strip()):
            yield m.group(1), re.sub(r'\s+', ' ', f.strip(' ()'))

def point5():
    by = collections.defaultdict(set)
    shared = collections.defaultdict(set)
    where = {}
    import itertools
    for path, text in sources():
        crate = path.split('/')[1]
        for line, name, params, contract, body in functions(text):
            where[(crate, name)] = (path, line)
            for kind, f in facts(contract):
                if kind == 'requires' and len(f) > 3:
                    by[(crate, f)].add(name)
            ps = sorted(set(param_list(params)))
            for t in itertools.combinations(ps, 3):
                shared[(crate, t)].add(name)
    for (crate, f), names in sorted(by.items()):
        if len(names) >= 3:
            yield 'crates/' + crate, 0, 'fact %s: %d functions' % (f, len(names))
    done = {}
    for (crate, t), names in sorted(shared.items(), key=lambda kv: -len(kv[1])):
        if len(names) >= 3:
            key = (crate, frozenset(names))
            done.setdefault(key, set()).update(t)
    for (crate, names), ps in sorted(done.items(), key=lambda kv: kv[0][0]):
        yield 'crates/' + crate, 0, 'parameters %s: %d functions' % (', '.join(sorted(ps)), len(names))

def point6():
    for path, text in sources():
        for line, kind, name, body in types(text):
            if kind == 'struct' and re.search(r': \[u8; \w+\]', body) and re.search(r'\b(length|count|at|len): usize', body):
                yield path, line, 'struct %s' % name
            if kind == 'struct' and re.search(r'\b(start|from): usize', body) and re.search(r'\b(end|to): usize', body):
                yield path, line, 'struct %s is a range' % name
        for line, name, params, contract, body in functions(text):
            ps = [re.sub(r'\s+', ' ', p) for p in param_list(params)]
            for a, b in zip(ps, ps[1:]):
                if re.match(r'\w+: &(mut )?\[', a) and re.match(r'(at|length|len|count|to|n|i): usize$', b):
                    yield path, line, 'fn %s: %s, %s' % (name, a, b)
            if 'points: &' in params and 'labels: &' in params:
                yield path, line, 'fn %s: arrays side by side' % name

def point7():
    for path, text in sources():
        for line, name, params, contract, body in functions(text):
            if re.search(r'\b(back|two|reads|as_cp|binary|cleans|cold|exact|shows|svg|begins|choice|k: usize, (a|values)): ?(bool|usize)?', params):
                yield path, line, 'fn %s' % name

def point8():
    for crate in sorted(os.listdir('crates')):
        files = [p for p in glob.glob('crates/%s/proofs/**/*.antt' % crate, recursive=True)]
        lines = sum(open(p).read().count('\n') for p in files)
        helpers = sum(len(re.findall(r'^\w+[_-]\d+ :', open(p).read(), re.M)) for p in files)
        yield 'crates/' + crate, 0, '%d files, %d lines, %d numbered helpers' % (len(files), lines, helpers)

POINTS = {str(k): f for k, f in enumerate([point1, point2, point3, point4, point5, point6, point7, point8], 1)}

def main():
    if len(sys.argv) > 1:
        for path, line, what in POINTS[sys.argv[1]]():
            print('%s:%d: %s' % (path, line, what) if line else '%s: %s' % (path, what))
    else:
        for k, f in POINTS.items():
            print(k, len(list(f())))

main()
