#!/usr/bin/env python3
"""Brings the names of this repository's own definitions and lemmas to the library's spelling: words in snake case, and a dash only where it
joins the names of two definitions.

usage: python3 tools/respell.py          in the repository, once, after its files were turned to the present Rattle
       python3 tools/respell.py --list   only prints each name and what it becomes

Definitions are found in specs/ and in the lemma files of proofs/; names of functions, of fields of structs and of the library stay.
"""
import os
import re
import sys

ROOT = os.path.join(os.path.dirname(os.path.abspath(__file__)), "..")
CRATES = os.path.join(ROOT, "crates")
TOKEN = re.compile(r"[^\s(){}\[\];,.:·\"'`@λ∣|]+(?:'*)")
DEFINED = re.compile(r"^ *(?:pub |abbrev |unfoldable )*([^\s(){};:,.=]+) : ", re.M)
LIBRARY = {"length", "take", "drop", "append", "map", "reverse", "replicate", "get_or", "set", "sum", "lt", "le", "eq", "ne", "zero", "suc",
           "add", "sub", "mul", "div", "mod", "pow", "xor", "and", "or", "not", "shl", "shr", "cons", "nil"}
# Of two names that would fall together the definition has the plain one, and the lemma of that name gives way.
OTHERWISE = {"signAt": "sign_at", "sign_at": "sign_at_lem", "oneFewer": "one_fewer", "one_fewer": "one_fewer_lem",
             "sameBits": "same_bits", "tooFew": "too_few"}


def texts(*endings):
    for folder, dirs, files in os.walk(CRATES):
        dirs[:] = sorted(d for d in dirs if d != "out")
        for name in sorted(files):
            if name.endswith(endings):
                yield os.path.join(folder, name)


def read(path):
    with open(path, encoding="utf-8") as f:
        return f.read()


def bare(text):
    return re.sub(r"--.*", "", text)


def snake(word):
    return re.sub(r"(?<=[a-z0-9₀-₉])([A-Z])", lambda m: "_" + m.group(1), word).lower()


def own_names():
    """The names defined in antt, and of these the ones of specs/."""
    every, specs = set(), set()
    for path in texts(".antt"):
        found = set(DEFINED.findall(bare(read(path))))
        if path.endswith(("/Proof.antt", "/Answers.antt", "/Invariants.antt")):
            found = {n for n in found if re.search("[A-Z]", n)}
        every |= found
        if "/specs/" in path:
            specs |= found
    return every, specs


def imported():
    """The names that come from the library."""
    own = set(os.listdir(CRATES))
    found = set()
    for path in texts(".antt", ".rt"):
        for module, names in re.findall(r"use ([\w.·+]+)\.\{([^}]*)\}", read(path)):
            parts = module.split(".")
            if parts[0] != "Rattle" or parts[1] not in own:
                found |= {n.split(" as ")[0].strip() for n in names.split(",")}
    return found


def respelled(name, definitions):
    parts = [snake(p) for p in name.split("-")]
    said = parts[0]
    for left, right in zip(parts, parts[1:]):
        said += ("-" if left in definitions and right in definitions else "_") + right
    return said


def names():
    every, specs = own_names()
    library = imported()
    definitions = {snake(n) for n in specs if "-" not in n} | LIBRARY
    become, taken = {}, every | library
    for name in sorted(every, key=lambda n: ("-" in n, n)):
        if not re.match("[a-z]", name) or name in library:
            continue
        if name in OTHERWISE:
            become[name] = OTHERWISE[name]
            continue
        said = respelled(name, definitions)
        if said != name:
            # a lemma that would have its function's name
            become[name] = said + "_lem" if said in taken else said
            taken.add(become[name])
    return become


def turned(text, become):
    return TOKEN.sub(lambda m: become.get(m.group(0), m.group(0)), text)


def camel(become):
    return {a: b for a, b in become.items() if re.search("[A-Z]", a)}


def turn_code(text, become):
    """Of a .rt file what stands in ghost imports and clauses, and names in comments: no function or variable has such a name."""
    return turned(text, camel(become))


def main():
    become = names()
    if "--list" in sys.argv:
        for a, b in become.items():
            print(a, b)
        return
    for path in texts(".antt", ".rt", ".edit"):
        old = read(path)
        new = turn_code(old, become) if path.endswith(".rt") else turned(old, become)
        if new != old:
            with open(path, "w", encoding="utf-8") as f:
                f.write(new)


if __name__ == "__main__":
    main()
