"""The cases of put, go_back and look_up that are stored."""

from collections import namedtuple
from itertools import combinations

from cases_cp import (ALL_FULL, body, byte_count, faulty_sequence, in_bytes, noisy, pairs, plain,
                      sealed)
from forms import back_case, look_up_case, number, outcome, put_case
from record import EMPTY, EXAMPLE
from samples import Draw, a_record, faulty_record, with_index
from settings import (CURRENT, EMPTY_FILE, PREVIOUS, VERSION_1, VERSION_2, after_put, cp_size,
                      entry_size, found_in, grown, size_of, trailer_size)

# In the order in which they are looked at.
PUT_NUMBERS = (4, 9, 10, 25, 11, 12, 22, 24, 17)
BACK_NUMBERS = (22, 23, 17)
LOOK_NUMBERS = (22, 23)

# Those of the reader's refusals that bytes of a CP's length can have.
CP_NUMBERS = (*range(3, 11), 25, 11)

# More than any entry takes.
SPARE = 130

# An entry to be built, right where nothing else is said.
Piece = namedtuple("Piece", "junction kind octets before size", defaults=(None, None))


# Files

def a_cp(draw, g=0):
    """The bytes of an accepted CP with largest index g, its ignored bits at random."""
    return noisy(draw, a_record(draw, draw.between(0, 28), g))


def pieces_of(draw, shape, g=0):
    """Entries for junctions given as (number, one or two settings)."""
    return [Piece(junction, kind, a_cp(draw, g))
            for junction, settings in shape for kind in (CURRENT, PREVIOUS)[:settings]]


def low_first(value, width):
    """A number in so many bytes, the low byte first; bits above are lost."""
    return (value % 256**width).to_bytes(width, "little")


def built(pieces, version=VERSION_1, count=None, last=None, byte=None, between=b""):
    """A file of entries as they are given, in the widths of a version; what is None is right."""
    made, before = b"", 0
    for piece in pieces:
        place = len(made)
        size = len(piece.octets) if piece.size is None else piece.size
        made += low_first(piece.junction, 2) + bytes([piece.kind, size]) + piece.octets
        made += low_first(before if piece.before is None else piece.before, version.start_width)
        before = place
    made += between + low_first(len(pieces) if count is None else count, version.count_width)
    made += low_first(before if last is None else last, version.start_width)
    return made + bytes([version.byte if byte is None else byte])


def a_file(draw, shape, g=0, version=VERSION_1):
    """A file of junctions given as (number, one or two settings)."""
    return built(pieces_of(draw, shape, g), version)


def numbered(draw, count, settings=1):
    """A shape of so many junctions of any numbers, none at either end."""
    found = set()
    while len(found) < count:
        found.add(draw.between(1, 2**16 - 2))
    return [(junction, settings) for junction in sorted(found)]


def changed(pieces, n, **fields):
    """Entries with one of them changed."""
    return [*pieces[:n], pieces[n]._replace(**fields), *pieces[n + 1:]]


def places_of(pieces, version=VERSION_1):
    """Where entries begin, and where the last ends."""
    places = [0]
    for piece in pieces:
        places.append(places[-1] + entry_size(version, piece.octets))
    return places


# Calls

def room_for(file, junction, record):
    """The bytes of the file that a put makes."""
    version, there = found_in(file)
    junctions = after_put(there, junction, bytes(cp_size(record)))
    return size_of(grown(version, junctions), junctions)


def a_put(file, junction, record, spare=0):
    """A put into a buffer of the exact length or longer."""
    return put_case(file, junction, record, room_for(file, junction, record) + spare)


def a_back(file, junction, spare=0):
    """A going back into a buffer of the exact length or longer."""
    return back_case(file, junction, len(file) + spare)


def any_record(draw, g=0):
    """A record that is not refused."""
    return a_record(draw, draw.between(0, 28), g)


def any_call(draw, file, junction):
    """One of the three calls, with a buffer that is long enough."""
    kind = draw.below(3)
    if kind == 0:
        return put_case(file, junction, any_record(draw), len(file) + SPARE)
    return a_back(file, junction, draw.below(2)) if kind == 1 else look_up_case(file, junction)


def without_buffer(draw, file, junction):
    """One of the three calls, with no byte of a buffer."""
    record = any_record(draw)
    return draw.pick((put_case(file, junction, record, 0), back_case(file, junction, 0),
                      look_up_case(file, junction)))


def each_call(draw, file, junction):
    """All three calls, with buffers that are long enough."""
    yield put_case(file, junction, any_record(draw), len(file) + SPARE)
    yield a_back(file, junction)
    yield look_up_case(file, junction)


# Files that break a rule

SHAPE = ((3, 2), (260, 1), (700, 2))


def short_files(draw):
    """No byte, one, two and three, and four that are not quite a file without entries."""
    yield from each_call(draw, b"", 0)
    for file in (b"\0", b"\1", b"\0\1", b"\1\1", b"\0\0\1"):
        yield any_call(draw, file, draw.pick((0, 1, 256)))
    for file in ("00000000", "00000002", "00000003", "01000001", "00010001", "00000101",
                 "0000000001", "000000000001"):
        yield any_call(draw, bytes.fromhex(file), 0)


def wrong_heads(draw):
    """Files whose kinds or junction numbers break a rule, each alone."""
    one, two, three = (pieces_of(draw, [(n, 1)])[0] for n in (7, 9, 1000))
    old = one._replace(kind=PREVIOUS)
    yield from ([old], [old, one], [old, two], [one, two._replace(kind=PREVIOUS)])
    yield from ([one, two._replace(kind=PREVIOUS), three], [one, old, old], [one, one], [old, old])
    yield from ([one, old, one], [one, one, old], [one, two, old], [one, old, old, two])
    yield from ([two, one], [one, three, two], [three, one, two], [one, two, one], [one, two, two])
    yield [one._replace(junction=255), two._replace(junction=256), three._replace(junction=1)]
    yield [one._replace(junction=256), two._replace(junction=255)]
    yield [one._replace(junction=0x0102), two._replace(junction=0x0201), three._replace(junction=2)]
    yield [one._replace(junction=2**15), two._replace(junction=2**15 - 1)]
    yield [one._replace(junction=0), two._replace(junction=0, kind=PREVIOUS),
           three._replace(junction=0, kind=PREVIOUS)]
    pieces = pieces_of(draw, SHAPE)
    for kind in (2, 3, 128, 255):
        yield changed(pieces, draw.pick((1, 4)), kind=kind)
        yield changed([one, two, three], draw.below(3), kind=kind)
    yield [one, one._replace(kind=2)]
    yield [one, old, one._replace(kind=2)]


def wrong_starts(draw, version=VERSION_1):
    """Files in which one start is another: a little more, far, past the end, another entry's."""
    pieces = pieces_of(draw, SHAPE)
    places = places_of(pieces, version)
    for n in range(len(pieces)):
        right = places[max(n - 1, 0)]
        far = draw.pick((places[-1], places[-1] + 4, right ^ 0x8000, 65535))
        for start in (right + draw.pick((1, 256)), places[n] or places[1], far):
            yield built(changed(pieces, n, before=start), version)
    for last in (0, places[-2] - 1, places[-2] + 1, places[-3], places[-1], places[-2] + 256,
                 places[-2] + 2**15, 65535):
        yield built(pieces, version, last=last)


def alone_starts(draw, version=VERSION_1):
    """Files of one entry and of none with a start that is not 0."""
    pieces = pieces_of(draw, [(9, 1)])
    for start in (1, 256):
        yield built(changed(pieces, 0, before=start), version)
        yield built(pieces, version, last=start)
    end = places_of(pieces, version)[1]
    yield built(changed(pieces, 0, before=end), version, last=end)


def wrong_trailers(draw, version=VERSION_1):
    """Files whose count, version or bytes before the trailer break a rule, each alone."""
    pieces = pieces_of(draw, SHAPE)
    for count in (0, 1, 3, 4, 6, 133, 255):
        yield built(pieces, version, count=count)
    for byte in (0, 3 - version.byte, 3, 128 + version.byte, 255):
        yield built(pieces, version, byte=byte)
    for between in (b"\0", b"\1", draw.octets(2), draw.octets(3), bytes(4), bytes(5),
                    built([], version), draw.octets(30)):
        yield built(pieces, version, between=between)
    yield built(pieces[:1], version, count=0)
    yield built(pieces[:1], version, count=2)
    fourth = built(pieces[3:4], version)[:-trailer_size(version)]
    yield built(pieces[:3], version, between=fourth)


def wrong_sizes(draw, version=VERSION_1):
    """Files in which a CP's length byte runs past the end, or does not reach the next entry."""
    pieces = pieces_of(draw, SHAPE)
    for size in (0, 36, 38, 80, 255):
        yield built(changed(pieces, draw.below(4), size=size), version)
    for size in (36, 38, 39, 41, 43, 54, 255):
        yield built(changed(pieces, len(pieces) - 1, size=size), version)
    for size in (0, 38, 255):
        yield built([Piece(4, CURRENT, a_cp(draw), None, size)], version)


def rules_broken(draw):
    """Each rule of the file broken alone, by one call."""
    for pieces in wrong_heads(draw):
        yield any_call(draw, built(pieces), draw.pick(pieces).junction)
    for files in (wrong_starts, alone_starts, wrong_trailers, wrong_sizes):
        for file in files(draw):
            yield any_call(draw, file, draw.pick((3, 4, 9, 260, 700)))


# CPs in a file that are refused

def refused_cp(draw, refusal):
    """The bytes of a CP, of a CP's length, that is refused for one reason."""
    if refusal == 4:
        record = with_index(EXAMPLE, draw.below(6), draw.between(6, 15))
        return in_bytes(sealed(body(record), 0), 0)
    if refusal == 5:
        longer = a_cp(draw, draw.between(1, 5))
        return draw.pick((a_cp(draw) + bytes(17), longer + bytes(17) if len(longer) < 122 else
                          longer[:-17], longer[:37]))
    case = faulty_sequence(draw, {refusal})
    return case[9:9 + byte_count(number(case[1:9]))]


def cps_refused(draw):
    """Files with a CP refused for each reason, in each place among others."""
    pieces = pieces_of(draw, SHAPE)
    for refusal in CP_NUMBERS:
        for n in (draw.pick((0, 2, 3)), draw.pick((1, 4))):
            file = built(changed(pieces, n, octets=refused_cp(draw, refusal)))
            yield any_call(draw, file, draw.pick((3, 260, 700)))
    for n in (0, 1, 4):
        spoilt = bytearray(pieces[n].octets)
        spoilt[draw.between(3, 30)] ^= 1 << draw.below(8)
        yield any_call(draw, built(changed(pieces, n, octets=bytes(spoilt))), 260)


def cps_of_other_lengths(draw):
    """Files with a CP of a length in bytes that no CP has, and of one that another CP has."""
    pieces = pieces_of(draw, ((3, 2), (260, 1)))
    longest = a_cp(draw, 5) + draw.octets(133)
    for size in (0, 1, 36, 38, 53, 55, 70, 72, 87, 89, 104, 106, 121, 123, 255):
        file = built(changed(pieces, draw.below(3), octets=longest[:size]))
        yield any_call(draw, file, draw.pick((3, 260)))
    for size in (36, 38):
        octets = (plain(EXAMPLE) + b"\0")[:size]
        yield any_call(draw, built([Piece(260, CURRENT, octets)]), 260)
    for g in (1, 3, 5):
        wrong = a_cp(draw, g)[:-17]
        yield any_call(draw, built(changed(pieces, draw.below(3), octets=wrong)), 260)


# Files cut, lengthened and changed

def cut_files(draw):
    """Valid files without their first or last bytes, or without some in the middle."""
    pieces = pieces_of(draw, ((3, 2), (260, 1)))
    file, places = built(pieces), places_of(pieces)
    for count in (1, 2, 3, 4, 43, 132):
        yield any_call(draw, file[:-count], 3)
    for count in (1, 42, 43, 86, 129):
        yield any_call(draw, file[count:], 260)
    for place in (*places[:-1], 41, 131):
        yield any_call(draw, file[:place] + file[place + draw.pick((1, 1, 2, 3)):], 3)
    for place in places[:-1]:
        yield any_call(draw, file[:place] + file[place + 43:], 260)


def lengthened_files(draw):
    """Valid files with bytes before them, among them and after them, or one after another."""
    pieces = pieces_of(draw, ((3, 2), (260, 1)))
    file, places = built(pieces), places_of(pieces)
    for place in (*places, 3, 41, 132):
        more = draw.octets(draw.pick((1, 1, 2, 3)))
        yield any_call(draw, file[:place] + more + file[place:], 3)
    for place in places[:-1]:
        yield any_call(draw, file[:place] + file[:43] + file[place:], 260)
    for more in (b"\0", b"\1", EMPTY_FILE, file):
        yield any_call(draw, draw.pick((file + more, more + file)), 3)


def random_files(draw):
    """Bytes of any kind, most with the version at their end, some with a small count."""
    for size in (4, 10, 47, 100):
        yield any_call(draw, draw.octets(size - 1) + b"\1", draw.below(2**16))
    yield any_call(draw, draw.octets(90), draw.below(2**16))
    for count in (1, 3):
        yield any_call(draw, draw.octets(43 * count) + bytes([count, 43 * count - 43, 0, 1]), 0)


def flips(draw):
    """One byte changed, or one bit: each byte of a file of one entry, some of the last of five."""
    file = built([Piece(258, CURRENT, plain(EXAMPLE))])
    for place in range(len(file)):
        flipped = bytearray(file)
        flipped[place] ^= draw.pick((1 << draw.below(8), draw.between(1, 255)))
        yield look_up_case(bytes(flipped), 258)
    file = a_file(draw, SHAPE)
    for place in (172, 173, 174, 175, *range(len(file) - 4, len(file))):
        flipped = bytearray(file)
        flipped[place] ^= draw.pick((1, 2, 128, draw.between(1, 255)))
        yield any_call(draw, bytes(flipped), 260)


# Valid files

def without_entries(draw):
    """A file without entries: nothing to show or to go back to, and a first put."""
    for junction in (0, 65535):
        yield look_up_case(EMPTY_FILE, junction)
        yield a_back(EMPTY_FILE, junction)
        yield a_put(EMPTY_FILE, junction, EXAMPLE)
    for record in (EMPTY, ALL_FULL):
        yield a_put(EMPTY_FILE, 256, record, 1)


def each_length(draw):
    """CPs of each length, with ignored bits set: shown, kept by a put, exchanged and dropped."""
    for g in range(6):
        pieces = pieces_of(draw, ((2, 2), (40, 1)), g)
        file = built(changed(pieces, 1, octets=a_cp(draw, 5 - g)))
        yield look_up_case(file, draw.pick((2, 40)))
        yield a_put(file, 2, any_record(draw, draw.below(6)))
        yield a_put(file, draw.pick((40, 41)), any_record(draw, g), draw.below(2))
        yield from there_and_back(file, 2)


def there_and_back(file, junction):
    """A going back, what is shown then, and a second going back."""
    yield a_back(file, junction, 1)
    _, size, out = outcome(a_back(file, junction))
    yield look_up_case(out[:size], junction)
    yield a_back(out[:size], junction)


def several_rates(draw):
    """Settings of several drn put, and granted ones, then shown."""
    file = a_file(draw, [(500, 1)])
    records = [a_record(draw, drn) for drn in range(0, 29, 14)]
    for record in (*records, a_record(draw, 28, 2, granted=1), ALL_FULL):
        yield a_put(file, 499, record)
        _, size, out = outcome(a_put(file, 499, record))
        yield look_up_case(out[:size], 499)


NUMBERS = (0, 1, 255, 256, 257, 4096, 32767, 32768, 65534, 65535)


def junction_numbers(draw):
    """Junction numbers of each size, there and not there."""
    file = a_file(draw, [(junction, 1 + draw.below(2)) for junction in NUMBERS])
    for junction in NUMBERS:
        yield look_up_case(file, junction)
    for junction in (2, 254, 512, 4097, 33024):
        yield look_up_case(file, junction)
    for junction in (2, 256, 40000):
        alone = a_file(draw, [(junction ^ draw.pick((256, 4096, 32768)), 2)])
        yield any_call(draw, alone, junction)
    yield from each_call(draw, a_file(draw, [(256, 2)]), 0)
    yield from each_call(draw, a_file(draw, [(65535, 2)]), 65535)


def places_of_puts(draw):
    """Puts before, between and after junctions of one and of two settings, and over each."""
    for shape in (SHAPE, ((3, 1), (260, 2), (700, 1))):
        file = a_file(draw, shape)
        for junction in (0, 3, 4, 259, 260, 700, 701):
            yield a_put(file, junction, any_record(draw, draw.pick((0, 0, 1))))
        for junction in (3, 260, 700):
            yield a_back(file, junction)


def alike_settings(draw):
    """Settings of one record: put twice, its ignored bits set, and gone back to."""
    octets = noisy(draw, EXAMPLE)
    file = built([Piece(6, CURRENT, octets), Piece(6, PREVIOUS, plain(EXAMPLE)),
                  Piece(8, CURRENT, octets), Piece(9, CURRENT, octets), Piece(9, PREVIOUS, octets)])
    for junction in (6, 8, 9):
        yield a_put(file, junction, EXAMPLE)
    yield from there_and_back(file, 6)
    yield a_back(file, 9)


def buffers(draw):
    """Buffers one byte short, shorter, empty, exact and longer; some new files are shorter."""
    file = a_file(draw, SHAPE)
    for junction, g in ((1, 0), (260, 1), (700, 0), (700, 5)):
        record = any_record(draw, g)
        needed = room_for(file, junction, record)
        for room in (needed - 1, draw.pick((0, 1, needed - 4)), needed, needed + 1):
            yield put_case(file, junction, record, room)
    for room in (0, len(file) - 4, len(file) - 1, len(file), len(file) + 1, len(file) + 50):
        yield back_case(file, draw.pick((3, 700)), room)
    longer = built([*pieces_of(draw, [(1, 1)]), Piece(2, CURRENT, a_cp(draw, 3)),
                    Piece(2, PREVIOUS, a_cp(draw, 5))])
    for junction in (1, 2):
        needed = room_for(longer, junction, EXAMPLE)
        for room in (needed - 1, needed):
            yield put_case(longer, junction, EXAMPLE, room)


# Refusals alone and together

def a_broken_file(draw, pieces):
    """A file of some entries of which one rule is broken, all entries there to be walked."""
    n = draw.below(len(pieces))
    return draw.pick((
        built(changed(pieces, n, octets=refused_cp(draw, draw.pick((3, 7, 25))))),
        built(pieces, count=len(pieces) + 1),
        built(pieces, last=1),
        built(changed(pieces, n, before=1))))


def faulty_put(draw, numbers):
    """A put in which the refusals of `numbers` hold but for 24.

    With 24 a 41st junction is put into a file of version 1, which is no fault.
    """
    record = faulty_record(draw, numbers, most_index=255 if 17 in numbers else 6)
    shape = numbered(draw, 40) if 24 in numbers else [(5, 1), (258, 2)]
    pieces = pieces_of(draw, shape)
    file = a_broken_file(draw, pieces) if 22 in numbers else built(pieces)
    junction = 0 if 24 in numbers else draw.pick((5, 6, 258))
    needed = room_for(file, junction, record)
    if 17 in numbers:
        return put_case(file, junction, record, draw.pick((0, min(needed - 1, 200))))
    return put_case(file, junction, record, needed + draw.below(2))


def faulty_back(draw, numbers):
    """A going back in which the refusals of `numbers` hold."""
    pieces = pieces_of(draw, [(5, 1), (258, 2)])
    file = a_broken_file(draw, pieces) if 22 in numbers else built(pieces)
    junction = draw.pick((5, 6, 2)) if 23 in numbers else 258
    room = draw.pick((0, len(file) - 1)) if 17 in numbers else len(file) + draw.below(2)
    return back_case(file, junction, room)


def faulty_look(draw, numbers):
    """A look-up in which the refusals of `numbers` hold."""
    pieces = pieces_of(draw, [(5, 1), (258, 2)])
    file = a_broken_file(draw, pieces) if 22 in numbers else built(pieces)
    return look_up_case(file, draw.pick((0, 6, 2)) if 23 in numbers else draw.pick((5, 258)))


def faulty_cases(draw):
    """Each refusal alone, each pair, and greater sets."""
    for refusal in PUT_NUMBERS:
        yield faulty_put(draw, {refusal})
    for pair in pairs(PUT_NUMBERS):
        yield faulty_put(draw, set(pair))
    for numbers in ({4, 22, 17}, {10, 25, 22, 17}, {12, 22, 24}, {22, 24, 17}, {11, 22, 24, 17}):
        yield faulty_put(draw, numbers)
    for refusal in BACK_NUMBERS:
        yield from (faulty_back(draw, {refusal}) for _ in range(2))
    for pair in combinations(BACK_NUMBERS, 2):
        yield from (faulty_back(draw, set(pair)) for _ in range(2))
    yield faulty_back(draw, set(BACK_NUMBERS))
    for refusal in LOOK_NUMBERS:
        yield from (faulty_look(draw, {refusal}) for _ in range(2))
    yield from (faulty_look(draw, set(LOOK_NUMBERS)) for _ in range(3))


# Many junctions

def near_the_most(draw):
    """Files of 39, 40 and 41 junctions: a put of one more, one that is there, shown and back."""
    shape = numbered(draw, 41)
    pieces = pieces_of(draw, shape)
    middle = shape[20][0]
    yield a_put(built(pieces[:39]), 65535, EXAMPLE)
    yield a_put(built(pieces[2:]), 0, EXAMPLE)
    file = built(pieces[:40])
    for junction in (shape[0][0], middle, shape[39][0]):
        yield a_put(file, junction, EXAMPLE)
    for junction in (0, middle + 1, shape[40][0], 65535):
        yield put_case(file, junction, EXAMPLE, len(file) + SPARE)
    yield look_up_case(file, middle)
    yield look_up_case(file, shape[40][0])
    yield put_case(built(pieces), middle, EXAMPLE, 2000)
    yield put_case(built(pieces), 65535, EXAMPLE, 2000)
    yield a_back(built(pieces), middle)
    yield look_up_case(built(pieces), middle)
    yield look_up_case(built(pieces), shape[40][0])


def many_entries(draw):
    """40 junctions of which some have two settings: entries count, junctions make the most."""
    shape = [(junction, 1 + (n % 3 == 0)) for n, (junction, _) in enumerate(numbered(draw, 40))]
    file = a_file(draw, shape)
    yield a_put(file, shape[1][0], EXAMPLE)
    yield a_back(file, shape[39][0])
    yield put_case(file, 0, EXAMPLE, 0)
    yield look_up_case(a_file(draw, [*shape, (65535, 1)]), shape[0][0])
    yield a_put(a_file(draw, numbered(draw, 21, 2)), 0, EXAMPLE)


def fullest_file(draw):
    """40 junctions of two settings of six masks each: 10,244 bytes, the longest of version 1."""
    shape = numbered(draw, 40, 2)
    file = a_file(draw, shape, 5)
    yield a_put(file, shape[17][0], any_record(draw, 5))
    yield put_case(file, shape[39][0], any_record(draw, 5), len(file) - 1)
    yield put_case(file, 65535, any_record(draw, 5), 0)
    yield a_back(file, shape[39][0], 1)
    yield look_up_case(file, shape[0][0])
    yield look_up_case(file, shape[39][0])


def too_long_files(draw):
    """More bytes than version 1 can have, and as many entries as a byte cannot count."""
    yield look_up_case(a_file(draw, numbered(draw, 46, 2), 5), 0)
    yield back_case(built([Piece(n, CURRENT, b"") for n in range(257)]), 256, 0)


# One call after another

def an_operation(draw, file, junctions):
    """A put or a going back on one of some junctions; a few calls are refused."""
    junction = draw.pick(junctions)
    if draw.below(8) == 0:
        return draw.pick((back_case(file, junction, 0), back_case(file, 9, len(file)),
                          put_case(file, junction, EXAMPLE, len(file) // 2),
                          put_case(file, 9, faulty_record(draw, {draw.pick((10, 11, 25))}), 0)))
    if draw.below(5) < 3:
        return a_put(file, junction, any_record(draw, draw.pick((0, 0, 0, 0, 1))))
    return a_back(file, junction)


def operations(draw, file, junctions, count):
    """Calls one after another, each with the file that the last one left, and what is shown."""
    for n in range(count):
        case = an_operation(draw, file, junctions)
        yield case
        refusal, size, out = outcome(case)
        file = file if refusal else out[:size]
        if n % 10 == 9:
            yield from (look_up_case(file, junction) for junction in junctions)


def long_lists(draw):
    """Three long lists of calls on a few junctions, two from a file without entries."""
    yield from operations(draw, EMPTY_FILE, (4,), 20)
    yield from operations(draw, EMPTY_FILE, (0, 300, 65535), 40)
    yield from operations(draw, a_file(draw, ((2, 1), (8, 2), (256, 2))), (2, 8, 256, 513), 40)


# Version 2

EMPTY_2 = bytes.fromhex("00000000000002")

# Widths of neither version, each with the byte of one.
OTHER_WIDTHS = (VERSION_1._replace(byte=2), VERSION_2._replace(byte=1),
                VERSION_2._replace(start_width=2), VERSION_2._replace(start_width=3),
                VERSION_2._replace(count_width=1), VERSION_2._replace(count_width=4),
                VERSION_1._replace(start_width=4), VERSION_1._replace(count_width=2))


def without_entries_2(draw):
    """A file of version 2 without entries, and bytes that are not quite one."""
    for junction in (0, 65535):
        yield look_up_case(EMPTY_2, junction)
        yield a_back(EMPTY_2, junction)
        yield a_put(EMPTY_2, junction, EXAMPLE)
    yield a_put(EMPTY_2, 256, ALL_FULL, 1)
    yield put_case(EMPTY_2, 256, EXAMPLE, 51)
    for size in (1, 2, 3, 4, 5, 6, 8, 9):
        yield without_buffer(draw, bytes(size - 1) + b"\2", 0)
    for place in range(6):
        yield without_buffer(draw, bytes(place) + b"\1" + EMPTY_2[place + 1:], 0)
    for byte in (0, 1, 3, 130, 255):
        yield without_buffer(draw, EMPTY_2[:-1] + bytes([byte]), 0)


def few_in_version_2(draw):
    """Few junctions in version 2, CPs of each length: put, exchanged, shown."""
    file = a_file(draw, SHAPE, 0, VERSION_2)
    for junction in (0, 3, 260, 701):
        yield a_put(file, junction, any_record(draw, draw.pick((0, 0, 1))))
    yield back_case(file, 260, len(file))
    yield look_up_case(file, 4)
    yield from there_and_back(a_file(draw, [(256, 2)], 0, VERSION_2), 256)
    for g in range(6):
        file = a_file(draw, ((2, 2), (40, 1)), g, VERSION_2)
        yield look_up_case(file, draw.pick((2, 40)))
        yield a_put(file, draw.pick((2, 40, 41)), any_record(draw, 5 - g), draw.below(2))
        yield a_back(file, 2)


def short_buffers_2(draw):
    """Buffers too short for a file of version 2, by a byte and by the trailer."""
    file = a_file(draw, ((2, 2), (40, 1)), 1, VERSION_2)
    needed = room_for(file, 2, EXAMPLE)
    for less in (1, trailer_size(VERSION_2)):
        yield put_case(file, 2, EXAMPLE, needed - less)
        yield back_case(file, 2, len(file) - less)


def high_bytes(draw):
    """Files of version 2 whose starts or count are right but for a high byte."""
    pieces = pieces_of(draw, SHAPE)
    places = places_of(pieces, VERSION_2)
    for more in (2**8, 2**16, 2**24, 2**31):
        for n in (0, draw.between(1, 3), 4):
            wrong = changed(pieces, n, before=places[max(n - 1, 0)] + more)
            yield built(wrong, VERSION_2)
        yield built(pieces, VERSION_2, last=places[4] + more)
    for more in (2**8, 2**9, 2**15):
        yield built(pieces, VERSION_2, count=5 + more)


def swapped_bytes(draw):
    """Files of version 2 whose starts or count have their bytes in another order."""
    pieces = pieces_of(draw, SHAPE)
    places = places_of(pieces, VERSION_2)
    yield built(pieces, VERSION_2, last=places[4] << 16)
    yield built(pieces, VERSION_2, last=places[4] << 24)
    yield built(changed(pieces, 2, before=places[1] << 24), VERSION_2)
    yield built(pieces, VERSION_2, count=5 << 8)


def with_trailer(pieces, version, trailer):
    """Entries in the widths of one version, and the trailer of another."""
    entries = built(pieces, version)[:-trailer_size(version)]
    last = places_of(pieces, version)[len(pieces) - 1]
    return entries + built([], trailer, count=len(pieces), last=last)


def other_widths(draw):
    """Files with the widths of one version and the byte of the other, and with mixed widths."""
    for shape in ([(9, 1)], SHAPE):
        pieces = pieces_of(draw, shape)
        for widths in OTHER_WIDTHS:
            yield built(pieces, widths)
        for widths in OTHER_WIDTHS[2:4]:
            yield with_trailer(pieces, VERSION_2, widths)
            yield with_trailer(pieces, widths, VERSION_2)
        yield with_trailer(pieces, VERSION_1, VERSION_2)
        yield with_trailer(pieces, VERSION_2, VERSION_1)


def cut_starts(draw):
    """Files of version 2 of which some byte of a start or of the count is left out."""
    pieces = pieces_of(draw, ((3, 2), (260, 1)))
    file, places = built(pieces, VERSION_2), places_of(pieces, VERSION_2)
    for end in (places[1], places[3], len(file) - 1, places[3] + 2):
        for count in (1, 2):
            yield file[:end - count] + file[end:]
    yield from (file[:-count] for count in (1, 3, 7, 8))
    yield from (file + more for more in (b"\0", b"\1", b"\2", EMPTY_2))


def rules_broken_2(draw):
    """Each rule of the file broken alone in version 2, by one call."""
    for pieces in list(wrong_heads(draw))[::3]:
        yield without_buffer(draw, built(pieces, VERSION_2), draw.pick(pieces).junction)
    for files in (wrong_starts, alone_starts, wrong_trailers, wrong_sizes):
        for file in files(draw, VERSION_2):
            yield without_buffer(draw, file, draw.pick((3, 4, 9, 260, 700)))
    for files in (high_bytes, swapped_bytes, other_widths, cut_starts):
        for file in files(draw):
            yield without_buffer(draw, file, draw.pick((3, 9, 260, 700)))
    pieces = pieces_of(draw, ((3, 2), (260, 1)))
    for refusal in CP_NUMBERS:
        wrong = changed(pieces, draw.below(3), octets=refused_cp(draw, refusal))
        yield without_buffer(draw, built(wrong, VERSION_2), draw.pick((3, 260)))
    for size in (0, 36, 38):
        wrong = changed(pieces, draw.below(3), octets=a_cp(draw, 1)[:size])
        yield without_buffer(draw, built(wrong, VERSION_2), 3)


def flips_2(draw):
    """One bit or byte changed in a file of version 2: each that is of no CP, some of one."""
    file = built([Piece(258, CURRENT, plain(EXAMPLE))], VERSION_2)
    for place in (*range(4), 10, 40, *range(41, len(file))):
        flipped = bytearray(file)
        flipped[place] ^= draw.pick((1 << draw.below(8), draw.between(1, 255)))
        yield look_up_case(bytes(flipped), 258)


# From one version to the other

def turned_by_puts(draw):
    """A 41st junction: first, in the middle and last; CPs of several lengths; short buffers."""
    shape = [(junction, 1 + (n % 8 == 3)) for n, (junction, _) in enumerate(numbered(draw, 40))]
    pieces = pieces_of(draw, shape)
    pieces = changed(changed(pieces, 2, octets=a_cp(draw, 5)), 30, octets=a_cp(draw, 1))
    file, middle = built(pieces), shape[20][0] + 1
    for junction, g in ((0, 0), (middle, 5), (65535, 1)):
        yield a_put(file, junction, any_record(draw, g))
    needed = room_for(file, middle, EXAMPLE)
    in_version_1 = size_of(VERSION_1, after_put(found_in(file)[1], middle, bytes(37)))
    for room in (needed - 1, in_version_1):
        yield put_case(file, middle, EXAMPLE, room)
    file = outcome(a_put(file, middle, EXAMPLE))[2]
    for junction in (shape[0][0], shape[3][0], middle):
        yield look_up_case(file, junction)
    yield a_back(file, shape[3][0])


def forty_in_version_2(draw):
    """39, 40 and 41 junctions in version 2, which stays that: put, gone back to and shown."""
    shape = [(junction, 1 + (n == 20)) for n, (junction, _) in enumerate(numbered(draw, 41))]
    pieces = pieces_of(draw, shape)
    yield a_put(built(pieces[:40], VERSION_2), 65535, EXAMPLE)
    for count in (40, 41):
        file = built(pieces[:count + 1], VERSION_2)
        yield a_put(file, 0, EXAMPLE)
        yield a_put(file, shape[count - 1][0], EXAMPLE)
        yield a_back(file, shape[20][0])
        yield look_up_case(file, shape[20][0])


def across_the_turn(draw):
    """Calls one after another, from 38 junctions in version 1 to 42 in version 2, then shown."""
    def put(file, junction):
        return a_put(file, junction, any_record(draw))
    shape = numbered(draw, 38)
    file, there = a_file(draw, shape), [junction for junction, _ in shape]
    for call, junction in ((put, there[5]), (put, 0), (put, 65535), (a_back, there[5]),
                           (put, there[20] + 1), (a_back, there[5]), (put, there[37]),
                           (put, there[8] + 1), (a_back, there[5])):
        case = call(file, junction)
        yield case
        file = outcome(case)[2]
    for junction in (0, there[0], there[5], there[20] + 1, there[37]):
        yield look_up_case(file, junction)


def lists_in_version_2(draw):
    """A list of calls on a few junctions in version 2."""
    yield from operations(draw, EMPTY_2, (0, 300, 65535), 20)


# 400 junctions

def near_the_most_2(draw):
    """399, 400 and 401 junctions: a put of one more, one that is there, gone back to and shown."""
    shape = numbered(draw, 401)
    pieces = pieces_of(draw, shape)
    middle, last = shape[200][0], shape[400][0]
    case = a_put(built([*pieces[:200], *pieces[201:400]], VERSION_2), middle, EXAMPLE)
    yield case
    file = outcome(case)[2]
    yield a_put(file, last, EXAMPLE)
    yield put_case(file, 0, EXAMPLE, 0)
    case = a_put(file, shape[399][0], any_record(draw))
    yield case
    yield a_back(outcome(case)[2], shape[399][0])
    yield look_up_case(file, shape[0][0])
    yield look_up_case(file, last)
    over = built(pieces, VERSION_2)
    yield put_case(over, middle, EXAMPLE, 0)
    yield back_case(over, middle, 0)
    yield look_up_case(over, last)


def hollow_file(shape):
    """A file of junctions whose one rule broken is that their CPs have no byte."""
    return built([Piece(junction, CURRENT, b"") for junction, _ in shape], VERSION_2)


def refused_at_the_most(draw):
    """A put of a 401st junction into a file with refused CPs, alone and with other refusals."""
    file = hollow_file(numbered(draw, 400))
    yield a_put(file, 0, EXAMPLE)
    yield put_case(file, 0, EXAMPLE, 0)
    for refusal in (4, 9, 10, 25, 11, 12):
        yield put_case(file, 0, faulty_record(draw, {refusal}, most_index=6), 0)
    yield put_case(hollow_file(numbered(draw, 399)), 0, EXAMPLE, 0)


# Starts of three bytes

def up_to_the_third_byte(draw):
    """263 junctions with room for 62 bytes before the last entries begin at 65,536."""
    shape = numbered(draw, 263, 2)
    shape[0] = shape[0][0], 1
    return [*pieces_of(draw, shape[:19], 1), *pieces_of(draw, shape[19:262], 5),
            *pieces_of(draw, shape[262:])]


def third_byte(draw):
    """A file with a start of 65,536: made by a put below it, then gone back to behind it."""
    pieces = up_to_the_third_byte(draw)
    case = a_put(built(pieces, VERSION_2), 0, any_record(draw, 1))
    yield case
    yield a_back(outcome(case)[2], pieces[-1].junction)


def longest_file(draw):
    """400 junctions of two settings of six masks each: 104,007 bytes, the longest file."""
    shape = numbered(draw, 400, 2)
    file = a_file(draw, shape, 5, VERSION_2)
    yield a_put(file, shape[252][0], any_record(draw, 5))
    yield look_up_case(file, shape[399][0])


GROUPS = (short_files, rules_broken, cps_refused, cps_of_other_lengths, cut_files, lengthened_files,
          random_files, flips, without_entries, each_length, several_rates, junction_numbers,
          places_of_puts, alike_settings, buffers, faulty_cases, near_the_most, many_entries,
          fullest_file, too_long_files, long_lists)

GROUPS_OF_BOTH = (without_entries_2, few_in_version_2, short_buffers_2, rules_broken_2, flips_2,
                  turned_by_puts, forty_in_version_2, across_the_turn, lists_in_version_2,
                  near_the_most_2, refused_at_the_most, third_byte, longest_file)


def cases():
    """The stored cases in order; those of version 2 have draws of their own."""
    found = []
    for seed, groups in ((9108, GROUPS), (9109, GROUPS_OF_BOTH)):
        draw = Draw(seed)
        for group in groups:
            found += group(draw)
    return found
