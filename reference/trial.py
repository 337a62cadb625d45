"""The stored run of the program v91: the data files and the script that reads them."""

from cases_cp import ALL_FULL, body, in_bytes, noisy, plain, sealed
from cases_frames import a_frame, possible_marks
from cp import ONE_AT
from frames import FRESH, data_bytes, interval_masks, ucodes_for
from program import frame_count, octets_for, reception
from record import EMPTY, EXAMPLE, FULL_MASK, make
from samples import Draw, a_record
from settings import VERSION_1, VERSION_2, Junction, write
from start import FOUND_FROM, from_zero
from table1 import A, MU, octet_of

ARGUMENTS = "run\ntrial\n"
NAME = "trial"


def ucodes(*runs):
    """A mask of runs of Ucodes, each a Ucode or (first, last)."""
    mask = 0
    for run in runs:
        first, last = run if isinstance(run, tuple) else (run, run)
        mask |= (1 << last + 1) - (1 << first)
    return mask


# CP files

# Masks with gaps, one with a single Ucode and an empty one that no interval names.
GAPS = make(0, 5, 1, [0, 1, 3, 1, 1, 1],
            [ucodes(0, 4, (6, 12)), ucodes((20, 31), 33, (63, 64), 127), 0, ucodes(7)])

# Under SEVEN a frame has the Ucode 6 in interval 5 where R is below 6^5, and under the example such
# a frame has mark 6; it has the Ucode 0 in interval 0 where R mod 6 is 5, and under LACKING such a
# frame has mark 1. All other frames sent under SEVEN are good under the example and LACKING.
SEVEN = make(0, 1, 0, [0, 0, 0, 0, 0, 1], [ucodes((0, 5)), ucodes((0, 6))])
LACKING = make(0, 1, 0, [1, 0, 0, 0, 0, 2], [ucodes((0, 5)), ucodes((1, 5)), ucodes((0, 6))])

# A frame has 23 bits, one fewer than are doubtful; and just as many.
UPPER = a_record(Draw(31), 3, 4, most=12)
EIGHTS = make(0, 4, 0, [0] * 6, [ucodes((0, 7))])

FEW = make(0, 5, 0, [0] * 6, [ucodes((0, 5))])
HOLLOW = make(0, 5, 0, [0, 0, 1, 0, 0, 0], [FULL_MASK])
THIRD = make(0, 2, 1, [0] * 6, [ucodes((0, 6))])
BAD_INDEX = make(0, 1, 0, [0, 1, 6, 0, 0, 0], [ucodes((0, 5))])


def good_cps():
    """CP files that are read, one of each length among them."""
    return {
        "example.cp": plain(EXAMPLE),
        "noisy.cp": noisy(Draw(32), EXAMPLE),
        "third.cp": plain(THIRD),
        "cleardown.cp": plain(EMPTY),
        "seven.cp": plain(SEVEN),
        "lacking.cp": plain(LACKING),
        "gaps.cp": plain(GAPS),
        "upper.cp": plain(UPPER),
        "eights.cp": plain(EIGHTS),
        "full.cp": plain(ALL_FULL),
    }


def short(bits):
    """A sequence with one mask and its CRC."""
    return in_bytes(sealed(bits, 0), 0)


def refused_cps():
    """CP files that are refused, each refusal by a file of its own."""
    example = body(EXAMPLE)
    return {
        "empty.cp": b"",
        "byte.cp": plain(EXAMPLE)[:1],
        "short.cp": plain(EXAMPLE)[:36],
        "sync.cp": short(example ^ 1 << 9),
        "index.cp": short(body(BAD_INDEX)),
        "length.cp": plain(EXAMPLE) + bytes(17),
        "cut.cp": plain(SEVEN)[:37],
        "longer.cp": plain(ALL_FULL) + bytes(1),
        "longest.cp": plain(EXAMPLE) + bytes(4200),
        "start.cp": short(example | 1 << 51),
        "crc.cp": in_bytes(sealed(example, 0, spoil=1), 0),
        "bit19.cp": short(example ^ 1 << ONE_AT),
        "bit128.cp": short(example | 1 << 128),
        "rate.cp": plain(make(0, 29, 0, [0] * 6, [FULL_MASK])),
        "granted.cp": plain(make(1, 5, 0, [0] * 6, [FULL_MASK])),
        "few.cp": plain(FEW),
        "hollow.cp": plain(HOLLOW),
    }


# Data to be sent

def messages():
    """Texts. A frame of the example has 21 bits, so `whole` has no bit too few or too many.

    With the control channel on `sixty` has 14 of the 15 bits of a control frame at its end.
    """
    return {
        "nothing": b"",
        "newline": b"\n",
        "hello": b"Hello from the card\n",
        "whole": b"This fills 8 frames.\n",
        "spare": b"One bit more\n",
        "eight": b"8 bytes\n",
        "two": b"The first line\nand the second\n",
        "sixty": b"With the control channel on 64 frames of the example have 1338 bits,\n"
                 b"and 65 have 1353. This text has 1352: all but one of the bits that\n"
                 b"a frame like the last can carry.\n",
        "verse": b"".join(b"line %02d of more than 1024 frames of 21\n" % n for n in range(72)),
    }


def r_of_joined(n):
    """R of a frame of `joined`, by the frames that are to be marked.

    Calls end after frame 1023. Under the example one run of marks goes across that, and there is
    one run more than are said; under LACKING a run ends just there.
    """
    of_example = n < 1020 and n % 60 == 1 or n in (*range(1020, 1028), 1030, 1032, 1033, 1039)
    of_lacking = n in (0, 500, 1022, 1023, 1025, 1026)
    return (0 if of_example else 6**5) + 6 * (n * n % 997) + (5 if of_lacking else n % 5)


def joined():
    """Data for 1,040 frames under SEVEN whose R is as above."""
    frames = [ucodes_for(interval_masks(SEVEN), r_of_joined(n)) for n in range(1040)]
    line = bytes(octet_of(MU, ucode & 1, ucode) for frame in frames for ucode in frame)
    return reception(SEVEN, MU, 0, FRESH, line).data


def r_of_channel(n):
    """R of a frame of `channel`, by the frames that are to be marked.

    Under the example the first control frame is marked, under LACKING the last of the first
    sequence; other runs of marks end just before a sequence does or begin just after it.
    """
    of_example, of_lacking = n in (0, 1, 100, 959, 961, 1985), n in (5, 959, 960, 1983, 1985)
    return (0 if of_example else 6**5) + 6 * (n * n % 991) + (5 if of_lacking else n % 5)


def channel_data():
    """Data for 1,990 frames under SEVEN, with the control channel on, whose R is as above."""
    frames = [ucodes_for(interval_masks(SEVEN), r_of_channel(n)) for n in range(1990)]
    line = bytes(octet_of(MU, ucode & 1, ucode) for frame in frames for ucode in frame)
    return reception(SEVEN, MU, 1, FRESH, line).data


# Octets to be received

# Marks of the frames of `damaged`: runs of one frame and of more, marks side by side, good frames
# with fewer bits than are doubtful, and a run at the end.
DAMAGED = (0, 0, 3, 0, 0, 7, 7, 7, 0, 1, 2, 2, 0, 0, 0, 6, 0, 4, 5, 7, 7, 0, 0, 3, 3)


def damaged(draw, record, law, marks):
    """Frames of data at random of which some are replaced so that they get these marks."""
    data = draw.octets(data_bytes(record, len(marks)))
    line = octets_for(record, law, FRESH, 0, 0, len(marks), data)
    return b"".join(a_frame(draw, record, law, mark) if mark else line[6 * n:6 * n + 6]
                    for n, mark in enumerate(marks))


# Marks of frames that a receiver reads which begins cold.
BAD_FIRST, BAD_LATER, BAD_LAST, BAD_ALL = (7, 0, 0), (0, 3, 0), (0, 0, 0, 1), (6, 2)


def many_marks(draw, record):
    """Marks of all kinds for 60 frames, which make more runs than are said."""
    marks = possible_marks(record)
    return [draw.pick((0, 0, *marks)) for _ in range(60)]


# Marks of frames of `slips`: just before the first sequence ends and just after it, then more runs
# than are said, one in a control frame of the second sequence.
SLIPS = {959: 3, 961: 7, 962: 7, **dict.fromkeys(range(1100, 1140, 2), 1), 1216: 2}


def slips(draw):
    """Octets of two sequences: the first has two bits not as sent, the second a marked frame."""
    data = draw.octets(data_bytes(EXAMPLE, 1986, 1))
    line = bytearray(octets_for(EXAMPLE, MU, FRESH, 1, draw.bits(56), 1986, data))
    line[6 * 320 + 2] ^= 0x80
    for n, mark in SLIPS.items():
        line[6 * n:6 * n + 6] = a_frame(draw, EXAMPLE, MU, mark)
    return bytes(line)


def lines_of_octets():
    """Octets: damaged frames, some that make no frame, and a line without its first frame."""
    draw = Draw(33)
    hello, two = messages()["hello"], messages()["two"]
    return {
        "damaged": damaged(draw, EXAMPLE, MU, DAMAGED),
        "many": damaged(draw, GAPS, A, many_marks(draw, GAPS)) + draw.octets(2),
        "ragged": octets_for(EXAMPLE, A, FRESH, 0, 0, 8, hello) + draw.octets(1),
        "five": draw.octets(5),
        "every": bytes(range(256)),
        "bad_first": damaged(draw, EXAMPLE, MU, BAD_FIRST),
        "bad_later": damaged(draw, EXAMPLE, MU, BAD_LATER),
        "bad_last": damaged(draw, EXAMPLE, MU, BAD_LAST),
        "bad_all": damaged(draw, EXAMPLE, MU, BAD_ALL),
        "middle": octets_for(EIGHTS, MU, FRESH, 0, 0, 10, two)[6:],
        "slips": slips(draw),
    }


# Octets that begin with CP and E_s

def opened(record, law, data, channel=0, number=0):
    """Octets of CP and E_s, then those of all frames of data."""
    start, state = from_zero(record, law)
    count = frame_count(record, channel, data, False)
    return start + octets_for(record, law, state, channel, number, count, data)


def altered(line, place, octet):
    """A line with another octet at a place."""
    return line[:place] + bytes([octet]) + line[place + 1:]


def lines_with_start():
    """Lines that begin with CP and E_s, cut, with other octets before the last 24, or in these.

    In `turned` a sign of the 24 is another. In `first` the first of them has Ucode 65 and its sign,
    in `last` the last of them Ucode 67 and the other sign.
    """
    line = opened(EXAMPLE, MU, messages()["hello"])
    end = len(from_zero(EXAMPLE, MU)[0])
    first, last = end - FOUND_FROM, end - 1
    return {
        "open": line,
        "alaw": opened(GAPS, A, messages()["two"]),
        "long": opened(EXAMPLE, MU, messages()["verse"], 1, 0b1011),
        "cut23": line[:23],
        "cut24": line[:24],
        "cut305": line[:305],
        "noise": Draw(34).octets(first) + line[first:],
        "turned": altered(line, first + 12, line[first + 12] ^ 0x80),
        "first": altered(line, first, octet_of(MU, line[first] >> 7, 65)),
        "last": altered(line, last, octet_of(MU, 1 - (line[last] >> 7), 67)),
    }


# Settings files

# Two junctions with three settings, whose entries begin at 0, 43 and 86; the trailer is at 129. In
# version 2 they begin at 0, 45 and 90, and the trailer is at 135.
TWO_JUNCTIONS = [Junction(7, plain(EXAMPLE), plain(THIRD)), Junction(512, plain(EMPTY), None)]
PAIR, PAIR_2 = (write(TWO_JUNCTIONS, version) for version in (VERSION_1, VERSION_2))

# The most junctions there can be in each version.
MOST, MOST_2 = 40, 400


def examples_for(count, step=1001, version=VERSION_1):
    """A file of so many junctions, each with the example as its one setting."""
    return write([Junction(step * n, plain(EXAMPLE), None) for n in range(1, count + 1)], version)


def kept():
    """A file with ignored bits set in its CPs, and a cleardown with points."""
    draw = Draw(35)
    idle = make(0, 0, 1, [0] * 6, [ucodes((0, 9))])
    return write([Junction(3, noisy(draw, idle), None),
                  Junction(258, noisy(draw, EXAMPLE), noisy(draw, THIRD)),
                  Junction(40000, noisy(draw, SEVEN), plain(EMPTY))])


def forty():
    """The longest file of version 1, with a current setting of each rate; a previous one of some.

    It has 80 settings whose CPs are of the largest length.
    """
    draw = Draw(36)
    return write([Junction(1001 * n, *(plain(a_record(draw, drn, 5))
                                       for drn in (1 + n % 28, 5 * n % 29)))
                  for n in range(1, MOST + 1)])


def nearly_2():
    """A file of version 2 with room for one junction more, with settings of each rate."""
    draw = Draw(37)
    return write([Junction(150 * n, plain(a_record(draw, n % 29, 0)), None)
                  for n in range(1, MOST_2)], VERSION_2)


def good_settings():
    """Settings files that are read."""
    return {"kept.set": kept(), "nearly.set": examples_for(MOST - 1), "forty.set": forty(),
            "nearly2.set": nearly_2()}


def broken_entries():
    """Settings files with an entry that breaks a rule or whose CP is refused."""
    return {
        "self.set": altered(PAIR, 84, 43),
        "first.set": altered(PAIR, 41, 43),
        "kind.set": altered(PAIR, 45, 2),
        "twice.set": altered(PAIR, 45, 0),
        "lone.set": altered(PAIR, 88, 1),
        "falling.set": PAIR[:86] + b"\5\0" + PAIR[88:],
        "over.set": altered(PAIR, 89, 255),
        "crc.set": altered(PAIR, 67, PAIR[67] ^ 1),
        "few.set": write([Junction(7, plain(EXAMPLE), plain(FEW))]),
        "hollow.set": write([Junction(7, plain(HOLLOW), None)]),
        "short.set": write([Junction(7, plain(EXAMPLE)[:36], None)]),
    }


def broken_settings():
    """Settings files that are refused, each for one thing."""
    return {
        **broken_entries(),
        "tail.set": PAIR[-3:],
        "place.set": b"\0\1\0\1",
        "gap.set": PAIR[:129] + b"\0" + PAIR[129:],
        "count.set": altered(PAIR, 129, 2),
        "last.set": altered(PAIR, 130, 43),
        "swapped.set": PAIR[:130] + PAIR[131:129:-1] + PAIR[132:],
        "version.set": altered(PAIR, 132, 2),
        "many.set": examples_for(MOST + 1),
    }


def broken_settings_2():
    """Settings files that are refused for the widths of version 2 or for its bounds."""
    return {
        "tail2.set": b"\0\0\0\2",
        "narrow2.set": PAIR_2[:135] + PAIR_2[135:136] + PAIR_2[137:],
        "cut2.set": PAIR_2[:43] + PAIR_2[45:],
        "high2.set": altered(PAIR_2, 134, 1),
        "count2.set": altered(PAIR_2, 136, 1),
        "last2.set": altered(PAIR_2, 139, 1),
        "gap2.set": PAIR_2[:135] + b"\0" + PAIR_2[135:],
        "crc2.set": altered(PAIR_2, 69, PAIR_2[69] ^ 1),
        "version1.set": altered(PAIR_2, 141, 1),
        "version3.set": altered(PAIR_2, 141, 3),
        "many2.set": examples_for(MOST_2 + 1, 150, VERSION_2),
    }


def data_files():
    """The files that the script reads: {name: bytes}."""
    return {**good_cps(), **refused_cps(), **messages(), "joined": joined(),
            "channel": channel_data(), **lines_of_octets(), **lines_with_start(),
            **good_settings(), **broken_settings(), **broken_settings_2()}


# The script

SCRIPT = """\
# CP in words: each length, each kind of rate, cleardown, masks with gaps and full ones
cp example.cp
cp noisy.cp
cp third.cp
cp cleardown.cp
cp seven.cp
cp lacking.cp
cp gaps.cp
cp upper.cp
cp eights.cp
cp full.cp

# CP files that are refused
cp empty.cp
cp byte.cp
cp short.cp
cp hello
cp sync.cp
cp verse
cp index.cp
cp length.cp
cp cut.cp
cp longer.cp
cp longest.cp
cp start.cp
cp crc.cp
cp bit19.cp
cp bit128.cp
cp rate.cp
cp granted.cp
cp few.cp
cp hollow.cp
send crc.cp mu < hello > none
receive hollow.cp a < five > none

# Files that are not there, and a directory
cp missing.cp
cp bad\tname.cp
cp bad\x7fname.cp
cp .
send missing.cp mu < hello > none
receive . a < five > none
linear mu < nowhere
send example.cp mu < nowhere
receive example.cp mu 20 < no\twhere

# Wrong words; the law is looked at first, then the words after it, then the CP file
cp
cp example.cp seven.cp
send
send example.cp
send example.cp mu exact progress control cleardown retrain 1 0 start
send example.cp xlaw
send missing.cp m\tu
send missing.cp xlaw 12
send missing.cp mu 12
send example.cp mu exact faster
send example.cp mu cold
send missing.cp mu exact COLD
send example.cp mu cleardown
send missing.cp mu exact Retrain
send example.cp mu 101
send example.cp mu control 102
send example.cp mu control -1
send missing.cp mu 1 control faster
send example.cp mu control 0000000000000000000000000000000000000000000000000000001
send missing.cp mu 01 retrain control
send example.cp mu starts
receive example.cp
receive example.cp mu 1 2 3 4 5 6
receive example.cp mu 20 cold control progress start cold
receive example.cp xlaw
receive missing.cp b 20
receive missing.cp mu exact
receive example.cp mu 20 bytes
receive example.cp mu 12x
receive example.cp mu colder
receive missing.cp mu cold 20 exact
receive example.cp mu control retrain
receive missing.cp mu 20 controls
receive missing.cp mu control
receive missing.cp mu 20 cold
receive missing.cp mu start starts
receive example.cp mu -1
receive example.cp mu 1234567890123456789
linear
linear mu progress progress
linear xlaw
linear mu exact
start example.cp
start example.cp mu progress
start missing.cp xlaw
start missing.cp mu
start hollow.cp a
dil
dil mu progress
dil xlaw
demo cp cp
demo words
demo w\to
nonsense words
NONSENSE
non\tsense
run trial

# Capitals, several spaces, and a line of spaces alone
\x20\x20\x20
  CP   third.cp
SEND example.cp ULAW EXACT < hello > octets
RECEIVE example.cp MU < octets > back
LINEAR ALAW < eight
LINEAR A < eight

# Sending: bits that fill the last frame, and bits that are not sent
send example.cp mu < nothing > octets
send example.cp mu < newline > octets
send example.cp mu < hello > octets
send example.cp mu < whole > octets
send example.cp mu < spare > octets
send example.cp mu exact < nothing > octets
send example.cp mu exact < newline > octets
send example.cp mu exact < hello > octets
send example.cp mu exact < whole > octets
send example.cp mu exact < eight > octets

# Sent and received under each law and several CPs; the octets and the data as A-law values
send example.cp mu < hello > octets
linear a < octets
receive example.cp mu 20 < octets
receive noisy.cp ulaw 20 < octets
send example.cp a < hello > octets
linear a < octets
receive example.cp alaw 20 < octets
send third.cp a < hello > octets
receive third.cp a 20 < octets
send gaps.cp mu < hello > octets
linear a < octets
receive gaps.cp mu 20 < octets
send upper.cp alaw < hello > octets
receive upper.cp a 20 < octets
send full.cp ulaw < hello > octets
linear a < octets
receive full.cp mu 20 > back < octets
linear a < back

# BYTES: fewer than there are, none, more, and the last number given
send example.cp mu < two > octets
receive example.cp mu 15 < octets
receive example.cp mu 30 < octets
receive example.cp mu 000000000000000030 < octets
receive example.cp mu 7 15 < octets
receive example.cp mu 3 7 15 < octets
receive example.cp mu 0 < octets
receive example.cp mu 31 < octets > back
receive example.cp mu 32 < octets > back
receive example.cp mu 33 < octets > back
receive example.cp mu 40 < octets > back
receive example.cp mu 999999999999999999 < octets > back
linear a < back

# A last byte that is not full: wanted, not wanted, and one byte of it alone
send example.cp mu < newline > octets
receive example.cp mu 1 < octets
receive example.cp mu < octets > back
linear a < back
receive example.cp mu 2 < octets > back
linear a < back
receive example.cp mu 3 < octets > back
linear a < back
receive example.cp mu 4 < octets > back
linear a < back
send example.cp mu < spare > octets
receive example.cp mu < octets > back
receive example.cp mu 13 < octets

# Octets at the end that make no frame
receive example.cp a 20 < ragged
receive example.cp a < ragged > back
receive example.cp a < five > back
receive example.cp a 1 < five > back
receive example.cp a < nothing > back
receive example.cp a 2 < nothing > back

# Marked frames
receive example.cp mu < damaged > back
linear a < back
receive example.cp mu 60 < damaged > back
receive example.cp mu 70 < damaged > back
receive gaps.cp a < many > back
linear a < back
send example.cp mu < hello > octets
receive example.cp a < octets > back
receive third.cp mu < octets > back
receive full.cp mu < damaged > back
linear a < back

# A receiver that begins cold: alone, with the other words in any order, and in capitals
send example.cp mu < hello > octets
receive example.cp mu cold < octets > back
linear a < back
receive example.cp mu 20 cold < octets
receive example.cp mu cold 20 < octets
receive example.cp mu COLD 20 < octets
receive example.cp mu progress cold < octets > back
receive example.cp mu 20 cold progress < octets
receive example.cp mu Progress Cold 20 < octets
receive example.cp mu 7 cold 15 < octets > back
receive example.cp mu cold cold cold < octets > back
receive example.cp mu cold 40 < octets > back

# Cold, with nothing to read, too little for a frame, and one frame of 21, 22, 23, 24 and 48 bits
receive example.cp mu cold < nothing > back
receive example.cp mu cold 2 < nothing > back
receive example.cp mu 0 cold < octets > back
receive example.cp mu cold < five > back
receive example.cp a cold < ragged > back
send example.cp mu < newline > octets
receive example.cp mu cold 1 < octets
receive example.cp mu cold < octets > back
send third.cp a < newline > octets
receive third.cp a cold 1 < octets
send upper.cp mu < newline > octets
receive upper.cp mu cold 1 < octets
send eights.cp a < newline > octets
receive eights.cp a cold 1 < octets
send full.cp mu < newline > octets
receive full.cp mu cold 1 < octets > back

# Marked frames, cold and not: the first, one while bits are doubtful, the last, and all
receive example.cp mu cold < bad_first > back
receive example.cp mu cold < bad_later > back
receive example.cp mu cold < bad_last > back
receive example.cp mu cold < bad_all > back
receive example.cp mu < bad_first > back
receive example.cp mu < bad_later > back
receive example.cp mu < bad_last > back
receive example.cp mu < bad_all > back
receive example.cp mu cold < damaged > back
receive gaps.cp a cold < many > back

# Cold in the middle of a line: from the second frame on, and all is as sent but the first 24 bits
receive eights.cp mu cold < middle > back
linear a < back
receive eights.cp mu 27 cold < middle > back
receive eights.cp mu < middle > back
receive eights.cp a cold < middle > none

# More frames than a call takes: state, runs of marks and doubtful bits go on in the next call
send example.cp mu < verse > octets
receive example.cp mu 2808 < octets > back
send gaps.cp a < back > octets
receive gaps.cp a 2808 < octets
send seven.cp mu exact < joined > octets
receive seven.cp mu 2730 < octets > back
receive seven.cp mu 2730 cold < octets > none
receive seven.cp a < octets > none
send seven.cp mu exact < back > octets
receive example.cp mu < octets > none
receive example.cp mu cold < octets > none
receive lacking.cp mu 2730 < octets > back

# The data just received, sent on: the marks that its frames get tell one data from another
send seven.cp mu exact < back > octets
receive example.cp mu < octets > none

# Cleardown
send cleardown.cp mu < nothing > octets
send cleardown.cp mu < hello > none
receive cleardown.cp mu < nothing > back
receive cleardown.cp mu < five > back
receive cleardown.cp mu < damaged > none
receive cleardown.cp mu cold < nothing > back
receive cleardown.cp mu cold < five > back
receive cleardown.cp mu cold < damaged > none
receive cleardown.cp a 5 cold progress < damaged > none

# Linear values
linear mu < every
linear a < every
linear mu < nothing

# The default DIL: what a receiver makes of it, and its octets as A-law values
dil mu > octets
receive example.cp mu < octets > back
DIL ALAW > octets
linear a < octets

# Masks for a wanted rate: few points and all of them, the least sum as the ceiling, and ceilings
# of many digits
plan 15 mu 100 2000000
plan 16 ulaw 1 000008960
plan 20 a 1000 18446744073709551615
PLAN 24 ALAW 600 711811392
plan 15 mu 5496 2371632736
plan 000000000000000041 mu 000000000000000016 18446744073709551616
plan 42 A 16 1234567890123456789012345678901234567890
plan 35 a 256 99999999999 > text
send full.cp mu exact < text > octets

# A spacing and a value that lie in the middle between two columns
plan 15 mu 3 5824
plan 17 a 560 99999999999

# Masks as SVG: in the second the largest value is 6 steps of 20, in the third it is 7 and a part
plan 15 mu 100 2000000 svg
plan 0017 MU 00016 43520 SVG
plan 19 mu 16 99999999999 svg
plan 20 a 1000 18446744073709551615 svg
plan 42 a 1 13359790080 svg

# Masks as CP
plan 15 mu 100 2000000 cp > planned.cp
cp planned.cp
linear a < planned.cp
plan 20 a 1000 18446744073709551615 CP > planned.cp
cp planned.cp
send planned.cp a < hello > octets
receive planned.cp a 20 < octets
plan 42 alaw 16 18446744073709551615 cp > planned.cp
cp planned.cp

# Masks that are refused: K or the spacing outside, no mask, the sum above the ceiling
plan 14 mu 100 18446744073709551615
plan 43 a 0 18446744073709551615 cp
plan 0 mu 65536 5 svg
plan 000000000000000043 mu 100 5
plan 999999999999999999 a 999999999999999999 5
plan 15 mu 0 18446744073709551615
plan 42 a 000000000000065536 5
plan 42 mu 999999999999999999 5 svg
plan 15 mu 5497 18446744073709551615
plan 42 a 17 5
plan 24 ulaw 5000 18446744073709551615 svg
plan 15 a 65535 0
plan 42 mu 1 18446744073709551615 cp
plan 42 ulaw 65535 5
plan 15 mu 100 962703
plan 24 a 000000000000000600 700000000 cp
plan 24 a 600 0000711811391
plan 41 mu 16 5 svg
plan 42 a 1 13359790079
plan 42 a 16 0

# Wrong words of plan: the first of them is told, and before any refusal
plan
plan 15 mu 100
plan 15 mu 100 2000000 svg cp
plan x xlaw y z png
plan -15 mu 100 2000000
plan \t a 100 2000000
plan 15.0 a 100 2000000
plan 0000000000000000015 a 100 2000000
plan 14 x\tlaw y z png
plan 15 15 100 2000000
plan 14 mu y z png
plan 15 a -100 2000000
plan 15 a 0000000000000000100 2000000
plan 15 a 1\t0 2000000
plan 14 mu 0 z png
plan 15 a 100 -1
plan 15 a 100 2000000.
plan 15 a 100 5\x7f
plan 14 mu 0 5 png
plan 15 a 100 2000000 s\tg
plan 15 a 100 2000000 svgs

# The demo, its CP, and outputs in files that are written anew
demo
demo cp > made.cp
cp made.cp
send made.cp mu < hello > octets
receive made.cp mu 20 < octets
--version
--version > made.cp
linear a < made.cp
cp made.cp
cp example.cp > octets
demo > octets

# The word progress, with few octets
send example.cp mu progress exact < hello > octets
send example.cp mu PROGRESS < hello > octets
receive example.cp mu 20 progress < octets
receive example.cp mu progress < octets > back
linear mu progress < eight

# The control channel: the first frame and every 64th after it have six bits fewer
send example.cp mu control < nothing > octets
send example.cp mu control < newline > octets
receive example.cp mu control 1 < octets
receive example.cp mu control < octets > back
send example.cp mu control < hello > octets
linear a < octets
receive example.cp mu control 20 < octets
receive example.cp mu COLD Control 20 < octets
receive example.cp mu 20 < octets > back
linear a < back
send example.cp mu control exact < newline > octets
send example.cp a Exact CONTROL < hello > octets
receive example.cp a progress control < octets > back
send example.cp mu control < sixty > octets
receive example.cp mu control 169 < octets
send example.cp mu control exact < sixty > octets
receive example.cp mu control < octets > back
send full.cp a control cleardown retrain 1 < two > octets
linear mu < octets
receive full.cp alaw 30 control < octets
send upper.cp mu exact Retrain 1 progress control cleardown < two > octets
send upper.cp mu Retrain 1 progress control < hello > octets
receive upper.cp mu progress cold control 20 < octets
receive example.cp mu control < bad_first > back
linear a < back
receive example.cp mu cold control < bad_first > back
receive example.cp mu control < damaged > back
linear a < back
receive gaps.cp a cold control < many > back

# Sequences: a whole one in 961 frames, said when its last frame has come
send example.cp mu control < verse > octets
receive example.cp mu control 2808 < octets > back
send seven.cp a control cleardown < verse > octets
receive seven.cp a 2808 control < octets > back
send third.cp mu retrain 1 control < verse > octets
receive third.cp mu CONTROL cold 2808 < octets > back
send example.cp a 1 CLEARDOWN control 011010011100101101110100011000101110011110000010101101 RETRAIN < verse > octets
receive example.cp a control < octets > back
receive example.cp a control 2676 < octets > back
receive example.cp a control 2677 < octets > back
receive example.cp a control 0 < octets > none
receive example.cp a cold < octets > none
send example.cp mu < verse > octets
receive example.cp mu control < octets > none

# Two sequences: with a marked frame, with a bit that is not as sent, and with every frame marked
send seven.cp mu exact control retrain 1101 < channel > octets
receive seven.cp mu control < octets > back
receive example.cp mu control < octets > none
receive lacking.cp mu control cold < octets > none
receive example.cp a control < octets > none
receive example.cp mu control < slips > none
receive example.cp mu control 2600 cold < slips > none

# The data just received, sent on without the channel and with it
send seven.cp mu exact < back > octets
receive example.cp mu < octets > none
send seven.cp mu control < back > octets
receive lacking.cp mu control < octets > none

# Cleardown with the channel
send cleardown.cp mu control 1 < nothing > octets
send cleardown.cp mu control < hello > none
receive cleardown.cp mu control < nothing > back
receive cleardown.cp mu control cold < damaged > none

# CP and E_s: each length, both laws, and cleardown
start noisy.cp mu > octets
receive example.cp mu start < octets > back
linear a < octets
START seven.cp ALAW > octets
start lacking.cp a > octets
start gaps.cp mu > octets
start upper.cp a > octets
start full.cp a > octets
receive full.cp a cold start < octets > back
start cleardown.cp ulaw > octets

# Data from the line state that CP and E_s leave, received from the one found
send third.cp mu start < hello > octets
linear a < octets
send upper.cp mu START exact Retrain 1 progress control cleardown < two > octets
receive example.cp mu start 20 < open
receive example.cp mu 20 < open > none
receive gaps.cp a Start 30 < alaw
receive example.cp mu 100 cold control start progress < long > back
receive example.cp mu start control < long > none
receive cleardown.cp mu start < open > none
receive cleardown.cp a start < open > none

# Octets too few for CP and E_s, and others before the last 24 of these or among them
receive example.cp mu start < nothing
receive example.cp mu start < newline
receive example.cp mu 0 start < cut23
receive example.cp mu start < cut24
receive cleardown.cp mu start < cut305
receive example.cp mu start 20 < noise
receive example.cp mu start < turned > back
receive example.cp mu start 20 < first
receive example.cp mu start < last > back
linear a < back

# One flipped sign: the smallest K, the largest, and about 17 and 22, where four bits change
flip example.cp
flip third.cp
FLIP upper.cp
flip eights.cp
flip full.cp
Flip gaps.cp > text
send full.cp mu exact < text > octets
plan 21 a 1 18446744073709551615 cp > planned.cp
flip planned.cp
plan 22 mu 1 18446744073709551615 cp > planned.cp
flip planned.cp
plan 23 a 1 18446744073709551615 cp > planned.cp
flip planned.cp
plan 24 mu 1 18446744073709551615 cp > planned.cp
  flip   planned.cp
flip noisy.cp < hello

# One flipped sign: cleardown, CP files that are refused or not there, and wrong words
flip cleardown.cp
flip crc.cp
flip hollow.cp
flip rate.cp
flip hello
flip missing.cp
flip bad\tname.cp
flip .
flip
flip example.cp third.cp
flip example.cp mu
flip mu
flip nowhere.cp < nowhere
flips example.cp

# Settings of junctions: a file made anew, and settings put in no order
settings depot.set new
linear a < depot.set
settings depot.set list
settings depot.set put 512 example.cp
settings depot.set list
settings depot.set put 7 full.cp
settings depot.set put 65535 gaps.cp
settings depot.set put 0 cleardown.cp
settings depot.set list
settings depot.set show 0
settings depot.set show 7
settings depot.set show 512
settings depot.set show 65535

# The setting before is kept, the one before that is not
settings depot.set put 7 noisy.cp
settings depot.set put 512 upper.cp
settings depot.set put 512 lacking.cp
settings depot.set list
settings depot.set show 512
settings depot.set put 0 seven.cp
settings depot.set put 263 eights.cp
settings depot.set put 263 eights.cp

# Going back once and twice, and a setting put after that
settings depot.set back 512
settings depot.set list
settings depot.set show 512
settings depot.set back 512
settings depot.set show 512
settings depot.set back 0
settings depot.set back 7
settings depot.set list
linear a < depot.set
settings depot.set put 512 third.cp
settings depot.set back 512
settings depot.set put 512 cleardown.cp
settings depot.set back 512
settings depot.set back 512
settings depot.set list

# The current setting as a CP file
settings depot.set show 7 cp > made.cp
cp made.cp
send made.cp mu < hello > octets
receive full.cp mu 20 < octets
settings depot.set show 65535 CP > made.cp
cp made.cp
settings depot.set show 512 cp > made.cp
cp made.cp
settings depot.set put 65535 made.cp

# Ignored bits of a CP stay where other settings are put, and are not in a CP that is shown
settings kept.set list
settings kept.set show 3
settings kept.set show 258
settings kept.set show 40000
settings kept.set show 258 cp > made.cp
linear a < made.cp
send full.cp mu < kept.set > octets
receive full.cp mu 236 < octets > own.set
settings own.set put 300 cleardown.cp
settings own.set put 3 noisy.cp
settings own.set back 40000
settings own.set list
linear a < own.set
settings kept.set list

# 40 junctions, the most of version 1; a 41st makes it version 2
settings forty.set list
settings forty.set put 65535 crc.cp
settings forty.set back 9
settings forty.set list
send full.cp a < forty.set > octets
receive full.cp a 10244 < octets > county.set
settings county.set put 20020 full.cp
settings county.set put 1001 example.cp
settings county.set put 1002 example.cp
settings county.set back 40040
settings county.set back 00001
settings county.set list
send full.cp a < nearly.set > octets
receive full.cp a 1681 < octets > borough.set
settings borough.set put 65535 example.cp
settings borough.set put 65534 third.cp
settings borough.set show 65534
settings borough.set put 39039 third.cp
settings borough.set list

# Capitals, several spaces, numbers with zeros before them, an input and an output
SETTINGS depot.set LIST
Settings depot.set Put 000007 third.cp
  settings   depot.set   BACK   000000000000000007
settings depot.set Show 00512 < hello
settings town.set NEW > text
linear a < text
settings town.set put 000000000000065535 eights.cp > text
linear a < text
settings town.set list > text
send full.cp mu exact < text > octets
settings town.set list

# The temporary file, there before or not, is gone after a change
demo > town.set.tmp
settings town.set put 65535 eights.cp
cp town.set.tmp
settings town.set list
demo > city.set.tmp
settings city.set new
cp city.set.tmp
settings city.set list
demo > city.set.tmp
settings city.set back 1
cp city.set.tmp

# Junctions and previous settings that are not there
settings depot.set show 8
settings depot.set show 65534
settings depot.set show 768
settings depot.set show 8 cp > made.cp
cp made.cp
settings depot.set back 8
settings town.set back 255
settings borough.set back 1001
settings depot.set list
settings town.set list

# Files that break the rules, or with a CP that is refused: they are as they were
settings nothing list
settings nothing put 7 example.cp
settings nothing show 7
linear a < nothing
settings hello list
settings hello put 7 example.cp
settings hello back 7
settings hello show 7 cp > made.cp
cp made.cp
linear a < hello
settings example.cp list
settings self.set list
settings first.set list
settings kind.set list
settings twice.set list
settings lone.set list
settings falling.set list
settings over.set list
settings crc.set show 512
settings crc.set put 7 example.cp
settings crc.set back 7
settings few.set show 7
settings few.set put 8 example.cp
settings few.set back 7
settings hollow.set show 7
settings hollow.set put 7 example.cp
settings short.set list
settings short.set show 7 cp > made.cp
settings tail.set list
settings tail.set put 7 example.cp
linear a < tail.set
settings place.set list
settings place.set put 7 example.cp
settings place.set back 7
linear a < place.set
settings gap.set list
settings count.set list
settings last.set list
settings swapped.set list
settings version.set list
settings many.set list
settings many.set put 1001 third.cp
settings many.set put 9 third.cp
linear mu < slips > text
settings text list
settings text put 7 example.cp
settings text back 7

# New where a file is there, files that are not there, and directories
settings depot.set new
settings depot.set list
settings nothing new
linear a < nothing
settings hello new
settings missing.set list
settings missing.set put 7 example.cp
settings missing.set list
settings missing.set back 7
settings missing.set show 7
settings missing.set show 7 cp > made.cp
settings bad\tname.set list
settings bad\x7fname.set back 7
settings nowhere/depot.set new
settings nowhere/bad\tname.set new
settings nowhere/depot.set list
settings nowhere/depot.set put 7 example.cp
settings . list
settings . show 7

# CP files that are refused or not there
settings depot.set put 7 crc.cp
settings depot.set put 7 hollow.cp
settings depot.set put 7 rate.cp
settings depot.set put 8 few.cp
settings depot.set put 8 hello
settings depot.set put 7 missing.cp
settings depot.set put 8 .
settings depot.set list

# Wrong words of settings: their number, then the word after FILE, the last word, JUNCTION, CPFILE
settings
settings depot.set
settings new
settings depot.set wrong
settings missing.set w\tong 7
settings missing.set wrong x missing.cp
settings missing.set lists
settings missing.set 7 show
settings depot.set wrong 7 missing.cp more
settings missing.set new 7
settings depot.set list 7
settings depot.set LIST 7 example.cp
settings depot.set put
settings depot.set put x
settings depot.set Put 7
settings depot.set put 7 example.cp third.cp
settings depot.set back
settings depot.set back 7 7
settings depot.set show
settings depot.set show 7 cp cp
settings missing.set show x svg
settings depot.set show 7 c\tp
settings depot.set show 7 cps
settings depot.set show 7 example.cp
settings missing.set show x
settings missing.set show 65536 cp
settings missing.set put x missing.cp
settings missing.set put 7 missing.cp
settings missing.set put 7 crc.cp
settings hello put 7 missing.cp
settings many.set put 7 few.cp
settings depot.set show 65536
settings depot.set put 65536 example.cp
settings depot.set put 65543 example.cp
settings depot.set back 00065536
settings depot.set put -1 example.cp
settings depot.set show +7
settings depot.set show 7.0
settings missing.set back x
settings depot.set show 7\t
settings depot.set put 0000000000000000007 example.cp
settings depot.set show 0000000000000000007
settings depot.set show 999999999999999999
settings depot.set list
setting depot.set list

# A file of version 2 made anew
settings shire.set new 2
linear a < shire.set
settings shire.set list
settings shire.set show 7
settings shire.set back 7
settings shire.set put 512 example.cp
settings shire.set put 7 gaps.cp
settings shire.set put 512 third.cp
settings shire.set list
settings shire.set back 512
settings shire.set back 7
settings shire.set show 512
settings shire.set show 7 cp > made.cp
cp made.cp
linear a < shire.set

# One of version 1 by its number, other words there, and one too many
settings ward.set NEW 1
linear a < ward.set
settings ward.set put 7 example.cp
settings ward.set new 1
settings ward.set new 2
settings ward.set new 3
linear a < ward.set
settings parish.set new 0
settings parish.set new 3
settings parish.set new 7
settings parish.set new 02
settings parish.set new 12
settings parish.set new -2
settings parish.set new two
settings parish.set new t\two
settings parish.set new new
settings parish.set new 2 x
settings parish.set new 1 2
settings parish.set new 2 2 2
settings parish.set 2
settings parish.set list
settings nowhere/parish.set new 2
settings nowhere/parish.set new 4
settings new 2

# What the 41st junction has made of files of version 1, shown and changed
linear a < borough.set
settings borough.set show 1001
settings borough.set show 39039
settings borough.set back 39039
settings borough.set show 39039
settings borough.set put 38038 cleardown.cp
settings borough.set back 38038
settings borough.set put 9 full.cp
settings borough.set show 65535
send full.cp mu < borough.set > octets
settings county.set show 1002
settings county.set show 20020
settings county.set back 20020
settings county.set show 20020
send full.cp mu < county.set > octets

# 400 junctions, the most there can be
send full.cp a < nearly2.set > octets
receive full.cp a 17962 < octets > nation.set
settings nation.set put 65535 third.cp
settings nation.set put 0 example.cp
settings nation.set put 0 crc.cp
settings nation.set back 0
settings nation.set show 0
settings nation.set put 150 full.cp
settings nation.set put 30001 third.cp
settings nation.set put 59850 third.cp
settings nation.set back 59850
settings nation.set back 300
settings nation.set show 150
settings nation.set show 59850
settings nation.set list
send full.cp mu < nation.set > octets

# Files of version 2 that break the rules: they are as they were
settings tail2.set list
settings tail2.set put 7 example.cp
linear a < tail2.set
settings narrow2.set list
settings cut2.set list
settings high2.set list
settings count2.set list
settings last2.set list
settings gap2.set show 7
settings crc2.set show 512
settings crc2.set put 7 example.cp
settings crc2.set back 7
settings version1.set list
settings version3.set list
settings many2.set list
settings many2.set show 150
settings many2.set put 150 third.cp
settings many2.set put 9 third.cp
linear a < text > longer
settings longer list
settings longer put 7 example.cp
"""
