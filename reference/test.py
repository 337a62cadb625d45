"""Tests of the model: `python3 reference/test.py` prints a line for each group, then 'ok'.

With -v it also says how many stored cases, rows of Table 1 and lines of the DIL each wrong codec
fails, how many stored lines of plans each wrong planner, how many stored cases each wrong cost of a
flipped sign and each wrong settings file, and at which line of the stored run each wrong program
first differs.
"""

import re
import sys
import traceback
from bisect import bisect_left
from contextlib import ExitStack, contextmanager
from functools import lru_cache
from itertools import accumulate, product, zip_longest
from unittest.mock import patch
from xml.etree import ElementTree

import cases_cp
import cases_flip
import cases_frames
import cases_settings
import cases_start
import control
import cp
import describe
import dil
import flip
import forms
import frames
import picture
import plan
import program
import record as records
import settings
import start as starts
import trial
import vectors
from frames import COLD, FRESH, State
from linear import linear
from record import EMPTY, EXAMPLE, FULL_MASK, k_of, make, mask_of
from refusals import ORDER, Refusal, in_order
from samples import (TWO_EMPTY, Draw, a_number, a_record, a_sequence_place, a_sparse_record,
                     a_state, faulty_record, with_places)
from table1 import (A, LINEAR, MU, linear_of, octet_by_rule, octet_of, rows, ucode_of,
                    value_by_rule, value_of)


def check(holds, what):
    """Stop the group unless the condition holds."""
    if not holds:
        raise AssertionError(what)


def same(found, wanted, what):
    """Stop the group unless the two are equal."""
    check(found == wanted, f"{what}: found {found!r}, wanted {wanted!r}")


# Table 1

def table_1():
    """The printed rows follow the rules of octets and of linear values."""
    same([row[0] for row in rows()], list(range(128)), "Ucodes")
    values = list(product((MU, A), range(128)))
    for case in values:
        same(value_by_rule(*case), value_of(*case), f"linear value of law, Ucode {case}")
    cases = list(product((MU, A), (1, 0), range(128)))
    for case in cases:
        same(octet_by_rule(*case), octet_of(*case), f"octet of law, sign, Ucode {case}")
    for law in (MU, A):
        for octet in range(256):
            same(octet_of(law, octet >> 7, ucode_of(law, octet)), octet, "octet there and back")
    same((linear_of(MU, 0x7F), linear_of(MU, 0xFF)), (0, 0), "µ-law zeros")
    same(linear(A, b"\xd5\x55", [1, 2, 3]), (None, [8, -8, 3]), "samples")
    same(linear(A, b"\xd5\x55", [1]), (Refusal(17), [1]), "samples declined")
    return f"128 rows, 256 octets, {len(cases)} octets and {len(values)} values by rule"


# The bench examples of document 01

def sent(record, law, count, state, data, channel=0, number=0):
    """(Octets, state) of a call that is not declined."""
    refusal, state, octets = frames.send(record, law, count, state, channel, number, data,
                                         bytes(6 * count))
    same(refusal, None, "refusal of send")
    return octets, state


def received(record, law, state, octets, channel=0):
    """(Marks, data bits as a number, state) of a call that is not declined."""
    marks, bits, state, _ = heard(record, law, state, octets, channel)
    return marks, bits, state


def heard(record, law, state, octets, channel):
    """(Marks, data bits as a number, state, what is heard) of a call that is not declined."""
    count = len(octets) // 6
    lent = bytes(frames.data_bytes(record, count, channel, state.frame_place)), bytes(count)
    refusal, state, told, bits, marks = frames.receive(record, law, count, state, channel, octets,
                                                       *lent)
    same(refusal, None, "refusal of receive")
    return list(marks), int.from_bytes(bits, "little"), state, told


def of_labels(*labels):
    """Positive µ-law octets of labels under the record of the examples."""
    return bytes(0xFF ^ 5 - label for label in labels)


def number_of(octets):
    """R of a frame under the record of the examples."""
    return frames.number_for([63] * 6, [ucode_of(MU, octet) for octet in octets])


def ones_at(*places):
    """A number with ones at some places."""
    return sum(1 << place for place in places)


def examples():
    """B1 to B12."""
    zeros, ones = bytes(3), b"\xff" * 3
    same(sent(EXAMPLE, MU, 1, FRESH, zeros)[0].hex(), "7a" * 6, "B1")
    octets, state = sent(EXAMPLE, MU, 1, FRESH, ones)
    same((octets.hex(), state), ("fd7eff7afd7a", State(2097144, 0, 0)), "B2")
    same(number_of(octets), 4095, "B2's R")
    same(number_of(b"\xff" * 6), 46655, "B3's R")
    same(received(EXAMPLE, MU, FRESH, b"\xff" * 6)[0], [7], "B3")
    good, bad = of_labels(1, 1, 4, 1, 1, 4), of_labels(2, 1, 4, 1, 1, 4)
    same((number_of(good), number_of(bad)), (32767, 32768), "B4's R")
    same(received(EXAMPLE, MU, FRESH, good + bad)[0], [0, 7], "B4")
    strangers = bytes(0xFF ^ u for u in (0, 0, 6, 0, 6, 0))
    same(received(EXAMPLE, MU, FRESH, strangers)[0], [3], "B5")
    line = sent(EXAMPLE, MU, 2, FRESH, bytes(6))[0]
    same(received(EXAMPLE, MU, FRESH, line)[:2], ([0, 0], 0), "two frames of zeros")
    same(received(EXAMPLE, MU, State(0, 1, 0), line)[:2], ([0, 0], ones_at(0, 18, 23)), "B6")
    same(received(EXAMPLE, MU, State(1, 0, 0), line)[:2], ([0, 0], ones_at(17, 22)), "B7")
    same(sent(EXAMPLE, A, 1, FRESH, zeros)[0].hex(), "50" * 6, "B8")
    example_sizes()
    same([octet_of(law, sign, 64) for law in (MU, A) for sign in (1, 0)],
         [0xBF, 0x3F, 0x95, 0x15], "B11")
    example_length()
    return "B1 to B12"


def answers_to(record):
    """The refusals of the reader, the writer, the sender of CP, the sender and the receiver."""
    return [cp.read_cp(cases_cp.plain(record), cases_cp.length_of(record))[0],
            cp.write_cp(record, bytes(122))[0],
            starts.send_cp(record, MU, FRESH, bytes(984))[0],
            frames.send(record, MU, 0, FRESH, 0, 0, b"", b"")[0],
            frames.receive(record, MU, 0, FRESH, 0, b"", b"", b"")[0]]


def example_sizes():
    """B9 and B10, for the reader, the writer, the sender of CP, the sender and the receiver."""
    lost = FULL_MASK ^ 1 << 77
    for record, wanted in ((make(0, 1, 0, [0, 0, 0, 0, 0, 1], [63, 31]), None),
                           (make(0, 1, 0, [0, 0, 0, 0, 1, 1], [63, 31]), Refusal(11)),
                           (make(0, 28, 0, [0] * 6, [FULL_MASK]), None),
                           (make(0, 28, 0, [0, 0, 1, 0, 0, 0], [FULL_MASK, lost]), Refusal(11))):
        same(answers_to(record), [wanted] * 5, "B9, B10")
    draw = Draw(10)
    full = make(0, 28, 0, [0] * 6, [FULL_MASK])
    same(set(received(full, A, FRESH, draw.octets(6 * 500))[0]), {0}, "B10's marks")


def example_length():
    """B12."""
    record = make(0, 1, 0, [0, 0, 0, 0, 0, 1], [63, 31])
    refusal, count, octets = cp.write_cp(record, bytes(54))
    same((refusal, count, cp.end_of_crc(1)), (None, 426, 425), "B12's length")
    for bit_count, wanted in ((425, Refusal(5)), (426, None), (427, Refusal(5))):
        same(cp.read_cp(octets, bit_count)[0], wanted, f"B12 with {bit_count} bits")
    same([cp.length(g) for g in range(6)], [294, 426, 564, 702, 834, 972], "lengths")


# Values made by another model

def values():
    """CP sequences, octets and states to check by."""
    same(cp.crc(b"123456789"), 0x6F91, "CRC check value")
    of_example = bytes.fromhex("ffff19" + "00" * 14 + "7e" + "00" * 16 + "e0d000")
    same(cp.write_cp(EXAMPLE, bytes(37)), (None, 294, of_example), "CP of the example")
    of_zeros = bytes.fromhex("ffff09" + "00" * 31 + "64c701")
    same(cp.write_cp(EMPTY, bytes(37)), (None, 294, of_zeros), "CP of zeros")
    same(cp.bits_of(cases_cp.ALL_FULL) >> 273 + 680 & 0xFFFF, 0x9A29, "CRC of full masks")
    octets, state = sent(EXAMPLE, MU, 3, FRESH, b"\xff" * 8)
    same(octets.hex(), "fd7eff7afd7a7b7bfc7cfa7a7d7a7d7eff7d", "63 ones")
    same(state, State(130575, 0, 0), "state after 63 ones")
    same(received(EXAMPLE, MU, State(7, 0, 0), b"\xff" * 6), ([7], 0, State(6291456, 1, 24)),
         "mark 7")
    same(received(cases_frames.SEVEN_UCODES, MU, State(1, 0, 0), b"\x80" * 6),
         ([1], 0, State(4194304, 1, 24)), "mark 1 at D = 22")
    return "9 values"


# The two laws of bits, step by step

def steps():
    """CRC and scrambler against the papers' single steps."""
    draw = Draw(1)
    for _ in range(200):
        octets = draw.octets(draw.below(40))
        register = 0xFFFF
        for n in range(8 * len(octets)):
            register = cp.crc_step(register, octets[n // 8] >> n % 8 & 1)
        same(cp.crc(octets), register, "CRC")
    for _ in range(200):
        history, count = draw.bits(23), draw.between(1, 100)
        data = draw.bits(count)
        line = [history >> n & 1 for n in range(22, -1, -1)]
        for n in range(count):
            line.append(data >> n & 1 ^ line[n + 23 - 18] ^ line[n])
        scrambled = sum(bit << n for n, bit in enumerate(line[23:]))
        after = sum(bit << n for n, bit in enumerate(line[:-24:-1]))
        same(frames.scramble(history, data, count), (scrambled, after), "scrambler")
        same(frames.descramble(history, scrambled, count), (data, after), "descrambler")
    return "CRC and scrambler, 200 each"


# CP there and back

def cp_round_trips():
    """Writing then reading, reading then writing, and ignored bits."""
    draw = Draw(2)
    for n in range(1500):
        record = a_record(draw, n % 29, granted=n % 29 == 28 and draw.below(2))
        before = draw.octets(122 + draw.below(3))
        refusal, count, octets = cp.write_cp(record, before)
        needed = (count + 7) // 8
        same(refusal, None, "refusal of the writer")
        same(octets[needed:], before[needed:], "bytes beyond")
        same(cp.read_cp(octets, count), (None, record), "written and read")
        same(cp.write_cp(record, bytes(needed))[2], octets[:needed], "the same bytes")
        same(cp.read_cp(cases_cp.noisy(draw, record), count), (None, record), "ignored bits")
    return "1500 records"


# Runs of calls

def bits_in(octets, count):
    """The first bits of a buffer as a list."""
    return [octets[n // 8] >> n % 8 & 1 for n in range(count)]


def refused_send(draw, state):
    """A call of the sender that is declined returns the state it got."""
    number = cases_frames.a_refused_number(draw, cases_frames.NUMBERS)
    case = cases_frames.faulty_send(draw, {number}, state)
    refusal, after, _ = forms.outcome(case)
    check(refusal and after == state, "a refused sender's call")


def refused_receive(draw, state):
    """A call of the receiver that is declined returns the state it got, and nothing is heard."""
    number = cases_frames.a_refused_number(draw, cases_frames.NUMBERS)
    case = cases_frames.faulty_receive(draw, {number}, state)
    refusal, after, told, _, _ = forms.outcome(case)
    check(refusal and after == state and told == control.NOTHING, "a refused receiver's call")


def widths_of(record, place, choices):
    """The data bits of each frame, from a frame place on, by whether the channel is on there."""
    widths = []
    for channel in choices:
        widths.append(k_of(record) + (0 if channel and place == 0 else 6))
        place = (place + 1) % 64 if channel else place
    return widths


def sender_list(draw, record, law, state, choices):
    """(Message, octets sent) of a sender's list of calls, refused ones among them."""
    message, line = [], b""
    for channel, count in cases_frames.cut_by_choice(draw, choices):
        if draw.below(4) == 0:
            refused_send(draw, state)
        widths = widths_of(record, state.frame_place, [channel] * count)
        data = draw.octets((sum(widths) + 7) // 8)
        octets, state = sent(record, law, count, state, data, channel, a_number(draw))
        message += bits_in(data, sum(widths))
        line += octets
    return message, line


def receiver_list(draw, record, law, state, line, choices):
    """(Bits handed over, marks, counts) of a receiver's list of calls, refused ones among them.

    The counts are those of doubtful bits in the states between calls: {frames read: count}.
    """
    handed, marks, counts = [], [], {0: state.doubtful}
    for channel, count in cases_frames.cut_by_choice(draw, choices):
        if draw.below(4) == 0:
            refused_receive(draw, state)
        part, line = line[:6 * count], line[6 * count:]
        width = sum(widths_of(record, state.frame_place, [channel] * count))
        bits_lent = draw.octets((width + 7) // 8)
        _, state, _, bits, call_marks = frames.receive(record, law, count, state, channel, part,
                                                       bits_lent, draw.octets(count))
        handed += bits_in(bits, width)
        marks += call_marks
        if not count:
            same(state.doubtful, counts[len(marks)], "the count after no frames")
        counts[len(marks)] = state.doubtful
    return handed, marks, counts


def a_start(draw):
    """A sender's state, often just before a control frame, and choices for some frames."""
    start = draw.pick((FRESH, a_state(draw)))
    if draw.below(2):
        return start, [0] * draw.between(1, 12)
    start = with_places(draw, start)._replace(frame_place=draw.pick((0, 63, draw.between(52, 63))))
    return start, cases_frames.some_choices(draw, draw.pick((3, 12, draw.between(1, 80))))


def elsewhere(draw, start):
    """Another state with the same frame place and sequence place."""
    return with_places(draw, a_state(draw))._replace(frame_place=start.frame_place,
                                                     sequence_place=start.sequence_place)


def hurt_frames(draw, record, law, line):
    """(The line with any octets in place of frames a to b, or as it is; which frames these are)."""
    total = len(line) // 6
    a = draw.below(total)
    hurt = range(a, draw.between(a, min(a + 2, total - 1)) + 1) if draw.below(3) else range(0)
    for i in hurt:
        mark = draw.pick([0] + cases_frames.possible_marks(record))
        frame = draw.pick((draw.octets(6), cases_frames.a_frame(draw, record, law, mark)))
        line = line[:6 * i] + frame + line[6 * i + 6:]
    return line, hurt


def demand_3():
    """Bits wrong only in frames a to b, the 24 after them, and the first 24 from another state.

    In half of the runs the channel is on and off, by a choice at each frame.
    """
    draw = Draw(3)
    for n in range(1200):
        record, law, (start, choices) = a_record(draw, 1 + n % 28), draw.below(2), a_start(draw)
        message, line = sender_list(draw, record, law, start, choices)
        begin, doubtful = start, set()
        if draw.below(2):
            begin, doubtful = elsewhere(draw, start), set(range(24))
        line, hurt = hurt_frames(draw, record, law, line)
        ends = [0, *accumulate(widths_of(record, start.frame_place, choices))]
        same(len(message), ends[-1], "bits of the message")
        if hurt:
            doubtful |= set(range(ends[hurt[0]], ends[hurt[-1] + 1] + 24))
        stop = draw.between(0, len(choices))
        handed, marks, _ = receiver_list(draw, record, law, begin, line[:6 * stop], choices[:stop])
        same(len(handed), ends[stop], "bits handed over")
        wrong = {p for p in range(len(handed)) if handed[p] != message[p]}
        check(wrong <= doubtful, f"wrong bits {sorted(wrong - doubtful)}")
        check(all(marks[i] == 0 for i in range(stop) if i not in hurt), "a good frame is marked")
    return "1200 runs"


# Doubtful bits (A.1)

def count_before(widths, marks, begun, frame):
    """The count before a frame: 24, or the one begun with, less the good bits since, or 0."""
    marked = [n for n in range(frame) if marks[n]]
    if marked:
        return max(24 - sum(widths[marked[-1] + 1:frame]), 0)
    return max(begun - sum(widths[:frame]), 0)


def altered(draw, record, law, frame):
    """Six octets in place of a frame that get a mark: drawn until they do."""
    while True:
        made = bytearray(draw.pick((frame, draw.octets(6))))
        made[draw.below(6)] ^= draw.between(1, 255)
        mark = draw.pick(cases_frames.possible_marks(record))
        made = draw.pick((bytes(made), cases_frames.a_frame(draw, record, law, mark)))
        if frames.judge_frame(record, law, made)[0]:
            return made


def with_marks(draw, record, law, line):
    """(The line with some frames altered, each so that it is marked; which they are)."""
    chance = draw.pick((2, 3, 6))
    damage = [bool(cases_frames.possible_marks(record)) and draw.below(chance) == 0
              for _ in range(len(line) // 6)]
    made = [altered(draw, record, law, line[6 * n:6 * n + 6]) if hurt else line[6 * n:6 * n + 6]
            for n, hurt in enumerate(damage)]
    return b"".join(made), damage


def wrong_places(widths, message, handed, marks):
    """The bits of good frames that are not as sent: (frame, place in it)."""
    places = [(frame, place) for frame, width in enumerate(widths) for place in range(width)]
    return [where for where, bit, other in zip(places, message, handed)
            if bit != other and not marks[where[0]]]


def distrusted_run(draw, record, law, start, choices):
    """The kinds of edges that a run of marked damage met: how near its wrong bits come to a count.

    A receiver told cold begins in any history and sign; another in the sender's, with any count.
    """
    widths, cold = widths_of(record, start.frame_place, choices), draw.below(2)
    message, line = sender_list(draw, record, law, start, choices)
    line, damage = with_marks(draw, record, law, line)
    begun = 24 if cold else draw.pick((0, draw.between(0, 24)))
    begin = (elsewhere(draw, start) if cold else start)._replace(doubtful=begun)
    handed, marks, counts = receiver_list(draw, record, law, begin, line, choices)
    same([mark > 0 for mark in marks], damage, "frames marked")
    before = [count_before(widths, marks, begun, n) for n in range(len(choices) + 1)]
    for n, count in counts.items():
        same(count, before[n], "the count in a state")
    check(max(before) <= 24, "a count above 24")
    met = set()
    for frame, place in wrong_places(widths, message, handed, marks):
        check(place < before[frame], f"bit {place} of frame {frame} is wrong, K = {k_of(record)}")
        if place >= before[frame + 1]:
            met.add("past the count after the frame")
        after = "after a mark" if any(marks[:frame]) else "after a cold start"
        met.add((before[frame] - place, after, widths[frame] - k_of(record), k_of(record)))
    return met


def distrust():
    """A good frame's bits past as many as the count before it are as sent; no smaller count does.

    At each D some run has the last bit of the 24 wrong, after a mark and after a cold start; at
    D = 48 no frame is marked. In a control frame the sign before it changes no data bit: where all
    24 could be in it, the last but one is the last that is wrong.
    """
    draw, met = Draw(12), set()
    for n in range(2800):
        record, law = a_record(draw, 1 + n % 28), draw.below(2)
        met |= distrusted_run(draw, record, law, a_state(draw), [0] * draw.between(1, 12))
    check({"past the count after the frame", *((1, "after a mark", 6, k) for k in range(15, 42)),
           *((1, "after a cold start", 6, k) for k in range(15, 43))} <= met, "edges met")
    for n in range(2800):
        record, law = a_record(draw, 1 + n % 28), draw.below(2)
        place = draw.pick((0, 0, 0, 63, draw.between(60, 62)))
        start = cases_frames.at_places(draw, place, a_sequence_place(draw))
        met |= distrusted_run(draw, record, law, start, [1] * 4)
    check({*((2, "after a mark", 0, k) for k in range(24, 42)),
           *((2, "after a cold start", 0, k) for k in range(24, 43))} <= met, "control frames")
    check(not {(1, after, 0, k) for _, after, _, k in met - {"past the count after the frame"}
               if k >= 24} & met, "the last bit of 24 in a control frame")
    line = sent(EXAMPLE, MU, 2, FRESH, bytes(6))[0]
    same(received(EXAMPLE, MU, State(0, 1, 24), line)[1:], (ones_at(0, 18, 23), State(0, 0, 0)),
         "B6 cold")
    same([received(EXAMPLE, MU, COLD, line[:6 * n])[2].doubtful for n in range(3)], [24, 3, 0],
         "counts of B6")
    same([received(EXAMPLE, MU, COLD, line[:6 * n], 1)[2].doubtful for n in range(3)], [24, 9, 0],
         "counts of B6 with the channel on")
    return "5600 runs"


def same_but_count(state, other):
    """Stop the group unless two states differ in the count of doubtful bits at most."""
    same(state._replace(doubtful=0), other._replace(doubtful=0), "history and sign")


def other_counts():
    """A differing count changes no octet, bit or mark, and neither history nor sign."""
    draw = Draw(13)
    for n in range(400):
        record, law, count = a_record(draw, 1 + n % 28), draw.below(2), draw.between(0, 8)
        state = a_state(draw)
        other = state._replace(doubtful=draw.between(0, 24))
        data = draw.octets(frames.data_bytes(record, count))
        octets, after = sent(record, law, count, state, data)
        octets_too, after_too = sent(record, law, count, other, data)
        same(octets, octets_too, "octets")
        same_but_count(after, after_too)
        same((after.doubtful, after_too.doubtful), (state.doubtful, other.doubtful), "sent counts")
        if count:
            octets = cases_frames.damaged(draw, record, law, octets)
        *heard, after = received(record, law, state, octets)
        *heard_too, after_too = received(record, law, other, octets)
        same(heard, heard_too, "marks and bits")
        same_but_count(after, after_too)
    return "400 pairs of states"


def stored_counts():
    """Counts that the stored cases must have: each of the sender, the edges of the receiver."""
    sent_counts, declined, stepped = {}, set(), set()
    for case, answer in stored_cases():
        kind, args = forms.arguments(case)
        if kind not in (forms.SEND, forms.RECEIVE):
            continue
        record, _, count, state, channel = args[:5]
        if answer[0] == 18:
            declined.add((kind, min(count, 1)))
        if kind == forms.SEND and count == 1 and record == EXAMPLE:
            sent_counts.setdefault(state.doubtful, set()).add(answer[0])
        if kind == forms.RECEIVE and not answer[0]:
            widths = widths_of(record, state.frame_place, [channel] * count)
            _, after, _, _, marks = forms.outcome(case)
            for n, mark in enumerate(marks[:count]):
                before = count_before(widths, marks, state.doubtful, n) if n < 40 else 0
                stepped.add((widths[n] - k_of(record), widths[n], before, mark > 0))
            same(after.doubtful, count_before(widths, marks, state.doubtful, count),
                 "a stored count")
    same(sent_counts, {count: {18 if count > 24 else 0} for count in range(256)}, "those of send")
    same(declined, set(product((forms.SEND, forms.RECEIVE), (0, 1))), "18 with frames and without")
    for signs, width in (*product((6,), (21, 22, 23, 24, 34, 47, 48)),
                         *product((0,), (15, 16, 21, 22, 23, 24, 25, 42))):
        edges = {0, 1, 23, 24} | {c for c in (width - 1, width, width + 1) if c <= 24}
        full = width - signs == 42
        wanted = set(product([signs], [width], edges, [False]))
        if signs and not full:
            wanted |= set(product([signs], [width], edges, [True]))
        check(wanted <= stepped, f"counts at {width} bits: {wanted - stepped}")
    return f"{len(sent_counts)} counts of the sender, {len(stepped)} steps of the receiver"


# The stored cases

def stored_text(name):
    """The text of a stored file."""
    return vectors.stored(name).decode("ascii")


def stored_lines(name):
    """The byte strings of a stored file."""
    return [bytes.fromhex(line) for line in stored_text(name).splitlines()]


def stored_pairs(name):
    """(Case, answer) for the stored cases of a program."""
    cases, answers = stored_lines(f"{name}/stdin"), stored_lines(f"{name}/stdout")
    same(len(cases), len(answers), f"lines of {name}")
    return list(zip(cases, answers))


def stored_cases():
    """(Case, answer) for all stored cases but those of one flipped sign and of settings files."""
    return [pair for name in ("vectors_cp", "vectors_frames", "vectors_start")
            for pair in stored_pairs(name)]


def stored_answers():
    """The stored answers are the model's, and the files keep their bounds."""
    both = stored_cases()
    for case, answer in both:
        same(forms.answer(case).hex(), answer.hex(), f"answer to {case.hex()}")
    of_cp = [case for case, _ in both if case[0] in (forms.READ_CP, forms.WRITE_CP)]
    check(len(of_cp) <= 1100, "lines of vectors_cp")
    check(max(map(len, of_cp)) <= 300, "a line of vectors_cp")
    texts = [stored_text(f"vectors_frames/{name}") for name in ("stdin", "stdout")]
    check(sum(map(len, texts)) < 2_000_000, "size of vectors_frames")
    of_start = [case for case, _ in both if case[0] in (forms.SEND_CP, forms.FIND_STATE)]
    check(250 <= len(of_start) <= 450, "lines of vectors_start")
    check(max(map(len, of_start)) <= 1400, "a line of vectors_start")
    texts = [stored_text(f"vectors_start/{name}") for name in ("stdin", "stdout")]
    check(sum(map(len, texts)) < 1_500_000, "size of vectors_start")
    check(stored_text("vectors_pcm/stdout").count("\n") == 512, "lines of vectors_pcm")
    check(stored_text("vectors_dil/stdout").count("\n") == 885, "lines of vectors_dil")
    check(stored_text("vectors_plan/stdout").count("\n") == 1088, "lines of vectors_plan")
    return f"{len(both)} cases"


def lent_unchanged(case):
    """What a refusal leaves: the state got and the buffers lent, or zeros."""
    kind, args = forms.arguments(case)
    if kind == forms.READ_CP:
        return [EMPTY]
    if kind == forms.WRITE_CP:
        return [0, args[1]]
    if kind == forms.LINEAR:
        return [args[2]]
    if kind == forms.SEND:
        return [args[3], args[7]]
    if kind == forms.SEND_CP:
        return [0, args[2], args[3]]
    if kind == forms.FIND_STATE:
        return [args[1]]
    if kind in (forms.PUT, forms.BACK):
        return [0, args[-1]]
    if kind == forms.LOOK_UP:
        return [EMPTY]
    return [args[3], control.NOTHING, *args[6:]]


def refusals_met(both):
    """(Refusals met alone, refusals met with another that answers) by kind, in some cases.

    25 counts as alone with 11, which always holds with it. The first that holds is the answer.
    """
    alone, met = set(), set()
    for case, answer in both:
        held = forms.held(case)
        numbers = [refusal.number for refusal in held]
        same(numbers, in_order(numbers), "order of refusals")
        same(answer[:2], bytes(held[0] if held else (0, 0)), "the first that holds")
        if held:
            same(list(forms.outcome(case)[1:]), lent_unchanged(case), "what a refusal leaves")
        if len(held) == 1 or numbers == [25, 11]:
            alone.add((case[0], numbers[0]))
        met |= {(case[0], numbers[0], other) for other in numbers[1:]}
    return alone, met


def stored_refusals():
    """Each refusal of each entry is met alone, and each possible pair with the first answering."""
    alone, met = refusals_met(stored_cases())
    wanted = {forms.READ_CP: (cases_cp.READER_NUMBERS, cases_cp.pairs(cases_cp.READER_NUMBERS)),
              forms.WRITE_CP: (cases_cp.WRITER_NUMBERS, cases_cp.pairs(cases_cp.WRITER_NUMBERS)),
              forms.SEND: (cases_frames.NUMBERS, cases_frames.pairs()),
              forms.RECEIVE: (cases_frames.NUMBERS, cases_frames.pairs()),
              forms.LINEAR: ((17,), ()),
              forms.SEND_CP: (cases_start.NUMBERS, cases_frames.pairs(cases_start.NUMBERS)),
              forms.FIND_STATE: ((16,), ())}
    same(alone, {(kind, number) for kind, (numbers, _) in wanted.items() for number in numbers},
         "refusals alone")
    same(met, {(kind, *pair) for kind, (_, pairs) in wanted.items() for pair in pairs}, "pairs")
    return f"{len(alone)} alone, {len(met)} in pairs"


def stored_coverage():
    """Rates, laws, lengths, marks and numbers of frames that the stored cases must have."""
    read, written, calls, marks = set(), set(), set(), set()
    counts = {forms.SEND: set(), forms.RECEIVE: set()}
    for case, answer in stored_cases():
        kind, args = forms.arguments(case)
        if kind == forms.READ_CP and not answer[0]:
            record = forms.outcome(case)[1]
            read |= {("drn", record.drn), ("g", max(record.indices))}
        if kind == forms.WRITE_CP and not answer[0]:
            written |= {("drn", args[0].drn), ("g", max(args[0].indices))}
        if kind in counts:
            counts[kind].add(args[2])
            if not answer[0] and args[2]:
                calls.add((kind, k_of(args[0]), args[1]))
            if kind == forms.RECEIVE and not answer[0]:
                given = forms.outcome(case)[4][:args[2]]
                marks |= {(frames.frame_bits(args[0]), mark) for mark in given}
    everything = {("drn", drn) for drn in range(29)} | {("g", g) for g in range(6)}
    same(read, everything, "rates and lengths read")
    same(written, everything, "rates and lengths written")
    same(calls, {(kind, k, law) for kind in counts for k in range(15, 43) for law in (MU, A)},
         "calls under each K and law")
    for kind, found in counts.items():
        check({0, 1, 2, 3, 7, 32, 1023, 1024, 1025} <= found, f"frames of kind {kind}")
    check({(d, mark) for d in (21, 22, 23, 29, 40, 47) for mark in range(8)} <= marks, "marks")
    return "rates, lengths, laws, marks, frames"


# Empty intervals (A.8)

SPARSE_ENTRIES = (forms.READ_CP, forms.WRITE_CP, forms.SEND, forms.RECEIVE, forms.SEND_CP)


def lowest_empty(record):
    """The lowest interval for which no Ucode is in the mask it names; None where each has one."""
    for interval, m in enumerate(record.indices):
        if not any(mask_of(record, m) >> u & 1 for u in range(128)):
            return interval
    return None


def drawn_records(count):
    """25 holds where drn and the masks say so, with the lowest interval, and never without 11."""
    draw, told = Draw(4), set()
    for _ in range(count):
        record = a_sparse_record(draw)
        held = list(records.faults(record))
        lowest = lowest_empty(record) if 1 <= record.drn <= 28 else None
        values = [refusal.value for refusal in held if refusal.number == 25]
        same(values, [] if lowest is None else [lowest], f"25 for {record}")
        check(not values or Refusal(11) in held, f"25 without 11 for {record}")
        same(answers_to(record), [held[0] if held else None] * 5, f"answers to {record}")
        told.add(lowest)
    same(told, {None, *range(6)}, "intervals told")


def stored_without_25():
    """How many stored answers change where no entry has 25: all become 11, and nothing else."""
    told = []
    for name in ("cp.record_faults", "frames.record_faults", "start.record_faults"):
        with patch(name, without(records.faults, 25)):
            for case, answer in stored_cases():
                found = forms.answer(case)
                if found != answer:
                    same((answer[0], found), (25, bytes((11, 0)) + answer[2:]), "11 in its place")
                    told.append((case[0], answer[1]))
    same(set(told), {(kind, i) for kind in SPARSE_ENTRIES for i in range(6)}, "intervals stored")
    return len(told)


def empty_intervals():
    """25 tells the lowest empty interval, in all five entries, and takes the place of 11 alone."""
    same(answers_to(TWO_EMPTY), [Refusal(25, 2)] * 5, "intervals 2 and 4 empty")
    same(answers_to(TWO_EMPTY._replace(drn=0)), [None] * 5, "the same at drn 0")
    drawn_records(4000)
    both = stored_cases()
    for case, _ in both:
        numbers = [refusal.number for refusal in forms.held(case)]
        check(25 not in numbers or 11 in numbers, "25 without 11 in a stored case")
    changed = stored_without_25()
    same(changed, sum(answer[0] == 25 for _, answer in both), "stored cases with 25")
    return f"4000 records, {changed} stored cases with 25 that else have 11"


# Control channel (A.2)

def cells(bits):
    """The CRC of bits in the order of sending, by the sixteen cells of its generator."""
    register = [1] * 16
    for bit in bits:
        fed, register = register[0] ^ bit, [*register[1:], 0]
        for cell in (3, 10, 15):
            register[cell] ^= fed
    return register


def table_3(number):
    """The 96 bits of a sequence as Table 3 lists them, the first in time first."""
    given = [number >> n & 1 for n in range(56)]
    covered = given[:2] + [0] * 6 + given[2:]
    return [*map(int, "0111011111111010"), *covered, *cells(covered), 0, 0]


def as_number(bits):
    """Bits as one number, the first at weight 1."""
    return sum(bit << n for n, bit in enumerate(bits))


def judged(bits, lost):
    """What is to be told of a sequence: each test by itself, the first that is so."""
    if lost:
        return control.Heard(2)
    if bits[:16] != table_3(0)[:16]:
        return control.Heard(3)
    if cells(bits[16:78]) != bits[78:94]:
        return control.Heard(4)
    return control.Heard(1, as_number(bits[16:18] + bits[24:78]))


def one_bit_wrong(bits):
    """One bit not as sent: the pattern, the CRC, or nothing of it is told, by its place."""
    right = judged(bits, 0)
    for n in range(96):
        wrong = [bit ^ (place == n) for place, bit in enumerate(bits)]
        told = control.heard_in(as_number(wrong), 0)
        same(told, judged(wrong, 0), f"bit {n} wrong")
        same(told, control.Heard(3 if n < 16 else 4) if n < 94 else right, f"bit {n} is told")


def sequences():
    """Table 3 there and back, each bit wrong, and the first control bit of each frame wrong."""
    same(control.pattern_bits(), 0x5FEE, "the pattern, its left digit lowest")
    same(control.sequence_of(0), 0x5FEE | 0xFA21 << 78, "the sequence of zeros")
    draw = Draw(14)
    for n in range(400):
        number = draw.bits(56)
        bits = table_3(number)
        same(control.sequence_of(number), as_number(bits), "a sequence")
        same(control.sequence_of(number | draw.bits(8) << 56), as_number(bits), "bits above")
        same(control.heard_in(as_number(bits), 0), control.Heard(1, number), "there and back")
        same(control.heard_in(as_number(bits), 1), control.Heard(2), "a frame lost")
        one_bit_wrong(bits)
        wrong = draw.bits(96)
        for lost in (0, 1):
            same(control.heard_in(wrong, lost), judged([wrong >> n & 1 for n in range(96)], lost),
                 "any bits")
    check(all(6 * place < 94 for place in range(16)), "a first control bit that is not told of")
    return "400 sequences, each bit wrong"


def control_frames_of(start, choices):
    """The control frames of a run, by the places at its start: {frame: sequence place}."""
    found, place, done = {}, start.frame_place, start.sequence_place
    for n, channel in enumerate(choices):
        if channel and place == 0:
            found[n] = done
            done = (done + 1) % 16
        place = (place + 1) % 64 if channel else place
    return found


def calls_of_the_channel():
    """The data bits of a call, and that one sequence at most starts and one ends in it."""
    for place, done in product(range(64), range(16)):
        start, most = State(0, 0, 0, place, done), 1 if place == done == 0 else 0
        found = control_frames_of(start, [1] * 1025)
        for count in (0, 1, 2, 63, 64, 65, 960, 961, 1023, 1024):
            inside = [at for n, at in found.items() if n < count]
            same(frames.control_frames(1, place, count), len(inside), "control frames")
            same(frames.data_bits(EXAMPLE, count, 1, place), 21 * count - 6 * len(inside), "bits")
            check(inside.count(0) <= 1 and inside.count(15) <= 1, "sequences of a call")
        same(list(found.values()).count(0), 1 + most, "starts in 1,025 frames")
        same(frames.control_frames(0, place, 1024), 0, "control frames where it is off")
    return "1024 pairs of places"


def six_of(line, frame, sign):
    """The control bits of a frame, by the signs of its octets and the one before them."""
    signs = [octet >> 7 for octet in line[max(6 * frame - 1, 0):6 * frame + 6]]
    signs = signs if frame else [sign, *signs]
    return [one ^ other for one, other in zip(signs, signs[1:])]


def sent_on_channel(draw, record, law, start, choices):
    """(Octets, control bits of each control frame) of a sender's list of calls, and its states."""
    found, state, line, first, bits = control_frames_of(start, choices), start, b"", 0, {}
    whole = [start.sequence >> n & 1 for n in range(96)]
    for channel, count in cases_frames.cut_by_choice(draw, choices):
        number, before = a_number(draw), state
        data = draw.octets(frames.data_bytes(record, count, channel, state.frame_place))
        octets, state = sent(record, law, count, state, data, channel, number)
        inside = {n: at for n, at in found.items() if first <= n < first + count}
        for n, at in inside.items():
            whole = table_3(number) if at == 0 else whole
            bits[n] = whole[6 * at:6 * at + 6]
        line, first = line + octets, first + count
        same(state.sequence, as_number(whole), "the sender's bits")
        same(state.lost, 0 if 0 in inside.values() else before.lost, "the sender's lost frame")
        same(state.doubtful, start.doubtful, "the sender's count")
    for n, six in bits.items():
        same(six_of(line, n, start.sign), six, "control bits sent")
    return line, bits


def read_on_channel(draw, record, law, begin, line, choices):
    """({Frame: what is told when it has come}, marks, {frame: control bits}) of a receiver's list.

    Each state and what is told are held against the signs and marks alone.
    """
    found, state, first, told, all_marks = control_frames_of(begin, choices), begin, 0, {}, []
    so_far, lost, got = [begin.sequence >> n & 1 for n in range(96)], begin.lost, {}
    for channel, count in cases_frames.cut_by_choice(draw, choices):
        part = line[6 * first:6 * (first + count)]
        marks, _, state, heard_now = heard(record, law, state, part, channel)
        wanted = control.NOTHING
        for n in range(first, first + count):
            if n not in found:
                continue
            at, mark = found[n], marks[n - first]
            got[n] = [0] * 6 if mark else six_of(line, n, begin.sign)
            so_far = so_far[:6 * at] + got[n] + [0] * (90 - 6 * at)
            lost = int(mark > 0 or at > 0 and lost)
            if at == 15:
                told[n] = wanted = judged(so_far, lost)
        same(heard_now, wanted, "what a call tells")
        same((state.sequence, state.lost), (as_number(so_far), lost), "the receiver's bits")
        first, all_marks = first + count, all_marks + marks
        places = control_frames_of(begin, choices[:first])
        same(state.sequence_place, (begin.sequence_place + len(places)) % 16, "sequence place")
        same(state.frame_place, (begin.frame_place + sum(choices[:first])) % 64, "frame place")
    return told, all_marks, got


def channel_damage(draw, record, law, line, found):
    """(The line damaged in some way, frames altered): at control frames, before them, anywhere."""
    how, damaged = draw.below(5), bytearray(line)
    if how == 0 or not found:
        return hurt_frames(draw, record, law, line)
    n = draw.pick(sorted(found))
    if how == 1 and n:
        damaged[6 * n - 1] ^= 0x80
        return bytes(damaged), range(n - 1, n)
    if how == 2 and cases_frames.possible_marks(record):
        mark = draw.pick(cases_frames.possible_marks(record))
        damaged[6 * n:6 * n + 6] = cases_frames.a_frame(draw, record, law, mark)
        return bytes(damaged), range(n, n + 1)
    if how == 3:
        damaged[6 * n + draw.below(6)] ^= 0x80
        return bytes(damaged), range(n, n + 1)
    return line, range(0)


def sequence_in(found, end):
    """The control frames of the run that belong to the sequence which ends with a frame."""
    return [n for n in sorted(found) if n <= end][-16:] if found[end] == 15 else []


def channel_run(draw, record, law, start, choices):
    """What a run met: kinds of sequences that ended.

    Control bits of unaltered frames are as sent but for the first one after damage, or after a
    start in another state; a sequence in unaltered frames is heard, and told where that bit is
    wrong.
    """
    found = control_frames_of(start, choices)
    line, bits = sent_on_channel(draw, record, law, start, choices)
    line, hurt = channel_damage(draw, record, law, line, found)
    begin = draw.pick((start, start, elsewhere(draw, start)))
    told, marks, got = read_on_channel(draw, record, law, begin, line, choices)
    check(not any(mark and n not in hurt for n, mark in enumerate(marks)), "a good frame is marked")
    wrong = {}
    for n in found:
        differ = [i for i in range(6) if got[n][i] != bits[n][i]]
        after_damage = n - 1 in hurt or n == 0 and begin != start
        check(n in hurt or not differ or differ == [0] and after_damage, f"control bits {differ}")
        wrong[n] = differ
    met = set()
    for end, what in told.items():
        inside = sequence_in(found, end)
        whole = len(inside) == 16 or begin == start and start.lost == 0
        if not whole or any(n in hurt for n in inside):
            met.add("lost" if what.what == 2 else "other")
            continue
        sent_bits = [bit for n in inside for bit in bits[n]]
        if len(inside) < 16:
            known = [start.sequence >> n & 1 for n in range(96 - len(sent_bits))]
            sent_bits = known + sent_bits
        if any(wrong[n] for n in inside):
            check(what.what in (3, 4) or judged(sent_bits, 0).what != 1, "a wrong bit is not told")
            met.add(f"told {what.what} by one bit")
        else:
            same(what, judged(sent_bits, 0), "a sequence in unaltered frames")
            met.add("heard whole" if len(inside) == 16 and what.what == 1 else "heard")
    return met


def channel_runs():
    """Runs with the channel on and off, on a line that damages frames, and whole sequences."""
    draw, met = Draw(15), set()
    for n in range(700):
        record, law = a_record(draw, 1 + n % 28), draw.below(2)
        places = (draw.pick((0, 63, draw.between(52, 62))),
                  draw.pick((13, 14, 15, 15, a_sequence_place(draw))))
        start = cases_frames.at_places(draw, *places)
        met |= channel_run(draw, record, law, start._replace(lost=draw.below(4) == 0),
                           cases_frames.some_choices(draw, draw.between(2, 150)))
    for n in range(24):
        record, law = a_record(draw, 1 + n), draw.below(2)
        places = draw.pick((0, 0, 63, draw.below(64))), draw.pick((0, 0, 15))
        start = cases_frames.at_places(draw, *places)
        choices = [1] * 1030 if n % 2 else [1] * 500 + [0] * 3 + [1] * 600
        met |= channel_run(draw, record, law, start, choices)
    same(met, {"lost", "other", "heard", "heard whole", "told 3 by one bit", "told 4 by one bit"},
         "ends met")
    return "724 runs"


def like_states():
    """Bits to come, and 'lost' at sequence place 0, make no two receivers differ."""
    draw = Draw(16)
    for n in range(400):
        record, law, count = a_record(draw, 1 + n % 28), draw.below(2), draw.between(0, 70)
        state = cases_frames.at_places(draw, draw.pick((0, 63, 10)), a_sequence_place(draw))
        done = state.sequence_place
        to_come = draw.bits(96) >> 6 * done << 6 * done
        other = state._replace(sequence=state.sequence % 2 ** (6 * done) | to_come)
        other = other if done else other._replace(lost=draw.below(2))
        sending = other._replace(sequence=other.sequence if done == 0 else state.sequence)
        data = draw.octets(frames.data_bytes(record, count, 1, state.frame_place))
        number = a_number(draw)
        octets, _ = sent(record, law, count, state, data, 1, number)
        same(sent(record, law, count, sending, data, 1, number)[0], octets, "octets")
        line = cases_frames.damaged(draw, record, law, octets) if count else octets
        marks, bits, after, told = heard(record, law, state, line, 1)
        marks_too, bits_too, after_too, told_too = heard(record, law, other, line, 1)
        same((marks_too, bits_too, told_too), (marks, bits, told), "marks, bits and what is heard")
        same(after_too[:5], after[:5], "states but for the sequence")
        known = 2 ** (6 * after.sequence_place)
        same(after_too.sequence % known, after.sequence % known, "bits so far")
        check(after.sequence_place == 0 or after.lost == after_too.lost, "lost")
    return "400 pairs of states"


def passed_through():
    """Where the channel is off, the fields of the control channel change nothing and stay."""
    draw = Draw(17)
    for n in range(300):
        record, law, count = a_record(draw, 1 + n % 28), draw.below(2), draw.between(0, 8)
        state = a_state(draw)
        other = with_places(draw, state)
        data = draw.octets(frames.data_bytes(record, count))
        octets, after = sent(record, law, count, state, data, 0, a_number(draw))
        octets_too, after_too = sent(record, law, count, other, data, 0, a_number(draw))
        same((octets, after[:3]), (octets_too, after_too[:3]), "octets, history, sign and count")
        same((after[3:], after_too[3:]), (state[3:], other[3:]), "the sender's fields")
        if count:
            octets = cases_frames.damaged(draw, record, law, octets)
        *told, after = received(record, law, state, octets)
        *told_too, after_too = received(record, law, other, octets)
        same((told, after[:3]), (told_too, after_too[:3]), "marks, bits, history, sign and count")
        same((after[3:], after_too[3:]), (state[3:], other[3:]), "the receiver's fields")
    return "300 pairs of states"


def stored_channel():
    """Places, choices, lost frames and ends of sequences that the stored cases must have."""
    places, declined, ends, steps_met, lengths = set(), set(), set(), set(), set()
    for case, answer in stored_cases():
        kind, args = forms.arguments(case)
        if kind not in (forms.SEND, forms.RECEIVE):
            continue
        record, law, count, state, channel = args[:5]
        if answer[0] == 19:
            declined.add((kind, min(count, 1), channel, state.frame_place > 63,
                          state.sequence_place > 15))
        if answer[0] or not channel:
            continue
        found = control_frames_of(state, [1] * count)
        places |= {(kind, "frame", state.frame_place)} if count else set()
        places |= {(kind, "sequence", state.sequence_place)} if count and found else set()
        lengths.add((kind, count, len(found)))
        if kind == forms.RECEIVE:
            _, after, told, _, marks = forms.outcome(case)
            ends.add((told.what, count == 1))
            if count == 1 and found:
                steps_met.add((state.sequence_place, state.lost, marks[0] > 0))
    both = (forms.SEND, forms.RECEIVE)
    check({(kind, "frame", n) for kind in both for n in range(64)} <= places, "frame places")
    check({(kind, "sequence", n) for kind in both for n in range(16)} <= places, "sequence places")
    over = ((True, True), (True, False), (False, True))
    same(declined, {(*three, *two) for three in product(both, (0, 1), (0, 1)) for two in over},
         "19 with frames and without, off and on, by either place")
    check({(what, True) for what in range(5)} | {(1, False), (2, False)} <= ends, "ends")
    check(set(product(range(16), (0, 1), (True, False))) <= steps_met, "lost frames")
    check({(kind, 1024, 16) for kind in both} <= lengths, "calls of 1,024 frames")
    return f"{len(places)} places, {len(declined)} kinds of 19, {len(steps_met)} of lost frames"


# CP and E_s (A.3)

def opening(record, law, state, lent):
    """(Octets, state left) of a call of send_cp that is not declined; what lies beyond stays."""
    refusal, count, after, octets = starts.send_cp(record, law, state, lent)
    same((refusal, len(octets)), (None, len(lent)), "refusal of send_cp")
    same(octets[count:], lent[count:], "octets beyond")
    return octets[:count], after


def found_from(octets, state):
    """The state found, in a call that is not declined."""
    refusal, after = starts.find_state(octets, state)
    same(refusal, None, "refusal of find_state")
    return after


def line_of(state, octets):
    """Scrambled bits, the first in time first: the 23 of a state, then those of octets."""
    signs = [state.sign, *(octet >> 7 for octet in octets)]
    before = [state.history >> n & 1 for n in range(22, -1, -1)]
    return before + [sign ^ last for last, sign in zip(signs, signs[1:])]


def start_values():
    """CP and E_s of the example: the first octets by hand, the last ones, and the state left.

    The scrambled bits 0 to 16 are 1, for the sync is; those of bits 17 to 23 are 0 1 0 0 1 1 0.
    """
    octets, left = opening(EXAMPLE, MU, FRESH, bytes(306))
    same(octets[:24].hex(), "bd3d" * 8 + "bdbd3d3d3dbd3d3d", "the first octets")
    same(opening(EXAMPLE, A, FRESH, bytes(306))[0][:4].hex(), "97179717", "those of A-law")
    same(octets[-24:].hex(" ", -6), "3dbd3dbdbdbd 3d3dbdbdbdbd 3dbd3dbdbd3d 3d3dbdbdbd3d",
         "the last octets")
    same((left, found_from(octets, FRESH)), (State(0b11100101000111101001001, 0, 0),) * 2,
         "the state left and found")
    same(found_from(bytes(23) + b"\x80", COLD), State(1, 1, 24), "the latest bit alone")
    same(found_from(b"\x80" + bytes(23), State(5, 1, 3, 9, 2, 7, 1)),
         State(2**22, 0, 3, 9, 2, 7, 1), "the oldest bit alone")
    same(found_from(b"\x00" + b"\xff" * 24, FRESH), State(0, 1, 0), "no change of sign")
    same([starts.octet_count(make(0, 0, 0, [g] * 6, [])) for g in range(6)],
         [306, 438, 576, 714, 846, 984], "lengths")
    return "octets, states, lengths"


def start_undone():
    """Signs undone and descrambled give the CP back and twelve zeros, from any state."""
    draw = Draw(18)
    for n in range(600):
        record, law = a_record(draw, n % 29, granted=n % 29 == 28 and draw.below(2)), draw.below(2)
        state, count = draw.pick((FRESH, a_state(draw))), cases_cp.length_of(record)
        octets, left = opening(record, law, state, draw.octets(count + 12 + draw.below(4)))
        same(len(octets), count + 12, "octets of CP and E_s")
        same({ucode_of(law, octet) for octet in octets}, {66}, "Ucodes")
        line = line_of(state, octets)
        bits = [line[at] ^ line[at - 18] ^ line[at - 23] for at in range(23, len(line))]
        same(bits[count:], [0] * 12, "E_s")
        sequence = as_number(bits[:count]).to_bytes((count + 7) // 8, "little")
        same(sequence, cases_cp.plain(record), "CP")
        same(cp.read_cp(sequence, count), (None, record), "the record")
        same(left, state._replace(history=as_number(line[:-24:-1]), sign=octets[-1] >> 7),
             "the state left")
    return "600 records"


def start_found():
    """The state left is the one found; the signs of the last 24 octets alone decide it."""
    draw = Draw(19)
    for n in range(300):
        record, law = a_record(draw, n % 29), draw.below(2)
        state, other = draw.pick((FRESH, a_state(draw))), a_state(draw)
        octets, left = opening(record, law, state, bytes(984))
        same(found_from(octets, state), left, "the state found")
        wanted = other._replace(history=left.history, sign=left.sign)
        same(found_from(octets, other), wanted, "the state found from another")
        before = draw.octets(draw.pick((0, 1, 300, draw.below(50))))
        signs = bytes(octet & 0x80 | draw.below(128) for octet in octets[-24:])
        same(found_from(before + signs, other), wanted, "the state found from the signs")
        beyond = cases_frames.faulty_state(draw, {14, 18, 19}, other)
        same(found_from(octets, beyond),
             beyond._replace(history=left.history, sign=left.sign), "a state out of bounds")
        place = draw.below(24)
        turned = signs[:place] + bytes([signs[place] ^ 0x80]) + signs[place + 1:]
        check(found_from(turned, other)[:2] != wanted[:2], "a sign that does not matter")
    states = {found_from(bytes(0x80 * (n >> i & 1) for i in range(24)), FRESH)[:2]
              for n in range(0, 2**24, 997)}
    same(len(states), len(range(0, 2**24, 997)), "a state for each 24 signs")
    return "300 records, 16829 lots of 24 signs"


def carried(draw, octets, state):
    """The state found where any octets or none come before the last 24 of CP and E_s.

    It is found from a state of any history and sign with the same frame and sequence place.
    """
    before = draw.pick((octets[:-24], b"", draw.octets(draw.below(400))))
    return found_from(before + octets[-24:], elsewhere(draw, state)._replace(doubtful=0))


def start_to_data():
    """A receiver that begins in the state found hands over all bits as sent, from the first on.

    The sender goes on from the state that CP and E_s leave, one CP after another at times.
    """
    draw, amiss = Draw(20), 0
    for n in range(400):
        record, law, (state, choices) = a_record(draw, 1 + n % 28), draw.below(2), a_start(draw)
        octets = b""
        for _ in range(draw.between(1, 2)):
            sent_now, state = opening(a_record(draw, draw.below(29)), law, state, bytes(984))
            octets += sent_now
        message, line = sender_list(draw, record, law, state, choices)
        begin = carried(draw, octets, state)
        same(begin[:2], state[:2], "history and sign at both ends")
        handed, marks, counts = receiver_list(draw, record, law, begin, line, choices)
        same((handed, set(marks)), (message, {0}), "bits and marks")
        same(set(counts.values()), {0}, "counts")
        fresh = FRESH._replace(frame_place=state.frame_place, sequence_place=state.sequence_place)
        amiss += receiver_list(draw, record, law, fresh, line, choices)[0] != message
    check(amiss > 380, "a receiver that begins fresh has all bits right")
    return f"400 runs, {amiss} of them amiss from the zero state"


def start_refusals():
    """send_cp declines as the writer, then with 14, 18, 19 and 17; find_state with 16 alone."""
    draw = Draw(21)
    for _ in range(400):
        faulty = faulty_record(draw, {draw.pick((4, 9, 10, 25, 11, 12))})
        record = draw.pick((faulty, a_sparse_record(draw), a_record(draw, 0)))
        wanted = cp.write_cp(record, bytes(5000))[0]
        same(starts.send_cp(record, draw.below(2), FRESH, bytes(40000))[0], wanted, "as the writer")
        faults = [number for number in (14, 18, 19, 17) if draw.below(2)]
        state = cases_frames.faulty_state(draw, faults)
        needed = starts.octet_count(record)
        lent = draw.octets(min(draw.below(needed), 2000) if 17 in faults else needed)
        refusal, *left = starts.send_cp(record, draw.below(2), state, lent)
        first = wanted or next(map(Refusal, faults), None)
        same(refusal, first, f"with {faults}")
        check(not refusal or left == [0, state, lent], "what a refusal leaves")
        count = draw.below(48)
        refusal, after = starts.find_state(draw.octets(count), state)
        same(refusal, Refusal(16) if count < 24 else None, f"find_state with {count} octets")
        same(after if refusal else after[2:], state if refusal else state[2:], "fields that stay")
    return "400 records and states"


def sent_in_stored():
    """Lengths, laws, states, records and buffers that the stored cases of send_cp must have."""
    lengths, rates, fields, rooms = set(), set(), set(), set()
    for case, answer in stored_cases():
        kind, args = forms.arguments(case)
        if kind != forms.SEND_CP or answer[0] not in (0, 17):
            continue
        record, law, state, lent = args
        g = max(record.indices)
        rooms.add((g, len(lent) - starts.octet_count(record) if lent else "none"))
        if not answer[0]:
            lengths.add((g, law, state == FRESH))
            rates.add((record.drn, record.acknowledge))
            fields |= set(zip(state._fields, state))
    check(set(product(range(6), (MU, A), (True, False))) <= lengths, "lengths, laws and states")
    same({drn for drn, _ in rates}, set(range(29)), "rates")
    check({(0, 1), (1, 1), (28, 0)} <= rates, "acknowledge")
    check({("history", n) for n in (0, 2**23 - 1, *(1 << bit for bit in range(23)))}
          | {("sign", n) for n in (0, 1)} | {("doubtful", n) for n in range(25)}
          | {("frame_place", n) for n in (0, 63)} | {("sequence_place", n) for n in (0, 15)}
          | {("lost", n) for n in (0, 1)} <= fields, "states")
    check(set(product(range(6), (-12, -1, 0, 1, 24, "none"))) <= rooms, "buffers")


def found_in_stored():
    """Octets and states that the stored cases of find_state must have."""
    lengths, bits, beyond, ucodes, handed_on = set(), set(), set(), set(), 0
    written = set()
    for case, answer in stored_cases():
        if case[0] == forms.SEND_CP and not answer[0]:
            _, count, _, octets = forms.outcome(case)
            written.add(octets[count - 24:count])
    for case, answer in stored_cases():
        kind, args = forms.arguments(case)
        if kind != forms.FIND_STATE:
            continue
        octets, state = args
        lengths.add(min(len(octets), 60))
        beyond.add((answer[0], *(refusal.number for refusal in frames.state_faults(state))))
        handed_on += octets[-24:] in written
        if not answer[0]:
            after = forms.outcome(case)[1]
            bits.add((after.history, after.sign))
            ucodes |= {(law, {ucode_of(law, octet) for octet in octets[-24:]} == {66})
                       for law in (MU, A)}
    check({0, 1, 2, 22, 23, 24, 25, 26, 48, 60} <= lengths, "octets lent")
    check(set(product((0, *(1 << n for n in range(23))), (0, 1))) <= bits, "each bit alone")
    faults = [(), (14,), (18,), (19,), (14, 18), (14, 19), (18, 19), (14, 18, 19)]
    check({(number, *some) for number in (0, 16) for some in faults} <= beyond, "states")
    same(ucodes, set(product((MU, A), (True, False))), "octets of Ucode 66 and others")
    check(handed_on >= 10, "octets that send_cp wrote")


def stored_starts():
    """What the stored cases of send_cp and find_state must have."""
    sent_in_stored()
    found_in_stored()
    chain = [forms.arguments(case)[1][2] for case, _ in stored_cases() if case[0] == forms.SEND_CP]
    left = [forms.outcome(case)[2] for case, answer in stored_cases()
            if case[0] == forms.SEND_CP and not answer[0]]
    after = sum(state in left and state != FRESH for state in chain)
    check(after >= 10, "CP after CP")
    return f"{len(chain)} of send_cp, {after} of them after another CP"


# The default DIL (A.12)

# DIL-segments of 6, 12 and 6 symbols whose reference symbols are 9, 20 and 127. The bits of SP are
# 0 1 1 0 0 and those of TP 1 0 1 1, the first one first.
SHORT_PATTERNS = dil.Parameters(n=3, lsp=5, ltp=4, sp=0b00110, tp=0b1101,
                                h=(0, 1, 2, 2, 2, 2, 2, 0), ref=(9, 20, 1, 1, 1, 1, 1, 127),
                                symbols=(3, 31, 112))

# DIL-segments of 6 and 12 symbols whose reference symbols are 3 and 20: the example in theorems. The
# bits of SP are 1 1 0 0 0 and those of TP 1 0 1 1.
TWO_SEGMENTS = dil.Parameters(n=2, lsp=5, ltp=4, sp=0b00011, tp=0b1101, h=(0, 1), ref=(3, 20),
                              symbols=(5, 17))

# DIL-segments of 12 and 6 symbols whose reference symbols are 127 and 64. SP is longer than both:
# 1 0 1, then 124 zeros and a 1; TP is 0 1 1 1 1 1 1, longer than the second.
LONG_PATTERNS = dil.Parameters(n=2, lsp=128, ltp=7, sp=2**127 + 0b101, tp=0b1111110,
                               h=(1, 0, 2, 2, 2, 2, 2, 2), ref=(127, 64, 1, 1, 1, 1, 1, 1),
                               symbols=(0, 16))


def other_dils():
    """V.90 8.4.1 with other parameters than those of Table 5, by hand."""
    same([dil.uchord_of(ucode) for ucode in (0, 15, 16, 31, 32, 111, 112, 127)],
         [1, 1, 2, 2, 3, 7, 8, 8], "Uchords")
    for law, parameters, wanted in (
            (MU, SHORT_PATTERNS, "7cf6fc7c7c76 60ebe060606b e0e0606b60e0 0f808f0f0f00"),
            (A, SHORT_PATTERNS, "56dcd656565c 4ac1ca4a4a41 caca4a414aca 25aaa525252a"),
            (MU, TWO_SEGMENTS, "fafc7a7a7afc eeeb6e6e6eeb ee6e6e6beeee"),
            (MU, LONG_PATTERNS, "807fff7f7f7f 7f007f7f7f7f bf6fef6f6f6f"),
            (A, LONG_PATTERNS, "aa55d5555555 552a55555555 9545c5454545")):
        octets = dil.octets_of(law, parameters)
        same(octets.hex(" ", -6), wanted, f"octets of law {law} for {parameters}")
        same(dil.length(parameters), len(octets), f"length for {parameters}")
    same(dil.octets_of(A, SHORT_PATTERNS._replace(n=0)), b"", "N = 0")
    longest = SHORT_PATTERNS._replace(n=255, h=(255,) * 8, symbols=(127,) * 255)
    same(dil.length(longest), 255 * 1536, "the longest DIL")
    return "6 by hand, the longest"


def first_and_last():
    """The first two DIL-segments and the last by hand: Ucodes 124, 0 and 62."""
    for law, first, last in ((MU, "03" * 6 + "83" * 6 + "7f" * 6 + "ff" * 6, "41" * 6 + "c1" * 6),
                             (A, "29" * 6 + "a9" * 6 + "55" * 6 + "d5" * 6, "6b" * 6 + "eb" * 6)):
        octets = dil.send_dil(law, bytes(1500))[1]
        same((octets[:24].hex(), octets[-12:].hex()), (first, last), "first and last DIL-segments")


def each_segment():
    """A DIL-segment is six negative octets and six positive ones, all of its training symbol."""
    for law in (MU, A):
        octets = dil.send_dil(law, bytes(1500))[1]
        for n, symbol in enumerate(dil.TABLE_5.symbols):
            segment = octets[12 * n:12 * n + 12]
            same([octet >> 7 for octet in segment], [0] * 6 + [1] * 6, f"signs of segment {n}")
            same({ucode_of(law, octet) for octet in segment}, {symbol}, f"Ucodes of segment {n}")


def dil_buffers():
    """17 below 1,500 bytes and nothing changed; else what lies beyond 1,500 stays."""
    draw = Draw(7)
    for law in (MU, A):
        for room in (0, 1, 12, 1488, 1499):
            before = draw.octets(room)
            same(dil.send_dil(law, before), (Refusal(17), before), f"DIL in {room} bytes")
        for spare in (0, 1, 12, 1500):
            before = draw.octets(1500 + spare)
            wanted = dil.octets_of(law, dil.TABLE_5) + before[1500:]
            same(dil.send_dil(law, before), (None, wanted), f"DIL with {spare} bytes to spare")


def default_dil():
    """Table 5, the octets that it makes, the generator, and refusal 17."""
    symbols = list(dil.TABLE_5.symbols)
    same((len(symbols), dil.TABLE_5.n, dil.length(dil.TABLE_5)), (125, 125, 1500), "lengths")
    same([dil.symbol_at(place) for place in range(125)], symbols, "training symbols generated")
    same(sorted(symbols), list(range(125)), "Ucodes 0 to 124, each once")
    first_and_last()
    each_segment()
    dil_buffers()
    return "125 segments in each law, 18 buffers"


# Masks for a wanted rate (A.10)

MOST = plan.MOST_CEILING

# Values that rise, with 0 and without it, near each other and apart.
SHORT_LISTS = (LINEAR[MU][:12], LINEAR[A][:12], LINEAR[MU][26:38], LINEAR[A][116:],
               LINEAR[MU][::11], LINEAR[A][5::11], (0, 1, 2, 3, 5, 8, 13, 21, 34, 55, 89, 144))


def plan_sizes():
    """M of each K: the least number with M^6 at least 2^K, by halving."""
    for k in range(61):
        wanted = bisect_left(range(2000), 2**k, key=lambda m: m**6)
        same(plan.points_wanted(k), wanted, f"M for K = {k}")
    same([plan.points_wanted(k) for k in (14, 15, 16, 17, 18, 19, 24, 36, 41, 42, 43)],
         [6, 6, 7, 8, 8, 9, 16, 64, 115, 128, 144], "M by hand")
    return "K = 0 to 60"


def chosen(values, mask):
    """The values that a mask has, rising."""
    return [value for u, value in enumerate(values) if mask >> u & 1]


def smallest_gap(points):
    """The largest spacing that points keep: of the two signs of the smallest, and of neighbours."""
    return min([2 * points[0], *(high - low for low, high in zip(points, points[1:]))])


def sum_of(points):
    """The sum of squares."""
    return sum(value**2 for value in points)


def every_mask(values):
    """(Smallest gap, number of points, sum, mask) of each mask that is not empty."""
    made = []
    for mask in range(1, 1 << len(values)):
        points = chosen(values, mask)
        made.append((smallest_gap(points), len(points), sum_of(points), mask))
    return made


def some_spacings(draw, gaps):
    """Spacings: those about each gap that some mask has, and others."""
    edges = {gap + more for gap in gaps for more in (-1, 0, 1)}
    near = [draw.between(1, max(edges)) for _ in range(20)]
    return sorted(spacing for spacing in {1, 2, 65535, *edges, *near} if spacing >= 1)


def least_by_trying(masks, spacing):
    """For each number of points the least sum and its mask, of all masks that keep the spacing."""
    found = {}
    for gap, size, total, mask in masks:
        if gap >= spacing:
            found.setdefault(size, []).append((total, mask))
    for size, those in found.items():
        those.sort()
        check([total for total, _ in those].count(those[0][0]) == 1, "two masks of least sum")
        found[size] = those[0]
    return found


def plan_least():
    """The table's answer is the least of all masks of 12 Ucodes, and the only such mask."""
    draw, tried = Draw(8), 0
    for values in SHORT_LISTS:
        masks = every_mask(values)
        for spacing in some_spacings(draw, {gap for gap, *_ in masks}):
            found = least_by_trying(masks, spacing)
            for points in range(1, 14):
                same(plan.least(values, spacing, points), found.get(points),
                     f"{points} points of {values} with spacing {spacing}")
                tried += 1
    return f"{len(SHORT_LISTS)} lists of 12 values, {tried} searches"


def lowest_first(values, spacing, points):
    """The lowest Ucode that keeps the spacing, again and again: least point by point."""
    mask, floor = 0, spacing / 2
    for u, value in enumerate(values):
        if value >= floor and mask.bit_count() < points:
            mask |= 1 << u
            floor = value + spacing
    return (sum_of(chosen(values, mask)), mask) if mask.bit_count() == points else None


def a_mask_that_keeps(draw, values, spacing, points):
    """A mask that keeps the spacing, with Ucodes left out at random; None where it has too few."""
    mask, floor, left_out = 0, spacing / 2, draw.pick((0, 1, 2, 4))
    for u, value in enumerate(values):
        if value >= floor and mask.bit_count() < points and draw.below(16) >= left_out:
            mask |= 1 << u
            floor = value + spacing
    return mask if mask.bit_count() == points else None


def a_spacing(draw, k, law):
    """A spacing: mostly one that a mask can keep, and about the largest such."""
    largest = plan.largest_spacing(k, law, MOST)
    return draw.pick((draw.between(1, max(largest, 1)), draw.between(1, max(largest, 1)),
                      max(largest, 1), largest + 1, draw.between(1, 65535)))


def plan_answers():
    """Answers are as asked for, no mask drawn has a smaller sum, and ceilings at the edge."""
    draw, given, drawn = Draw(9), 0, 0
    for n in range(700):
        k, law = 15 + n % 28, draw.below(2)
        spacing, points, values = a_spacing(draw, k, law), plan.points_wanted(k), LINEAR[law]
        what = f"K = {k}, law {law}, spacing {spacing}"
        refusal, size, total, mask = plan.plan(k, law, spacing, MOST)
        same(plan.least_in(law, spacing, points), lowest_first(values, spacing, points), what)
        if refusal:
            same((refusal, size, total, mask), (Refusal(27), 0, 0, 0), what)
            continue
        given += 1
        same((size, mask.bit_count(), mask >> 128), (points, points, 0), f"points, {what}")
        same(total, sum_of(chosen(values, mask)), f"sum, {what}")
        check(smallest_gap(chosen(values, mask)) >= spacing, f"spacing not kept, {what}")
        others = [a_mask_that_keeps(draw, values, spacing, points) for _ in range(4)]
        for other in filter(None, others):
            check(sum_of(chosen(values, other)) >= total, f"a smaller sum, {what}")
            drawn += other != mask
        for ceiling in (total, total + 1, draw.between(total, MOST)):
            same(plan.plan(k, law, spacing, ceiling), (None, size, total, mask), what)
        for ceiling in (0, total - 1, draw.below(total)):
            same(plan.plan(k, law, spacing, ceiling), (Refusal(28), 0, 0, 0), what)
    check(drawn > 300, f"masks drawn: {drawn}")
    return f"700 calls, {given} with a mask, {drawn} other masks"


def plan_ranges():
    """Refusal 26, its place before the others, and mu-law at K = 42."""
    for law in (MU, A):
        for k in (0, 1, 14, 43, 255, 2**32 - 1, 10**18 - 1):
            for spacing in (0, 1, 100, 65535, 65536, 2**32 - 1):
                same(plan.plan(k, law, spacing, MOST), (Refusal(26), 0, 0, 0), f"K = {k}")
        for k in plan.RATES:
            for spacing in (0, 65536, 65537, 2**32 - 1, 2**32 + 1, 10**18 - 1):
                same(plan.plan(k, law, spacing, MOST), (Refusal(26), 0, 0, 0), f"{spacing}")
            same(plan.plan(k, law, 65535, MOST), (Refusal(27), 0, 0, 0), "spacing 65535")
        same([fault.number for fault in plan.faults(43, law, 1, 0)], [26, 27], "K = 43")
        same([fault.number for fault in plan.faults(15, law, 65536, 0)], [26, 27], "65536")
        same([fault.number for fault in plan.faults(14, law, 1, 0)], [26, 28], "K = 14")
    for spacing in (*range(1, 40), 100, 600, 4096, 65535):
        same(plan.plan(42, MU, spacing, MOST)[0], Refusal(27), "mu-law at K = 42")
        whole = (None, 128, sum_of(LINEAR[A]), FULL_MASK)
        wanted = whole if spacing <= 16 else (Refusal(27), 0, 0, 0)
        same(plan.plan(42, A, spacing, MOST), wanted, "A-law at K = 42")
    return "K and spacings about their ranges, K = 42"


def plan_largest():
    """Up to the largest spacing none is refused, above it each one; 0 where there is none."""
    draw, ceilings = Draw(10), 0
    for k, law in product(range(14, 44), (MU, A)):
        for ceiling in (MOST, 10 ** draw.between(3, 11), draw.below(2**34)):
            largest = plan.largest_spacing(k, law, ceiling)
            good = {1, largest, draw.between(1, max(largest, 1))} if largest else set()
            for spacing in (*good, largest + 1, draw.between(largest + 1, 65535), 65535):
                refused = plan.plan(k, law, spacing, ceiling)[0] is not None
                same(refused, spacing > largest, f"K = {k}, law {law}, {spacing}, {ceiling}")
            ceilings += 1
    same([plan.largest_spacing(*case, MOST) for case in product((14, 15, 18, 42, 43), (MU, A))],
         [0, 0, 5496, 5568, 4096, 4096, 0, 16, 0, 0], "largest spacings by hand")
    return f"{ceilings} ceilings"


def stored_plans():
    """The stored lines have each K in each law, and each refusal that it can have."""
    found = {}
    for line in stored_text("vectors_plan/stdout").splitlines():
        k, law, *rest = line.split(" ")
        if rest[0] != "largest":
            found.setdefault((int(k), law), set()).add(int(rest[2]))
    wanted = {(k, law): {0, 26, 27, 28} for k, law in product(plan.RATES, ("mu", "a"))}
    wanted |= {(k, law): {26} for k, law in product((14, 43), ("mu", "a"))}
    wanted[42, "mu"] = {26, 27}
    same(found, wanted, "refusals of each K and law")
    return f"{len(found)} of K and law"


# One flipped sign (A.13)

TAPS = (0, 18, 23)


def sign_bits_of(k, interval):
    """The places of the bits that a sign is in: its own, and that of the sign after it.

    After interval 5 that is the first bit of the next frame.
    """
    return interval, interval + 1 if interval < 5 else k + 6


def places_named(bits, taps=TAPS):
    """The data bits in which scrambled bits are: 0, 18 and 23 places after each of them."""
    return [bit + tap for bit in bits for tap in taps]


def without_twins(places):
    """The places, in order, but for those that are named twice: they do not change."""
    return sorted(place for place in places if places.count(place) == 1)


def frames_after(k, interval):
    """How many frames after the one that is hit have a changed place, by hand."""
    return max(places_named(sign_bits_of(k, interval))) // (k + 6)


def flip_costs():
    """At each K and interval the places by hand, as many as A.13 says; the Ucode is not flipped."""
    for k, interval in product(plan.RATES, range(6)):
        places = flip.changed_places(k, interval)
        same(places, without_twins(places_named(sign_bits_of(k, interval))),
             f"K = {k}, interval {interval}")
        same(len(places), 4 if interval == 5 and k in (17, 22) else 6, "their number")
    wanted = {(15, 0): [0, 1, 18, 19, 23, 24], (42, 4): [4, 5, 22, 23, 27, 28],
              (15, 5): [5, 21, 23, 28, 39, 44], (17, 5): [5, 28, 41, 46],
              (22, 5): [5, 23, 46, 51], (42, 5): [5, 23, 28, 48, 66, 71]}
    same({pair: flip.changed_places(*pair) for pair in wanted}, wanted, "examples")
    same(flip.flipped(bytes(range(12)), 1, 2), bytes((0, 1, 2, 3, 4, 5, 6, 7, 0x88, 9, 10, 11)),
         "an octet flipped")
    for law, sign, ucode in product((MU, A), (0, 1), range(128)):
        same(flip.flipped(bytes([octet_of(law, sign, ucode)]), 0, 0),
             bytes([octet_of(law, 1 - sign, ucode)]), "the other sign")
    return "28 K, 6 intervals"


def changed_between(record, frame, bits, others):
    """The places at which two lots of data bits differ, counted from the first bit of a frame."""
    first = frame * frames.frame_bits(record)
    return [n - first for n, (bit, other) in enumerate(zip(bits, others)) if bit != other]


def flip_runs():
    """From any state, in any calls, whatever damage is before and after: no mark, those places.

    The frames from the one that is hit to the last with a changed place are good, and others of
    the line are damaged in part. The two receivers have calls of their own.
    """
    draw, met = Draw(22), set()
    for n in range(1680):
        k, interval = 15 + n % 28, n // 28 % 6
        record, law, needed = a_record(draw, k - 14), draw.below(2), frames_after(k, interval)
        frame, state = draw.below(6), a_state(draw)
        choices = [0] * (frame + needed + 1 + draw.below(4))
        line = sender_list(draw, record, law, state, choices)[1]
        line = cases_flip.with_damage(draw, record, law, line, [
            *range(frame), *range(frame + needed + 1, len(choices))])
        begin = draw.pick((state, a_state(draw)))
        bits, marks, counts = receiver_list(draw, record, law, begin, line, choices)
        others, other_marks, other_counts = receiver_list(
            draw, record, law, begin, flip.flipped(line, frame, interval), choices)
        same((len(others), other_marks), (len(bits), marks), "marks")
        check(all(counts[read] == other_counts.get(read, counts[read]) for read in counts),
              "counts of doubtful bits")
        same(changed_between(record, frame, bits, others), flip.changed_places(k, interval),
             f"K = {k}, interval {interval}")
        past = [mark > 0 for mark in marks[frame + needed + 1:]]
        met |= {("before", mark) for mark in marks[:frame][-1:]} | {(needed, *past[:2])}
    check({("before", mark) for mark in range(8)} <= met, "marks of the frame before")
    check({(needed, *past) for needed in range(3) for past in ((), (True,), (True, True), (False,),
                                                               (True, False), (False, True))}
          <= met, "frames past those needed")
    return "1680 runs"


def changed_with(record, law, state, line, interval):
    """The places that change where the first frame of a line is hit; no mark does."""
    marks, bits, _ = received(record, law, state, line)
    other_marks, others, _ = received(record, law, state, flip.flipped(line, 0, interval))
    same(other_marks, marks, "marks")
    return [n for n in range((bits ^ others).bit_length()) if (bits ^ others) >> n & 1]


def flip_needs():
    """Two frames after the one that is hit are enough, and each with a changed place is needed.

    Where one of them is marked or not read, the places before it are all that change. Where the hit
    frame is marked, those of the next frame's first bit alone change, after interval 5.
    """
    draw, most = Draw(23), {}
    for k, interval in product(plan.RATES, range(6)):
        record, law, state = a_record(draw, k - 14), draw.below(2), a_state(draw)
        places, needed = flip.changed_places(k, interval), frames_after(k, interval)
        same(cases_flip.frames_needed(k, interval), needed, "frames needed")
        most.setdefault(needed, set()).add((k, interval))
        line = cases_flip.good_frames(draw, record, law, a_state(draw), 5)
        same(changed_with(record, law, state, line, interval), places, "four frames after")
        for n in range(5):
            before = [place for place in places if place < n * (k + 6)]
            same(before == places, n > needed, f"frame {n} not needed")
            same(changed_with(record, law, state, line[:6 * n], interval) if n else [], before,
                 f"frame {n} not read")
            if k < 42:
                frame = altered(draw, record, law, line[6 * n:6 * n + 6])
                hurt = cases_flip.with_frame(line, n, frame)
                of_next = places_named([k + 6]) if interval == 5 else []
                same(changed_with(record, law, state, hurt, interval), before if n else of_next,
                     f"frame {n} marked")
    same(sorted(most), [0, 1, 2], "frames needed")
    same(most[2], {(15, 5), (16, 5), (17, 5)}, "two frames needed")
    return "marked or not read: each of four frames after"


def premises_of(marks, frame, needed):
    """In what way a line meets the premises: 'good', or what is amiss first."""
    if marks[frame]:
        return "hit frame marked"
    for n in range(1, needed + 1):
        if frame + n == len(marks):
            return f"frame {n} after not read"
        if marks[frame + n]:
            return f"frame {n} after marked"
    return "good"


def stored_flip(case, answer):
    """(K, interval, law, premises, frames before it are marked, refusal) of a stored case.

    Its answer is the model's, and keeps its bounds.
    """
    record, law, _, frame, interval, octets = forms.arguments(case)[1]
    k, count = k_of(record), len(octets) // 6
    check(len(case) <= 1400 and len(octets) == 6 * count, "octets of a case")
    check(frame < count and interval < 6 and k in plan.RATES, "numbers of a case")
    same(forms.answer(case).hex(), answer.hex(), f"answer to {case.hex()}")
    places = flip.changed_places(k, interval)
    same(answer[46 + 14 * count:], bytes([len(places), *places]), "the end of an answer")
    (refusal, state, _, bits, marks), other = forms.outcome(case)
    same([refusal], (forms.held(case) or [None])[:1], "refusal")
    if refusal:
        _, _, _, given, _, _, *lent = forms.reading(*forms.arguments(case)[1][:3], octets)
        same([state, bits, marks], [given, *lent], "what a refusal leaves")
        same(other, (refusal, state, control.NOTHING, bits, marks), "the second reading")
        return k, interval, law, "refused", False, refusal.number
    same((other[0], other[4]), (None, marks), "marks")
    width = count * frames.frame_bits(record)
    found = changed_between(record, frame, bits_in(bits, width), bits_in(other[3], width))
    premises = premises_of(marks, frame, frames_after(k, interval))
    check((found == places) == (premises == "good"), f"places that change, {premises}")
    return k, interval, law, premises, any(marks[:frame]), 0


def stored_flips():
    """What the stored cases of one flipped sign must have."""
    both = stored_pairs("vectors_flip")
    found = [stored_flip(case, answer) for case, answer in both]
    check(250 <= len(found) <= 400, "lines of vectors_flip")
    good = [one for one in found if one[3] == "good"]
    same({one[:2] for one in good}, set(product(plan.RATES, range(6))), "each K and interval")
    same({(k, law) for k, _, law, *_ in good}, set(product(plan.RATES, (MU, A))), "each K and law")
    check(sum(one[4] for one in good) >= 50, "marked frames before")
    amiss = {(k, interval, premises) for k, interval, _, premises, _, _ in found}
    check(set(product((15, 16, 17), [5], ("frame 1 after marked", "frame 2 after marked",
                                          "frame 1 after not read", "frame 2 after not read")))
          <= amiss, "frames needed at K = 15, 16 and 17")
    check(set(product(range(6), ("hit frame marked",)))
          | set(product(range(2, 6), ("frame 1 after marked", "frame 1 after not read")))
          <= {one[1:] for one in amiss}, "intervals with a premise amiss")
    same({one[5] for one in found}, {0, 4, 10, 25, 11, 12, 14, 18, 19}, "refusals")
    states = [forms.arguments(case)[1][2] for case, _ in both]
    check({FRESH, COLD} <= set(states), "states")
    check(sum(state.doubtful > 0 for state in states) >= 50, "counts in states")
    check(sum(any(state[3:]) for state in states) >= 50, "fields of the channel in states")
    check({max(forms.arguments(case)[1][0].indices) for case, _ in both} >= set(range(6)), "masks")
    frames_hit = {forms.arguments(case)[1][3] for case, _ in both}
    check({*range(6), 100, 209} <= frames_hit, "frames that are hit")
    return f"{len(found)} cases, {len(good)} of them with good frames"


# Junction settings (A.7 and A.9)

# A file of junction 5 alone with the record of the examples.
ONE_SETTING = bytes.fromhex("05000025ffff1900000000000000000000000000007e000000000000000000000000"
                            "00000000e0d000000001000001")

# The same in version 2.
ONE_SETTING_2 = ONE_SETTING[:41] + bytes.fromhex("00000000" "0100" "00000000" "02")


def settings_put(file, junction, record):
    """The file after a put that is not declined; at most 293 bytes are added to one."""
    refusal, size, out = settings.put(file, junction, record, bytes(len(file) + 293))
    same(refusal, None, "refusal of put")
    return out[:size]


def gone_back(file, junction):
    """The file after a going back that is not declined."""
    refusal, size, out = settings.go_back(file, junction, bytes(len(file)))
    same((refusal, size), (None, len(file)), "going back")
    return out


def shown(file, junction):
    """The record of a look-up that is not declined."""
    refusal, record = settings.look_up(file, junction)
    same(refusal, None, "refusal of look_up")
    return record


def settings_values():
    """Files made by hand, and the lengths of the longest ones."""
    same(settings.EMPTY_FILE, bytes.fromhex("00000001"), "a file without entries")
    same(settings.write([]), settings.EMPTY_FILE, "no junctions written")
    same(settings.read(settings.EMPTY_FILE), [], "a file without entries read")
    same(settings.read(b""), None, "an empty file")
    same(settings_put(settings.EMPTY_FILE, 5, EXAMPLE), ONE_SETTING, "the first put")
    two = settings_put(ONE_SETTING, 5, EMPTY)
    same(two[:43], bytes.fromhex("05000025") + cases_cp.plain(EMPTY) + bytes(2), "the current one")
    same(two[-4:], bytes.fromhex("022b0001"), "the trailer of two settings")
    same(two[43:86], bytes.fromhex("05000125") + ONE_SETTING[4:41] + bytes(2), "the previous one")
    three = settings_put(two, 256, EXAMPLE)
    same(three[86:90] + three[-6:], bytes.fromhex("00010025" "2b00" "03560001"), "the third entry")
    draw = Draw(22)
    full = cases_settings.a_file(draw, cases_settings.numbered(draw, 40, 2), 5)
    same((len(full), full[-4:]), (10244, bytes.fromhex("5080") + b"\x27\1"), "the longest file")
    lengths = {37: 294, 54: 426, 71: 564, 88: 702, 105: 834, 122: 972}
    same(settings.CP_BITS, lengths, "CP lengths")
    return f"{7 + settings_values_2(draw, full)} files"


def settings_values_2(draw, full):
    """Files of version 2 made by hand, one made of the longest of version 1, the longest ones."""
    empty = bytes.fromhex("00000000000002")
    same(settings.write([], settings.VERSION_2), empty, "no junctions in version 2")
    same(settings.read(empty), [], "a file of version 2 without entries")
    same(settings_put(empty, 5, EXAMPLE), ONE_SETTING_2, "the first put in version 2")
    two = settings_put(ONE_SETTING_2, 5, EMPTY)
    same(two[-7:], bytes.fromhex("0200" "2d000000" "02"), "the trailer of two settings")
    three = settings_put(two, 256, EXAMPLE)
    same((three[90:94], three[131:]), (bytes.fromhex("00010025"), bytes.fromhex(
        "2d000000" "0300" "5a000000" "02")), "the third entry")
    turned = settings_put(full, 65535, EXAMPLE)
    same((len(turned), turned[-11:]), (10452, bytes.fromhex("1e280000" "5100" "a0280000" "02")),
         "a 41st junction")
    same(settings.read(turned)[:40], settings.read(full), "settings of 40 junctions")
    most = cases_settings.a_file(draw, cases_settings.numbered(draw, 400, 2), 5, settings.VERSION_2)
    same((len(most), most[-7:]), (104007, bytes.fromhex("2003" "be950100" "02")), "the longest one")
    return 7


def some_junctions(draw, most):
    """Up to so many junctions with one or two settings each, ignored bits at random."""
    numbers = {draw.pick((draw.below(300), draw.bits(16))) for _ in range(draw.below(most + 1))}
    def cp_bytes():
        return cases_settings.a_cp(draw, draw.pick((0, 0, 0, draw.below(6))))
    return [settings.Junction(junction, cp_bytes(), cp_bytes() if draw.below(2) else None)
            for junction in sorted(numbers)]


def settings_round_trips():
    """Junctions written and read, and files read and written, are as they were."""
    draw = Draw(23)
    for version in settings.VERSIONS:
        for _ in range(100):
            junctions = some_junctions(draw, draw.pick((3, 8, 40)))
            file = settings.write(junctions, version)
            same(settings.read(file), junctions, "junctions there and back")
            same(settings.version_of(file), version, "version")
            same(len(file), settings.size_of(version, junctions), "size")
            pieces = [cases_settings.Piece(*one) for one in settings.settings_of(junctions)]
            same(cases_settings.built(pieces, version), file, "written in another way")
    return "200 files"


def as_written(file):
    """Whether a file is what the writer makes of junctions that follow the rules."""
    version, junctions = settings.found_in(file)
    numbers = [one.number for one in junctions]
    return (numbers == sorted(set(numbers)) and len(numbers) <= {1: 40, 2: 400}[version.byte]
            and all(one.current is not None for one in junctions)
            and all(settings.cp_accepted(octets)
                    for _, _, octets in settings.settings_of(junctions))
            and settings.write(junctions, version) == file)


def spoilt(draw, file):
    """A file with some bytes changed, left out, put in or exchanged; at times none."""
    file = bytearray(file)
    for _ in range(draw.pick((0, 1, 1, 1, 2))):
        entry = 41 + draw.pick((2, 4))
        place, size = draw.below(len(file) + 1), draw.pick((0, 1, 1, 2, entry))
        more = draw.pick((b"", bytes(1), draw.octets(1), bytes(file[:entry]),
                          bytes([draw.below(4)])))
        file[place:place + size] = more
    return bytes(file)


def settings_rules():
    """A file keeps the rules where it is what the writer makes; any bytes get an answer."""
    draw, kept = Draw(24), 0
    for n in range(6000):
        if n % 20 == 0:
            small = settings.write(some_junctions(draw, 4), draw.pick(settings.VERSIONS))
        file = spoilt(draw, small) if n % 8 else draw.octets(draw.below(60)) + draw.pick((b"\1",
                                                                                        b"\2"))
        right = as_written(file)
        same(settings.read(file) is not None, right, f"rules of {file.hex()}")
        kept += right
        junction, lent = draw.pick((draw.below(300), draw.bits(16))), draw.octets(draw.below(400))
        answers = (settings.put(file, junction, EXAMPLE, lent),
                   settings.go_back(file, junction, lent), settings.look_up(file, junction))
        for refusal, *left in answers:
            check((refusal is not None and refusal.number == 22) == (not right), "22")
            check(not refusal or left in ([0, lent], [EMPTY]), "what a refusal leaves")
    check(500 < kept < 4000, "files that keep the rules")
    return f"6000 files, {kept} of them keep the rules"


def a_change(draw, file, junction, here):
    """(File, the junction's settings as [record, CP bytes] afterwards) of a put or going back.

    The settings are those there before, the current one first; a call may be declined.
    """
    if draw.below(5) < 3:
        record = a_record(draw, draw.between(0, 28), draw.pick((0, 0, 1)))
        file = settings_put(file, junction, record)
        return file, [[record, cases_cp.plain(record)], *here[:1]]
    if len(here) == 2:
        after = gone_back(file, junction)
        same(gone_back(after, junction), file, "back twice")
        return after, here[::-1]
    same(settings.go_back(file, junction, bytes(len(file))), (Refusal(23), 0, bytes(len(file))),
         "nothing to go back to")
    return file, here


def check_settings(file, kept, looked_up, absent):
    """A file has what a plain list of settings has, bytes and all, and shows some of it."""
    same(settings.read(file), [settings.Junction(junction, here[0][1],
                                                 here[1][1] if len(here) == 2 else None)
                               for junction, here in sorted(kept.items()) if here], "settings kept")
    for junction in looked_up:
        if kept[junction]:
            same(shown(file, junction), kept[junction][0][0], "the setting shown")
    same(settings.look_up(file, absent), (Refusal(23), EMPTY), "a junction that is not there")


def settings_operations():
    """After any puts and goings back a look-up shows the setting last put or gone back to.

    Junctions that are not named keep both settings, a put drops the older one.
    """
    draw = Draw(25)
    for _ in range(40):
        junctions = sorted({draw.bits(16) for _ in range(draw.between(1, 5))} - {77})
        version = draw.pick(settings.VERSIONS)
        kept, file = {junction: [] for junction in junctions}, settings.write([], version)
        if draw.below(2):
            file, kept = settings_begun(draw, junctions, version)
        for n in range(50):
            junction = draw.pick(junctions)
            file, kept[junction] = a_change(draw, file, junction, kept[junction])
            check_settings(file, kept, [junction] if n % 10 else junctions, 77)
            same(settings.version_of(file), version, "version")
    return "2000 puts and goings back"


def settings_begun(draw, junctions, version, g=0, each=1):
    """(A file with one or two settings for each junction, these as `a_change` has them)."""
    octets = {junction: [cases_settings.a_cp(draw, g) for _ in range(each)]
              for junction in junctions}
    kept = {junction: [[settings.cp_reading(one)[1], one] for one in some]
            for junction, some in octets.items()}
    return settings.write([settings.Junction(junction, *(*some, None)[:2])
                           for junction, some in octets.items()], version), kept


def settings_turns():
    """A 41st junction makes version 2 of version 1, and nothing else does; none makes it back."""
    draw, turned = Draw(27), 0
    with changed({"settings.cp_reading": lru_cache(maxsize=None)(settings.cp_reading)}):
        for n in range(24):
            numbers = [each for each, _ in cases_settings.numbered(draw, 44)]
            begun = numbers[n % 5:][:draw.between(38, 40)]
            version = settings.VERSIONS[n % 4 == 3]
            file, kept = settings_begun(draw, begun, version, 0, 1 + n % 2)
            for _ in range(14):
                absent = [junction for junction in numbers if not kept.get(junction)]
                junction = draw.pick(absent if absent and draw.below(3) else numbers)
                file, before = check_turn(draw, file, kept, junction), file
                turned += file[-1] != before[-1]
    check(turned >= 12, "files that turn")
    return f"24 files, {turned} of them turned"


def check_turn(draw, file, kept, junction):
    """The file after a put or going back, in the version that it is to have."""
    after, kept[junction] = a_change(draw, file, junction, kept.get(junction, []))
    check_settings(after, kept, kept if after[-1] != file[-1] else [junction], 0)
    most = 40 if file[-1] == 1 else 400
    same(after[-1], 2 if len(settings.read(after)) > most else file[-1], "version")
    return after


def settings_most():
    """400 junctions and no more; starts of three bytes, with puts below them, there and above."""
    draw = Draw(28)
    numbers = [each for each, _ in cases_settings.numbered(draw, 401)]
    with changed({"settings.cp_reading": lru_cache(maxsize=None)(settings.cp_reading)}):
        file, kept = settings_begun(draw, numbers[:399], settings.VERSION_2, 5, 2)
        for junction in (numbers[399], numbers[0], numbers[252], numbers[399]):
            file = settings_put(file, junction, cases_cp.ALL_FULL)
            full = [cases_cp.ALL_FULL, cases_cp.plain(cases_cp.ALL_FULL)]
            kept[junction] = [full, *kept.get(junction, [])[:1]]
            check_settings(file, kept, [*numbers[:400:80], junction], numbers[400])
            check(settings.parts_of(file).last > 2**16, "starts of three bytes")
        for junction in (numbers[0], numbers[252], numbers[399]):
            file = gone_back(file, junction)
            kept[junction].reverse()
            check_settings(file, kept, [numbers[398], junction], numbers[400])
        same((len(file), len(settings.read(file))), (104007, 400), "the longest file")
        lent = bytes(len(file) + 300)
        same(settings.put(file, numbers[400], EXAMPLE, lent), (Refusal(24), 0, lent), "a 401st")
        over = settings.write([*settings.read(file), settings.Junction(
            65535, cases_cp.plain(EXAMPLE), None)], settings.VERSION_2)
        same((settings.put(over, 65535, EXAMPLE, lent)[0], settings.look_up(over, 65535)[0],
              settings.go_back(over, numbers[0], lent)[0]), (Refusal(22),) * 3, "401 in a file")
    return f"{len(file)} bytes"


def settings_refusals():
    """put declines as the writer, then with 22, 24 and 17; the others with 22, 23 and 17."""
    draw = Draw(26)
    pieces = cases_settings.pieces_of(draw, cases_settings.numbered(draw, 400))
    with changed({"settings.cp_reading": lru_cache(maxsize=None)(settings.cp_reading)}):
        for _ in range(400):
            record = faulty_record(draw, {draw.pick((4, 9, 10, 25, 11, 12))})
            record = draw.pick((record, a_sparse_record(draw), a_record(draw, 0)))
            faults = [number for number in (22, 24, 17) if draw.below(2)]
            check_refusals(draw, pieces, record, faults)
    return "400 records and files"


def check_refusals(draw, pieces, record, faults):
    """The three entries with some of 22, 24 and 17; a file of 40 junctions is turned by a put."""
    version = settings.VERSION_2 if 24 in faults else draw.pick(settings.VERSIONS)
    most = version.most_junctions
    count = most if 24 in faults else draw.pick((40, draw.between(1, most - 1)))
    file = cases_settings.built(pieces[:count], version, count=0 if 22 in faults else None)
    start, trailer = (2, 4) if version.byte == 1 and count < 40 else (4, 7)
    needed = count * (41 + start) + 4 + settings.cp_size(record) + start + trailer
    room = draw.pick((needed - 1, draw.below(needed))) if 17 in faults else needed
    lent, first = bytes(room), cp.write_cp(record, bytes(5000))[0]
    refusal, *left = settings.put(file, 0, record, lent)
    same(refusal, first or next(map(Refusal, faults), None), f"with {faults}")
    check(left == [0, lent] if refusal else left[0] == needed, "what is left")
    there = draw.pick(pieces[:count]).junction
    for junction, known in ((0, False), (there, True)):
        refusal = settings.look_up(file, junction)[0]
        wanted = 22 if 22 in faults else None if known else 23
        same(refusal.number if refusal else None, wanted, "look-up")
        refusal = settings.go_back(file, junction, lent)[0]
        same(refusal.number, 22 if 22 in faults else 23, "going back")


RULE_NAMES = [rule.__name__ for rule in settings.RULES]


def broken_rules(file):
    """The names of the rules that a file breaks, all of them."""
    parts = settings.parts_of(file)
    if parts is None:
        return ("no parts",)
    return tuple(rule.__name__ for rule in settings.RULES if not rule(parts))


def settings_met(both):
    """What stored cases of the settings file have: rules broken alone, junctions, bytes kept."""
    broken, sizes, entries, kept = set(), set(), set(), 0
    for case, answer in both:
        kind, (file, junction, *_) = forms.arguments(case)
        version, there = settings.found_in(file)
        broken.add((version.byte, *broken_rules(file)))
        sizes.add((version.byte, len(there), kind, answer[0]))
        if answer[0] == 0:
            one = settings.at(there, junction)
            settings_there = 0 if one is None else 1 if one.previous is None else 2
            entries.add((version.byte, kind, settings_there))
            copied = [octets for _, _, octets in settings.settings_of(there)
                      if octets != settings.cp_octets(settings.cp_reading(octets)[1])]
            kept += kind != forms.LOOK_UP and any(octets in answer for octets in copied)
    return broken, sizes, entries, kept


def sizes_wanted():
    """(Version, junctions, kind, refusal) that stored cases of the settings file must have."""
    puts = {1: ((0, 0), (39, 0), (40, 0)),
            2: ((0, 0), (39, 0), (40, 0), (41, 0), (399, 0), (400, 0), (400, 24))}
    backs = {1: ((0, 23), (40, 0)), 2: ((0, 23), (1, 0), (40, 0), (41, 0), (400, 0))}
    looks = {1: ((0, 23), (40, 0)), 2: ((0, 23), (41, 0), (400, 0), (400, 23))}
    found = {(version, count, kind, refusal)
             for kind, some in ((forms.PUT, puts), (forms.BACK, backs), (forms.LOOK_UP, looks))
             for version, pairs in some.items() for count, refusal in pairs}
    return found | {(version, most + 1, kind, 22) for version, most in ((1, 40), (2, 400))
                    for kind in (forms.PUT, forms.BACK, forms.LOOK_UP)}


def versions_met(both):
    """(Version before, version after) of stored puts and goings back that are accepted."""
    found = []
    for case, answer in both:
        if case[0] != forms.LOOK_UP and not answer[0]:
            file = forms.arguments(case)[1][0]
            found.append((file[-1], forms.outcome(case)[2][forms.outcome(case)[1] - 1]))
    return found


def check_versions(both):
    """Version 1 stays, and turns in some puts; version 2 stays; starts have a third byte."""
    found = versions_met(both)
    same(set(found), {(1, 1), (1, 2), (2, 2)}, "versions")
    check(found.count((1, 2)) >= 8 and found.count((2, 2)) >= 50, "files of version 2")
    files = {forms.arguments(case)[1][0] for case, _ in both}
    check({10244, 104007} <= {len(file) for file in files}, "the longest files")
    places = {entry.place for file in files if len(file) > 2**16
              for entry in settings.parts_of(file).entries}
    check({2**16, 103870} <= places, "starts of three bytes")


def stored_settings():
    """What the stored cases of the settings file must have; their answers are the model's."""
    with changed({"settings.read_cp": lru_cache(maxsize=None)(cp.read_cp)}):
        return check_stored_settings(stored_pairs("vectors_settings"))


def check_stored_settings(both):
    """What is said of the stored cases of the settings file."""
    for case, answer in both:
        same(forms.answer(case).hex(), answer.hex(), f"answer to {case.hex()}")
        check(max(len(case), len(answer)) <= 131_072, "a line of vectors_settings")
    check(800 <= len(both) <= 1000, "lines of vectors_settings")
    texts = [stored_text(f"vectors_settings/{name}") for name in ("stdin", "stdout")]
    check(sum(map(len, texts)) < 3_000_000, "size of vectors_settings")
    alone, met = refusals_met(both)
    wanted = {forms.PUT: (cases_settings.PUT_NUMBERS, cases_cp.pairs(cases_settings.PUT_NUMBERS)),
              forms.BACK: ((22, 23, 17), ((22, 23), (22, 17), (23, 17))),
              forms.LOOK_UP: ((22, 23), ((22, 23),))}
    same(alone, {(kind, number) for kind, (numbers, _) in wanted.items() for number in numbers},
         "refusals alone")
    same(met, {(kind, *pair) for kind, (_, pairs) in wanted.items() for pair in pairs}, "pairs")
    broken, sizes, entries, kept = settings_met(both)
    check({(version, name) for version in (1, 2) for name in RULE_NAMES} | {(1, "no parts")}
          <= broken, "rules broken alone")
    check(sizes_wanted() <= sizes, f"junctions: {sizes_wanted() - sizes}")
    same(entries, {(version, *one) for version in (1, 2) for one in (
        (forms.PUT, 0), (forms.PUT, 1), (forms.PUT, 2), (forms.BACK, 2), (forms.LOOK_UP, 1),
        (forms.LOOK_UP, 2))}, "settings there")
    check(kept >= 100, "ignored bits kept")
    check_versions(both)
    left = {forms.outcome(case)[2] for case, answer in both
            if case[0] != forms.LOOK_UP and not answer[0]}
    after = sum(forms.arguments(case)[1][0] in left for case, _ in both)
    check(after >= 130, "a file that another call left")
    return f"{len(both)} cases, {after} of them with a file that another call left"


# Wrong codecs

RIGHT = {name: getattr(frames, name)
         for name in ("points", "labels", "interval_masks", "get_bits", "add_bits", "scramble",
                      "send_frame", "receive_frame", "after_mark", "doubt_after_good",
                      "call_faults", "send_faults", "receive_faults", "outside", "send",
                      "receive", "data_bits", "after_control", "after_frame", "with_six",
                      "unpack_state")}
RIGHT_CONTROL = {name: getattr(control, name)
                 for name in ("bits_so_far", "crc_of", "faults", "heard_in", "number_in",
                              "sequence_of")}
RIGHT_CP = {name: getattr(cp, name)
            for name in ("covered", "crc", "record_in", "record_faults", "reader_faults",
                         "writer_faults")}
RIGHT_EMPTY = records.empty_intervals
RIGHT_DIL = {name: getattr(dil, name) for name in ("octets_of", "send_dil", "symbols_of")}


def history_zeroed(state, width, octets):
    """After a mark: no history."""
    return RIGHT["after_mark"](state, width, octets)._replace(history=0)


def history_kept(state, width, octets):
    """After a mark: the old history."""
    return RIGHT["after_mark"](state, width, octets)._replace(history=state.history)


def sign_kept(state, width, octets):
    """After a mark: the old sign."""
    return RIGHT["after_mark"](state, width, octets)._replace(sign=state.sign)


def sender_sign_reset(record, law, state, *rest):
    """Every frame is sent as if the last sign were 0."""
    return RIGHT["send_frame"](record, law, state._replace(sign=0), *rest)


def receiver_sign_reset(record, law, state, *rest):
    """Every frame is read as if the last sign were 0."""
    return RIGHT["receive_frame"](record, law, state._replace(sign=0), *rest)


def points_from_smallest(mask):
    """Label 0 for the smallest Ucode."""
    return RIGHT["points"](mask)[::-1]


def lower_half_first(mask):
    """Label 0 for the largest Ucode below 64; those from 64 on follow."""
    return sorted(RIGHT["points"](mask), key=lambda ucode: ucode // 64)


def places_one_too_high(mask):
    """Each Ucode is one place after its label's; place 0 has Ucode 0."""
    return (0, *RIGHT["points"](mask))[:-1]


def labels_in(order):
    """The receiver's table for an order of Ucodes."""
    return lambda mask: {ucode: label for label, ucode in enumerate(order(mask))}


def tables_in(sender, receiver):
    """The changes that give the sender's table one order of Ucodes, the receiver's another."""
    return {"frames.points": sender, "frames.labels": labels_in(receiver)}


def labels_one_too_high(mask):
    """The labels are counted from 1."""
    return {ucode: label + 1 for ucode, label in RIGHT["labels"](mask).items()}


def none_as_label(mask):
    """A Ucode outside the mask has label 255."""
    return dict.fromkeys(range(128), 255) | RIGHT["labels"](mask)


def labels_below_64(mask):
    """The table has 64 places: the Ucodes from 64 on have no label."""
    return {ucode: label for ucode, label in RIGHT["labels"](mask).items() if ucode < 64}


def tables_from(others):
    """The changes that draw the intervals' tables from other masks; the sizes stay right."""
    def both(record):
        return list(zip(RIGHT["interval_masks"](record), others(record)))

    def places(own_and_other):
        own, other = own_and_other
        return (*RIGHT["points"](other), *bytes(128))[:own.bit_count()]

    return {"frames.interval_masks": both, "frames.points": places,
            "frames.labels": lambda masks: labels_in(RIGHT["points"])(masks[1])}


def masks_one_late(record):
    """Each interval has the mask of the one before it, interval 0 its own."""
    masks = RIGHT["interval_masks"](record)
    return masks[:1] + masks[:5]


def masks_of_neighbours(record):
    """Where any earlier interval names the same mask, that of the one just before is copied."""
    masks = []
    for i, index in enumerate(record.indices):
        masks.append(masks[-1] if index in record.indices[:i] else mask_of(record, index))
    return masks


def masks_of_five_tables(record):
    """There is room for five tables; the sixth mask named has those of the fifth."""
    named = list(dict.fromkeys(record.indices))
    return [mask_of(record, named[min(named.index(index), 4)]) for index in record.indices]


def scrambler_by(size):
    """A scrambler of so many bits a step, whose taps do not see the bits of the step itself."""
    def scramble(history, data, count):
        line = 0
        for n in range(count):
            before = before if n % size else history
            bit = data >> n & 1 ^ frames.taps(before << n % size)
            history = frames.push(history, bit)
            line |= bit << n
        return line, history
    return scramble


def read_below_53(octets, first, count):
    """A frame's bits read from a word of 53 bits; no frame needs more than 54."""
    return RIGHT["get_bits"](octets, first, min(count, 53 - first % 8))


def written_below_53(octets, first, count, bits):
    """A frame's bits written by a word of 53 bits."""
    RIGHT["add_bits"](octets, first, count, bits % 2 ** (53 - first % 8))


def by_reciprocals(reciprocal):
    """The Ucodes, each quotient by a product with a size's reciprocal in 28 bits."""
    def ucodes_for(masks, number):
        tables = [frames.points(mask) for mask in masks]
        high, low = divmod(number, len(tables[0]) * len(tables[1]) * len(tables[2]))
        ucodes = []
        for left, half in (low, tables[:3]), (high, tables[3:]):
            for table in half[:2]:
                number, left = left, left * reciprocal(len(table)) >> 28
                ucodes.append(table[(number - left * len(table)) % len(table)])
            ucodes.append(half[2][left % len(half[2])])
        return ucodes
    return ucodes_for


def cut_at_words(octets, first, count, bits):
    """Received bits past the word of eight bytes in which a frame begins are lost."""
    RIGHT["add_bits"](octets, first, count, bits % 2 ** (64 - first % 64))


def bits_made(change):
    """A receiver that makes other bits of those afterwards, those lent and the number of them."""
    def receive(record, law, count, state, channel, octets, bits, marks):
        refusal, after, told, data, judged = RIGHT["receive"](record, law, count, state, channel,
                                                              octets, bits, marks)
        if not refusal:
            used = frames.data_bits(record, count, channel, state.frame_place)
            data = change(data, bits, used)
        return refusal, after, told, data, judged
    return receive


def last_word_kept(data, bits, used):
    """Bits that fill no word of eight bytes are not put."""
    return data[:used // 64 * 8] + bits[used // 64 * 8:]


def unscrambled_past_36(history, data, count):
    """Two steps of 18 bits: those after them are left as they are."""
    line, history = RIGHT["scramble"](history, data % 2**36, min(count, 36))
    for n in range(36, count):
        history = frames.push(history, data >> n & 1)
    return line | data >> 36 << 36, history


def own_output(history, line, count):
    """The descrambler's history takes the data bits."""
    return frames.scramble(history, line, count)


def zeros_descrambled(record, law, state, channel, octets):
    """A marked frame gives the descrambling of zeros."""
    mark, data, after = RIGHT["receive_frame"](record, law, state, channel, octets)
    if mark:
        width = frames.width_of(record, channel, state)
        data = frames.descramble(state.history, 0, width)[0]
    return mark, data, after


def sign_of_members_only(record, law, state, channel, octets):
    """The sixth octet sets the sign only if its Ucode is in the mask."""
    mark, data, after = RIGHT["receive_frame"](record, law, state, channel, octets)
    ucodes = [ucode_of(law, octet) for octet in octets]
    if 5 in frames.outside(frames.interval_masks(record), ucodes):
        after = after._replace(sign=state.sign)
    return mark, data, after


def last_byte_kept(data, bits, used):
    """The bits beyond the last frame are left in the last byte."""
    n = used // 8
    if used % 8:
        keep = bits[n] >> used % 8 << used % 8
        data = data[:n] + bytes([data[n] | keep]) + data[n + 1:]
    return data


def every_frame_marked(record, law, count, *rest):
    """Every frame gets mark 7."""
    refusal, *left, judged = RIGHT["receive"](record, law, count, *rest)
    return refusal, *left, judged if refusal else b"\x07" * count + judged[count:]


def nothing_written(record, law, count, state, channel, octets, bits, marks):
    """The state goes on and the buffers stay."""
    refusal, state, told, _, _ = RIGHT["receive"](record, law, count, state, channel, octets, bits,
                                                  marks)
    return refusal, state, told, bytes(bits), bytes(marks)


def first_frame_alone(record, law, count, state, channel, octets, bits, marks):
    """The first frame is received; the others give zeros and mark 0."""
    refusal, after, told, data, judged = RIGHT["receive"](record, law, count, state, channel,
                                                          octets, bits, marks)
    if refusal or not count:
        return refusal, after, told, data, judged
    touched = frames.data_bytes(record, count, channel, state.frame_place)
    width = frames.width_of(record, channel, state)
    first = int.from_bytes(data[:touched], "little") % 2 ** width
    data = first.to_bytes(touched, "little") + data[touched:]
    return refusal, after, told, data, judged[:1] + bytes(count - 1) + judged[count:]


def made_up_mark(*args):
    """Mark 8 in place of 7."""
    mark, *rest = RIGHT["receive_frame"](*args)
    return 8 if mark == 7 else mark, *rest


def bytes_rounded_down(*args):
    """The whole bytes among the data bits."""
    return frames.data_bits(*args) // 8


def without(faults, number):
    """A list of refusals with one forgotten."""
    return lambda *args: (fault for fault in faults(*args) if fault.number != number)


def moved_before(number, faults, moved=25):
    """A list of refusals with 25, or another one, looked at just before one of them."""
    order = [n for n in ORDER if n != moved]
    order.insert(order.index(number), moved)
    return lambda *args: iter(sorted(faults(*args), key=lambda fault: order.index(fault.number)))


def empty_last(faults):
    """A list of refusals with 25 at its end; 11 looks at products above 0 alone."""
    def found(*args):
        all_found = list(faults(*args))
        empty = [fault for fault in all_found if fault.number == 25]
        yield from (fault for fault in all_found if not empty or fault.number not in (11, 25))
        yield from empty
    return found


def empty_also_at(rates):
    """The record's refusals, those of 25 at these drn too."""
    def found(record):
        yield from RIGHT_CP["record_faults"](record)
        if record.drn in rates and RIGHT_EMPTY(record):
            yield Refusal(25, RIGHT_EMPTY(record)[0])
    return found


def other_value(value):
    """The record's refusals with another value for 25, made from the record and the interval."""
    def found(record):
        for fault in RIGHT_CP["record_faults"](record):
            empty = fault.number == 25
            yield Refusal(25, value(record, fault.value)) if empty else fault
    return found


def of_all_entries(faults):
    """The changes that give all five entries this list of the record's refusals."""
    return {f"{name}.record_faults": faults for name in ("cp", "frames", "start")}


def empty_without(rate):
    """No interval counts as empty at this drn."""
    return {"record.empty_intervals": lambda record:
            [] if record.drn == rate else RIGHT_EMPTY(record)}


def unnamed_count_as_empty(record):
    """A mask up to g is empty, whether an interval names it or not."""
    g = min(max(record.indices), 5)
    return RIGHT_EMPTY(record) or [m for m in range(g + 1) if not mask_of(record, m)]


def empty_by_half(half):
    """The intervals of whose mask this half is empty."""
    return lambda record: [i for i, m in enumerate(record.indices)
                           if m <= 5 and record.halves[2 * m + half] == 0]


def empty_with_frames(record, count, *rest):
    """25 is looked at only where there are frames."""
    faults = RIGHT["call_faults"]
    return (faults if count else without(faults, 25))(record, count, *rest)


def doubt_by(after_good=None, after_mark=None):
    """The changes that give the count of doubtful bits another rule.

    `after_good` is made from a frame's data bits and the count, `after_mark` from the count alone.
    """
    changes = {}
    if after_good:
        changes["frames.doubt_after_good"] = after_good
    if after_mark:
        changes["frames.doubt_after_mark"] = after_mark
    return changes


def sender_counting(change):
    """The changes that let the sender make another count from D and the count."""
    def send_frame(record, law, state, *rest):
        octets, after = RIGHT["send_frame"](record, law, state, *rest)
        doubtful = change(frames.frame_bits(record), state.doubtful)
        return octets, after._replace(doubtful=doubtful)
    return {"frames.send_frame": send_frame}


def doubt_set_by(marks):
    """The changes that let only these marks set the count; after others it is as it was."""
    def receive_frame(record, law, state, *rest):
        mark, data, after = RIGHT["receive_frame"](record, law, state, *rest)
        if mark and mark not in marks:
            after = after._replace(doubtful=state.doubtful)
        return mark, data, after
    return {"frames.receive_frame": receive_frame}


def counting_calls(change):
    """The changes that make another count from D, marks and counts before and after a call."""
    def receive(record, law, count, state, *rest):
        refusal, after, *left, judged = RIGHT["receive"](record, law, count, state, *rest)
        if not refusal:
            doubtful = change(frames.frame_bits(record), judged[:count], state.doubtful,
                              after.doubtful)
            after = after._replace(doubtful=doubtful)
        return refusal, after, *left, judged
    return {"frames.receive": receive}


def lowered_once(width, marks, before, after):
    """The count is lowered by one frame, however many there are in the call."""
    return 24 if any(marks) else max(before - width, 0) if marks else before


def lowered_by_all(width, marks, before, after):
    """A mark in the call sets the count, which all good frames then lower, earlier ones too."""
    begun = 24 if any(marks) else before
    return max(begun - width * list(marks).count(0), 0)


def declined_counts(sender=range(25, 256), receiver=range(25, 256), with_frames_alone=False):
    """The changes that let each entry have 18 for other counts, or where there are frames alone."""
    def having(faults, counts):
        def found(record, law, count, state, *buffers):
            held = list(faults(record, law, count, state, *buffers))
            others = [fault for fault in held if fault.number != 18]
            if state.doubtful in counts and (count or not with_frames_alone):
                others.append(Refusal(18))
            return iter(sorted(others, key=lambda fault: ORDER.index(fault.number)))
        return found
    return {"frames.send_faults": having(RIGHT["send_faults"], sender),
            "frames.receive_faults": having(RIGHT["receive_faults"], receiver)}


def count_zeroed_by_refusal(entry):
    """The changes that let an entry that declines return the count 0."""
    def call(*args):
        refusal, after, *rest = RIGHT[entry](*args)
        return refusal, after._replace(doubtful=0) if refusal else after, *rest
    return {f"frames.{entry}": call}


def marks_room_ignored(*args):
    """17 looks at the bits alone; what does not fit into the marks is lost."""
    *others, marks = args
    *rest, judged = RIGHT["receive"](*others, marks + bytes(1024))
    return *rest, judged[:len(marks)]


def bits_room_ignored(*args):
    """17 looks at the marks alone; what does not fit into the bits is lost."""
    *others, bits, marks = args
    *rest, data, judged = RIGHT["receive"](*others, bits + bytes(6144), marks)
    return *rest, data[:len(bits)], judged


def count_wraps(octets, bit_count):
    """1 compares the bytes needed, counted in 64 bits."""
    exceeds = (bit_count + 7) % 2**64 // 8 > len(octets)
    faults = RIGHT_CP["reader_faults"]
    return (faults if exceeds else without(faults, 1))(octets, bit_count)


def crc_table(polynomial):
    """The CRC's table with another polynomial."""
    table = []
    for register in range(256):
        for _ in range(8):
            register = register >> 1 ^ (polynomial if register & 1 else 0)
        table.append(register)
    return table


def covered_a_word_less(bits, g):
    """The CRC stops before the last run of 16."""
    return RIGHT_CP["covered"](bits, g)[:-2]


def covered_with_start_bits(bits, g):
    """The CRC takes the start bits too."""
    count = 254 + 136 * g
    return (bits >> 18 & (1 << count) - 1).to_bytes((count + 7) // 8, "little")


def crc_complemented(octets):
    """The CRC is complemented at the end."""
    return RIGHT_CP["crc"](octets) ^ 0xFFFF


def unnamed_masks_lost(bits):
    """Masks that no index names are left out."""
    record = RIGHT_CP["record_in"](bits)
    halves = [half if n // 2 in record.indices else 0 for n, half in enumerate(record.halves)]
    return record._replace(halves=tuple(halves))


def a_law_with_d4(law, sign, ucode):
    """The A-law constant is one bit off."""
    return octet_by_rule(law, sign, ucode) ^ (0xD5 ^ 0xD4) * law


def sign_added(law, sign, ucode):
    """128 is added for a negative octet, which is more than a byte; cut to a byte it is right."""
    return octet_by_rule(law, 1, ucode) + 128 * (1 - sign)


def uchords_too_high(law, ucode):
    """In A-law Uchord 1 doubles the steps too."""
    return value_by_rule(law, ucode) << (law and min(ucode // 16, 1))


def with_bias(law, ucode):
    """The 132 that the µ-law shift needs is left in."""
    return value_by_rule(law, ucode) + 132 * (1 - law)


def table_5_with(**changed):
    """The changes that give Table 5 other parameters."""
    return {"dil.TABLE_5": dil.TABLE_5._replace(**changed)}


def symbol_changed(place, symbol):
    """The changes that give Table 5 another training symbol at one place."""
    symbols = dil.TABLE_5.symbols
    return table_5_with(symbols=(*symbols[:place], symbol, *symbols[place + 1:]))


def generator_exchanged(place):
    """Place 2k holds k and place 2k + 1 holds 124 - k."""
    k, odd = divmod(place, 2)
    return 124 - k if odd else k


def bits_from_the_top(pattern, period, place):
    """The highest bit of a pattern is the first."""
    return pattern >> period - 1 - place % period & 1


def signs_run_on(parameters):
    """SP is not restarted: it goes on from one DIL-segment into the next."""
    return [(dil.pattern_bit(parameters.sp, parameters.lsp, place), ucode)
            for place, (_, ucode) in enumerate(RIGHT_DIL["symbols_of"](parameters))]


def dil_one_short(law, octets):
    """A buffer of 1,499 is accepted, and the last octet is lost."""
    if len(octets) < 1499:
        return RIGHT_DIL["send_dil"](law, octets)
    return None, RIGHT_DIL["send_dil"](law, octets + bytes(1))[1][:len(octets)]


def dil_then_zeros(law, octets):
    """What lies beyond the DIL is cleared."""
    refusal, after = RIGHT_DIL["send_dil"](law, octets)
    return refusal, after if refusal else after[:1500] + bytes(len(octets) - 1500)


def dil_repeated(law, octets):
    """The DIL is repeated to the end of the buffer, as V.90 has it."""
    refusal, after = RIGHT_DIL["send_dil"](law, octets)
    return refusal, after if refusal else (2 * after[:1500])[:len(octets)]


def dil_as_far_as_it_fits(law, octets):
    """A refusal writes what there is room for."""
    refusal, _ = RIGHT_DIL["send_dil"](law, octets)
    made = RIGHT_DIL["octets_of"](law, dil.TABLE_5)
    return refusal, made[:len(octets)] + octets[1500:]


def dil_in_no_buffer(law, octets):
    """A buffer of no bytes is accepted."""
    return RIGHT_DIL["send_dil"](law, octets) if octets else (None, b"")


def count_at_once(state, width, octets):
    """A marked frame sets the count and lowers it too."""
    after = RIGHT["after_mark"](state, width, octets)
    return after._replace(doubtful=RIGHT["doubt_after_good"](width, after.doubtful))


def counts_told(number):
    """The changes that give 18 another number."""
    return {"frames.call_faults": lambda *args: (Refusal(number) if fault.number == 18 else fault
                                                 for fault in RIGHT["call_faults"](*args))}


WRONG_CODECS = {
    "history zeroed on a mark": {"frames.after_mark": history_zeroed},
    "history kept on a mark": {"frames.after_mark": history_kept},
    "last sign kept on a mark": {"frames.after_mark": sign_kept},
    "sixth sign of members only": {"frames.receive_frame": sign_of_members_only},
    "marked data descrambled": {"frames.receive_frame": zeros_descrambled},
    "mark of the last stranger": {"frames.outside": lambda *args: RIGHT["outside"](*args)[::-1]},
    "sender's sign reset": {"frames.send_frame": sender_sign_reset},
    "receiver's sign reset": {"frames.receive_frame": receiver_sign_reset},
    "labels from the smallest": tables_in(points_from_smallest, points_from_smallest),
    "sender's labels from the smallest": tables_in(points_from_smallest, RIGHT["points"]),
    "receiver's labels from the smallest": tables_in(RIGHT["points"], points_from_smallest),
    "labels from the lower half": tables_in(lower_half_first, lower_half_first),
    "sender's places one too high": tables_in(places_one_too_high, RIGHT["points"]),
    "receiver's labels one too high": {"frames.labels": labels_one_too_high},
    "no label taken for 255": {"frames.labels": none_as_label},
    "labels in 64 places": {"frames.labels": labels_below_64},
    "tables of interval 0 alone":
        tables_from(lambda record: RIGHT["interval_masks"](record)[:1] * 6),
    "tables of mask i for interval i": tables_from(records.masks_of),
    "tables of the interval before": tables_from(masks_one_late),
    "tables copied from the neighbour": tables_from(masks_of_neighbours),
    "tables for five masks": tables_from(masks_of_five_tables),
    "scrambler 23 bits a step": {"frames.scramble": scrambler_by(23)},
    "scrambler 19 bits a step": {"frames.scramble": scrambler_by(19)},
    "reciprocals rounded down":
        {"frames.ucodes_for": by_reciprocals(lambda size: 2**28 // size)},
    "reciprocals of 19 bits":
        {"frames.ucodes_for": by_reciprocals(lambda size: -(-2**19 // size) * 2**9)},
    "bits across words lost": {"frames.add_bits": cut_at_words},
    "bits of the last word lost": {"frames.receive": bits_made(last_word_kept)},
    "bits past 36 not scrambled": {"frames.scramble": unscrambled_past_36},
    "words of 53 bits read": {"frames.get_bits": read_below_53},
    "words of 53 bits written": {"frames.add_bits": written_below_53},
    "descrambler fed its output": {"frames.descramble": own_output},
    "R tested after a cut": {"frames.too_large": lambda record, number: False},
    "last byte not cleared": {"frames.receive": bits_made(last_byte_kept)},
    "bytes rounded down": {"frames.data_bytes": bytes_rounded_down},
    "12 forgotten by the frames":
        {"frames.record_faults": without(RIGHT_CP["record_faults"], 12)},
    "12 forgotten by the writer": {"cp.record_faults": without(RIGHT_CP["record_faults"], 12)},
    "14 forgotten": {"frames.call_faults": without(RIGHT["call_faults"], 14)},
    "1,023 frames at most": {"frames.MOST_FRAMES": 1023},
    "17 for the bits alone": {"frames.receive": marks_room_ignored},
    "17 for the marks alone": {"frames.receive": bits_room_ignored},
    "bit count wraps": {"cp.reader_faults": count_wraps},
    "CRC from zero": {"cp.CRC_START": 0},
    "CRC with A001": {"cp.CRC_TABLE": crc_table(0xA001)},
    "CRC with 1021": {"cp.CRC_TABLE": crc_table(0x1021)},
    "CRC a word short": {"cp.covered": covered_a_word_less},
    "CRC over start bits": {"cp.covered": covered_with_start_bits},
    "CRC complemented": {"cp.crc": crc_complemented},
    "acknowledge at bit 25": {"cp.ACKNOWLEDGE_AT": 25},
    "unnamed masks lost": {"cp.record_in": unnamed_masks_lost},
    "every frame marked": {"frames.receive": every_frame_marked},
    "the same octets always": {"frames.send_frame": lambda *args:
                               (b"\x7a" * 6, RIGHT["send_frame"](*args)[1])},
    "nothing written": {"frames.receive": nothing_written},
    "first frame alone": {"frames.receive": first_frame_alone},
    "made-up mark": {"frames.receive_frame": made_up_mark},
    "2 before looking": {"cp.read_cp": lambda octets, bit_count: (Refusal(2), EMPTY)},
    "7 before looking": {"cp.read_cp": lambda octets, bit_count: (Refusal(7), EMPTY)},
    "writer always declines": {"cp.write_cp": lambda record, buffer:
                               (Refusal(17), 0, bytes(buffer))},
    "sender always declines": {"frames.send": lambda record, law, count, state, *rest:
                               (Refusal(14), state, rest[3])},
    "receiver always declines": {"frames.receive": lambda record, law, count, state, *rest:
                                 (Refusal(14), state, control.NOTHING, *rest[2:])},
    "25 forgotten by the reader": {"cp.reader_faults": without(RIGHT_CP["reader_faults"], 25)},
    "25 forgotten by the writer": {"cp.writer_faults": without(RIGHT_CP["writer_faults"], 25)},
    "25 forgotten by the sender": {"frames.send_faults": without(RIGHT["send_faults"], 25)},
    "25 forgotten by the receiver":
        {"frames.receive_faults": without(RIGHT["receive_faults"], 25)},
    "25 with frames alone": {"frames.call_faults": empty_with_frames},
    "25 before 4": of_all_entries(moved_before(4, RIGHT_CP["record_faults"])),
    "25 before 8 by the reader":
        {"cp.reader_faults": moved_before(8, RIGHT_CP["reader_faults"])},
    "25 before 10": of_all_entries(moved_before(10, RIGHT_CP["record_faults"])),
    "25 after 11": of_all_entries(moved_before(12, RIGHT_CP["record_faults"])),
    "25 after 12": of_all_entries(empty_last(RIGHT_CP["record_faults"])),
    "25 after 17 by the writer": {"cp.writer_faults": empty_last(RIGHT_CP["writer_faults"])},
    "25 after 17 by the frames": {"frames.call_faults": empty_last(RIGHT["call_faults"])},
    "25 at drn 0": of_all_entries(moved_before(11, empty_also_at([0]))),
    "25 at drn above 28": of_all_entries(moved_before(9, empty_also_at(range(29, 256)))),
    "25 not at drn 1": empty_without(1),
    "25 not at drn 28": empty_without(28),
    "highest empty interval told":
        {"record.empty_intervals": lambda record: RIGHT_EMPTY(record)[::-1]},
    "mask told in place of interval":
        of_all_entries(other_value(lambda record, interval: record.indices[interval])),
    "interval told from 1": of_all_entries(other_value(lambda record, interval: interval + 1)),
    "interval not told": of_all_entries(other_value(lambda record, interval: 0)),
    "interval 5 not looked at":
        {"record.empty_intervals": lambda record: [i for i in RIGHT_EMPTY(record) if i < 5]},
    "unnamed masks counted as empty": {"record.empty_intervals": unnamed_count_as_empty},
    "lower half alone looked at": {"record.empty_intervals": empty_by_half(0)},
    "upper half alone looked at": {"record.empty_intervals": empty_by_half(1)},
    "count lowered by K": doubt_by(lambda width, doubtful: max(doubtful - (width - 6), 0)),
    "count lowered by D - 1": doubt_by(lambda width, doubtful: max(doubtful - (width - 1), 0)),
    "count lowered by D + 1": doubt_by(lambda width, doubtful: max(doubtful - (width + 1), 0)),
    "count lowered by 6": doubt_by(lambda width, doubtful: max(doubtful - 6, 0)),
    "count lowered by 1": doubt_by(lambda width, doubtful: max(doubtful - 1, 0)),
    "count left by a good frame": doubt_by(lambda width, doubtful: doubtful),
    "count 0 after a good frame": doubt_by(lambda width, doubtful: 0),
    "count wraps below 0": doubt_by(lambda width, doubtful: (doubtful - width) % 256),
    "count left where it is below D":
        doubt_by(lambda width, doubtful: doubtful - width if doubtful >= width else doubtful),
    "count not below 1": doubt_by(lambda width, doubtful: max(doubtful - width, min(doubtful, 1))),
    "count raised by a good frame": doubt_by(lambda width, doubtful: min(doubtful + width, 24)),
    "count left by a mark": doubt_by(after_mark=lambda doubtful: doubtful),
    "count 0 after a mark": doubt_by(after_mark=lambda doubtful: 0),
    "a mark sets 23": doubt_by(after_mark=lambda doubtful: 23),
    "a mark sets 25": doubt_by(after_mark=lambda doubtful: 25),
    "a mark adds 24, up to 255": doubt_by(after_mark=lambda doubtful: min(doubtful + 24, 255)),
    "a mark adds 24 in a byte": doubt_by(after_mark=lambda doubtful: (doubtful + 24) % 256),
    "a mark sets a count of 0 alone": doubt_by(after_mark=lambda doubtful: doubtful or 24),
    "a mark sets the count and lowers it": {"frames.after_mark": count_at_once},
    "mark 7 does not set the count": doubt_set_by(range(1, 7)),
    "mark 7 alone sets the count": doubt_set_by([7]),
    "mark 6 does not set the count": doubt_set_by([1, 2, 3, 4, 5, 7]),
    "count lowered once a call": counting_calls(lowered_once),
    "count lowered by all frames of a call": counting_calls(lowered_by_all),
    "count 0 after no frames":
        counting_calls(lambda width, marks, before, after: after if marks else 0),
    "sender lowers the count": sender_counting(lambda width, doubtful: max(doubtful - width, 0)),
    "sender sets the count to 0": sender_counting(lambda width, doubtful: 0),
    "sender sets the count to 24": sender_counting(lambda width, doubtful: 24),
    "refused sender's count 0": count_zeroed_by_refusal("send"),
    "refused receiver's count 0": count_zeroed_by_refusal("receive"),
    "18 forgotten": {"frames.call_faults": without(RIGHT["call_faults"], 18)},
    "18 by the sender alone": declined_counts(receiver=()),
    "18 by the receiver alone": declined_counts(sender=()),
    "18 with frames alone": declined_counts(with_frames_alone=True),
    "18 from 24 on": declined_counts(range(24, 256), range(24, 256)),
    "18 from 26 on": declined_counts(range(26, 256), range(26, 256)),
    "18 of a byte with a sign": declined_counts(range(25, 128), range(25, 128)),
    "18 by five bits": declined_counts(*[[c for c in range(256) if c % 32 > 24]] * 2),
    "18 told as 14": counts_told(14),
    "18 before 4": {"frames.call_faults": moved_before(4, RIGHT["call_faults"], 18)},
    "18 before 13": {"frames.call_faults": moved_before(13, RIGHT["call_faults"], 18)},
    "18 before 14": {"frames.call_faults": moved_before(14, RIGHT["call_faults"], 18)},
    "18 after 15": {"frames.call_faults": moved_before(16, RIGHT["call_faults"], 18)},
    "18 after 16": {"frames.call_faults": moved_before(17, RIGHT["call_faults"], 18)},
    "18 after 17": {"frames.call_faults": lambda *args: iter(sorted(
        RIGHT["call_faults"](*args), key=lambda fault: fault.number == 18))},
    "octets of A-law with D4": {"vectors.octet_by_rule": a_law_with_d4},
    "octets with the sign inverted": {"vectors.octet_by_rule": lambda law, sign, ucode:
                                      octet_by_rule(law, 1 - sign, ucode)},
    "octets with the sign added": {"vectors.octet_by_rule": sign_added},
    "octets of the other law": {"vectors.octet_by_rule": lambda law, sign, ucode:
                                octet_by_rule(1 - law, sign, ucode)},
    "values with Uchords too high": {"vectors.value_by_rule": uchords_too_high},
    "values with the bias": {"vectors.value_by_rule": with_bias},
    "values of the other law": {"vectors.value_by_rule": lambda law, ucode:
                                value_by_rule(1 - law, ucode)},
    "DIL with one training symbol changed": symbol_changed(67, 92),
    "DIL with its last training symbol changed": symbol_changed(124, 61),
    "DIL of 124 segments": table_5_with(n=124),
    "DIL generated with the formulas exchanged": {"dil.symbol_at": generator_exchanged},
    "DIL generated from 125 down": {"dil.symbol_at": lambda place:
                                    place // 2 if place % 2 else 125 - place // 2},
    "DIL with patterns from the top": {"dil.pattern_bit": bits_from_the_top},
    "DIL with SP from the top of 16 bits":
        {**table_5_with(lsp=16, ltp=16, tp=0xFFFF), "dil.pattern_bit": bits_from_the_top},
    "DIL with signs inverted": {"dil.octet_of": lambda law, sign, ucode:
                                octet_of(law, 1 - sign, ucode)},
    # With its 12 bits SP ends where a DIL-segment does, and whether it is restarted makes no
    # difference; with the 16 bits that four hexadecimal digits have it does.
    "DIL with SP of 16 bits not restarted":
        {**table_5_with(lsp=16), "dil.symbols_of": signs_run_on},
    "DIL of reference symbols": table_5_with(tp=0),
    "DIL with TP 0FF1": table_5_with(tp=0x0FF1),
    "DIL with eleven symbols a segment": {"dil.segment_length": lambda parameters, symbol: 11},
    "DIL with H_c * 6 symbols a segment": {"dil.segment_length": lambda parameters, symbol: 6},
    "DIL of the other law": {"dil.octets_of": lambda law, parameters:
                             RIGHT_DIL["octets_of"](1 - law, parameters)},
    "DIL in a buffer one too short": {"dil.send_dil": dil_one_short},
    "DIL in no buffer": {"dil.send_dil": dil_in_no_buffer},
    "DIL refused where it just fits": {"dil.length": lambda parameters: 1501},
    "DIL refused with 16": {"dil.Refusal": lambda number: Refusal(16)},
    "DIL clears what lies beyond": {"dil.send_dil": dil_then_zeros},
    "DIL repeated": {"dil.send_dil": dil_repeated},
    "DIL refused and written": {"dil.send_dil": dil_as_far_as_it_fits},
}


# Wrong codecs of the control channel

def of_control(name, change):
    """The changes that make another answer of control frames, from the right one and what is given.

    `name` is that of the function for a frame.
    """
    def frame(record, law, state, channel, *rest):
        found = RIGHT[name](record, law, state, channel, *rest)
        if frames.is_control(channel, state):
            return change(found, record, law, state, *rest)
        return found
    return {f"frames.{name}": frame}


def octets_of(record, law, signs, number):
    """Six octets with these signs for R."""
    ucodes = frames.ucodes_for(frames.interval_masks(record), number)
    return bytes(octet_of(law, sign, ucode) for sign, ucode in zip(signs, ucodes))


def six_scrambled(found, record, law, state, number, data):
    """The control bits are scrambled, before the data bits."""
    six = control.bits_at(found[1].sequence, state.sequence_place)
    line, history = frames.scramble(state.history, six | data << 6, frames.frame_bits(record))
    signs = frames.signs_for(state.sign, line)
    after = found[1]._replace(history=history, sign=signs[5])
    return octets_of(record, law, signs, line >> 6), after


def six_of_signs(turned):
    """The changes that make the signs of a control frame from its six control bits alone."""
    def change(found, record, law, state, number, data):
        octets, after = found
        six = control.bits_at(after.sequence, state.sequence_place)
        signs = turned(state.sign, [six >> i & 1 for i in range(6)])
        made = bytes(octet & 0x7F | sign << 7 for octet, sign in zip(octets, signs))
        return made, after._replace(sign=signs[5])
    return of_control("send_frame", change)


def pushed(history, six):
    """The history after six more bits."""
    for i in range(6):
        history = frames.push(history, six >> i & 1)
    return history


def six_pushed(found, record, law, state, *rest):
    """The control bits go into the history, after the data bits of a good frame."""
    after, mark = found[-1], found[0] if len(found) == 3 else 0
    six = control.bits_at(after.sequence, state.sequence_place)
    return *found[:-1], after if mark else after._replace(history=pushed(after.history, six))


def left_by(change):
    """The changes that let a control frame received leave other fields, by its mark and states."""
    def frame(found, record, law, state, octets):
        mark, data, after = found
        return mark, data, after._replace(**change(record, state, octets, mark, after))
    return of_control("receive_frame", frame)


def if_marked(mark, **fields):
    """Fields that a marked frame alone leaves."""
    return fields if mark else {}


def signs_of_marked(record, state, octets, mark, after):
    """The control bits of a marked frame are kept as received."""
    six = frames.sign_bits(state.sign, [octet >> 7 for octet in octets])
    bits = control.bits_so_far(after.sequence, state.sequence_place, six)
    return if_marked(mark, sequence=bits)


def bytes_touched(record, count, channel, state):
    """The bytes that the data bits of a call need."""
    return frames.data_bytes(record, count, channel, state.frame_place)


def laid_out(step):
    """A receiver whose data bits lie at other places; `step` makes how far the next frame's begin.

    It is given the frame's data bits, D and the mark.
    """
    def receive(record, law, count, state, channel, octets, bits, marks):
        refusal, after, told, data, judged = RIGHT["receive"](record, law, count, state, channel,
                                                              octets, bits, marks)
        if refusal:
            return refusal, after, told, data, judged
        touched, made, first, at = bytes_touched(record, count, channel, state), 0, 0, 0
        for n, width in enumerate(widths_of(record, state.frame_place, [channel] * count)):
            made |= frames.get_bits(data, first, width) << at
            first, at = first + width, at + step(width, frames.frame_bits(record), judged[n])
        made %= 2 ** (8 * touched)
        return refusal, after, told, made.to_bytes(touched, "little") + data[touched:], judged
    return {"frames.receive": receive}


def read_at_d(record, law, count, state, channel, number, data, octets):
    """The sender's data bits begin at n x D in every frame n."""
    made, at = 0, 0
    if count <= 1024:
        for n, width in enumerate(widths_of(record, state.frame_place, [channel] * count)):
            made |= frames.get_bits(data, n * frames.frame_bits(record), width) << at
            at += width
    spread = (made % 2 ** (8 * len(data))).to_bytes(len(data), "little")
    return RIGHT["send"](record, law, count, state, channel, number, spread, octets)


def places_declined(sender=None, receiver=None):
    """The changes that let the entries have 19 by other rules, made from frames, state and channel.

    Where a rule is not given, the entry has the right one.
    """
    def having(faults, rule):
        def found(record, law, count, state, channel, *rest):
            held = list(faults(record, law, count, state, channel, *rest))
            if rule:
                held = [fault for fault in held if fault.number != 19]
                held += [Refusal(19)] * bool(rule(count, state, channel))
            return iter(sorted(held, key=lambda fault: ORDER.index(fault.number)))
        return found
    return {"frames.send_faults": having(RIGHT["send_faults"], sender),
            "frames.receive_faults": having(RIGHT["receive_faults"], receiver)}


def places_over(frame=64, sequence=16):
    """The changes that let both entries have 19 from other places on."""
    return places_declined(*[lambda count, state, channel:
                             state.frame_place >= frame or state.sequence_place >= sequence] * 2)


def places_where(condition):
    """The changes that let both entries look at 19 under a condition alone."""
    return places_declined(*[lambda count, state, channel: condition(count, channel)
                             and (state.frame_place > 63 or state.sequence_place > 15)] * 2)


def frames_told_as(number, other):
    """The changes that give a refusal of the frames another number."""
    return {"frames.call_faults": lambda *args: (Refusal(other) if fault.number == number else fault
                                                 for fault in RIGHT["call_faults"](*args))}


def call_left(entry, change):
    """The changes that let an accepted call of an entry leave other fields.

    They are made from frames, channel, the states before and after, and the rest of the answer.
    """
    def call(record, law, count, state, channel, *given):
        refusal, after, *rest = RIGHT[entry](record, law, count, state, channel, *given)
        if not refusal:
            after = after._replace(**change(count, channel, state, after, rest))
        return refusal, after, *rest
    return {f"frames.{entry}": call}


def both_left(change):
    """The changes that let accepted calls of both entries leave other fields."""
    return call_left("send", change) | call_left("receive", change)


def heard_by(change):
    """The changes that let the receiver tell otherwise, by the states before and after a call."""
    def receive(record, law, count, state, *given):
        refusal, after, told, *rest = RIGHT["receive"](record, law, count, state, *given)
        return refusal, after, told if refusal else change(state, after, told), *rest
    return {"frames.receive": receive}


def faults_by(change):
    """The changes that find other faults of a sequence, from those that there are."""
    return {"control.faults": lambda bits, lost:
            iter(change(list(RIGHT_CONTROL["faults"](bits, lost)), bits))}


def crc_by(change):
    """The changes that make another CRC of a sequence from the right one."""
    return {"control.crc_of": lambda bits: change(RIGHT_CONTROL["crc_of"](bits))}


def crc_over(*places):
    """The changes that let the CRC cover the bits at other places."""
    return {"control.covered": lambda bits: [bits >> n & 1 for n in places]}


def crc_from_zero(bits):
    """The register begins with zeros."""
    register = 0
    for bit in control.covered(bits):
        register = cp.crc_step(register, bit)
    return register


def number_by(change):
    """The changes that put the number handed in otherwise into the sequence, and take it so."""
    return {"control.sequence_of": lambda number: RIGHT_CONTROL["sequence_of"](change(number)),
            "control.number_in": lambda bits: change(RIGHT_CONTROL["number_in"](bits))}


def mirrored_in(width, number):
    """The lowest bits of a number in the reverse order."""
    return int(f"{number % 2**width:0{width}b}"[::-1], 2)


def lowest_bits_of_flags(form):
    """Only the lowest bit of a flag's byte is looked at."""
    history, sign, *counts, bits, lost = frames.BYTE_FORM.unpack(form)
    return State(history, sign & 1, *counts, int.from_bytes(bits, "little"), lost & 1)


ZERO_FIELDS = dict(frame_place=0, sequence_place=0, sequence=0, lost=0)


def fields_zeroed_by_refusal(entry):
    """The changes that let an entry that declines return zeros in the fields of the channel."""
    def call(*args):
        refusal, after, *rest = RIGHT[entry](*args)
        return refusal, after._replace(**ZERO_FIELDS) if refusal else after, *rest
    return {f"frames.{entry}": call}


def ended(told):
    """Whether something is heard."""
    return told != control.NOTHING


WRONG_CHANNELS = {
    "control bits scrambled": of_control("send_frame", six_scrambled),
    "control bits in the sender's history": of_control("send_frame", six_pushed),
    "control bits in the receiver's history": of_control("receive_frame", six_pushed),
    "control bits not differentially coded": six_of_signs(lambda sign, six: six),
    "control bits coded from the sign 0":
        six_of_signs(lambda sign, six: frames.signs_for(0, as_number(six))),
    "control bits in the reverse order":
        six_of_signs(lambda sign, six: frames.signs_for(sign, as_number(six[::-1]))),
    "control bits read in the reverse order": {"frames.with_six": lambda state, mark, six:
                                               RIGHT["with_six"](state, mark, mirrored_in(6, six))},
    "control bits of a marked frame kept": left_by(signs_of_marked),
    "control bits of a marked frame not put": left_by(
        lambda record, state, octets, mark, after: if_marked(mark, sequence=state.sequence)),
    "sequence bits to come kept": {"control.bits_so_far": lambda bits, place, six:
                                   bits & ~(63 << 6 * place) | six << 6 * place},
    "sequence bits so far lost": {"control.bits_so_far": lambda bits, place, six:
                                  six << 6 * place},
    "sequence bits put one place late": {"control.bits_so_far": lambda bits, place, six:
                                         bits & (1 << 6 * place) - 1
                                         | six << 6 * (place + 1) % 96},
    "sequence bits zeroed at the end": call_left(
        "receive", lambda count, channel, state, after, rest:
        dict(sequence=0) if ended(rest[0]) else {}),
    "sequence bits of the sender those sent alone":
        of_control("send_frame", lambda found, record, law, state, *rest:
                   (found[0], found[1]._replace(sequence=found[1].sequence
                                                % 2 ** (6 * state.sequence_place + 6)))),
    "sequence made anew in each control frame": {
        "frames.at_start": lambda state, number:
        state._replace(sequence=control.sequence_of(number), lost=0)},
    "sequence never made": {"frames.at_start": lambda state, number: state},
    "sequence made but lost kept": {"frames.at_start": lambda state, number:
                                    state if state.sequence_place else
                                    state._replace(sequence=control.sequence_of(number))},
    "sequence made with lost": {"frames.at_start": lambda state, number:
                                state if state.sequence_place else
                                state._replace(sequence=control.sequence_of(number), lost=1)},
    "sequence taken in every call at sequence place 0":
        {"frames.send": lambda record, law, count, state, channel, number, *rest: RIGHT["send"](
            record, law, count, state._replace(sequence=control.sequence_of(number))
            if channel and not state.sequence_place else state, channel, number, *rest)},
    "lost forgotten": {"frames.lost_after": lambda state, mark: 0},
    "lost by the last frame alone": {"frames.lost_after": lambda state, mark: int(mark > 0)},
    "lost not cleared at a start": {"frames.lost_after": lambda state, mark:
                                    int(state.lost or mark > 0)},
    "lost by the first frame alone": {"frames.lost_after": lambda state, mark:
                                      state.lost if state.sequence_place else int(mark > 0)},
    "lost not by mark 7": {"frames.lost_after": lambda state, mark:
                           int((state.lost if state.sequence_place else 0) or 0 < mark < 7)},
    "lost cleared at the end": call_left("receive", lambda count, channel, state, after, rest:
                                         dict(lost=0) if ended(rest[0]) else {}),
    "lost in the lowest bit": {"frames.unpack_state": lowest_bits_of_flags},
    "count lowered by D in a control frame": left_by(
        lambda record, state, octets, mark, after:
        {} if mark else dict(doubtful=max(state.doubtful - frames.frame_bits(record), 0))),
    "count left by a control frame": left_by(
        lambda record, state, octets, mark, after: {} if mark else dict(doubtful=state.doubtful)),
    "count not set by a marked control frame": left_by(
        lambda record, state, octets, mark, after: if_marked(mark, doubtful=state.doubtful)),
    "D zeros pushed by a marked control frame": left_by(
        lambda record, state, octets, mark, after: if_marked(
            mark, history=(state.history << frames.frame_bits(record)) % frames.HISTORIES)),
    "history kept by a marked control frame": left_by(
        lambda record, state, octets, mark, after: if_marked(mark, history=state.history)),
    "sign kept by a marked control frame": left_by(
        lambda record, state, octets, mark, after: if_marked(mark, sign=state.sign)),
    "sequence place kept by a marked frame": left_by(
        lambda record, state, octets, mark, after:
        if_marked(mark, sequence_place=state.sequence_place)),
    "frame place kept by a marked frame": left_by(
        lambda record, state, octets, mark, after: if_marked(mark, frame_place=0)),
    "D zero bits given by a marked control frame":
        laid_out(lambda width, full, mark: full if mark else width),
    "receiver's bits at n x D": laid_out(lambda width, full, mark: full),
    "sender's bits at n x D": {"frames.send": read_at_d},
    "control frames where it is off": {"frames.is_control": lambda channel, state:
                                       state.frame_place == 0},
    "every frame a control frame": {"frames.is_control": lambda channel, state: bool(channel)},
    "control frames at place 63": {"frames.is_control": lambda channel, state:
                                   bool(channel) and state.frame_place == 63},
    "a control frame as the first of each call alone":
        both_left(lambda count, channel, state, after, rest:
                  dict(frame_place=0) if channel and count else {}),
    "every 63rd frame": {"frames.after_frame": lambda channel, state: state._replace(
        frame_place=(state.frame_place + 1) % 63) if channel else state},
    "every 65th frame": {"frames.after_frame": lambda channel, state: state._replace(
        frame_place=(state.frame_place + 1) % 65) if channel else state},
    "frame place in a byte": {"frames.after_frame": lambda channel, state: state._replace(
        frame_place=(state.frame_place + 1) % 256) if channel else state},
    "frame place not moved": {"frames.after_frame": lambda channel, state: state},
    "frame place moved where it is off": {"frames.after_frame": lambda channel, state:
                                          RIGHT["after_frame"](1, state)},
    "frame place moved by no frames": both_left(
        lambda count, channel, state, after, rest:
        {} if count else dict(frame_place=(state.frame_place + 1) % 64)),
    "frame place moved once a call": both_left(
        lambda count, channel, state, after, rest:
        dict(frame_place=(state.frame_place + 1) % 64) if channel and count else {}),
    "sequence place not moved": {"frames.after_control": lambda state: state},
    "sequences of 15 frames": {"frames.after_control": lambda state: state._replace(
        sequence_place=(state.sequence_place + 1) % 15)},
    "sequences of 17 frames": {
        "frames.after_control": lambda state: state._replace(
            sequence_place=(state.sequence_place + 1) % 17),
        "control.bits_so_far": lambda *args: RIGHT_CONTROL["bits_so_far"](*args) % 2**96},
    "fields zeroed where it is off": both_left(
        lambda count, channel, state, after, rest: {} if channel else ZERO_FIELDS),
    "fields zeroed by the refused sender": fields_zeroed_by_refusal("send"),
    "fields zeroed by the refused receiver": fields_zeroed_by_refusal("receive"),
    "16 by N x D": {"frames.send_faults": lambda record, law, count, state, channel, *rest:
                    RIGHT["send_faults"](record, law, count, state, 0, *rest)},
    "17 by N x D": {"frames.receive_faults": lambda record, law, count, state, channel, *rest:
                    RIGHT["receive_faults"](record, law, count, state, 0, *rest)},
    "one control frame a call counted": {"frames.control_frames": lambda channel, place, count:
                                         int(bool(channel) and (-place) % 64 < count)},
    "control frames counted from the call's start":
        {"frames.control_frames": lambda channel, place, count: -(-count // 64) if channel else 0},
    "19 forgotten": places_declined(*[lambda count, state, channel: False] * 2),
    "19 forgotten by the sender": places_declined(sender=lambda count, state, channel: False),
    "19 forgotten by the receiver": places_declined(receiver=lambda count, state, channel: False),
    "19 for the frame place alone": places_over(sequence=256),
    "19 for the sequence place alone": places_over(frame=256),
    "19 for both places together": places_declined(
        *[lambda count, state, channel: state.frame_place > 63 and state.sequence_place > 15] * 2),
    "19 where it is on alone": places_where(lambda count, channel: channel),
    "19 where it is off alone": places_where(lambda count, channel: not channel),
    "19 with frames alone": places_where(lambda count, channel: count),
    "19 from frame place 63 on": places_over(frame=63),
    "19 from frame place 65 on": places_over(frame=65),
    "19 from sequence place 15 on": places_over(sequence=15),
    "19 from sequence place 17 on": places_over(sequence=17),
    "19 of bytes with signs": places_declined(
        *[lambda count, state, channel: 63 < state.frame_place < 128
          or 15 < state.sequence_place < 128] * 2),
    "19 told as 18": frames_told_as(19, 18),
    "19 told as 14": frames_told_as(19, 14),
    "19 before 4": {"frames.call_faults": moved_before(4, RIGHT["call_faults"], 19)},
    "19 before 13": {"frames.call_faults": moved_before(13, RIGHT["call_faults"], 19)},
    "19 before 14": {"frames.call_faults": moved_before(14, RIGHT["call_faults"], 19)},
    "19 before 18": {"frames.call_faults": moved_before(18, RIGHT["call_faults"], 19)},
    "19 after 15": {"frames.call_faults": moved_before(16, RIGHT["call_faults"], 19)},
    "19 after 16": {"frames.call_faults": moved_before(17, RIGHT["call_faults"], 19)},
    "19 after 17": {"frames.call_faults": lambda *args: iter(sorted(
        RIGHT["call_faults"](*args), key=lambda fault: fault.number == 19))},
    "pattern from the right": {"control.PATTERN": control.PATTERN[::-1]},
    "pattern inverted": {"control.pattern_bits": lambda: 0x5FEE ^ 0xFFFF},
    "pattern not judged": faults_by(lambda found, bits: [f for f in found if f != 3]),
    "pattern judged by its first byte": faults_by(
        lambda found, bits: [f for f in found if f != 3 or bits % 256 != 0x5FEE % 256]),
    "CRC of a sequence not judged": faults_by(lambda found, bits: [f for f in found if f != 4]),
    "CRC of a sequence over 16 to 93": crc_over(*range(16, 94)),
    "CRC of a sequence over 0 to 77": crc_over(*range(78)),
    "CRC of a sequence over 18 to 77": crc_over(*range(18, 78)),
    "CRC of a sequence over 24 to 77": crc_over(*range(24, 78)),
    "CRC of a sequence over 16 to 76": crc_over(*range(16, 77)),
    "CRC of a sequence without 18 to 23": crc_over(16, 17, *range(24, 78)),
    "CRC of a sequence from bit 77 down": crc_over(*range(77, 15, -1)),
    "CRC of a sequence highest bit first": crc_by(lambda crc: mirrored_in(16, crc)),
    "CRC of a sequence complemented": crc_by(lambda crc: crc ^ 0xFFFF),
    "CRC of a sequence from zero": {"control.crc_of": crc_from_zero},
    "CRC of a sequence at 80": {"control.CRC_AT": 80},
    "cleardown and retrain exchanged": number_by(
        lambda number: number & ~3 | mirrored_in(2, number)),
    "secondary data highest bit first": number_by(
        lambda number: number % 4 | mirrored_in(54, number >> 2) << 2),
    "secondary data from bit 18 on": {"control.DATA_AT": 18},
    "bits 56 to 63 of the number used": {
        "control.sequence_of": lambda number:
        (RIGHT_CONTROL["sequence_of"](number) ^ number >> 56 << 78) % 2**96},
    "CRC wrong before pattern wrong": faults_by(lambda found, bits: sorted(
        found, key=(2, 4, 3).index)),
    "frame lost after pattern wrong": faults_by(lambda found, bits: sorted(
        found, key=(3, 2, 4).index)),
    "frame lost last": faults_by(lambda found, bits: sorted(found, key=(3, 4, 2).index)),
    "18:23 judged as the pattern": faults_by(lambda found, bits: sorted(
        found + [3] * bool(bits >> 18 & 63))),
    "18:23 judged as the CRC": faults_by(lambda found, bits: sorted(
        found + [4] * bool(bits >> 18 & 63))),
    "94:95 judged": faults_by(lambda found, bits: sorted(found + [4] * bool(bits >> 94))),
    "bits heard where a sequence is wrong": {"control.heard_in": lambda bits, lost:
                                             RIGHT_CONTROL["heard_in"](bits, lost)._replace(
                                                 number=RIGHT_CONTROL["number_in"](bits))},
    "18:23 heard": {"control.number_in": lambda bits:
                    bits >> 16 & 3 | bits >> 18 << 2 & 2**56 - 1},
    "sequences told from 0": {"control.heard_in": lambda bits, lost: control.Heard(
        *(lambda told: (told.what - 1, told.number))(RIGHT_CONTROL["heard_in"](bits, lost)))},
    "nothing heard": heard_by(lambda before, after, told: control.NOTHING),
    "heard again while the next has not started": heard_by(
        lambda before, after, told: told if after.sequence_place or ended(told)
        else control.heard_in(after.sequence, after.lost)),
    "heard at the start of the next": {"frames.ends_sequence": lambda channel, state:
                                       frames.is_control(channel, state)
                                       and state.sequence_place == 0},
    "heard one frame early": {"frames.ends_sequence": lambda channel, state:
                              frames.is_control(channel, state) and state.sequence_place == 14},
}


# Wrong codecs of CP and E_s

RIGHT_START = {name: getattr(starts, name)
               for name in ("cp_bits", "cp_faults", "find_faults", "find_state", "history_of",
                            "last_signs", "octet_count", "scrambled_bits", "send_bit", "send_bits",
                            "send_cp")}
ES_BITS = len(starts.E_S)


def begun_with(**fields):
    """The changes that let CP begin with other fields of the line state; the others are right."""
    return {"start.send_bits": lambda law, state, bits: RIGHT_START["send_bits"](
        law, state._replace(**fields), bits)}


def before_es(change):
    """The changes that give E_s a line state made from the one that CP leaves."""
    def send_bits(law, state, bits):
        octets, state = RIGHT_START["send_bits"](law, state, bits[:-ES_BITS])
        more, after = RIGHT_START["send_bits"](law, change(state), bits[-ES_BITS:])
        return octets + more, after
    return {"start.send_bits": send_bits}


def bits_sent_by(change):
    """The changes that send other bits, made from those of CP and E_s."""
    return {"start.send_bits": lambda law, state, bits: RIGHT_START["send_bits"](
        law, state, change(bits))}


def each_bit_by(coded):
    """The changes that code a bit otherwise; `coded` makes history and sign of state and bit."""
    def send_bit(law, state, bit):
        history, sign = coded(state, bit)
        return octet_of(law, sign, starts.UCODE), state._replace(history=history, sign=sign)
    return {"start.send_bit": send_bit}


def not_differential(state, bit):
    """A scrambled bit is the sign itself."""
    scrambled = bit ^ frames.taps(state.history)
    return frames.push(state.history, scrambled), scrambled


def data_in_history(state, bit):
    """The history takes the bits before the scrambler."""
    return frames.push(state.history, bit), bit ^ frames.taps(state.history) ^ state.sign


def signs_in_history(state, bit):
    """The history takes the signs."""
    sign = bit ^ frames.taps(state.history) ^ state.sign
    return frames.push(state.history, sign), sign


def coded_first(state, bit):
    """A bit is differentially coded before the scrambler, which makes the sign."""
    scrambled = bit ^ state.sign ^ frames.taps(state.history)
    return frames.push(state.history, scrambled), scrambled


def octets_by(change):
    """The changes that make octets of other law, sign and Ucode."""
    return {"start.octet_of": lambda law, sign, ucode: octet_of(*change(law, sign, ucode))}


def answered(change):
    """The changes that make another answer of send_cp from the right one and what is handed in."""
    def send_cp(record, law, state, octets):
        found = RIGHT_START["send_cp"](record, law, state, octets)
        return change(found, record, law, state, octets)
    return {"start.send_cp": send_cp}


def left_by_start(**fields):
    """The changes that let an accepted call of send_cp leave other fields."""
    return answered(lambda found, *given: found if found[0] else
                    (*found[:2], found[2]._replace(**fields), found[3]))


def refused_by_start(change):
    """The changes that make another answer where send_cp declines."""
    return answered(lambda found, *given: change(found, *given) if found[0] else found)


def as_if_sent(found, record, law, state, octets):
    """What send_cp leaves in the state where nothing is declined, and the octets as they were."""
    bits = RIGHT_START["cp_bits"](EXAMPLE) + list(starts.E_S)
    return found[0], 0, RIGHT_START["send_bits"](law, state._replace(
        history=state.history % frames.HISTORIES), bits)[1], octets


def written_all_the_same(found, record, law, state, octets):
    """A call that is refused with 17 writes what there is room for."""
    if found[0].number != 17:
        return found
    made = RIGHT_START["send_bits"](law, state, RIGHT_START["cp_bits"](record))[0][:len(octets)]
    return (*found[:3], made + octets[len(made):])


def one_short(record, law, state, octets):
    """A buffer one octet too short is accepted, and the last octet is lost."""
    if len(octets) != starts.octet_count(record) - 1:
        return RIGHT_START["send_cp"](record, law, state, octets)
    *found, made = RIGHT_START["send_cp"](record, law, state, octets + bytes(1))
    return *found, made[:len(octets)]


def beyond_start(change):
    """The changes that make other octets of those beyond CP and E_s."""
    return answered(lambda found, record, law, state, octets: found if found[0] else
                    (*found[:3], found[3][:found[1]] + change(law, octets[found[1]:])))


def declined_by_start(number, condition):
    """The changes that let send_cp have a refusal by another rule, made from record and state."""
    def cp_faults(record, law, state, octets):
        held = list(without(RIGHT_START["cp_faults"], number)(record, law, state, octets))
        held += [Refusal(number)] * bool(condition(record, state))
        return iter(sorted(held, key=lambda fault: ORDER.index(fault.number)))
    return {"start.cp_faults": cp_faults}


def told_by_start(number, other):
    """The changes that give a refusal of send_cp another number."""
    return {"start.cp_faults": lambda *args: (Refusal(other) if fault.number == number else fault
                                              for fault in RIGHT_START["cp_faults"](*args))}


def last_of_start(number):
    """The changes that let send_cp look at a refusal last."""
    return {"start.cp_faults": lambda *args: iter(sorted(
        RIGHT_START["cp_faults"](*args), key=lambda fault: fault.number == number))}


def moved_of_start(number, moved):
    """The changes that let send_cp look at a refusal just before another."""
    return {"start.cp_faults": moved_before(number, RIGHT_START["cp_faults"], moved)}


def without_of_start(number):
    """The changes that let send_cp forget a refusal."""
    return {"start.cp_faults": without(RIGHT_START["cp_faults"], number)}


def needing(change):
    """The changes that let send_cp ask for another number of octets, made from the right one."""
    def cp_faults(record, law, state, octets):
        yield from without(RIGHT_START["cp_faults"], 17)(record, law, state, octets)
        if len(octets) < change(starts.octet_count(record)):
            yield Refusal(17)
    def send_cp(record, law, state, octets):
        refusal = next(cp_faults(record, law, state, octets), None)
        if refusal:
            return refusal, 0, state, octets
        *found, made = RIGHT_START["send_cp"](record, law, state, octets + bytes(984))
        return *found, made[:len(octets)]
    return {"start.cp_faults": cp_faults, "start.send_cp": send_cp}


def found_by(change):
    """The changes that make another state of the one found and what is handed in."""
    def find_state(octets, state):
        refusal, after = RIGHT_START["find_state"](octets, state)
        return refusal, after if refusal else after._replace(**change(octets, state, after))
    return {"start.find_state": find_state}


def finding_refused(change):
    """The changes that make other refusals of find_state, from those that hold."""
    return {"start.find_faults": lambda octets, state: iter(change(
        list(RIGHT_START["find_faults"](octets, state)), octets, state))}


def found_at_all(octets, state):
    """Fewer than 24 octets are taken for what they are."""
    signs = starts.last_signs(octets)
    history = starts.history_of(starts.scrambled_bits(signs))
    return None, state._replace(history=history, sign=signs[-1] if signs else 0)


def against(sign):
    """The changes that take the first of the last 23 octets against a sign, made from the state."""
    def change(octets, state, after):
        signs = [sign(state), *(octet >> 7 for octet in octets[-23:])]
        return dict(history=starts.history_of(starts.scrambled_bits(signs)))
    return found_by(change)


def descrambled_history(octets, state, after):
    """The bits of a history are those behind the descrambler."""
    return dict(history=frames.descramble(0, mirrored_in(23, after.history), 23)[0])


WRONG_STARTS = {
    "E_s of eleven bits": {"start.E_S": (0,) * 11},
    "E_s of thirteen bits": {"start.E_S": (0,) * 13},
    "E_s of ones": {"start.E_S": (1,) * 12},
    "E_s not sent": {"start.E_S": ()},
    "E_s before CP": bits_sent_by(lambda bits: bits[-ES_BITS:] + bits[:-ES_BITS]),
    "CP sent twice": bits_sent_by(lambda bits: bits[:-ES_BITS] + bits),
    "CP not scrambled": {"start.taps": lambda history: 0},
    "CP scrambled from its own bits": each_bit_by(data_in_history),
    "CP scrambled from the signs": each_bit_by(signs_in_history),
    "CP not differentially coded": each_bit_by(not_differential),
    "CP differentially coded before the scrambler": each_bit_by(coded_first),
    "CP with taps 17 and 23": {"start.taps": lambda history: (history >> 16 ^ history >> 22) & 1},
    "CP with taps 5 and 23": {"start.taps": lambda history: (history >> 4 ^ history >> 22) & 1},
    "CP as Ucode 65": {"start.UCODE": 65},
    "CP as Ucode 67": {"start.UCODE": 67},
    "CP in the other law": octets_by(lambda law, sign, ucode: (1 - law, sign, ucode)),
    "CP in mu-law alone": octets_by(lambda law, sign, ucode: (MU, sign, ucode)),
    "CP with signs inverted": octets_by(lambda law, sign, ucode: (law, 1 - sign, ucode)),
    "sign reset before E_s": before_es(lambda state: state._replace(sign=0)),
    "history reset before E_s": before_es(lambda state: state._replace(history=0)),
    "E_s not scrambled": before_es(lambda state: FRESH._replace(sign=state.sign)),
    "sign reset before CP": begun_with(sign=0),
    "history reset before CP": begun_with(history=0),
    "history and sign reset before CP": begun_with(history=0, sign=0),
    "history of CP from ones": begun_with(history=2**23 - 1),
    "fill bits not sent": {"start.length": cp.end_of_crc},
    "padding of the last byte sent": {"start.length": lambda g: (cp.length(g) + 7) // 8 * 8},
    "CP of one mask alone": {"start.length": lambda g: cp.length(0)},
    "sync not sent": bits_sent_by(lambda bits: bits[17:]),
    "start bits not sent": bits_sent_by(lambda bits: [
        bit for n, bit in enumerate(bits) if n % 17 or not 0 < n < len(bits) - ES_BITS - 21]),
    "CP from its last bit": {"start.cp_bits": lambda record: RIGHT_START["cp_bits"](record)[::-1]},
    "CP from the top of each byte": {"start.cp_bits": lambda record: [
        (RIGHT_START["cp_bits"](record) + [0] * 7)[n ^ 7]
        for n in range(cases_cp.length_of(record))]},
    "CP without its CRC": {"start.bits_of": lambda record: cp.bits_of(record)
                           % 2 ** (273 + 136 * max(record.indices))},
    "acknowledge set in CP": {"start.bits_of": lambda record: cp.bits_of(
        record._replace(acknowledge=1))},
    "count cleared by CP": left_by_start(doubtful=0),
    "count 24 after CP": left_by_start(doubtful=24),
    "places cleared by CP": left_by_start(frame_place=0, sequence_place=0),
    "frame place cleared by CP": left_by_start(frame_place=0),
    "sequence place cleared by CP": left_by_start(sequence_place=0),
    "sequence cleared by CP": left_by_start(sequence=0),
    "lost cleared by CP": left_by_start(lost=0),
    "frames of CP counted": answered(lambda found, record, law, state, octets: found if found[0]
                                     else (*found[:2], found[2]._replace(
                                         frame_place=(state.frame_place + found[1] // 6) % 64),
                                         found[3])),
    "history not left by CP": answered(lambda found, record, law, state, octets: found if found[0]
                                       else (*found[:2], found[2]._replace(history=state.history),
                                             found[3])),
    "sign not left by CP": answered(lambda found, record, law, state, octets: found if found[0]
                                    else (*found[:2], found[2]._replace(sign=state.sign),
                                          found[3])),
    "zero state left by CP": left_by_start(history=0, sign=0),
    "bits of CP told": answered(lambda found, *given: found if found[0] else
                                (None, found[1] - ES_BITS, *found[2:])),
    "octets lent told": answered(lambda found, record, law, state, octets: found if found[0] else
                                 (None, len(octets), *found[2:])),
    "octets told by a refusal": refused_by_start(lambda found, record, law, state, octets:
                                                 (found[0], starts.octet_count(record) % 2**16,
                                                  *found[2:])),
    "state zeroed by a refused CP": refused_by_start(
        lambda found, *given: (*found[:2], FRESH, found[3])),
    "state moved on by a refused CP": refused_by_start(as_if_sent),
    "count zeroed by a refused CP": refused_by_start(
        lambda found, *given: (*found[:2], found[2]._replace(doubtful=0), found[3])),
    "CP refused and written": refused_by_start(written_all_the_same),
    "CP in a buffer one too short": {"start.cp_faults": lambda record, law, state, octets:
                                     RIGHT_START["cp_faults"](record, law, state,
                                                              octets + bytes(1)),
                                     "start.send_cp": one_short},
    "CP in a buffer of its bits": needing(lambda count: count - ES_BITS),
    "CP in a buffer of its bytes": needing(lambda count: (count - ES_BITS + 7) // 8),
    "CP refused where it just fits": needing(lambda count: count + 1),
    "CP always asks for 984 octets": needing(lambda count: max(count, 984)),
    "octets beyond CP cleared": beyond_start(lambda law, rest: bytes(len(rest))),
    "octets beyond CP of Ucode 66": beyond_start(
        lambda law, rest: bytes([octet_of(law, 1, 66)]) * len(rest)),
    "one octet beyond CP written": beyond_start(
        lambda law, rest: bytes([octet_of(law, 1, 66)])[:len(rest)] + rest[1:]),
    "CP at cleardown refused with 13": declined_by_start(13, lambda record, state:
                                                         record.drn == 0),
    "CP refused with 16": {"start.Refusal": lambda number: Refusal(16)},
    "12 forgotten with CP": without_of_start(12),
    "14 forgotten with CP": without_of_start(14),
    "18 forgotten with CP": without_of_start(18),
    "19 forgotten with CP": without_of_start(19),
    "25 forgotten with CP": without_of_start(25),
    "25 after 11 with CP": moved_of_start(12, 25),
    "25 before 10 with CP": moved_of_start(10, 25),
    "14 before 4 with CP": moved_of_start(4, 14),
    "14 before 12 with CP": moved_of_start(12, 14),
    "18 before 12 with CP": moved_of_start(12, 18),
    "18 before 14 with CP": moved_of_start(14, 18),
    "19 before 12 with CP": moved_of_start(12, 19),
    "19 before 14 with CP": moved_of_start(14, 19),
    "19 before 18 with CP": moved_of_start(18, 19),
    "17 before 4 with CP": moved_of_start(4, 17),
    "17 before 12 with CP": moved_of_start(12, 17),
    "17 before 14 with CP": moved_of_start(14, 17),
    "17 before 18 with CP": moved_of_start(18, 17),
    "17 before 19 with CP": moved_of_start(19, 17),
    "14 after 17 with CP": last_of_start(14),
    "12 after 17 with CP": last_of_start(12),
    "14 from 2^23 - 1 on with CP": declined_by_start(14, lambda record, state:
                                                     state.history >= 2**23 - 1),
    "14 from 2^23 + 1 on with CP": declined_by_start(14, lambda record, state:
                                                     state.history > 2**23),
    "14 by 24 bits with CP": declined_by_start(14, lambda record, state:
                                               state.history >> 23 & 1),
    "18 from 24 on with CP": declined_by_start(18, lambda record, state: state.doubtful > 23),
    "18 from 26 on with CP": declined_by_start(18, lambda record, state: state.doubtful > 25),
    "18 of a byte with a sign with CP": declined_by_start(18, lambda record, state:
                                                          24 < state.doubtful < 128),
    "18 for any count with CP": declined_by_start(18, lambda record, state: state.doubtful),
    "19 for the frame place alone with CP": declined_by_start(19, lambda record, state:
                                                              state.frame_place > 63),
    "19 for the sequence place alone with CP": declined_by_start(19, lambda record, state:
                                                                 state.sequence_place > 15),
    "19 from frame place 63 on with CP": declined_by_start(
        19, lambda record, state: state.frame_place > 62 or state.sequence_place > 15),
    "19 from sequence place 15 on with CP": declined_by_start(
        19, lambda record, state: state.frame_place > 63 or state.sequence_place > 14),
    "18 told as 14 with CP": told_by_start(18, 14),
    "19 told as 18 with CP": told_by_start(19, 18),
    "state found from 23 octets": {"start.FOUND_FROM": 23},
    "state found from 25 octets": {"start.FOUND_FROM": 25},
    "history found of 22 bits": found_by(lambda octets, state, after:
                                         dict(history=after.history % 2**22)),
    "history found of 24 bits": found_by(lambda octets, state, after: dict(
        history=after.history | (octets[-25:][0] ^ octets[-24]) >> 7 << 23)),
    "state found from the first 24": {"start.last_signs": lambda octets:
                                      [octet >> 7 for octet in octets[:24]]},
    "state found one octet early": {"start.last_signs": lambda octets:
                                    [octet >> 7 for octet in octets[-25:-1]]},
    "history found in the reverse order": {"start.history_of": lambda bits:
                                           RIGHT_START["history_of"](bits[::-1])},
    "signs taken in the reverse order": {"start.last_signs": lambda octets:
                                         RIGHT_START["last_signs"](octets)[::-1]},
    "first bit found against sign 0": against(lambda state: 0),
    "first bit found against the state's sign": against(lambda state: state.sign),
    "history found of signs": found_by(lambda octets, state, after: dict(
        history=starts.history_of([octet >> 7 for octet in octets[-23:]]))),
    "history found behind the descrambler": found_by(descrambled_history),
    "history found by the lowest bits": found_by(lambda octets, state, after: dict(
        history=starts.history_of(starts.scrambled_bits([octet & 1 for octet in octets[-24:]])))),
    "history found over the one handed in": found_by(lambda octets, state, after: dict(
        history=after.history | state.history)),
    "upper bits of the history kept": found_by(lambda octets, state, after: dict(
        history=after.history | state.history >> 23 << 23)),
    "history not found": found_by(lambda octets, state, after: dict(history=state.history)),
    "sign not found": found_by(lambda octets, state, after: dict(sign=state.sign)),
    "sign found inverted": found_by(lambda octets, state, after: dict(sign=1 - after.sign)),
    "sign found of the first octet": found_by(lambda octets, state, after: dict(
        sign=octets[-24] >> 7)),
    "sign 0 found": found_by(lambda octets, state, after: dict(sign=0)),
    "count cleared where a state is found": found_by(lambda octets, state, after: dict(doubtful=0)),
    "count 24 where a state is found": found_by(lambda octets, state, after: dict(doubtful=24)),
    "places cleared where a state is found": found_by(lambda octets, state, after: dict(
        frame_place=0, sequence_place=0)),
    "fields cleared where a state is found": found_by(lambda octets, state, after: ZERO_FIELDS),
    "lost cleared where a state is found": found_by(lambda octets, state, after: dict(lost=0)),
    "find_state refusing 14": finding_refused(lambda held, octets, state: [
        *held, *[Refusal(14)] * (state.history >= 2**23)]),
    "find_state refusing 14 first": finding_refused(lambda held, octets, state: [
        *[Refusal(14)] * (state.history >= 2**23), *held]),
    "find_state refusing 18": finding_refused(lambda held, octets, state: [
        *held, *[Refusal(18)] * (state.doubtful > 24)]),
    "find_state refusing 19": finding_refused(lambda held, octets, state: [
        *held, *[fault for fault in frames.state_faults(state) if fault.number == 19]]),
    "find_state refusing 16 above 24 octets": finding_refused(
        lambda held, octets, state: held if len(octets) <= 24 else [Refusal(16)]),
    "find_state refusing with 17": finding_refused(
        lambda held, octets, state: [Refusal(17) for _ in held]),
    "find_state refusing nothing": {"start.find_state": found_at_all},
    "state zeroed by a refused find_state": {"start.find_state": lambda octets, state: (
        lambda refusal, after: (refusal, FRESH if refusal else after))(
            *RIGHT_START["find_state"](octets, state))},
    "state put in bounds by a refused find_state": {"start.find_state": lambda octets, state: (
        lambda refusal, after: (refusal, after._replace(
            history=after.history % 2**23, doubtful=min(after.doubtful, 24))))(
                *RIGHT_START["find_state"](octets, state))},
}


def stored_rows():
    """The stored rows of Table 1 and lines of the DIL."""
    return (stored_text("vectors_pcm/stdout") + stored_text("vectors_dil/stdout")).splitlines()


def failed_rows(stored):
    """How many stored rows of Table 1 and lines of the DIL differ from those made."""
    made = (vectors.pcm_lines() + vectors.dil_lines()).splitlines()
    return sum(row != other for row, other in zip_longest(stored, made))


@contextmanager
def changed(changes):
    """The model with some of its names changed."""
    with ExitStack() as stack:
        for name, value in changes.items():
            stack.enter_context(patch(name, value))
        yield


def stopped(changes, both, stored):
    """How many stored cases, rows and lines a wrong codec, given by what it changes, fails.

    Without -v no more than the first is looked for.
    """
    with changed(changes):
        failed = (forms.answer(case) != answer for case, answer in both)
        if "-v" not in sys.argv:
            return int(any(failed)) or failed_rows(stored)
        return sum(failed) + failed_rows(stored)


def wrong_codecs():
    """Every wrong codec fails at a stored case, row or line; the short ones are looked at first."""
    both, stored = sorted(stored_cases(), key=lambda pair: sum(map(len, pair))), stored_rows()
    of_start = sorted(both, key=lambda pair: pair[0][0] < forms.SEND_CP)
    wrong = WRONG_CODECS | WRONG_CHANNELS | WRONG_STARTS
    found = {name: stopped(changes, of_start if name in WRONG_STARTS else both, stored)
             for name, changes in wrong.items()}
    if "-v" in sys.argv:
        for name, count in found.items():
            print(f"    {name}: fails {count} of {len(both) + len(stored)}")
    check(all(found.values()), f"not stopped: {[name for name in found if not found[name]]}")
    same(stopped({}, both, stored), 0, "the model itself")
    same(len(found), sum(map(len, (WRONG_CODECS, WRONG_CHANNELS, WRONG_STARTS))), "names")
    return f"{len(found)} stopped"


# Wrong planners

RIGHT_PLAN = {name: getattr(plan, name)
              for name in ("faults", "far_below", "largest_spacing", "least", "least_in", "plan",
                           "points_wanted")}


def searched_with(**parts):
    """The changes that give the search other parts; of what was found before nothing is kept."""
    afresh = lru_cache(maxsize=None)(plan.least_in.__wrapped__)
    return {"plan.least_in": afresh} | {f"plan.{name}": part for name, part in parts.items()}


def smallest_if(kept):
    """The changes that put another rule on the smallest value."""
    return searched_with(sums_of_one=lambda values, spacing:
                         [value**2 if kept(value, spacing) else plan.NO_MASK for value in values])


def more_than_spacing(values, spacing):
    """Neighbouring values differ by more than the spacing."""
    return [bisect_left(values, value - spacing, 0, u) for u, value in enumerate(values)]


def ucodes_apart(values, spacing):
    """Neighbouring Ucodes, and not their values, differ by the spacing."""
    return [max(u - spacing + 1, 0) for u in range(len(values))]


def highest_first(values, spacing, points):
    """The highest Ucode that keeps the spacing, again and again."""
    mask, most = 0, values[-1]
    for u in reversed(range(len(values))):
        if values[u] <= most and 2 * values[u] >= spacing and mask.bit_count() < points:
            mask |= 1 << u
            most = values[u] - spacing
    return (sum_of(chosen(values, mask)), mask) if mask.bit_count() == points else None


def on_a_grid(values, spacing, points):
    """The lowest Ucodes from 1/2, 3/2, 5/2 and so on of the spacing on."""
    floors = [(2 * n + 1) * spacing / 2 for n in range(points)]
    mask = sum(1 << u for u in {bisect_left(values, floor) for floor in floors})
    most = 1 << len(values)
    return (sum_of(chosen(values, mask)), mask) if mask < most else None


def found_with(change):
    """The changes that make something else of the sum and the mask found."""
    def least(values, spacing, points):
        found = RIGHT_PLAN["least"](values, spacing, points)
        return found and change(values, *found)
    return searched_with(least=least)


def sum_by(made):
    """The changes that give another sum, made from the points and their sum of squares."""
    return found_with(lambda values, total, mask: (made(chosen(values, mask), total), mask))


def mask_by(made):
    """The changes that give another mask, made from the right one."""
    return found_with(lambda values, total, mask: (total, made(mask)))


def ranges(rates=plan.RATES, spacings=plan.SPACINGS):
    """The changes that give 26 other ranges of K and spacing."""
    def faults(k, law, spacing, ceiling):
        if k not in rates or spacing not in spacings:
            yield Refusal(26)
        yield from without(RIGHT_PLAN["faults"], 26)(k, law, spacing, ceiling)
    return {"plan.faults": faults}


def refused_if(exceeds):
    """The changes that give 28 another comparison of sum and ceiling."""
    def faults(k, law, spacing, ceiling):
        yield from without(RIGHT_PLAN["faults"], 28)(k, law, spacing, ceiling)
        found = plan.least_in(law, spacing, plan.points_wanted(k))
        if found and exceeds(found[0], ceiling):
            yield Refusal(28)
    return {"plan.faults": faults}


def told_as(number, other):
    """The changes that give a refusal another number."""
    return {"plan.faults": lambda *args: (Refusal(other) if fault.number == number else fault
                                          for fault in RIGHT_PLAN["faults"](*args))}


def left_after_refusal(place):
    """The changes that leave M, sum or mask, by its place in the answer, after a refusal."""
    def planned(k, law, spacing, ceiling):
        answer = list(RIGHT_PLAN["plan"](k, law, spacing, ceiling))
        if answer[0]:
            points = plan.points_wanted(k)
            found = plan.least_in(law, spacing, points) or (0, 0)
            answer[place] = (answer[0], points, *found)[place]
        return tuple(answer)
    return {"plan.plan": planned}


def largest_by(change):
    """The changes that make another largest spacing from the right one."""
    return {"plan.largest_spacing": lambda *args: change(RIGHT_PLAN["largest_spacing"](*args))}


def other_law(law, spacing, points):
    """The values of the other law."""
    return RIGHT_PLAN["least_in"](1 - law, spacing, points)


def mirrored(mask):
    """The mask with Ucode 0 in the top bit."""
    return int(f"{mask:0128b}"[::-1], 2)


WRONG_PLANNERS = {
    "twice the smallest value not looked at": smallest_if(lambda value, spacing: True),
    "twice the smallest value above the spacing":
        smallest_if(lambda value, spacing: 2 * value > spacing),
    "the smallest value at least the spacing": smallest_if(lambda value, spacing: value >= spacing),
    "half the spacing rounded down": smallest_if(lambda value, spacing: value >= spacing // 2),
    "the smallest value above 0": smallest_if(lambda value, spacing: value > 0),
    "values more than the spacing apart": searched_with(far_below=more_than_spacing),
    "values half the spacing apart": searched_with(far_below=lambda values, spacing:
                                                   RIGHT_PLAN["far_below"](values, spacing // 2)),
    "values twice the spacing apart": searched_with(far_below=lambda values, spacing:
                                                    RIGHT_PLAN["far_below"](values, 2 * spacing)),
    "Ucodes the spacing apart": searched_with(far_below=ucodes_apart),
    "neighbours not looked at": searched_with(far_below=lambda values, spacing:
                                              range(len(values))),
    "highest Ucodes first": searched_with(least=highest_first),
    "points on a grid": searched_with(least=on_a_grid),
    "Ucodes 0 to 63 alone": searched_with(least=lambda values, spacing, points:
                                          RIGHT_PLAN["least"](values[:64], spacing, points)),
    "Ucodes 0 to 126 alone": searched_with(least=lambda values, spacing, points:
                                           RIGHT_PLAN["least"](values[:127], spacing, points)),
    "a point less": {"plan.points_wanted": lambda k: RIGHT_PLAN["points_wanted"](k) - 1},
    "a point more": {"plan.points_wanted": lambda k: RIGHT_PLAN["points_wanted"](k) + 1},
    "M^6 above 2^K": {"plan.points_wanted": lambda k:
                      next(m for m in range(2000) if m**6 > 2**k)},
    "M rounded to the nearest": {"plan.points_wanted": lambda k: round(2 ** (k / 6))},
    "M a power of 2": {"plan.points_wanted": lambda k: 2 ** -(-k // 6)},
    "M for the bits of a frame": {"plan.points_wanted": lambda k:
                                  RIGHT_PLAN["points_wanted"](k + 6)},
    "sum over both signs": sum_by(lambda points, total: 2 * total),
    "sum over six intervals": sum_by(lambda points, total: 6 * total),
    "sum of values not squared": sum_by(lambda points, total: sum(points)),
    "mean of the squares": sum_by(lambda points, total: total // len(points)),
    "sum without the largest": sum_by(lambda points, total: sum_of(points[:-1])),
    "sum of 32 bits": sum_by(lambda points, total: total % 2**32),
    "ceiling the wrong way": refused_if(lambda total, ceiling: total < ceiling),
    "sum equal to the ceiling refused": refused_if(lambda total, ceiling: total >= ceiling),
    "ceiling not looked at": refused_if(lambda total, ceiling: False),
    "ceiling of 32 bits": refused_if(lambda total, ceiling: total > ceiling % 2**32),
    "ceiling on a sum of 32 bits": refused_if(lambda total, ceiling: total % 2**32 > ceiling),
    "ceiling on both signs": refused_if(lambda total, ceiling: 2 * total > ceiling),
    "ceiling on six intervals": refused_if(lambda total, ceiling: 6 * total > ceiling),
    "26 after 27": {"plan.faults": lambda *args: reversed(list(RIGHT_PLAN["faults"](*args)))},
    "26 by K alone": ranges(spacings=range(2**32)),
    "26 by the spacing alone": ranges(rates=range(2**32)),
    "K = 14 accepted": ranges(rates=range(14, 43)),
    "K = 15 refused": ranges(rates=range(16, 43)),
    "K = 42 refused": ranges(rates=range(15, 42)),
    "K = 43 left to 27": ranges(rates=range(15, 44)),
    "spacing 0 accepted": ranges(spacings=range(65536)),
    "spacing 1 refused": ranges(spacings=range(2, 65536)),
    "spacing 65535 refused": ranges(spacings=range(1, 65535)),
    "spacing 65536 left to 27": ranges(spacings=range(1, 65537)),
    "27 told as 28": told_as(27, 28),
    "28 told as 27": told_as(28, 27),
    "26 told as 9": told_as(26, 9),
    "always refused": {"plan.plan": lambda *args: (Refusal(27), 0, 0, 0)},
    "laws exchanged": {"plan.least_in": other_law},
    "mu-law alone": {"plan.least_in": lambda law, *rest: RIGHT_PLAN["least_in"](MU, *rest)},
    "A-law alone": {"plan.least_in": lambda law, *rest: RIGHT_PLAN["least_in"](A, *rest)},
    "halves of the mask exchanged": mask_by(lambda mask: mask % 2**64 << 64 | mask >> 64),
    "Ucode 0 in the top bit": mask_by(mirrored),
    "Ucodes one too high": mask_by(lambda mask: mask << 1),
    "M left after a refusal": left_after_refusal(1),
    "sum left after a refusal": left_after_refusal(2),
    "mask left after a refusal": left_after_refusal(3),
    "largest spacing one less": largest_by(lambda spacing: max(spacing - 1, 0)),
    "largest spacing in steps of 16": largest_by(lambda spacing: spacing // 16 * 16),
    "first spacing refused": largest_by(lambda spacing: spacing + 1),
}


def made_again(line):
    """A stored line of plans with its answer made again from what is handed in."""
    k, name, *rest = line.split(" ")
    k, law = int(k), ("mu", "a").index(name)
    if rest[0] == "largest":
        return vectors.largest_line(k, law, name)
    return vectors.plan_line(k, law, name, int(rest[0]), int(rest[1]))


def failed_plans(stored):
    """How many stored lines of plans have another answer."""
    return sum(made_again(line) != line for line in stored)


def wrong_planners():
    """Every wrong planner fails at a stored line."""
    stored, found = stored_text("vectors_plan/stdout").splitlines(keepends=True), {}
    for name, changes in WRONG_PLANNERS.items():
        with changed(changes):
            found[name] = failed_plans(stored)
    if "-v" in sys.argv:
        for name, count in found.items():
            print(f"    {name}: fails {count} of {len(stored)}")
    check(all(found.values()), f"not stopped: {[name for name in found if not found[name]]}")
    same(failed_plans(stored), 0, "the model itself")
    return f"{len(found)} stopped"


# Wrong costs of a flipped sign

# The right places, by K and interval.
PLACES = {pair: flip.changed_places(*pair) for pair in product(plan.RATES, range(6))}


def places_of(change):
    """The changes that make other places of K, interval and the right places."""
    return {"flip.changed_places": lambda k, interval: change(k, interval, PLACES[k, interval])}


def places_from(bits, taps=TAPS):
    """The changes that find the places from other sign bits, by K and interval, or other taps."""
    return places_of(lambda k, interval, places: without_twins(
        places_named(bits(k, interval), taps)))


def after_interval_5(bit):
    """The changes that have the sign bit after interval 5 at another place, made from K."""
    return places_from(lambda k, interval: (interval, interval + 1 if interval < 5 else bit(k)))


def twins_kept_at(rates, made=sorted):
    """The changes that keep at some K what is named twice, made from all places named."""
    return places_of(lambda k, interval, places: made(places_named(sign_bits_of(k, interval)))
                     if k in rates else places)


def with_right_places(changes):
    """The changes, the places being right all the same."""
    return changes | places_of(lambda k, interval, places: places)


def octets_flipped(change):
    """The changes that flip other bits: of each octet, made from its place and the right place."""
    return with_right_places({"flip.flipped": lambda octets, frame, interval: bytes(
        octet ^ change(n, 6 * frame + interval) for n, octet in enumerate(octets))})


def sign_made(change):
    """The changes that make another octet of the one that is hit."""
    def flipped(octets, frame, interval):
        place = 6 * frame + interval
        return octets[:place] + bytes([change(octets[place])]) + octets[place + 1:]
    return with_right_places({"flip.flipped": flipped})


def read_otherwise(change):
    """The changes that read two lines otherwise, made from record, law, state and the lines."""
    def receptions(record, law, state, frame, interval, octets):
        return change(record, law, state, octets, flip.flipped(octets, frame, interval))
    return {"forms.receptions": receptions}


def second_after_first(record, law, state, octets, others):
    """The second reading goes on from the state that the first left."""
    first = frames.receive(*forms.reading(record, law, state, octets))
    return [first, frames.receive(*forms.reading(record, law, first[1], others))]


def channel_on(record, law, state, octets, others):
    """The control channel is on."""
    calls = [forms.reading(record, law, state, line) for line in (octets, others)]
    return [frames.receive(*call[:4], 1, *call[5:]) for call in calls]


def read_from(**fields):
    """The changes that read from a state with other fields."""
    return read_otherwise(lambda record, law, state, *lines: [
        frames.receive(*forms.reading(record, law, state._replace(**fields), line))
        for line in lines])


def mark_of_flip(record, law, state, octets, others):
    """The frame that is hit gets a mark."""
    first, second = (frames.receive(*forms.reading(record, law, state, line))
                     for line in (octets, others))
    hit = next(n for n, pair in enumerate(zip(octets, others)) if len(set(pair)) == 2) // 6
    marks = bytes(hit % 6 + 1 if n == hit else mark for n, mark in enumerate(second[4]))
    return [first, second if second[0] else (*second[:4], marks)]


WRONG_FLIPS = {
    "the sign bit after it left alone": places_from(lambda k, interval: (interval,)),
    "its own sign bit left alone": places_from(lambda k, interval: sign_bits_of(k, interval)[1:]),
    "the sign bit before it in place of its own": places_from(
        lambda k, interval: (max(interval - 1, 0), sign_bits_of(k, interval)[1])),
    "sign bits alone": places_from(sign_bits_of, (0,)),
    "sign bits themselves not counted": places_from(sign_bits_of, (18, 23)),
    "taps at 17 and 23": places_from(sign_bits_of, (0, 17, 23)),
    "taps at 18 and 22": places_from(sign_bits_of, (0, 18, 22)),
    "taps at 5 and 23": places_from(sign_bits_of, (0, 5, 23)),
    "taps one too far": places_from(sign_bits_of, (0, 19, 24)),
    "places named twice kept once": twins_kept_at((17, 22), lambda named: sorted(set(named))),
    "places named twice kept twice": twins_kept_at((17, 22)),
    "six places at K = 17": twins_kept_at((17,)),
    "six places at K = 22": twins_kept_at((22,)),
    "four places in each interval at K = 17": places_of(
        lambda k, interval, places: places[:4] if k == 17 else places),
    "four places at K = 16 and 21": after_interval_5(lambda k: k + 7),
    "four places at K = 18 and 23": after_interval_5(lambda k: k + 5),
    "next sign of interval 5 in the same frame": after_interval_5(lambda k: 6),
    "next sign of interval 5 at place K": after_interval_5(lambda k: k),
    "next sign of interval 5 a frame late": after_interval_5(lambda k: 2 * (k + 6)),
    "next sign of interval 5 left alone": places_from(
        lambda k, interval: sign_bits_of(k, interval)[:1 if interval == 5 else 2]),
    "interval counted from 1": places_of(
        lambda k, interval, places: PLACES[k, max(interval - 1, 0)]),
    "places counted from 1": places_of(lambda k, interval, places: [n + 1 for n in places]),
    "places counted from the next frame": places_of(
        lambda k, interval, places: [n - k - 6 for n in places if n >= k + 6]),
    "places counted from the bits of R": places_of(
        lambda k, interval, places: [n - 6 for n in places if n >= 6]),
    "places counted from the sign that is hit": places_of(
        lambda k, interval, places: [n - interval for n in places]),
    "places in that frame alone": places_of(
        lambda k, interval, places: [n for n in places if n < k + 6]),
    "places in that frame and the next alone": places_of(
        lambda k, interval, places: [n for n in places if n < 2 * (k + 6)]),
    "places falling": places_of(lambda k, interval, places: places[::-1]),
    "places of one sign bit after the other": places_of(
        lambda k, interval, places: sorted(places, key=places_named(
            sign_bits_of(k, interval)).index)),
    "places of K = 15 always": places_of(
        lambda k, interval, places: PLACES[15, interval]),
    "places of one K more": places_of(
        lambda k, interval, places: PLACES[min(k + 1, 42), interval]),
    "six told always": {"forms.places_form": lambda places: bytes([6, *places])},
    "number of places not told": {"forms.places_form": bytes},
    "nothing flipped": octets_flipped(lambda n, place: 0),
    "the octet before flipped": octets_flipped(lambda n, place: 0x80 * (n == max(place - 1, 0))),
    "the octet after flipped": octets_flipped(lambda n, place: 0x80 * (n == place + 1)),
    "the frame before flipped": octets_flipped(lambda n, place: 0x80 * (n == place - 6)),
    "all signs of the frame flipped": octets_flipped(
        lambda n, place: 0x80 * (n // 6 == place // 6)),
    "all signs from it on flipped": octets_flipped(lambda n, place: 0x80 * (n >= place)),
    "weight 64 flipped": octets_flipped(lambda n, place: 0x40 * (n == place)),
    "weight 1 flipped": octets_flipped(lambda n, place: n == place),
    "all bits flipped": octets_flipped(lambda n, place: 0xFF * (n == place)),
    "sign set": sign_made(lambda octet: octet | 0x80),
    "sign cleared": sign_made(lambda octet: octet & 0x7F),
    "second reading after the first": read_otherwise(second_after_first),
    "readings exchanged": read_otherwise(
        lambda record, law, state, octets, others: [
            frames.receive(*forms.reading(record, law, state, line)) for line in (others, octets)]),
    "read with the channel on": read_otherwise(channel_on),
    "read from the zero state": read_from(history=0, sign=0),
    "read from the sign 0": read_from(sign=0),
    "read with no bit doubtful": read_from(doubtful=0),
    "the hit frame marked": read_otherwise(mark_of_flip),
    "a flip that never dies out": with_right_places({"frames.descramble": own_output}),
    "last sign kept where a frame is marked": {"frames.after_mark": sign_kept},
}


def failing_flips(both):
    """Whether each stored case of one flipped sign has another answer."""
    return (forms.answer(case) != answer for case, answer in both)


def wrong_flips():
    """Every wrong cost of a flipped sign fails at a stored case.

    Without -v no more than the first is looked for.
    """
    both, found = stored_pairs("vectors_flip"), {}
    for name, changes in WRONG_FLIPS.items():
        with changed(changes):
            found[name] = (sum if "-v" in sys.argv else any)(failing_flips(both))
    if "-v" in sys.argv:
        for name, count in found.items():
            print(f"    {name}: fails {count} of {len(both)}")
    check(all(found.values()), f"not stopped: {[name for name in found if not found[name]]}")
    check(not any(failing_flips(both)), "the model itself")
    return f"{len(found)} stopped"


# Wrong settings files

RIGHT_JUNCTIONS = {name: getattr(settings, name)
                  for name in ("after_back", "after_put", "at", "back_faults", "cp_octets",
                               "cp_reading", "entry_at", "go_back", "grown", "junctions_in",
                               "look_faults", "look_up", "parts_of", "put", "put_faults",
                               "replaced", "settings_of", "version_of", "write", "written")}
SETTINGS_ENTRIES = ("put", "go_back", "look_up")
SETTINGS_FAULTS = ("put_faults", "back_faults", "look_faults")


def rule_by(name, rule=lambda parts: True):
    """The changes that put a rule in the place of another; without one, that is forgotten."""
    rules = [rule if each.__name__ == name else each for each in settings.RULES]
    return {"settings.RULES": tuple(rules)}


def previous_for_current(entries):
    """A previous setting stands in for a current one that is not there."""
    return [one._replace(current=one.current or one.previous)
            for one in RIGHT_JUNCTIONS["junctions_in"](entries)]


def entry_let_in(name, rule=lambda parts: True):
    """The changes of `rule_by`, a junction without a current setting showing its previous one."""
    return rule_by(name, rule) | {"settings.junctions_in": previous_for_current}


def starts_by(alike, places=lambda count: range(count + 1)):
    """The changes that compare starts otherwise, at some places of so many entries.

    The place of the trailer's start is the number of entries.
    """
    def rule(parts):
        told = [entry.before for entry in parts.entries] + [parts.last]
        right = [0] + [entry.place for entry in parts.entries]
        return all(alike(told[n], right[n]) for n in places(len(parts.entries)))
    return rule_by("starts_told", rule)


def starts_but(skipped):
    """The changes that compare all starts but some, made from the number of entries."""
    return starts_by(int.__eq__, lambda count: [n for n in range(count + 1)
                                                if n not in skipped(count)])


def starts_inside(parts):
    """Starts have to be inside the file, no more."""
    end = sum(settings.entry_size(parts.version, entry.octets) for entry in parts.entries)
    return all(entry.before < end for entry in parts.entries) and parts.last <= end


def order_by(alike):
    """The changes that compare (junction, kind) of neighbours otherwise."""
    return rule_by("rising", lambda parts: all(
        alike(low, high) for low, high in zip(parts.entries, parts.entries[1:])))


def key_of(entry):
    """Junction and kind."""
    return entry.junction, entry.kind


def rising_or_twice(kind):
    """Rising, or two settings of one kind."""
    return order_by(lambda low, high: key_of(low) < key_of(high)
                    or key_of(low) == key_of(high) == (low.junction, kind))


def cps_by(judged):
    """The changes that judge the CPs of some entries alone."""
    return rule_by("cps_accepted", lambda parts: all(
        settings.cp_accepted(entry.octets) for entry in judged(parts.entries)))


def cp_without(number):
    """The changes that forget one of the reader's refusals in a file."""
    def read_cp(octets, bit_count):
        refusal = next(without(cp.reader_faults, number)(octets, bit_count), None)
        return (refusal, EMPTY) if refusal else (None, cp.record_in(
            cp.lent_bits(octets, bit_count)[1]))
    return {"settings.read_cp": read_cp}


def longer_cps(octets):
    """A CP may have bytes after it."""
    size = next((size for size in reversed(settings.CP_BITS) if size <= len(octets) and not
                 cp.read_cp(octets[:size], settings.CP_BITS[size])[0]), len(octets))
    return RIGHT_JUNCTIONS["cp_reading"](octets[:size])


# What does not fit into its bytes is cut.
CUT = {"settings.low_first": cases_settings.low_first}


def version_by(**fields):
    """The changes that give files of version 1 other widths or bounds."""
    return CUT | {"settings.VERSIONS": (settings.VERSION_1._replace(**fields), settings.VERSION_2)}


def version_2_by(**fields):
    """The changes that give files of version 2 other widths or bounds."""
    return CUT | {"settings.VERSIONS": (settings.VERSION_1, settings.VERSION_2._replace(**fields))}


def versions_taken(taken, version=settings.VERSION_1):
    """The changes that take files with some last bytes for one version."""
    return {"settings.version_of": lambda file: version if file and taken(file[-1])
            else RIGHT_JUNCTIONS["version_of"](file)}


def short_taken(least, byte=1):
    """The changes that take short files, of so many bytes or more, for one without entries."""
    version = settings.VERSIONS[byte - 1]
    def filled(file):
        named = byte == 1 or file[-1:] == bytes([byte])
        short = least <= len(file) < settings.trailer_size(version)
        return settings.write([], version) if named and short else file
    return {f"settings.{name}": (lambda right: lambda file: right(filled(file)))(
        RIGHT_JUNCTIONS[name]) for name in ("parts_of", "version_of")}


def entries_with(change):
    """The changes that make other entries of those walked."""
    def entry_at(*args):
        entry = RIGHT_JUNCTIONS["entry_at"](*args)
        return entry and change(entry)
    return {"settings.entry_at": entry_at}


def named_by(change):
    """The changes that make other arguments of the junction number, for all entries."""
    def of(name):
        return lambda file, junction, *rest: RIGHT_JUNCTIONS[name](file, change(junction), *rest)
    return {f"settings.{name}": of(name) for name in SETTINGS_ENTRIES}


def high_first(value, width):
    """A number with its high byte first; a CP is no number."""
    return value.to_bytes(width, "big" if width <= 4 else "little")


def last_of_junction(entries):
    """The last entry of a junction is its current setting."""
    found = {one.number: one for one in RIGHT_JUNCTIONS["junctions_in"](entries)}
    return [one._replace(current=one.previous or one.current) for one in found.values()]


def look_up_by(setting):
    """The changes that show another setting of a junction."""
    def look_up(file, junction):
        refusal, record = RIGHT_JUNCTIONS["look_up"](file, junction)
        if refusal:
            return refusal, record
        return settings.cp_reading(setting(settings.at(settings.read(file), junction)))
    return {"settings.look_up": look_up}


def anew(octets):
    """A CP as the writer writes its record; None stays."""
    return octets and settings.cp_octets(settings.cp_reading(octets)[1])


def put_by(change):
    """The changes that make other settings of a junction by a put, from those before."""
    def after_put(junctions, junction, octets):
        here = settings.at(junctions, junction) or settings.Junction(junction, None, None)
        return settings.replaced(junctions, here._replace(**change(here, octets)))
    return {"settings.after_put": after_put}


def three_kept(file, junction, record, out):
    """A put keeps the older setting behind the previous one."""
    refusal, size, after = RIGHT_JUNCTIONS["put"](file, junction, record, out)
    older = refusal or settings.at(settings.read(file), junction)
    if refusal or older is None or older.previous is None:
        return refusal, size, after
    pieces = [cases_settings.Piece(*one) for one in settings.settings_of(
        settings.read(after[:size]))]
    place = [piece.junction for piece in pieces].index(junction) + 2
    pieces.insert(place, cases_settings.Piece(junction, settings.PREVIOUS, older.previous))
    made = cases_settings.built(pieces, settings.version_of(after[:size]))
    return None, len(made), (made + out[len(made):])[:len(out)]


def back_by(change):
    """The changes that make other settings of a junction by a going back, from those before."""
    def after_back(junctions, junction):
        here = settings.at(junctions, junction)
        return settings.replaced(junctions, here._replace(**change(here)))
    return {"settings.after_back": after_back}


def others_by(change):
    """The changes that make others of the junctions that are not named."""
    def replaced(junctions, one):
        return [each if each.number == one.number else change(each)
                for each in RIGHT_JUNCTIONS["replaced"](junctions, one)]
    return {"settings.replaced": replaced}


def laid_by(order):
    """The changes that lay the junctions of a new file in another order."""
    def replaced(junctions, changed_one):
        others = [one for one in junctions if one.number != changed_one.number]
        return order(junctions, others, changed_one)
    return {"settings.replaced": replaced}


def pieces_written(change):
    """The changes that write other entries and trailers; `change` gives `built` its arguments.

    These are made from the right entries and the places where they begin.
    """
    def write(junctions, version=settings.VERSION_1):
        pieces = [cases_settings.Piece(*one) for one in settings.settings_of(junctions)]
        places = cases_settings.places_of(pieces, version)
        return cases_settings.built(**{"pieces": pieces, "version": version}
                                    | change(pieces, places))
    return {"settings.write": write}


def starts_written(start):
    """The changes that write other starts, made from number and places of the entries."""
    return pieces_written(lambda pieces, places: dict(
        pieces=[piece._replace(before=start(n, places)) for n, piece in enumerate(pieces)]))


def junctions_written(change):
    """The changes that write other junctions into a file of version 2, made from the right ones."""
    return {"settings.write": lambda junctions, version=settings.VERSION_1: RIGHT_JUNCTIONS[
        "write"](change(junctions) if version.byte == 2 else junctions, version)}


def grown_by(chosen):
    """The changes that leave another version after a put, by the file's own and its junctions."""
    return CUT | {"settings.grown": lambda version, junctions: settings.VERSIONS[
        chosen(version.byte, len(junctions)) - 1]}


def back_in(chosen):
    """The changes that leave another version after a going back, made as in `grown_by`."""
    def go_back(file, junction, out):
        refusal, size, after = RIGHT_JUNCTIONS["go_back"](file, junction, out)
        if refusal:
            return refusal, size, after
        junctions = settings.read(after[:size])
        version = settings.VERSIONS[chosen(file[-1], len(junctions)) - 1]
        return settings.written(settings.write(junctions, version), out)
    return CUT | {"settings.go_back": go_back}


def room_in(version):
    """The changes that ask for room in a version of their own, made from the file's and the new."""
    def put_faults(file, junction, record, out):
        yield from without(RIGHT_JUNCTIONS["put_faults"], 17)(file, junction, record, out)
        own, there = settings.found_in(file)
        junctions = settings.after_put(there, junction, bytes(settings.cp_size(record)))
        if len(out) < settings.size_of(version(own, settings.grown(own, junctions)), junctions):
            yield Refusal(17)
    return {"settings.put_faults": put_faults}


def full_by(most):
    """The changes that let put have 24 for one junction more than so many, made from a version."""
    def change(held, file, junction, *rest):
        version, there = settings.found_in(file)
        others = [fault for fault in held if fault.number != 24]
        if settings.at(there, junction) is None and len(there) >= most(version):
            others.append(Refusal(24))
        return sorted(others, key=lambda fault: ORDER.index(fault.number))
    return settings_faults(change, ("put_faults",))


def few_by(most):
    """The changes that let other numbers of junctions be in a file, made from a version."""
    return rule_by("few_enough", lambda parts: len(
        settings.junctions_in(parts.entries)) <= most(parts.version))


def settings_faults(change, names=SETTINGS_FAULTS):
    """The changes that make other lists of refusals; `change` has the right one and its entry's."""
    def of(name):
        return lambda *args: iter(change(list(RIGHT_JUNCTIONS[name](*args)), *args))
    return {f"settings.{name}": of(name) for name in names}


def moved_in(name, number, moved):
    """The changes that let an entry look at a refusal just before another."""
    return {f"settings.{name}": moved_before(number, RIGHT_JUNCTIONS[name], moved)}


def forgotten_in(name, number):
    """A list of refusals of an entry with one forgotten."""
    return {f"settings.{name}": without(RIGHT_JUNCTIONS[name], number)}


def put_refusing(number, condition):
    """The changes that let put have a refusal by another rule, made from junctions and number."""
    def change(held, file, junction, *rest):
        others = [fault for fault in held if fault.number != number]
        if condition(settings.found_in(file)[1], junction):
            others.append(Refusal(number))
        return sorted(others, key=lambda fault: ORDER.index(fault.number))
    return settings_faults(change, ("put_faults",))


def cp_refusals_told(number):
    """The changes that let an entry answer with a CP's own refusal where it has this number."""
    def change(held, file, *rest):
        parts = settings.parts_of(file)
        for entry in parts.entries if parts else ():
            refusal = (settings.cp_reading(entry.octets) or [None])[0]
            if refusal and refusal.number == number:
                return [refusal if fault.number == 22 else fault for fault in held]
        return held
    return settings_faults(change)


def written_by(change):
    """The changes that make other answers of put and go_back; `change` has answer and buffer."""
    def of(name):
        def entry(*args):
            return change(RIGHT_JUNCTIONS[name](*args), args[-1])
        return entry
    return {f"settings.{name}": of(name) for name in ("put", "go_back")}


def where_refused(change):
    """The changes that leave other lengths and buffers after a refusal."""
    return written_by(lambda found, out: (found[0], *change(found, out)) if found[0] else found)


def where_written(change):
    """The changes that leave other lengths and buffers where a call is accepted."""
    return written_by(lambda found, out: found if found[0] else (None, *change(found, out)))


def room_by(enough):
    """The changes that compare the buffer otherwise with the new file and the old one."""
    def put_faults(file, junction, record, out):
        yield from without(RIGHT_JUNCTIONS["put_faults"], 17)(file, junction, record, out)
        needed = cases_settings.room_for(file, junction, record)
        if not enough(len(out), needed, len(file)):
            yield Refusal(17)
    def back_faults(file, junction, out):
        yield from without(RIGHT_JUNCTIONS["back_faults"], 17)(file, junction, out)
        if not enough(len(out), len(file), len(file)):
            yield Refusal(17)
    cut = where_written(lambda found, out: (found[1], found[2][:len(out)]))
    return cut | {"settings.put_faults": put_faults, "settings.back_faults": back_faults}


def back_without_previous(file, junction, out):
    """A junction without a previous setting is gone back to as it is."""
    found = RIGHT_JUNCTIONS["go_back"](file, junction, out)
    if found[0] != Refusal(23) or RIGHT_JUNCTIONS["look_up"](file, junction)[0]:
        return found
    return settings.written(file, out) if len(out) >= len(file) else (Refusal(17), 0, out)


def put_into_nothing(file, *rest):
    """A put makes a file out of no bytes."""
    return RIGHT_JUNCTIONS["put"](file or settings.EMPTY_FILE, *rest)


WRONG_VERSIONS = {
    "version 2 not taken": {"settings.VERSIONS": (settings.VERSION_1,)},
    "version 1 not taken": {"settings.VERSIONS": (settings.VERSION_2,)},
    "version 1 in the widths of version 2": versions_taken(lambda byte: byte == 1,
                                                           settings.VERSION_2),
    "version 0 taken for 2": versions_taken(lambda byte: byte in (0, 2), settings.VERSION_2),
    "version 3 taken for 2": versions_taken(lambda byte: byte in (2, 3), settings.VERSION_2),
    "versions from 2 on taken for 2": versions_taken(lambda byte: byte >= 2, settings.VERSION_2),
    "version 2 by its second bit": versions_taken(lambda byte: byte & 2, settings.VERSION_2),
    "version by 7 bits": versions_taken(lambda byte: byte % 128 == 2, settings.VERSION_2),
    "file of four bytes of version 2 taken": short_taken(4, 2),
    "file of six bytes of version 2 taken": short_taken(6, 2),
    "file of version 2 without entries refused": rule_by("counted", lambda parts: (
        parts.version.byte == 1 or 0 < parts.count) and parts.count == len(parts.entries)),
    "starts of version 2 in two bytes": version_2_by(start_width=2),
    "starts of version 2 in three bytes": version_2_by(start_width=3),
    "starts of version 2 in eight bytes": version_2_by(start_width=8),
    "starts of version 1 in four bytes": version_by(start_width=4),
    "count of version 2 in one byte": version_2_by(count_width=1),
    "count of version 2 in four bytes": version_2_by(count_width=4),
    "count of version 1 in two bytes": version_by(count_width=2),
    "starts by 16 bits": starts_by(lambda told, right: told % 2**16 == right % 2**16),
    "starts by 24 bits": starts_by(lambda told, right: told % 2**24 == right % 2**24),
    "starts by 31 bits": starts_by(lambda told, right: told % 2**31 == right % 2**31),
    "trailer's start by 16 bits": rule_by("starts_told", lambda parts: settings.starts_told(
        parts._replace(last=parts.last % 2**16 if parts.last % 2**16 == ([0] + [
            entry.place for entry in parts.entries])[-1] else parts.last))),
    "places of 16 bits": entries_with(lambda entry: entry._replace(place=entry.place % 2**16)),
    "starts refused from 65,536 on": starts_by(
        lambda told, right: told == right and told < 2**16),
    "count by its low byte": rule_by("counted", lambda parts: (
        parts.count - len(parts.entries)) % 256 == 0),
    "count by 15 bits": rule_by("counted", lambda parts: parts.count % 2**15 == len(parts.entries)),
    "entries counted in a byte": rule_by("counted", lambda parts: parts.count == len(
        parts.entries) % 256),
    "starts cut to two bytes where written": starts_written(
        lambda n, places: places[max(n - 1, 0)] % 2**16),
    "trailer's start cut to two bytes where written": pieces_written(lambda pieces, places: dict(
        last=places[-2] % 2**16 if pieces else 0)),
    "count cut to a byte where written": pieces_written(lambda pieces, places: dict(
        count=len(pieces) % 256)),
    "41 in version 1 let in": few_by(lambda version: 41 if version.byte == 1 else 400),
    "400 in version 1 let in": few_by(lambda version: 400),
    "40 in version 2 at most": few_by(lambda version: 40),
    "255 in version 2 at most": few_by(lambda version: min(version.most_junctions, 255)),
    "399 in version 2 at most": few_by(lambda version: min(version.most_junctions, 399)),
    "401 in a file let in": few_by(lambda version: 40 if version.byte == 1 else 401),
    "401 let in": version_2_by(most_junctions=401),
    "399 at most": version_2_by(most_junctions=399),
    "40 at most in version 2": version_2_by(most_junctions=40),
    "400 entries at most": rule_by("few_enough", lambda parts: settings.few_enough(parts)
                                   and len(parts.entries) <= 400),
    "41st written in version 1": grown_by(lambda version, count: version),
    "40th written in version 2": grown_by(lambda version, count: 2 if count >= 40 else version),
    "42nd turns": grown_by(lambda version, count: 2 if count > 41 else version),
    "every put in version 2": grown_by(lambda version, count: 2),
    "every put in version 1": grown_by(lambda version, count: 1),
    "turned back by a put at 40 or fewer": grown_by(lambda version, count: 2 if count > 40 else 1),
    "turned back by a put at 39 or fewer": grown_by(
        lambda version, count: 2 if count > 39 and version == 2 or count > 40 else 1),
    "turned by settings": {"settings.grown": lambda version, junctions: RIGHT_JUNCTIONS["grown"](
        version, list(settings.settings_of(junctions)))},
    "every going back in version 2": back_in(lambda version, count: 2),
    "every going back in version 1": back_in(lambda version, count: 1),
    "turned back by a going back at 40 or fewer": back_in(
        lambda version, count: 2 if count > 40 else 1),
    "turned back by a going back at 40 alone": back_in(
        lambda version, count: 1 if count == 40 else version),
    "turned back by a going back at 41": back_in(lambda version, count: 1 if count == 41
                                                 else version),
    "40 turned by a going back": back_in(lambda version, count: 2 if count >= 40 else version),
    "previous settings dropped by the turn": junctions_written(lambda junctions: [
        one._replace(previous=None) for one in junctions] if len(junctions) == 41 else junctions),
    "CPs written anew by the turn": junctions_written(lambda junctions: [
        one._replace(current=anew(one.current), previous=anew(one.previous)) for one in junctions]
        if len(junctions) == 41 else junctions),
    "CPs written anew in version 2": junctions_written(lambda junctions: [
        one._replace(current=anew(one.current), previous=anew(one.previous))
        for one in junctions]),
    "room of version 1 asked for by the turn": room_in(lambda own, new: own),
    "room of version 2 asked for always": room_in(lambda own, new: settings.VERSION_2),
    "room of version 1 asked for always": room_in(lambda own, new: settings.VERSION_1),
    "24 told as 22": settings_faults(lambda held, *given: [
        Refusal(22) if fault.number == 24 else fault for fault in held]),
}


WRONG_SETTINGS = {
    "starts not looked at": rule_by("starts_told"),
    "trailer's start not looked at": starts_but(lambda count: [count]),
    "first entry's start not looked at": starts_but(lambda count: [0]),
    "second entry's start not looked at": starts_but(lambda count: [1]),
    "starts of middle entries not looked at": starts_but(lambda count: range(1, count - 1)),
    "last entry's start not looked at": starts_but(lambda count: [count - 1]),
    "trailer's start looked at alone": starts_by(int.__eq__, lambda count: [count]),
    "trailer's start not looked at without entries": starts_but(
        lambda count: [] if count else [0]),
    "starts by their low bytes": starts_by(lambda told, right: told % 256 == right % 256),
    "starts by 15 bits": starts_by(lambda told, right: told % 2**15 == right % 2**15),
    "starts inside the file": rule_by("starts_told", starts_inside),
    "starts at most": starts_by(int.__le__),
    "starts at least": starts_by(int.__ge__),
    "first entry's start after itself": starts_by(
        lambda told, right: told == right or right == 0 and told == 43),
    "count not looked at": rule_by("counted"),
    "count at most": rule_by("counted", lambda parts: parts.count <= len(parts.entries)),
    "count at least": rule_by("counted", lambda parts: parts.count >= len(parts.entries)),
    "count 0 for any": rule_by("counted", lambda parts: parts.count in (0, len(parts.entries))),
    "count of junctions read": rule_by("counted", lambda parts: parts.count == len(
        settings.junctions_in(parts.entries))),
    "count of 7 bits": rule_by("counted", lambda parts: parts.count % 128 == len(parts.entries)),
    "file without entries refused": rule_by("counted", lambda parts: 0 < parts.count == len(
        parts.entries)),
    "bytes before the trailer ignored": rule_by("end_to_end"),
    "zeros before the trailer ignored": rule_by("end_to_end", lambda parts:
                                                not any(parts.between)),
    "a few bytes before the trailer ignored": rule_by("end_to_end", lambda parts:
                                                      len(parts.between) < 4),
    "kinds not looked at": entry_let_in("kinds_known"),
    "kind 2 let in": entry_let_in("kinds_known", lambda parts: all(
        entry.kind <= 2 for entry in parts.entries)),
    "kind by its lowest bit": entries_with(lambda entry: entry._replace(kind=entry.kind & 1)),
    "kind 128 as 0": entries_with(lambda entry: entry._replace(kind=entry.kind % 128)),
    "order not looked at": rule_by("rising"),
    "junction numbers that may be equal": order_by(lambda low, high: low.junction <= high.junction),
    "two previous ones let in": rising_or_twice(settings.PREVIOUS),
    "two current ones let in": rising_or_twice(settings.CURRENT),
    "previous before current": order_by(lambda low, high: key_of(low) < key_of(high)
                                        or key_of(high) == (low.junction, settings.CURRENT)),
    "junction numbers in any order": order_by(lambda low, high: low.junction != high.junction
                                              or low.kind < high.kind),
    "junction numbers by their low bytes": order_by(
        lambda low, high: (low.junction % 256, low.kind) < (high.junction % 256, high.kind)),
    "junction numbers with a sign": order_by(
        lambda low, high: ((low.junction ^ 2**15, low.kind) < (high.junction ^ 2**15, high.kind))),
    "previous without its current let in": entry_let_in("previous_after_current"),
    "first entry may be previous": entry_let_in("previous_after_current", lambda parts: (
        not parts.entries[1:] or settings.previous_after_current(
            parts._replace(entries=[parts.entries[0]._replace(kind=0), *parts.entries[1:]])))),
    "41 let in": version_by(most_junctions=41),
    "39 at most": version_by(most_junctions=39),
    "any number of junctions read": rule_by("few_enough"),
    "40 entries at most": rule_by("few_enough", lambda parts: len(
        parts.entries) <= parts.version.most_junctions),
    "CPs not judged": {"settings.cp_accepted": lambda octets: len(octets) in settings.CP_BITS},
    "current CPs judged alone": cps_by(lambda entries: [
        entry for entry in entries if entry.kind == settings.CURRENT]),
    "previous CPs judged alone": cps_by(lambda entries: [
        entry for entry in entries if entry.kind or len(entry.octets) not in settings.CP_BITS]),
    "first CP judged alone": cps_by(lambda entries: entries[:1] + [
        entry for entry in entries if len(entry.octets) not in settings.CP_BITS]),
    "first CP not judged": cps_by(lambda entries: [
        entry for entry in entries[:1] if len(entry.octets) not in settings.CP_BITS]
        + entries[1:]),
    "bytes after a CP let in": {"settings.cp_reading": longer_cps},
    "CPs of 122 bytes not taken": {"settings.CP_BITS": {size: bits for size, bits in
                                                       settings.CP_BITS.items() if size < 122}},
    "CPs of 54 bytes not taken": {"settings.CP_BITS": {size: bits for size, bits in
                                                      settings.CP_BITS.items() if size != 54}},
    **{f"{number} of a CP forgotten": cp_without(number) for number in (3, 5, 6, 7, 8, 9, 10, 11)},
    **{f"{number} of a CP told as {number}": cp_refusals_told(number)
       for number in cases_settings.CP_NUMBERS},
    "version not looked at": versions_taken(lambda byte: True),
    "version 0 taken": versions_taken(lambda byte: byte <= 1),
    "version 2 in the widths of version 1": versions_taken(lambda byte: byte in (1, 2)),
    "version by its lowest bit": versions_taken(lambda byte: byte & 1),
    "empty file taken": short_taken(0),
    "file of one byte taken": short_taken(1),
    "file of three bytes taken": short_taken(3),
    "put into no bytes": {"settings.put": put_into_nothing},
    "junction of 8 bits": named_by(lambda junction: junction % 256),
    "junction of 12 bits": named_by(lambda junction: junction % 2**12),
    "junction of 15 bits": named_by(lambda junction: junction % 2**15),
    "junctions compared by 8 bits": {"settings.at": lambda junctions, junction: next(
        (one for one in junctions if (one.number ^ junction) % 256 == 0), None)},
    "high byte first": {"settings.number": lambda octets: int.from_bytes(octets, "big"),
                        "settings.low_first": high_first},
    "high byte read first": {"settings.number": lambda octets: int.from_bytes(octets, "big")},
    "high byte written first": {"settings.low_first": high_first},
    "last entry of a junction shown": {"settings.junctions_in": last_of_junction},
    "previous setting shown": look_up_by(lambda one: one.previous or one.current),
    "first junction shown": {"settings.look_up": lambda file, junction: (
        lambda found: found if found[0] else settings.cp_reading(settings.read(file)[0].current))(
            RIGHT_JUNCTIONS["look_up"](file, junction))},
    "acknowledge not shown": {"settings.look_up": lambda *args: (
        lambda refusal, record: (refusal, record._replace(acknowledge=0)))(
            *RIGHT_JUNCTIONS["look_up"](*args))},
    "CPs of others written anew": others_by(lambda one: one._replace(
        current=anew(one.current), previous=anew(one.previous))),
    "previous CPs of others written anew": others_by(lambda one: one._replace(
        previous=anew(one.previous))),
    "CP written anew by the put that moves it": put_by(lambda here, octets: dict(
        current=octets, previous=anew(here.current))),
    "CPs written anew by going back": back_by(lambda here: dict(
        current=anew(here.previous), previous=anew(here.current))),
    "current CP written anew by going back": back_by(lambda here: dict(
        current=anew(here.previous), previous=here.current)),
    "previous CP written anew by going back": back_by(lambda here: dict(
        current=here.previous, previous=anew(here.current))),
    "going back drops the previous": back_by(lambda here: dict(
        current=here.previous, previous=None)),
    "going back keeps the previous": back_by(lambda here: dict(current=here.previous)),
    "going back changes nothing": back_by(lambda here: {}),
    "going back for a single setting": {"settings.go_back": back_without_previous},
    "older setting kept by a put": put_by(lambda here, octets: dict(
        current=octets, previous=here.previous or here.current)),
    "three settings kept by a put": {"settings.put": three_kept},
    "setting before it dropped by a put": put_by(lambda here, octets: dict(
        current=octets, previous=None)),
    "previous setting left by a put": put_by(lambda here, octets: dict(current=octets)),
    "put as the previous setting": put_by(lambda here, octets: dict(
        current=here.current or octets, previous=octets if here.current else None)),
    "same setting put once": put_by(lambda here, octets: {} if here.current and settings.cp_reading(
        here.current) == settings.cp_reading(octets) else dict(
            current=octets, previous=here.current)),
    "others lose their previous settings": others_by(lambda one: one._replace(previous=None)),
    "put last": laid_by(lambda junctions, others, one: [*others, one]),
    "put first": laid_by(lambda junctions, others, one: [one, *others]),
    "put last where it is not there": laid_by(lambda junctions, others, one: [
        one if each.number == one.number else each for each in junctions]
        + ([one] if len(others) == len(junctions) else [])),
    "put by numbers with a sign": laid_by(lambda junctions, others, one: sorted(
        [*others, one], key=lambda each: each.number ^ 2**15)),
    "put by low bytes": laid_by(lambda junctions, others, one: sorted(
        [*others, one], key=lambda each: (each.number % 256, each.number))),
    "count of junctions written": pieces_written(lambda pieces, places: dict(
        count=len({piece.junction for piece in pieces}))),
    "trailer's start written as 0": pieces_written(lambda pieces, places: dict(last=0)),
    "trailer's start written as the end": pieces_written(lambda pieces, places: dict(
        last=places[-1])),
    "version 2 written": pieces_written(lambda pieces, places: dict(byte=2)),
    "version 1 written": pieces_written(lambda pieces, places: dict(byte=1)),
    "own starts written": starts_written(lambda n, places: places[n]),
    "starts of the next entries written": starts_written(lambda n, places: places[n + 1]),
    "starts written as 0": starts_written(lambda n, places: 0),
    "distances written": starts_written(lambda n, places: places[n] - places[max(n - 1, 0)]),
    "first start written as the end": starts_written(
        lambda n, places: places[n - 1] if n else places[-1]),
    "previous written first": {"settings.settings_of": lambda junctions: (
        one for number in [each.number for each in junctions]
        for one in reversed([each for each in RIGHT_JUNCTIONS["settings_of"](junctions)
                             if each[0] == number]))},
    "put written with acknowledge": {"settings.cp_octets": lambda record: RIGHT_JUNCTIONS[
        "cp_octets"](record._replace(acknowledge=1))},
    "22 after 24": moved_in("put_faults", 22, 24),
    "22 after 23 going back": moved_in("back_faults", 22, 23),
    "22 after 23 at a look-up": moved_in("look_faults", 22, 23),
    "22 after 17 at a put": moved_in("put_faults", 22, 17),
    "22 after 17 going back": moved_in("back_faults", 22, 17),
    "17 before 23": moved_in("back_faults", 23, 17),
    "17 before 24": moved_in("put_faults", 24, 17),
    "17 before the record's refusals": moved_in("put_faults", 4, 17),
    "17 before 12 at a put": moved_in("put_faults", 12, 17),
    "22 before the record's refusals": moved_in("put_faults", 4, 22),
    "22 before 12": moved_in("put_faults", 12, 22),
    "22 before 11": moved_in("put_faults", 11, 22),
    "24 before the record's refusals": moved_in("put_faults", 4, 24),
    "24 before 12": moved_in("put_faults", 12, 24),
    "25 after 11 at a put": moved_in("put_faults", 12, 25),
    "12 forgotten at a put": forgotten_in("put_faults", 12),
    "24 forgotten": forgotten_in("put_faults", 24),
    "24 for a junction that is there": put_refusing(24, lambda there, junction: len(there) >= 400),
    "24 for a junction that is there at 40": put_refusing(24, lambda there, junction: len(
        there) >= (400 if settings.at(there, junction) is None else 40)),
    "24 by entries": put_refusing(24, lambda there, junction: settings.at(
        there, junction) is None and len(list(settings.settings_of(there))) >= 400),
    "24 for a 40th": full_by(lambda version: 39 if version.byte == 1 else 400),
    "24 for a 41st": full_by(lambda version: 40),
    "24 for a 41st in version 1": full_by(lambda version: version.most_junctions),
    "24 for a 41st in version 2": full_by(lambda version: 400 if version.byte == 1 else 40),
    "24 for a 256th": full_by(lambda version: 255),
    "24 for a 257th": full_by(lambda version: 256),
    "24 for a 400th": full_by(lambda version: 399),
    "24 for a 402nd": CUT | full_by(lambda version: 401),
    "23 on a put": put_refusing(23, lambda there, junction: settings.at(there, junction) is None),
    "13 on a put": settings_faults(lambda held, file, junction, record, out: [
        *held, *[Refusal(13)] * (record.drn == 0)], ("put_faults",)),
    "23 for a look-up without a previous setting": settings_faults(
        lambda held, file, junction: held or [Refusal(23)] * (
            settings.at(settings.read(file), junction).previous is None), ("look_faults",)),
    "23 told as 22": settings_faults(lambda held, *given: [
        Refusal(22) if fault.number == 23 else fault for fault in held]),
    "24 told as 23": settings_faults(lambda held, *given: [
        Refusal(23) if fault.number == 24 else fault for fault in held]),
    "out cleared after a refusal": where_refused(lambda found, out: (0, bytes(len(out)))),
    "first byte of out cleared after a refusal": where_refused(
        lambda found, out: (0, bytes(len(out[:1])) + out[1:])),
    "out's length told after a refusal": where_refused(lambda found, out: (len(out), out)),
    "rest of out cleared": where_written(lambda found, out: (
        found[1], found[2][:found[1]] + bytes(len(out) - found[1]))),
    "a byte beyond the file cleared": where_written(lambda found, out: (
        found[1], found[2][:found[1]] + bytes(len(out[found[1]:][:1])) + out[found[1] + 1:])),
    "out's length told": where_written(lambda found, out: (len(out), found[2])),
    "length without the trailer told": where_written(lambda found, out: (found[1] - 4, found[2])),
    "trailer not written": where_written(lambda found, out: (
        found[1], found[2][:found[1] - 4] + out[found[1] - 4:])),
    "buffer one too short taken": room_by(lambda lent, needed, old: lent >= needed - 1),
    "buffer without room for a trailer taken": room_by(lambda lent, needed, old:
                                                       lent >= needed - 4),
    "buffer that just fits refused": room_by(lambda lent, needed, old: lent > needed),
    "buffer of the old file's length taken": room_by(lambda lent, needed, old:
                                                     lent >= min(needed, old)),
    "buffer of the old file's length asked for": room_by(lambda lent, needed, old:
                                                         lent >= max(needed, old)),
    "buffer for the longest file asked for": room_by(lambda lent, needed, old: lent >= 10244),
    **WRONG_VERSIONS,
}


def failing_settings(both):
    """Whether each stored case of the settings file has another answer."""
    return (forms.answer(case) != answer for case, answer in both)


def wrong_settings():
    """Every wrong settings file fails at a stored case; the short ones are looked at first.

    Without -v no more than the first is looked for.
    """
    both = sorted(stored_pairs("vectors_settings"), key=lambda pair: sum(map(len, pair)))
    found = {}
    with changed({"settings.read_cp": lru_cache(maxsize=None)(cp.read_cp)}):
        for name, changes in WRONG_SETTINGS.items():
            with changed(changes):
                found[name] = (sum if "-v" in sys.argv else any)(failing_settings(both))
    if "-v" in sys.argv:
        for name, count in found.items():
            print(f"    {name}: fails {count} of {len(both)}")
    check(all(found.values()), f"not stopped: {[name for name in found if not found[name]]}")
    check(not any(failing_settings(both)), "the model itself")
    return f"{len(found)} stopped"


# The program

def verdicts(script, lines):
    """(Command, whether it succeeded) for each command of a transcript."""
    left, found, under_way = script.splitlines(), [], None
    for line in lines:
        if left and line == left[0]:
            under_way = left.pop(0)
        elif line in ("v91: ok", "v91: failed"):
            found.append((under_way, line == "v91: ok"))
    same(left, [], "lines of the script that are not in the transcript")
    return found


def said(files, command):
    """The lines that one command writes and says; the last is whether it succeeded."""
    return program.transcript(files, command).decode().splitlines()[1:]


def a_length(draw, n):
    """The length of a message; one in 40 takes more than a call's frames."""
    return 6200 if n % 40 == 7 else draw.pick((0, 1, 2, 3, draw.below(200)))


def frames_for(record, channel, length):
    """(Frames that are filled, frames that are whole) for so many bytes, counted one by one."""
    whole, bits = 0, 0
    while True:
        width = k_of(record) + (0 if channel and whole % 64 == 0 else 6)
        if bits + width > 8 * length:
            return whole + (bits < 8 * length), whole, bits
        whole, bits = whole + 1, bits + width


def program_round_trips():
    """Sent and received, filled and exact; the octets are those of the sender's calls."""
    draw = Draw(5)
    for n in range(240):
        record, law, channel = a_record(draw, 1 + n % 28), draw.below(2), draw.below(2)
        data = draw.octets(a_length(draw, n))
        files = {"r.cp": cases_cp.plain(record), "data": data}
        words = f"r.cp {('mu', 'a')[law]}{' control' * channel}"
        script = (f"send {words} < data > octets\nreceive {words} {len(data)} < octets > back\n"
                  f"receive {words} < octets > all\n"
                  f"send {words} exact < data > part\nreceive {words} < part > begin\n")
        lines = program.transcript(files, script).decode().splitlines()
        check("v91: failed" not in lines, f"failed: {lines}")
        same(files["back"], data, "data received")
        count, whole, bits = frames_for(record, channel, len(data))
        needed = frames.data_bytes(record, count, channel)
        same(files["all"], data.ljust(needed, b"\0"), "data and zeros")
        begin = frames.get_bits(data, 0, bits)
        same(files["begin"], begin.to_bytes((bits + 7) // 8, "little"), "data of whole frames")
        if count <= 1024:
            octets, _ = sent(record, law, count, FRESH, data + bytes(6), channel)
            same(files["octets"], octets, "octets")
        same(files["part"], files["octets"][:6 * whole], "octets of whole frames")
    return "240 messages"


def doubtful_one_by_one(marks, widths, cold):
    """(Bits of good frames that are doubtful, and of the 24 to come), each bit by itself.

    It is doubtful where one of the 24 bits before it is a marked frame's or comes before the start
    of a receiver that begins cold; a marked frame with fewer bits than that counts as 24.
    """
    line = [(cold, False)] * 24
    for mark, width in zip(marks, widths):
        line += [(mark > 0, mark == 0)] * width if not mark else [(True, False)] * max(width, 24)
    hurt = [bad for bad, _ in line] + [False] * 24
    doubtful = [any(hurt[place - 24:place]) for place in range(24, len(line) + 24)]
    good = [is_good for _, is_good in line[24:]]
    return (sum(doubt for doubt, is_good in zip(doubtful, good) if is_good),
            sum(doubtful[len(good):]))


def program_doubts():
    """What is counted as doubtful, in all and to come, against each bit by itself.

    In the stored run a receiver that begins cold without the first frame has all but 24 bits right.
    """
    draw = Draw(6)
    for n in range(300):
        record, law, state = a_record(draw, 1 + n % 27), draw.below(2), draw.pick((FRESH, COLD))
        kinds, channel = [0, 0, draw.pick(cases_frames.possible_marks(record))], draw.below(2)
        marks = [draw.pick(kinds) for _ in range(draw.pick((draw.below(12), draw.below(70))))]
        line = b"".join(cases_frames.a_frame(draw, record, law, mark) for mark in marks)
        got = program.reception(record, law, channel, state, line)
        same(got.marks, marks, "marks")
        widths = widths_of(record, 0, [channel] * len(marks))
        same((got.doubtful, got.state.doubtful),
             doubtful_one_by_one(marks, widths, state == COLD), "doubtful")
    got = program.reception(trial.EIGHTS, MU, 0, COLD, trial.lines_of_octets()["middle"])
    whole = trial.messages()["two"]
    same((got.doubtful, got.data[3:]), (24, whole[6:]), "a line without its first frame")
    check(got.data[:3] != whole[3:6], "no bit is wrong after a cold start")
    return "300 receptions, a line without its first frame"


def a_sequence_command(draw):
    """(Words of send, the number that they tell): in any order, in capitals and not, repeated."""
    digits = "".join(draw.pick("01") for _ in range(draw.pick((1, 54, draw.between(1, 54)))))
    cleardown, retrain, has_data = draw.below(2), draw.below(2), draw.below(4) > 0
    words = ["control"] + ["cleardown"] * cleardown + ["retrain"] * retrain
    for _ in range(3):
        one, other = draw.below(len(words)), draw.below(len(words))
        words[one], words[other] = words[other], words[one]
    words = [draw.pick((word, word.upper(), word.capitalize())) for word in words]
    if has_data:
        at = draw.below(len(words) + 1)
        words[at:at] = draw.pick(([digits], ["1", digits]))
    number = cleardown | retrain << 1 | (int(digits[::-1], 2) << 2 if has_data else 0)
    return " ".join(words), number


def program_sequences():
    """What words of send tell is heard by receive, in each sequence of two, and in which frame."""
    draw = Draw(8)
    for n in range(20):
        words, number = a_sequence_command(draw)
        count = draw.pick((960, 961, 1985))
        data = draw.octets(frames.data_bits(EXAMPLE, count, 1) // 8)
        files = {"r.cp": cases_cp.plain(EXAMPLE), "data": data}
        program.transcript(files, f"send r.cp mu {words} < data > octets")
        lines = said(files, "receive r.cp mu control < octets > back")
        state = ("no", "yes")
        what = (f": control sequence heard: cleardown {state[number & 1]}, "
                f"retrain {state[number >> 1 & 1]}, data "
                + "".join(str(number >> n & 1) for n in range(2, 56)))
        same([line for line in lines if "control sequence" in line],
             [f"v91: frame {frame}{what}" for frame in (960, 1984) if frame < count],
             f"heard of {words}")
        same(files["back"][:len(data)], data, "data")
    return "20 commands"


def program_starts():
    """CP, E_s and data sent by two commands and received by a third, whatever comes before.

    Their octets are those of the entries. Not all of the 24 octets may have Ucode 66: the bits are
    then as sent, and 24 of them are said to be doubtful.
    """
    draw = Draw(9)
    for n in range(120):
        record, law, channel = a_record(draw, 1 + n % 28), draw.below(2), draw.below(2)
        data, count = draw.octets(a_length(draw, n)), cases_cp.length_of(record) + 12
        files = {"r.cp": cases_cp.plain(record), "data": data}
        words = f"r.cp {('mu', 'a')[law]}{' control' * channel}"
        same(said(files, f"start r.cp {('mu', 'a')[law]} > start"),
             [f"v91: {count} octets sent: {count - 12} of CP and 12 of E_s", "v91: ok"], "start")
        octets, state = opening(record, law, FRESH, bytes(count))
        same(files["start"], octets, "octets of start")
        check(said(files, f"send {words} start < data > line")[-1] == "v91: ok", "send")
        few = frames_for(record, channel, len(data))[0]
        if few <= 1024:
            wanted, _ = sent(record, law, few, state, data + bytes(6), channel)
            same(files["line"], wanted, "octets of send")
        kept = draw.pick((count, 24, draw.between(24, count)))
        files["line"] = draw.octets(count - kept) + octets[-kept:] + files["line"]
        lines = said(files, f"receive {words} Start {len(data)} < line > back")
        same((files["back"], lines[0], lines[-1]),
             (data, f"v91: line state found from the last 24 of {count} octets of CP and E_s",
              "v91: ok"), "receive")
        place, other = draw.between(count - 24, count - 1), draw.pick((0, 65, 67, 127))
        odd = octet_of(law, octets[place] >> 7, other)
        files["odd"] = files["line"][:place] + bytes([odd]) + files["line"][place + 1:]
        lines = said(files, f"receive {words} START {len(data)} < odd > back")
        same((files["back"], lines[0]), (data, f"v91: the last 24 of {count} octets of CP and E_s "
                                         "are not all of Ucode 66, so the first 24 bits are "
                                         "doubtful"), "receive with another Ucode")
        doubtful = min(24, frames.data_bits(record, few, channel))
        check(not doubtful or f"v91: {doubtful} bits of good frames doubtful in all" in lines,
              "doubtful bits")
    return "120 messages"


def start_sentences():
    """What is said of CP and E_s, by examples."""
    files = {"example.cp": cases_cp.plain(EXAMPLE), "none.cp": cases_cp.plain(EMPTY), "one": b"\0"}
    told = {"none.cp mu start < one": "1 octet received, too few for CP and E_s, which have 306",
            "none.cp mu start 0": "0 octets received, too few for CP and E_s, which have 306",
            "example.cp mu begin": "after LAW receive takes BYTES, a number of 1 to 18 digits, "
                                   "and the words cold, control, start and progress alone"}
    for words, sentence in told.items():
        same(said(files, f"receive {words}"), [f"v91: {sentence}", "v91: failed"], words)
    program.transcript(files, "start none.cp a > line")
    files["line"] += bytes(7)
    found = "v91: line state found from the last 24 of 306 octets of CP and E_s"
    same(said(files, "receive example.cp a start cold < line > back"),
         [found, "v91: frame 0: interval 0 outside its mask",
          "v91: 1 frame received, 1 of them marked", "v91: 0 bits of good frames doubtful in all",
          "v91: 24 coming bits to distrust", "v91: 1 octet at the end too few for a frame",
          "v91: 5 bits of data in the last byte", "v91: ok"], "receive cold")
    same(said(files, "receive none.cp a start cold < line > back"),
         [found, "v91: 0 frames received, 0 of them marked", "v91: 24 coming bits to distrust",
          f"v91: {program.CLEARDOWN}", "v91: failed"], "cleardown")
    same(describe.demo_lines()[13:17],
         ["Its bits and the twelve zero bits of E_s, sent in 306 octets, mu-law; the last 24 of "
          "them:", "  3dbd3dbdbdbd 3d3dbdbdbdbd 3dbd3dbdbd3d 3d3dbdbdbd3d",
          "The line state that the receiver finds from these: history 7507785, last sign 0",
          "63 one bits, sent from there on in 3 frames of six PCM octets each, mu-law:"],
         "the demo")
    return "7 sentences"


def program_sentences():
    """What is said of marks, of words and of rates, by examples."""
    same(program.run_sentences([0, 3, 3, 0, 7, 1, 0, 6]),
         ["frames 1 to 2: interval 2 outside its mask; the 24 bits after that are doubtful",
          "frame 4: the number R is 2^K or more",
          "frame 5: interval 0 outside its mask; the 24 bits after that are doubtful",
          "frame 7: interval 5 outside its mask"], "runs of marks")
    files = {"example.cp": cases_cp.plain(EXAMPLE), "data": b"ab", "octets": b"\x7a" * 15}
    same(said(files, "send example.cp MU < data > line"),
         ["v91: 1 frame sent; 5 zero bits added to fill the last one", "v91: ok"], "send")
    same(said(files, "receive example.cp a 9 < octets > back"),
         ["v91: frames 0 to 1: interval 0 outside its mask",
          "v91: 2 frames received, 2 of them marked",
          "v91: 0 bits of good frames doubtful in all", "v91: 24 coming bits to distrust",
          "v91: 3 octets at the end too few for a frame", "v91: 2 bits of data in the last byte",
          "v91: the input ended 3 bytes of data too early", "v91: failed"], "receive")
    same((files["back"], len(files["line"])), (bytes(6), 6), "files written")
    same(said(files, "receive example.cp MU Cold < octets > back"),
         ["v91: 2 frames received, 0 of them marked", "v91: 24 bits of good frames doubtful in all",
          "v91: 0 coming bits to distrust", "v91: 3 octets at the end too few for a frame",
          "v91: 2 bits of data in the last byte", "v91: ok"], "receive cold")
    same(said(files, "receive example.cp a cold"),
         ["v91: 0 frames received, 0 of them marked", "v91: 24 coming bits to distrust", "v91: ok"],
         "nothing received cold")
    same(program.coming_sentence(State(5, 1, 1)), "1 coming bit to distrust", "one bit")
    channel_sentences()
    same(said(files, "linear mu < data"), ["-356", "-340", "v91: ok"], "linear")
    same(said(files, "dil a > line"), ["v91: 125 segments of 12 octets sent", "v91: ok"], "dil")
    same(files["line"], dil.octets_of(A, dil.TABLE_5), "the octets of dil")
    same([describe.rate(make(0, drn, 0, [0] * 6, [])) for drn in (1, 2, 3, 4, 17, 28)],
         ["28", "29 1/3", "30 2/3", "32", "49 1/3", "64"], "rates")
    same(describe.mask_line(1, 0x1FD1), "mask 1: Ucodes 0 4 6-12", "a mask")
    same(describe.demo_lines()[-2:],
         ["bits 21 to 44, the 24 after it, are doubtful: 12 of them are not as sent",
          "bits 45 to 62 are as sent again"], "the demo's end")
    ones, heard = b"\xff" * 8, bytes.fromhex("000000839affff7f")
    same([describe.wrong_bits(ones, heard, *part) for part in ((0, 21), (45, 18))], [21, 0],
         "bits of the demo")
    return "marks, words, rates, the demo"


def channel_sentences():
    """What is said of sequences, and where between runs of marks, by examples."""
    ends = [(2, control.Heard(2)), (4, control.Heard(3)), (5, control.Heard(4)),
            (7, control.Heard(1, 0b110))]
    got = program.Reception(b"", [0, 7, 1, 1, 0, 2, 2, 2, 0], 0, ends, FRESH)
    run = "interval {} outside its mask"
    same(program.frame_sentences(got), [
        "frame 1: the number R is 2^K or more",
        "frame 2: control sequence lost, a frame of it is marked",
        f"frames 2 to 3: {run.format(0)}; the 24 bits after that are doubtful",
        "frame 4: control sequence wrong, its pattern",
        "frame 5: control sequence wrong, its CRC",
        f"frame 7: control sequence heard: cleardown no, retrain yes, data 1{'0' * 53}",
        f"frames 5 to 7: {run.format(1)}; the 24 bits after that are doubtful"], "sequences")
    files = {"example.cp": cases_cp.plain(EXAMPLE), "data": b"ab"}
    same(said(files, "send example.cp MU Control < data > line"),
         ["v91: 2 frames sent; 20 zero bits added to fill the last one",
          "v91: 0 control sequences sent whole, and 1 control frame of one that is not", "v91: ok"],
         "send")
    same(said(files, "receive example.cp MU Control < line > back"),
         ["v91: 2 frames received, 0 of them marked", "v91: 0 coming bits to distrust",
          "v91: 1 control frame received of a sequence that is not whole",
          "v91: 4 bits of data in the last byte", "v91: ok"], "receive")
    same(said(files, "send example.cp MU exact 1 Control < data > line"),
         ["v91: 1 frame sent; 1 bit of data at the end not sent, too few for a frame",
          "v91: 0 control sequences sent whole, and 1 control frame of one that is not", "v91: ok"],
         "send exact")
    same([program.sequences_sentence(count) for count in (0, 1, 960, 961, 1024, 1025, 2048, 3000)],
         ["0 control sequences sent whole",
          "0 control sequences sent whole, and 1 control frame of one that is not",
          "0 control sequences sent whole, and 15 control frames of one that is not",
          "1 control sequence sent whole", "1 control sequence sent whole",
          "1 control sequence sent whole, and 1 control frame of one that is not",
          "2 control sequences sent whole",
          "2 control sequences sent whole, and 15 control frames of one that is not"],
         "sequences sent")
    for words in ("cleardown", "1", "retrain exact", "control 2", "control " + 55 * "1", "on"):
        same(said(files, f"send example.cp mu {words} < data > line")[:-1],
             ["v91: after LAW send takes the words exact, progress, start and control alone, and "
              "after control cleardown, retrain and up to 54 binary digits"], words)


def a_picture(k, law, spacing):
    """The picture of a plan that is not refused, with the largest ceiling."""
    refusal, _, total, mask = plan.plan(k, law, spacing, MOST)
    same(refusal, None, f"K = {k}, law {law}, spacing {spacing}")
    return picture.Picture(k, law, spacing, str(MOST), total, mask)


def check_text(drawn):
    """The text of a picture: each point stands in the column nearest to it, gaps add up."""
    lines, values = picture.text_lines(drawn), picture.values_in(drawn)
    top = values[-1]
    same(len(lines), len(values) + 6, "lines of a text")
    check(all(line == line.rstrip() for line in lines), "spaces at the end of a line")
    same((lines[3][22], len(lines[3])), ("0", 79), "the scale")
    gaps = []
    for value, line in zip(values, lines[5:-1]):
        shown_value, gap = map(int, line[5:20].split())
        same(shown_value, value, "a value")
        check(abs(2 * top * (len(line) - 23) - 112 * value) <= top, f"column of {value} of {top}")
        gaps.append(gap)
    same(sum(gaps), top + values[0], "the sum of the gaps")
    check(min(gaps) >= drawn.spacing, "a gap below the spacing")
    same(lines[4].index(" the") - 23, picture.column_of(drawn.spacing, top), "the spacing's column")


def check_svg(drawn):
    """An SVG picture: it is well formed, and has a line for each thing that it shows."""
    lines, values = picture.svg_lines(drawn), picture.values_in(drawn)
    top = values[-1]
    root = ElementTree.fromstring("\n".join(lines))
    groups = list(root)[-4:]
    texts = [text.text for text in groups[0].iter("{http://www.w3.org/2000/svg}text")]
    grid = [int(text) for text in texts[2::4]]
    step = grid[0]
    same(grid, list(range(step, top + 1, step)), "the grid")
    check(len(grid) <= 6 and all(top // less > 6 for less in picture.STEPS if less < step), "step")
    same(len(groups[1]), len(values) + 1, "points on the line")
    same([[text.text for text in row][:3] for row in groups[3]],
         [list(map(str, point)) for point in picture.points_in(drawn)], "rows")
    same(len(lines), 5 + 3 + len(grid) + 3 + len(values) + 4 + 2 + len(values) + 1, "lines")


def pictures():
    """Pictures by hand, and of plans of each K and law."""
    same([picture.bar(end) for end in (0, 1, 2, 5)], ["|", "||", "|-|", "|----|"], "bars")
    same([picture.drawing(*case) for case in ((None, 0), (None, 3), (0, 0), (0, 1), (0, 4), (2, 2),
                                              (2, 3), (2, 5))],
         ["o", "|--o", "o", "+o", "+---o", "| o", "| +o", "| +--o"], "drawings")
    same([picture.column_of(*case) for case in ((0, 9), (9, 9), (1, 112), (3, 112), (280, 4480),
                                                (279, 4480))], [0, 56, 1, 2, 4, 3], "columns")
    same([picture.length_of(*case) for case in ((0, 9), (9, 9), (1, 7), (8, 32256))],
         [0, 3900, 557, 0], "lengths")
    same([picture.step_of(top) for top in (48, 139, 140, 349, 350, 1399, 1400, 6999, 7000, 32256)],
         [20, 20, 50, 50, 100, 200, 500, 1000, 2000, 5000], "steps")
    same(picture.gaps_of([56, 164, 276]), [112, 108, 112], "gaps")
    draw, count = Draw(11), 0
    for k, law in product(plan.RATES, (MU, A)):
        largest = plan.largest_spacing(k, law, MOST)
        for spacing in {1, largest, draw.between(1, largest)} if largest else ():
            drawn = a_picture(k, law, spacing)
            check_text(drawn)
            check_svg(drawn)
            count += 1
    return f"parts by hand, {count} plans"


def plan_sentences():
    """What is said of plans, by examples, and the CP that a plan gives."""
    last = {
        "14 mu 100 5": "K is 14; it is 15 to 42 (refusal 26)",
        "0043 mu 0 5": "K is 43; it is 15 to 42 (refusal 26)",
        "15 a 000 5": "the spacing is 0; it is 1 to 65535 (refusal 26)",
        "24 a 5000 5": "no mask of 16 points keeps the spacing 5000; the largest spacing that one "
                       "keeps is 2048 (refusal 27)",
        "42 mu 5 5": "no mask of 128 points keeps any spacing in mu-law, where Ucode 0 has the "
                     "value 0 (refusal 27)",
        "24 a 600 0700000000": "the least sum of squares at spacing 600 is 711811392, above the "
                               "ceiling 0700000000; the largest spacing within it is 592 "
                               "(refusal 28)",
        "24 a 600 5": "the least sum of squares at spacing 600 is 711811392, above the ceiling 5; "
                      "no spacing is within it (refusal 28)",
        "15 mu 100 5 7": "after CEILING there may be the word svg or cp, not 7",
        "15 mu 100": "wrong number of words; v91 help says what each command takes",
    }
    for words, sentence in last.items():
        same(said({}, f"plan {words}"), [f"v91: {sentence}", "v91: failed"], words)
    files = {}
    same(said(files, "plan 15 mu 100 962704 Cp > made"),
         ["v91: M 6, sum of squares 962704", "v91: ok"], "a CP")
    mask = 0x11102040080
    same(cp.read_cp(files["made"], 294), (None, make(0, 1, 0, [0] * 6, [mask])), "the CP made")
    same(len(files["made"]), 37, "bytes of the CP made")
    for k, law in product(plan.RATES, (MU, A)):
        refusal, _, _, mask = plan.plan(k, law, 1, MOST)
        if not refusal:
            wanted = (None, make(0, k - 14, 0, [0] * 6, [mask]))
            same(cp.read_cp(program.cp_for(k, mask), 294), wanted, f"the CP of K = {k}")
    return f"{len(last)} sentences, CPs of each K"


def flip_sentences():
    """What is said of one flipped sign, by examples, and its lines at each K."""
    files = {"example.cp": cases_cp.plain(EXAMPLE), "none.cp": cases_cp.plain(EMPTY)}
    two_after = ("one octet comes with the other sign; its frame and the two after it are good, "
                 "and the control channel is off")
    these = "no mark changes; of the data bits, counted from the first of that frame, these do"
    same(said(files, "Flip example.cp"),
         ["rate 28 kbit/s, drn 1: a frame has 21 data bits (D), 15 of them in R (K)", two_after,
          these, "interval 0: 6 bits: 0 1 18 19 23 24", "interval 1: 6 bits: 1 2 19 20 24 25",
          "interval 2: 6 bits: 2 3 20 21 25 26", "interval 3: 6 bits: 3 4 21 22 26 27",
          "interval 4: 6 bits: 4 5 22 23 27 28", "interval 5: 6 bits: 5 21 23 28 39 44", "v91: ok"],
         "the example")
    told = {"flip none.cp": program.CLEARDOWN,
            "flip": "wrong number of words; v91 help says what each command takes",
            "flip example.cp mu": "wrong number of words; v91 help says what each command takes"}
    for command, sentence in told.items():
        same(said(files, command), [f"v91: {sentence}", "v91: failed"], command)
    draw = Draw(24)
    for k in plan.RATES:
        record = a_record(draw, k - 14)
        lines = said({"r.cp": cases_cp.plain(record)}, "flip r.cp")
        same((lines[0], lines[1:3], len(lines)),
             (describe.description(record)[1], [two_after, these], 10), f"K = {k}")
        for interval, line in enumerate(lines[3:9]):
            places = without_twins(places_named(sign_bits_of(k, interval)))
            count = "4" if interval == 5 and k in (17, 22) else "6"
            same(line.split(" "), ["interval", f"{interval}:", count, "bits:", *map(str, places)],
                 f"K = {k}, interval {interval}")
    return f"{len(told)} sentences, 28 K"


def settings_sentences():
    """What is said of settings files, by examples; a refused change leaves the file alone."""
    files = {"example.cp": cases_cp.plain(EXAMPLE), "none.cp": cases_cp.plain(EMPTY),
             "two.cp": cases_cp.plain(make(0, 2, 0, [0] * 6, [127])), "empty": b"",
             "full": settings.write([settings.Junction(100 * n, cases_cp.plain(EXAMPLE), None)
                                     for n in range(400)], settings.VERSION_2)}
    told = {
        "d put 7 example.cp": "junction 7: 28 kbit/s put, its first setting",
        "d Put 007 two.cp": "junction 7: 29 1/3 kbit/s put, 28 kbit/s kept as the previous setting",
        "d put 65535 none.cp": "junction 65535: cleardown put, its first setting",
        "d BACK 7": "junction 7: back to 28 kbit/s, 29 1/3 kbit/s kept as the previous setting",
        "d put 7 none.cp": "junction 7: cleardown put, 28 kbit/s kept as the previous setting",
    }
    same(said(files, "settings d new"), ["v91: d made, with no junction", "v91: ok"], "new")
    same(files["d"], b"\0\0\0\1", "a new file")
    for word, file in (("1", b"\0\0\0\1"), ("2", b"\0\0\0\0\0\0\2")):
        same(said(files, f"settings e{word} new {word}"),
             [f"v91: e{word} made, with no junction", "v91: ok"], "new with a version")
        same(files[f"e{word}"], file, "a new file of a version")
    for words, sentence in told.items():
        same(said(files, f"settings {words}"), [f"v91: {sentence}", "v91: ok"], words)
        check("d.tmp" not in files, "the temporary file")
    kept, first = files["d"], refused_sentences()
    for words, sentences in first.items():
        before = dict(files)
        same(said(files, f"settings {words}"), [*(f"v91: {one}" for one in sentences),
                                                "v91: failed"], words)
        same(files, before, f"files after {words}")
    same(said(files, "settings d show 7"), said(files, "cp none.cp"), "show")
    same(said(files, "settings d show 65535 Cp > made"), ["v91: ok"], "show cp")
    same((files["made"], files["d"]), (files["none.cp"], kept), "the CP shown, and the file")
    return f"{len(told) + len(first) + 5} commands"


def refused_sentences():
    """Words of settings that are refused, with what is said of each."""
    broken = "{} is no settings file: it breaks the rules of one, or a CP in it is refused " \
             "(refusal 22)"
    number = "wrong number of words; v91 help says what each command takes"
    absent = "cannot open x: there is no such file"
    return {
        "d new": ["d is there already; it is as it was"],
        "x/d new": ["cannot write x/d.tmp: there is no such file", "x/d is as it was"],
        "x list": [absent, "v91 settings FILE new makes a settings file"],
        "x put 7 example.cp": [absent, "v91 settings FILE new makes a settings file"],
        "x put 7 empty": ["empty is empty; a CP has 37, 54, 71, 88, 105 or 122 bytes (refusal 2)"],
        "empty list": [broken.format("empty")],
        "two.cp show 7": [broken.format("two.cp")],
        "empty put 7 two.cp": [broken.format("empty"), "empty is as it was"],
        "empty back 7": [broken.format("empty"), "empty is as it was"],
        "d show 8": ["d has no setting for junction 8 (refusal 23)"],
        "d back 8": ["d has no previous setting for junction 8 (refusal 23)", "d is as it was"],
        "d back 65535": ["d has no previous setting for junction 65535 (refusal 23)",
                         "d is as it was"],
        "x show 65536": ["JUNCTION is a number from 0 to 65535, not 65536"],
        "x show 7 words": ["after JUNCTION there may be the word cp, not words"],
        "x take": ["after FILE settings takes new, list, put, back or show, not take"],
        "x new 7": ["after new there may be the version, 1 or 2, not 7"],
        "d new 0": ["after new there may be the version, 1 or 2, not 0"],
        "d new 2": ["d is there already; it is as it was"],
        "full put 7 two.cp": ["full has 400 junctions, the most there can be, so junction 7 cannot "
                              "be put (refusal 24)", "full is as it was"],
        "x": [number], "x new 2 x": [number], "x put 7": [number], "x show 7 cp 7": [number],
    }


def settings_tables():
    """The table of list by its columns, for files of records at random."""
    draw = Draw(37)
    for n in range(120):
        count, version = draw.pick((0, 1, 40, draw.below(40))), settings.VERSIONS[n % 2]
        count += 20 * (version.byte == 2) * draw.below(2)
        numbers = sorted({draw.pick((0, 65535, draw.below(65536))) for _ in range(count)})
        pairs = [(a_record(draw, draw.below(29)), draw.pick((None, a_record(draw, draw.below(29)))))
                 for _ in numbers]
        file = settings.write([
            settings.Junction(number, cases_cp.plain(one), other and cases_cp.plain(other))
            for number, (one, other) in zip(numbers, pairs)], version)
        head, *lines, summed, done = said({"f": file}, "settings f list")
        same(head, "junction  rate            M0   M1   M2   M3   M4   M5  previous", "head")
        same(done, "v91: ok", "list")
        same([table_columns(line) for line in lines],
             [(str(number), rate_named(one), [str(size) for size in records.sizes_of(one)],
               rate_named(other)) for number, (one, other) in zip(numbers, pairs)], "rows")
        some = "1 junction" if len(numbers) == 1 else f"{len(numbers)} junctions"
        kept = sum(other is not None for _, other in pairs)
        same(summed, f"v91: {some}, {kept} with a previous setting", "after the table")
    return "120 files"


def table_columns(line):
    """The columns of a line of the table; each stands in its place."""
    check(line == line.rstrip(), "spaces at the end of a line")
    sizes = [line[at:at + 5] for at in range(23, 53, 5)]
    same((line[8:10], line[53:55]), ("  ", "  "), "spaces between columns")
    same([one.rjust(width) for one, width in zip([line[:8].strip(), *map(str.strip, sizes)],
                                                 [8] + [5] * 6)], [line[:8], *sizes], "numbers")
    same(line[10:23].rstrip().ljust(13), line[10:23], "the rate")
    return line[:8].strip(), line[10:23].rstrip(), [size.strip() for size in sizes], line[55:]


def rate_named(record):
    """The rate in words, in thirds of a kbit/s from D; none where there is no record."""
    if record is None or record.drn == 0:
        return "none" if record is None else "cleardown"
    thirds = 4 * (record.drn + 20)
    return f"{thirds // 3}{('', ' 1/3', ' 2/3')[thirds % 3]} kbit/s"


def settings_runs():
    """Puts and goings back at random: what is shown is the setting last put or gone back to."""
    draw = Draw(38)
    for n in range(40):
        files, held = {}, {}
        said(files, f"settings f new {('', '1', '2')[n % 3]}")
        for _ in range(24):
            number = draw.pick((0, 1, 256, 257, 65535))
            one, (now, before) = a_record(draw, draw.below(29)), held.get(number, (None, None))
            files["one.cp"] = cases_cp.noisy(draw, one)
            put = draw.below(3) > 0
            done = said(files, f"settings f {f'put {number} one.cp' if put else f'back {number}'}")
            same(done[-1] == "v91: ok", bool(put or before), "whether it is done")
            if put or before:
                held[number] = (one, now) if put else (before, now)
            check_shown(files, held, number)
        same([int(line[:8]) for line in said(files, "settings f list")[1:-2]], sorted(held), "list")
        same(files["f"][-1], (1, 1, 2)[n % 3], "version")
    return "40 files"


def check_shown(files, held, number):
    """What is shown of a junction, in words and as a CP, is the setting that it has."""
    same(sorted(files), ["f", "one.cp"], "files")
    if number in held:
        now = held[number][0]
        same(said(files, f"settings f show {number}"),
             describe.description(now) + ["v91: ok"], "show")
        made = dict(files)
        said(made, f"settings f show {number} cp > made")
        same(made["made"], cases_cp.plain(now), "show cp")


def stored_data():
    """The stored data files of v91: {name: bytes}."""
    return {name: vectors.stored(f"{vectors.DATA}/{name}")
            for name in (*trial.data_files(), trial.NAME)}


def stored_run():
    """The stored run is text within bounds and has each refusal, command and kind of sentence."""
    data, lines = stored_data(), stored_text("v91/stdout").splitlines()
    script = data[trial.NAME].decode("ascii")
    check(len(script) <= 32_000, "length of the script")
    check(sum(map(len, data.values())) < 130_000, "data files")
    check(stored_text("v91/stdout").replace("\t", "").replace("\n", "").replace("\x7f", "")
          .isprintable(), "the transcript is no text")
    found = verdicts(script, lines)
    told = {int(number) for number in re.findall(r"\(refusal (\d+)\)", "\n".join(lines))}
    same(told, {*range(2, 12), 13, *range(22, 29)}, "refusals told")
    outcomes = {(program.words_of(command)[0].lower(), good) for command, good in found}
    for command in ("cp", "send", "receive", "start", "linear", "dil", "plan", "flip", "settings",
                    "demo"):
        check({(command, True), (command, False)} <= outcomes, f"{command} good and failing")
    check({("--version", True), ("run", False), ("nonsense", False)} <= outcomes, "other words")
    same(set(map(len, trial.good_cps().values())), set(describe.CP_LENGTHS), "lengths of CPs read")
    good = sum(verdict for _, verdict in found)
    return f"{len(found)} commands, {good} good, {len(found) - good} failing"


# Wrong programs

CALL = frames.MOST_FRAMES
RIGHT_PROGRAM = {name: getattr(program, name)
                 for name in ("COMMANDS", "are_of_start", "begun", "bytes_wanted", "carry_out",
                              "check_ceiling", "check_send_words", "cp_in", "data_told",
                              "demo_lines", "flip_lines", "found_sentence", "frame_count",
                              "frame_sentences", "has_word", "interval_line", "number_for",
                              "number_told", "octets_for", "octets_read", "part_sentences",
                              "plan_sentence", "receive", "reception", "run_sentence", "runs_of",
                              "send", "send_start", "sent_sentence", "sent_sentences",
                              "sequence_sentence", "state_for_sending", "state_found",
                              "state_told", "summary", "tell_flip", "write_dil", "write_plan")}
RIGHT_RUNS = describe.ucode_runs
RIGHT_PICTURE = {name: getattr(picture, name)
                 for name in ("Picture", "bar", "drawn_at", "drawing", "gaps_of", "grid_lines",
                              "row_line", "row_lines", "text_lines")}


def sender_fresh_each_call(record, law, state, channel, number, count, data):
    """Each call of the sender begins in the state in which the first began."""
    step = frames.data_bytes(record, CALL, channel)
    return b"".join(RIGHT_PROGRAM["octets_for"](record, law, state, channel, number,
                                                min(CALL, count - CALL * n), data[n * step:])
                    for n in range(-(-count // CALL)))


def between_calls(change):
    """The changes that give the receiver's calls after the first another state.

    It is made from the state in which the first began and the one that the last left.
    """
    def reception(record, law, channel, state, octets):
        got = RIGHT_PROGRAM["reception"](record, law, channel, state, octets[:6 * CALL])
        for first in range(6 * CALL, len(octets), 6 * CALL):
            data, marks, doubtful, heard_of, left = RIGHT_PROGRAM["reception"](
                record, law, channel, change(state, got.state), octets[first:first + 6 * CALL])
            heard_of = [(frame + first // 6, told) for frame, told in heard_of]
            got = program.Reception(got.data + data, got.marks + marks, got.doubtful + doubtful,
                                    got.heard + heard_of, left)
        return got
    return {"program.reception": reception}


def runs_cut_at_calls(marks):
    """A run ends with its call."""
    return [(mark, first + base, last + base) for base in range(0, len(marks), CALL)
            for mark, first, last in RIGHT_PROGRAM["runs_of"](marks[base:base + CALL])]


def runs_of_all_marks(marks):
    """Marked frames are one run, whatever their marks; it has the first of them."""
    return [(marks[first], first, last) for _, first, last
            in RIGHT_PROGRAM["runs_of"]([mark > 0 for mark in marks])]


def doubtful_by(count):
    """The changes that count other bits of a frame as doubtful, by its mark, D and the count."""
    return {"program.doubtful_bits": count}


def received_from(part, change):
    """The changes that give a part of a reception another value, made from all that is received."""
    def reception(*args):
        return RIGHT_PROGRAM["reception"](*args)._replace(**{part: change(*args)})
    return {"program.reception": reception}


def not_begun_cold(part):
    """The changes that make a part of a reception as if the receiver began with the count 0."""
    return received_from(part, lambda record, law, channel, state, octets: getattr(
        RIGHT_PROGRAM["reception"](record, law, channel, state._replace(doubtful=0), octets), part))


def state_before_last(record, law, channel, state, octets):
    """The state before the last frame."""
    count = max(len(octets) // 6 - 1, 0)
    return RIGHT_PROGRAM["reception"](record, law, channel, state, octets[:6 * count]).state


def told_cold(state):
    """The changes that give a receiver told cold another state."""
    return {"program.state_told": lambda words:
            state if RIGHT_PROGRAM["state_told"](words) == COLD else FRESH}


def cold_among(words_looked_at):
    """The changes that look for the word cold among other words."""
    return {"program.state_told": lambda words:
            RIGHT_PROGRAM["state_told"](words_looked_at(words))}


def summed_up(change):
    """The changes that say other sentences at the end, made from those said and the reception."""
    return {"program.summary": lambda got: change(RIGHT_PROGRAM["summary"](got), got)}


def without_word(sentences, word):
    """The sentences that lack a word."""
    return [sentence for sentence in sentences if word not in sentence]


def coming_last(call, got, left_over):
    """The bits to come are told after the octets at the end."""
    more = len(program.run_sentences(got.marks)) - program.MOST_RUNS
    if more > 0:
        call.say(f"{program.counted(more, 'more run')} of marked frames")
    *first, coming = program.summary(got)
    if left_over:
        first.append(f"{program.counted(left_over, 'octet')} at the end too few for a frame")
    for sentence in (*first, coming):
        call.say(sentence)


def failing_with(change):
    """The changes that make other sentences of those that receive says where it fails."""
    def command(call, *words):
        try:
            RIGHT_PROGRAM["receive"](call, *words)
        except program.Failed as failure:
            raise program.Failed(*change(failure.args)) from None
    return {"program.COMMANDS": commands_with(receive=command)}


def receive_taking(most):
    """The changes that let receive take so many words."""
    return {"program.COMMANDS": program.COMMANDS | {"receive": (program.receive, 2, most)}}


def send_with_cold(call, cp_name, law_name, *options):
    """The word cold is taken after LAW."""
    options = [option for option in options if option.lower() != "cold"]
    RIGHT_PROGRAM["send"](call, cp_name, law_name, *options)


def told_of_progress_alone(words):
    """What is said of wrong words leaves the word cold out."""
    try:
        return RIGHT_PROGRAM["bytes_wanted"](words)
    except program.Failed as failure:
        said_of = failure.args[0].replace("cold, control", "control")
        raise program.Failed(said_of) from None


def filled_with_ones(*args):
    """The last frame is filled with one bits."""
    *others, data = args
    return RIGHT_PROGRAM["octets_for"](*others, data + b"\xff" * 6)


def full_bytes(record, law, channel, *rest):
    """Only those bytes of the data that are full."""
    got = RIGHT_PROGRAM["reception"](record, law, channel, *rest)
    return got.data[:frames.data_bits(record, len(got.marks), channel) // 8]


def first_number_kept(words):
    """The first number counts."""
    RIGHT_PROGRAM["bytes_wanted"](words)
    return RIGHT_PROGRAM["bytes_wanted"](words[:1])


def cp_before_law(call, cp_name, *words):
    """The CP file is looked at before the law."""
    RIGHT_PROGRAM["cp_in"](call.files, cp_name)
    RIGHT_PROGRAM["send"](call, cp_name, *words)


def exact_unread(record, channel, data, exact):
    """The last frame is always filled."""
    return RIGHT_PROGRAM["frame_count"](record, channel, data, False)


def runs_in_halves(mask):
    """A run of Ucodes ends with the half of its mask."""
    upper = RIGHT_RUNS(mask >> 64)
    return RIGHT_RUNS(mask % 2**64) + [(first + 64, last + 64) for first, last in upper]


def always_plural(number, word):
    """Every word has an s."""
    return f"{number} {word}s"


def commands_with(**changed):
    """The commands, some of them changed."""
    commands = RIGHT_PROGRAM["COMMANDS"]
    return commands | {name: (command, *commands[name][1:]) for name, command in changed.items()}


def dil_written(change):
    """The commands with one that writes other octets than the DIL and says the same."""
    def command(call, law_name):
        call.write(change(dil.octets_of(program.law_named(law_name), dil.TABLE_5)))
        call.say("125 segments of 12 octets sent")
    return commands_with(dil=command)


def dil_with_progress(call, law_name, *options):
    """The word progress is taken after LAW."""
    if options and not program.has_word(options, "progress"):
        raise program.Failed("after LAW dil takes the word progress alone")
    RIGHT_PROGRAM["write_dil"](call, law_name)


# The words of plan, each looked at as the program does.
PLAN_WORDS = (lambda word: program.number_for("K", plan.RATES, word),
              lambda word: program.law_named(word),
              lambda word: program.number_for("SPACING", plan.SPACINGS, word),
              lambda word: program.check_ceiling(word),
              lambda word: program.form_named([word]))


def plan_looking(*places):
    """The changes that let plan look at the words in these places first."""
    def command(call, *words):
        for place in places:
            if place < len(words):
                PLAN_WORDS[place](words[place])
        RIGHT_PROGRAM["write_plan"](call, *words)
    return {"program.COMMANDS": commands_with(plan=command)}


def plan_judged_after(count):
    """The changes that let plan judge K and the spacing after so many words."""
    def command(call, *words):
        for look, word in zip(PLAN_WORDS[:count], words):
            look(word)
        k, spacing = int(words[0]), int(words[2]) if count > 2 else 1
        if k not in plan.RATES or spacing not in plan.SPACINGS:
            raise program.Failed(f"{program.outside_sentence(k, spacing)} (refusal 26)")
        RIGHT_PROGRAM["write_plan"](call, *words)
    return {"program.COMMANDS": commands_with(plan=command)}


def plan_and_more(call, *words):
    """The sum is said after a text too."""
    RIGHT_PROGRAM["write_plan"](call, *words)
    if len(words) == 4:
        call.say("M 6, sum of squares 962704")


class AsTyped(int):
    """A number that is shown as it was typed."""

    def __new__(cls, *name_numbers_word):
        number = super().__new__(cls, RIGHT_PROGRAM["number_for"](*name_numbers_word))
        number.word = name_numbers_word[-1]
        return number

    def __format__(self, form):
        return self.word


def numbers_like(form):
    """The changes that let plan take other words for K and SPACING."""
    def number_for(name, numbers, word):
        if not re.fullmatch(form, word):
            shown = program.shown(word)
            raise program.Failed(f"{name} is a number from {program.bounds(numbers)}, not {shown}")
        return int(word)
    return {"program.number_for": number_for}


def plan_taking(least, most):
    """The changes that let plan take so many words; a CEILING not given is the largest."""
    def command(call, k, law, spacing, ceiling=str(MOST), *words):
        RIGHT_PROGRAM["write_plan"](call, k, law, spacing, ceiling, *words)
    return {"program.COMMANDS": program.COMMANDS | {"plan": (command, least, most)}}


def least_of_27(number, k, law, spacing, ceiling):
    """27 tells the largest spacing within the ceiling."""
    if number != 27:
        return RIGHT_PROGRAM["plan_sentence"](number, k, law, spacing, ceiling)
    largest = plan.largest_spacing(k, law, int(ceiling))
    return (f"no mask of {plan.points_wanted(k)} points keeps the spacing {spacing}; the largest "
            f"spacing that one keeps is {largest} (refusal 27)")


def spacing_before_k(k, spacing):
    """26 tells the spacing where both are outside."""
    if spacing not in plan.SPACINGS:
        return f"the spacing is {spacing}; it is 1 to 65535"
    return f"K is {k}; it is 15 to 42"


def cp_with(granted=0, less=14, acknowledge=0, indices=(0,) * 6):
    """The changes that give plan's CP other fields; its mask stands in each mask named."""
    def made(k, mask):
        drn = k - less
        rec = make(granted and drn == 28, drn, acknowledge, indices, [mask] * (max(indices) + 1))
        return cases_cp.plain(rec)
    return {"program.cp_for": made}


def in_picture(**parts):
    """The changes that give pictures other parts."""
    return {f"picture.{name}": part for name, part in parts.items()}


def in_texts(change):
    """The changes that make other lines of a text from the right ones."""
    return {"program.text_lines": lambda drawn: change(RIGHT_PICTURE["text_lines"](drawn))}


def plus_for_first(column, before, end):
    """The first point has a + in column 0."""
    return RIGHT_PICTURE["drawn_at"](column, before or 0, end)


def plus_over_point(column, before, end):
    """The + of the point before hides the point."""
    return "+" if column == before else RIGHT_PICTURE["drawn_at"](column, before, end)


def no_plus(column, before, end):
    """The point before is not shown."""
    there = column == before and column != end
    return "-" if there else RIGHT_PICTURE["drawn_at"](column, before, end)


def axis_over_plus(column, before, end):
    """Column 0 has a | where the point before stands there."""
    there = column == 0 and column != end
    return "|" if there else RIGHT_PICTURE["drawn_at"](column, before, end)


def first_band_whole(y, point, x, before, width):
    """The spacing of the first point is not halved."""
    width = 2 * width if y == 2450 else width
    return RIGHT_PICTURE["row_line"](y, point, x, before, width)


def bands_end_at_points(y, point, x, before, width):
    """The spacing reaches from the point downwards."""
    return RIGHT_PICTURE["row_line"](y, point, x, max(x - width, 0), width)


WRONG_PROGRAMS = {
    "sender fresh in each call": {"program.octets_for": sender_fresh_each_call},
    "receiver fresh in each call": between_calls(lambda begun, left: FRESH),
    "receiver's history fresh in each call":
        between_calls(lambda begun, left: left._replace(history=0)),
    "runs cut at calls": {"program.runs_of": runs_cut_at_calls},
    "runs of all marks": {"program.runs_of": runs_of_all_marks},
    "runs of one frame": {"program.runs_of": lambda marks:
                          [(mark, n, n) for n, mark in enumerate(marks)]},
    "frames counted from 1": {"program.run_sentence": lambda mark, first, last, follows:
                              RIGHT_PROGRAM["run_sentence"](mark, first + 1, last + 1, follows)},
    "doubt said always": {"program.run_sentence": lambda mark, first, last, follows:
                          RIGHT_PROGRAM["run_sentence"](mark, first, last, True)},
    "doubt ends with its call":
        between_calls(lambda begun, left: left._replace(doubtful=0)),
    "doubt begun anew with each call":
        between_calls(lambda begun, left: left._replace(doubtful=begun.doubtful)),
    "doubt of whole frames": doubtful_by(lambda mark, width, count:
                                         width if count and not mark else 0),
    "doubt by the count after the frame": doubtful_by(lambda mark, width, count:
                                                      0 if mark else max(count - width, 0)),
    "doubt of marked frames too": doubtful_by(lambda mark, width, count: min(width, count)),
    "doubt of 24 bits for each frame": doubtful_by(lambda mark, width, count: 0 if mark else count),
    "doubt without the cold start": not_begun_cold("doubtful"),
    "bits to come without the cold start": not_begun_cold("state"),
    "bits to come before the last frame": received_from("state", state_before_last),
    "cold not looked at": told_cold(FRESH),
    "cold with a count of 23": told_cold(State(0, 0, 23)),
    "cold with a history of ones": told_cold(State(2**23 - 1, 0, 24)),
    "cold with the last sign 1": told_cold(State(0, 1, 24)),
    "cold always": {"program.state_told": lambda words: COLD},
    "cold in small letters alone": cold_among(lambda words: [w for w in words if w == "cold"]),
    "cold as the first word alone": cold_among(lambda words: words[:1]),
    "cold as the last word alone": cold_among(lambda words: words[-1:]),
    "cold not with BYTES": cold_among(lambda words: [] if any(map(program.is_number, words))
                                      else words),
    "cold taken by send": {"program.COMMANDS": commands_with(send=send_with_cold)},
    "cold not told of": {"program.bytes_wanted": told_of_progress_alone},
    "seven words of receive": receive_taking(6),
    "nine words of receive": receive_taking(8),
    "bits to come not said where 0": summed_up(lambda said, got:
                                               said if got.state.doubtful else said[:-1]),
    "bits to come not said of no frames": summed_up(lambda said, got:
                                                    said if got.marks else said[:-1]),
    "bits to come said where marked alone": summed_up(lambda said, got:
                                                      said if any(got.marks) else said[:-1]),
    "bits to come before those in all": summed_up(lambda said, got: [said[0], *said[:0:-1]]),
    "bits to come after the octets at the end": {"program.say_reception": coming_last},
    "bits to come always many": {"program.coming_sentence": lambda state:
                                 f"{state.doubtful} coming bits to distrust"},
    "bits to come not said at cleardown": failing_with(lambda said: without_word(said, "coming")),
    "bits to come said last at cleardown": failing_with(lambda said: sorted(
        said, key=lambda sentence: "coming" in sentence)),
    "cold not said at cleardown": failing_with(lambda said: [
        sentence.replace("24 coming", "0 coming") for sentence in said]),
    "doubt in all not said where 0": summed_up(lambda said, got:
                                               said if got.doubtful else [said[0], said[-1]]),
    "doubt in all said always": summed_up(lambda said, got: said if len(said) == 3 else [
        said[0], "0 bits of good frames doubtful in all", said[-1]]),
    "doubt in all said where marked alone": summed_up(lambda said, got:
                                                      said if any(got.marks)
                                                      else [said[0], said[-1]]),
    "doubt in all said of marks": summed_up(lambda said, got: [
        sentence.replace("bits of good frames doubtful in all", "doubtful bits after marked frames")
        for sentence in said]),
    "19 runs said": {"program.MOST_RUNS": 19},
    "21 runs said": {"program.MOST_RUNS": 21},
    "filled with ones": {"program.octets_for": filled_with_ones},
    "exact not looked at": {"program.frame_count": exact_unread},
    "BYTES not looked at": {"program.bytes_wanted": lambda words: None},
    "first number kept": {"program.bytes_wanted": first_number_kept},
    "last byte dropped": received_from("data", full_bytes),
    "CP before the law": {"program.COMMANDS": commands_with(send=cp_before_law)},
    "8 bits a byte": {"program.read_file": lambda octets: cp.read_cp(octets, 8 * len(octets))},
    "whole kbit/s": {"describe.rate": lambda record: frames.frame_bits(record) * 4 // 3},
    "Ucodes in halves": {"describe.ucode_runs": runs_in_halves},
    "plural always": {"program.counted": always_plural, "describe.counted": always_plural},
    "control characters shown": {"program.shown": lambda name: name},
    "one space between words": {"program.words_of": lambda line: line.split(" ")},
    "DIL without its last octet": {"program.COMMANDS": dil_written(lambda octets: octets[:-1])},
    "DIL sent twice": {"program.COMMANDS": dil_written(lambda octets: 2 * octets)},
    "DIL in mu-law alone": {"program.send_dil": lambda law, octets: dil.send_dil(MU, octets)},
    "DIL in A-law alone": {"program.send_dil": lambda law, octets: dil.send_dil(A, octets)},
    "progress taken by dil": {"program.COMMANDS":
                              program.COMMANDS | {"dil": (dil_with_progress, 1, 2)}},
    "version 3": {"program.VERSION": "v91 3"},
    "plan: LAW before K": plan_looking(1),
    "plan: SPACING before LAW": plan_looking(0, 2),
    "plan: CEILING before SPACING": plan_looking(0, 1, 3),
    "plan: the last word before CEILING": plan_looking(0, 1, 2, 4),
    "plan: K judged at once": plan_judged_after(1),
    "plan: K and SPACING judged before CEILING": plan_judged_after(3),
    "plan: K and SPACING judged before the last word": plan_judged_after(4),
    "plan: CEILING not wanted": plan_taking(3, 5),
    "plan: no word after CEILING": plan_taking(4, 4),
    "plan: two words after CEILING": plan_taking(4, 6),
    "plan: numbers of 19 digits": numbers_like("[0-9]{1,19}"),
    "plan: numbers with signs": numbers_like("-?[0-9]{1,18}"),
    "plan: numbers of 5 digits": numbers_like("[0-9]{1,5}"),
    "plan: CEILING with a sign": {"program.check_ceiling": lambda word:
                                  RIGHT_PROGRAM["check_ceiling"](word.removeprefix("-"))},
    "plan: CEILING of 20 digits": {"program.check_ceiling": lambda word:
                                   RIGHT_PROGRAM["check_ceiling"](word if len(word) <= 20 else "")},
    "plan: CEILING of 64 bits": {"program.plan": lambda k, law, spacing, ceiling:
                                 plan.plan(k, law, spacing, ceiling % 2**64)},
    "plan: CEILING not looked at": {"program.plan": lambda k, law, spacing, ceiling:
                                    plan.plan(k, law, spacing, MOST)},
    "plan: svg in small letters alone": {"program.form_named": lambda words:
                                         words[0] if words and words[0].islower() else None},
    "plan: K and SPACING as typed": {"program.number_for": AsTyped},
    "plan: CEILING as a number": {"program.Picture": lambda k, law, spacing, ceiling, *rest:
                                  RIGHT_PICTURE["Picture"](k, law, spacing, int(ceiling), *rest)},
    "plan: CEILING as a number when refused":
        {"program.plan_sentence": lambda number, k, law, spacing, ceiling:
         RIGHT_PROGRAM["plan_sentence"](number, k, law, spacing, int(ceiling))},
    "plan: 26 tells the spacing first": {"program.outside_sentence": spacing_before_k},
    "plan: 27 tells a spacing within the ceiling": {"program.plan_sentence": least_of_27},
    "plan: 28 tells a spacing beyond the ceiling":
        {"program.largest_spacing": lambda k, law, ceiling: plan.largest_spacing(k, law, MOST)},
    "plan: the largest spacing 0 told": {"program.largest_spacing": lambda *args:
                                         plan.largest_spacing(*args) or "0"},
    "plan: the largest spacing of mu-law": {"program.largest_spacing": lambda k, law, ceiling:
                                            plan.largest_spacing(k, MU, ceiling)},
    "plan: M told for 27 is 128": {"program.points_wanted": lambda k: 128},
    "plan: refused without a word": {"program.plan_sentence": lambda number, *rest:
                                     f"no plan (refusal {number})"},
    "plan: the sum said of a text": {"program.COMMANDS": commands_with(plan=plan_and_more)},
    "plan: the sum not said": {"program.found_line": lambda drawn: "a plan"},
    "plan: CP with drn K - 13": cp_with(less=13),
    "plan: CP with six masks": cp_with(indices=range(6)),
    "plan: CP with index 1": cp_with(indices=(1,) * 6),
    "plan: CP granted at drn 28": cp_with(granted=1),
    "plan: CP acknowledged": cp_with(acknowledge=1),
    "plan: a-law in small letters": {"picture.LAW_NAMES": ("mu-law", "a-law")},
    "plan: the other law named": {"picture.LAW_NAMES": picture.LAW_NAMES[::-1]},
    "plan: mask in capitals": in_picture(mask_line=lambda drawn:
                                         f"mask {drawn.mask:032X}, Ucode 127 in the top bit"),
    "plan: mask without its zeros": in_picture(mask_line=lambda drawn:
                                               f"mask {drawn.mask:x}, Ucode 127 in the top bit"),
    "plan: mask from Ucode 0": in_picture(
        mask_line=lambda drawn: f"mask {mirrored(drawn.mask):032x}, Ucode 127 in the top bit"),
    "plan: the first gap not doubled": in_picture(gaps_of=lambda values: [
        values[0], *RIGHT_PICTURE["gaps_of"](values)[1:]]),
    "plan: gaps above the points": in_picture(gaps_of=lambda values: [
        *RIGHT_PICTURE["gaps_of"](values)[1:], 0]),
    "plan: points falling": in_picture(ucodes_in=lambda drawn: [
        u for u in range(127, -1, -1) if drawn.mask >> u & 1]),
    "plan: 55 columns": in_picture(COLUMNS=55),
    "plan: columns rounded down": in_picture(column_of=lambda value, top: 56 * value // top),
    "plan: columns rounded up": in_picture(column_of=lambda value, top: -(-56 * value // top)),
    "plan: the middle rounded down": in_picture(column_of=lambda value, top:
                                                (112 * value + top - 1) // (2 * top)),
    "plan: a bar a column short": in_picture(bar=lambda end:
                                             RIGHT_PICTURE["bar"](max(end - 1, 0))),
    "plan: two marks in a bar of one column": in_picture(bar=lambda end:
                                                         f"|{'-' * (end - 1)}|"),
    "plan: + for the first point": in_picture(drawn_at=plus_for_first),
    "plan: + over the point": in_picture(drawn_at=plus_over_point),
    "plan: no + for the point before": in_picture(drawn_at=no_plus),
    "plan: | over + in column 0": in_picture(drawn_at=axis_over_plus),
    "plan: no axis": in_picture(drawn_at=lambda column, *rest:
                                RIGHT_PICTURE["drawn_at"](column, *rest).replace("|", " ")),
    "plan: drawings filled with spaces": in_picture(drawing=lambda *args:
                                                    RIGHT_PICTURE["drawing"](*args).ljust(57)),
    "plan: no last line": in_texts(lambda lines: lines[:-1]),
    "plan: the last line of the highest Ucode": in_texts(lambda lines: [
        *lines[:-1], f"the gap of Ucode {lines[-2][:5].strip()} is the one between its two signs"]),
    "plan: lengths rounded": in_picture(length_of=lambda value, top:
                                        (7800 * value + top) // (2 * top)),
    "plan: lengths to 4000": in_picture(HALF_WIDTH=4000),
    "plan: a grid of 5 lines at most": in_picture(MOST_LINES=5),
    "plan: a grid of 7 lines at most": in_picture(MOST_LINES=7),
    "plan: a grid without steps of 20": in_picture(STEPS=picture.STEPS[1:]),
    "plan: no line of the grid at the top": in_picture(grid_lines=lambda drawn: [
        line for line in RIGHT_PICTURE["grid_lines"](drawn) if "M3900 0V" not in line]),
    "plan: the spacing not halved for the first point": in_picture(row_line=first_band_whole),
    "plan: the spacing below the points": in_picture(row_line=bands_end_at_points),
    "plan: -0 written as 0": in_picture(row_line=lambda *args:
                                        RIGHT_PICTURE["row_line"](*args).replace("-0 ", "0 ")),
    "plan: rows from the top down": in_picture(row_lines=lambda drawn:
                                               RIGHT_PICTURE["row_lines"](drawn)[::-1]),
    "plan: SVG in one line": {"program.svg_lines": lambda drawn:
                              ["".join(picture.svg_lines(drawn))]},
    "plan: SVG without its end": {"program.svg_lines": lambda drawn:
                                  picture.svg_lines(drawn)[:-1]},
}


def sentences_by(change):
    """The changes that say another sentence of a sequence, by its frame, Heard and the right."""
    return {"program.sequence_sentence": lambda frame, told: change(
        frame, told, RIGHT_PROGRAM["sequence_sentence"](frame, told))}


def in_another_order(key):
    """The changes that say runs and sequences in another order.

    It is made from the frame after a run, or the last of a sequence, and which of them it is.
    """
    def frame_sentences(got):
        runs = zip(program.marked_runs(got.marks), program.run_sentences(got.marks))
        said_of = [(last + 1, 0, sentence) for (_, _, last), sentence in runs][:program.MOST_RUNS]
        said_of += [(frame, 1, program.sequence_sentence(frame, told)) for frame, told in got.heard]
        return [sentence for *_, sentence in sorted(said_of, key=lambda each: key(*each[:2]))]
    return {"program.frame_sentences": frame_sentences}


def counted_with_runs(got):
    """Sequences count among the sentences that are said."""
    return RIGHT_PROGRAM["frame_sentences"](got)[:program.MOST_RUNS]


def heard_changed(change):
    """The changes that keep other sequences than all, made from what is heard."""
    def reception(*args):
        got = RIGHT_PROGRAM["reception"](*args)
        return got._replace(heard=change(got.heard))
    return {"program.reception": reception}


def words_by(change):
    """The changes that let send take other words, as if they were those made of them."""
    def command(call, cp_name, law_name, *options):
        RIGHT_PROGRAM["send"](call, cp_name, law_name, *change(options))
    return {"program.COMMANDS": commands_with(send=command)}


def after_control_alone(words):
    """The words of the channel are taken only where they follow the word control."""
    small = [word.lower() for word in words]
    at = small.index("control") if "control" in small else len(small)
    hidden = ["x" if word in ("cleardown", "retrain") or program.is_data(word) else word
              for word in small[:at]]
    return [*hidden, *words[at:]]


def send_taking(most):
    """The changes that let send take so many words."""
    return {"program.COMMANDS": program.COMMANDS | {"send": (program.send, 2, most)}}


def channel_unread(name):
    """The changes that let a command take the word control and not look at it."""
    def command(call, cp_name, law_name, *options):
        left = [word for word in options if word.lower() != "control"]
        if name == "send":
            program.check_send_words(options)
            left = [word for word in left if word.lower() in ("exact", "progress")]
        RIGHT_PROGRAM[name](call, cp_name, law_name, *left)
    return {"program.COMMANDS": commands_with(**{name: command})}


def told_of_words(name, before, after):
    """The changes that say something else of wrong words."""
    def looked_at(words):
        try:
            return RIGHT_PROGRAM[name](words)
        except program.Failed as failure:
            raise program.Failed(failure.args[0].replace(before, after)) from None
    return {f"program.{name}": looked_at}


def number_changed(change):
    """The changes that make other 56 bits of the words, from them and the right ones."""
    return {"program.number_told": lambda words: change(words, RIGHT_PROGRAM["number_told"](words))}


def last_frame_of_d(record, channel, data, exact):
    """The frames of data where each has D bits."""
    return RIGHT_PROGRAM["frame_count"](record, 0, data, exact)


def said_by_d(record, channel, count, data):
    """What is said of the last frame takes it for one of D bits."""
    if channel and count % 64 == 1:
        bits = program.data_bits(record, count, channel)
        return RIGHT_PROGRAM["sent_sentence"](record, 0, count, data) if bits else ""
    return RIGHT_PROGRAM["sent_sentence"](record, channel, count, data)


def read_by_d(record, channel, octets, wanted):
    """BYTES are counted as if each frame had D bits."""
    return RIGHT_PROGRAM["octets_read"](record, 0, octets, wanted)


def doubtful_by_d(record, law, channel, state, octets):
    """How many bits are doubtful, where a control frame counts with D."""
    doubtful = 0
    for n in range(len(octets) // 6):
        before = state.doubtful
        mark, _, state = frames.receive_frame(record, law, state, channel, octets[6 * n:6 * n + 6])
        doubtful += program.doubtful_bits(mark, frames.frame_bits(record), before)
    return doubtful


def sequences_by(counted):
    """A program that counts the sequences in frames sent otherwise."""
    def wrong(count):
        whole, more = counted(count)
        sent = f"{describe.counted(whole, 'control sequence')} sent whole"
        rest = f", and {describe.counted(more, 'control frame')} of one that is not"
        return sent + (rest if more else "")
    return {"program.sequences_sentence": wrong}


def part_by(changed_place):
    """A program that says another number of frames of a sequence that is not whole."""
    return {"program.part_sentences": lambda state: RIGHT_PROGRAM["part_sentences"](
        state._replace(sequence_place=changed_place(state.sequence_place)))}


WRONG_CHANNEL_PROGRAMS = {
    "send: control not looked at": channel_unread("send"),
    "receive: control not looked at": channel_unread("receive"),
    "control always": {"program.has_word": lambda words, wanted:
                       wanted == "control" or RIGHT_PROGRAM["has_word"](words, wanted)},
    "words of the channel after control alone": words_by(after_control_alone),
    "words of the channel without control": words_by(
        lambda words: [*words, "control"] if any(word.lower() in ("cleardown", "retrain")
                                                 or program.is_data(word) for word in words)
        else words),
    "words of the channel in small letters alone": {
        "program.has_word": lambda words, wanted: wanted in words},
    "eight words of send": send_taking(8),
    "ten words of send": send_taking(10),
    "53 digits": {"program.is_data": lambda word: bool(re.fullmatch("[01]{1,53}", word))},
    "55 digits": {"program.is_data": lambda word: bool(re.fullmatch("[01]{1,55}", word))},
    "any digits": {"program.is_data": lambda word: bool(re.fullmatch("[0-9]{1,54}", word)),
                   "program.data_told": lambda words: 0},
    "digits of the first such word": {"program.data_told": lambda words: RIGHT_PROGRAM["data_told"](
        [*filter(program.is_data, words), "0"][:1])},
    "digits from the last": {"program.data_told": lambda words: int(
        ["0", *filter(program.is_data, words)][-1], 2)},
    "digits put at the end": {"program.data_told": lambda words: (
        lambda digits: int(digits[::-1], 2) << 54 - len(digits))(
            ["0", *filter(program.is_data, words)][-1])},
    "digits missing are 1": {"program.data_told": lambda words: (
        lambda digits: int(digits[::-1], 2) | 2**54 - 2 ** len(digits))(
            ["0", *filter(program.is_data, words)][-1])},
    "cleardown not sent": number_changed(lambda words, number: number & ~1),
    "retrain not sent": number_changed(lambda words, number: number & ~2),
    "cleardown and retrain exchanged by send": number_changed(
        lambda words, number: number & ~3 | mirrored_in(2, number)),
    "control not told of by send": told_of_words(
        "check_send_words", "exact, progress, start and control", "exact, progress and start"),
    "digits not told of by send": told_of_words("check_send_words",
                                                " and up to 54 binary digits", ""),
    "control not told of by receive": told_of_words("bytes_wanted", "cold, control", "cold"),
    "frames of D bits alone counted": {"program.frame_count": last_frame_of_d},
    "the last frame said to have D bits": {"program.sent_sentence": said_by_d},
    "the first sequence alone sent as told": {
        "program.send_frame": lambda record, law, state, channel, number, data: frames.send_frame(
            record, law, state, channel, 0 if state.sequence else number, data)},
    "BYTES by frames of D bits": {"program.octets_read": read_by_d},
    "doubt of D bits in control frames": received_from("doubtful", doubtful_by_d),
    "receiver's frame place fresh in each call": between_calls(
        lambda begun, left: left._replace(frame_place=1)),
    "receiver's sequence place 1 in each call": between_calls(
        lambda begun, left: left._replace(sequence_place=1)),
    "sequences of the last call alone said": heard_changed(
        lambda heard_of: [each for each in heard_of if each[0] >= 1024]),
    "the last sequence alone said": heard_changed(lambda heard_of: heard_of[-1:]),
    "the first sequence alone said": heard_changed(lambda heard_of: heard_of[:1]),
    "sequences that are right alone said": heard_changed(
        lambda heard_of: [each for each in heard_of if each[1].what == control.HEARD]),
    "frames of sequences counted from 1": heard_changed(
        lambda heard_of: [(frame + 1, told) for frame, told in heard_of]),
    "frames of sequences counted in the call": heard_changed(
        lambda heard_of: [(frame % 1024, told) for frame, told in heard_of]),
    "control frames counted in place of frames": heard_changed(
        lambda heard_of: [(frame // 64, told) for frame, told in heard_of]),
    "the first frame of a sequence said": heard_changed(
        lambda heard_of: [(frame - 960, told) for frame, told in heard_of]),
    "sequences before the run that ends": in_another_order(lambda frame, kind: (frame, -kind)),
    "sequences after the run that they end in": in_another_order(
        lambda frame, kind: (frame + kind, kind)),
    "sequences before all runs": in_another_order(lambda frame, kind: (-kind, frame)),
    "sequences after all runs": in_another_order(lambda frame, kind: (kind, frame)),
    "sequences counted with runs": {"program.frame_sentences": counted_with_runs},
    "digits heard as few as are needed": sentences_by(
        lambda frame, told, right: right.rstrip("0") if told.what == control.HEARD else right),
    "digits heard from the last": sentences_by(lambda frame, told, right: right[:-54]
                                               + right[:-55:-1] if told.what == 1 else right),
    "cleardown and retrain exchanged by receive": sentences_by(
        lambda frame, told, right: RIGHT_PROGRAM["sequence_sentence"](
            frame, told._replace(number=told.number & ~3 | mirrored_in(2, told.number)))),
    "cleardown said as 1": sentences_by(
        lambda frame, told, right: right.replace("yes", "1").replace("no,", "0,")),
    "a lost sequence said to be wrong": sentences_by(
        lambda frame, told, right: right.replace("lost, a frame of it is marked", "wrong, lost")),
    "pattern and CRC exchanged": sentences_by(
        lambda frame, told, right: RIGHT_PROGRAM["sequence_sentence"](
            frame, told._replace(what=(0, 1, 2, 4, 3)[told.what]))),
    "sequences sent not said": {"program.sent_sentences": lambda *told: [
        program.sent_sentence(*told)]},
    "sequences sent said with the channel off": {
        "program.sent_sentences": lambda record, channel, count, data: [
            program.sent_sentence(record, channel, count, data),
            program.sequences_sentence(count)]},
    "sequences sent said first": {
        "program.sent_sentences": lambda *told: RIGHT_PROGRAM["sent_sentences"](*told)[::-1]},
    "every 64th frame counted but for the first": sequences_by(
        lambda count: divmod(count // 64, 16)),
    "sequences sent of 15 frames": sequences_by(lambda count: divmod(-(-count // 64), 15)),
    "frames of sequences that are whole counted": sequences_by(
        lambda count: (-(-count // 64) // 16, -(-count // 64))),
    "whole sequences sent alone said": sequences_by(lambda count: (-(-count // 64) // 16, 0)),
    "a sequence received in part not said": part_by(lambda place: 0),
    "a whole sequence said to be received in part": {
        "program.part_sentences": lambda state: RIGHT_PROGRAM["part_sentences"](state)
        or state.sequence and RIGHT_PROGRAM["part_sentences"](state._replace(sequence_place=16))
        or []},
    "frames of a sequence yet to come said": part_by(lambda place: -place % 16),
    "cold at another frame place": told_cold(COLD._replace(frame_place=1)),
    "cold at another sequence place": told_cold(COLD._replace(sequence_place=1)),
    "version 4": {"program.VERSION": "v91 4"},
}


# Wrong programs of CP and E_s

def from_state(state):
    """The changes that let CP begin in another state than zero, in start and in send."""
    def from_zero(record, law):
        _, _, left, octets = starts.send_cp(record, law, state, bytes(starts.octet_count(record)))
        return octets, left
    return {"program.from_zero": from_zero}


def started_with(change):
    """The changes that make other octets and another state of those that CP and E_s have."""
    return {"program.from_zero": lambda record, law: change(*starts.from_zero(record, law))}


def start_saying(sentence):
    """The changes that let start say something else, made from the octets of CP and E_s."""
    def command(call, cp_name, law_name):
        law = program.law_named(law_name)
        octets, _ = starts.from_zero(program.cp_in(call.files, cp_name), law)
        call.write(octets)
        call.say(sentence(len(octets)))
    return {"program.COMMANDS": commands_with(start=command)}


def start_of_the_file(call, cp_name, law_name):
    """The bits of the file are sent, the reserved ones and the fill as they stand there."""
    law = program.law_named(law_name)
    count = cases_cp.length_of(program.cp_in(call.files, cp_name))
    bits = bits_in(call.files[cp_name], count) + [0] * 12
    call.write(starts.send_bits(law, FRESH, bits)[0])
    call.say(f"{count + 12} octets sent: {count} of CP and 12 of E_s")


def start_taking(least, most):
    """The changes that let start take so many words; LAW not given is mu."""
    def command(call, cp_name, law_name="mu", *rest):
        RIGHT_PROGRAM["send_start"](call, cp_name, law_name)
    return {"program.COMMANDS": program.COMMANDS | {"start": (command, least, most)}}


def start_of_no_cleardown(call, cp_name, law_name):
    """A CP that says cleardown is not sent."""
    law = program.law_named(law_name)
    if program.cp_in(call.files, cp_name).drn == 0:
        raise program.Failed(program.CLEARDOWN)
    RIGHT_PROGRAM["send_start"](call, cp_name, ("mu", "a")[law])


def start_of_cp_first(call, cp_name, law_name):
    """start looks at the CP file before the law."""
    program.cp_in(call.files, cp_name)
    RIGHT_PROGRAM["send_start"](call, cp_name, law_name)


def send_from(change):
    """The changes that let send begin in another state, made from the right one and the words."""
    return {"program.state_for_sending": lambda record, law, words: change(
        RIGHT_PROGRAM["state_for_sending"](record, law, words), words)}


def send_with_cp(call, cp_name, law_name, *options):
    """With the word start send writes CP and E_s too."""
    law = program.law_named(law_name)
    program.check_send_words(options)
    if program.has_word(options, "start"):
        call.write(starts.from_zero(program.cp_in(call.files, cp_name), law)[0])
    RIGHT_PROGRAM["send"](call, cp_name, law_name, *options)


def starting(change):
    """The changes that let receive with the word start begin otherwise.

    The state and the octets of frames are made from the call, record, law, words and the right
    ones.
    """
    def begun(call, record, law, words):
        found = RIGHT_PROGRAM["begun"](call, record, law, words)
        if not program.has_word(words, "start"):
            return found
        return change(call, record, law, words, *found)
    return {"program.begun": begun}


def found_by_program(change):
    """The changes that let receive find the state from other octets than all of CP and E_s."""
    return {"program.find_state": lambda octets, state: starts.find_state(change(octets), state)}


def ucodes_of(change):
    """The changes that look at the Ucodes of other octets, or in another law."""
    def state_found(call, law, state, octets):
        sound = program.are_of_start(*change(law, octets))
        call.say(program.found_sentence(len(octets), sound))
        return starts.find_state(octets, state if sound else COLD)[1]
    return {"program.state_found": state_found}


def where_amiss(change):
    """The changes that give a receiver another state where a Ucode is amiss."""
    def state_found(call, law, state, octets):
        sound = program.are_of_start(law, octets[-24:])
        call.say(program.found_sentence(len(octets), sound))
        return starts.find_state(octets, state)[1] if sound else change(state, octets)
    return {"program.state_found": state_found}


def enough_octets(change):
    """The changes that let receive ask for other octets than all of CP and E_s.

    The least number is made from the right one.
    """
    def begun(call, record, law, words):
        count = starts.octet_count(record)
        if program.has_word(words, "start") and change(count) <= len(call.input) < count:
            return program.state_found(call, law, program.state_told(words), call.input), b""
        if program.has_word(words, "start") and count <= len(call.input) < change(count):
            raise program.Failed(f"{len(call.input)} octets received, too few for CP and E_s, "
                                 f"which have {count}")
        return RIGHT_PROGRAM["begun"](call, record, law, words)
    return {"program.begun": begun}


def too_few_by(change):
    """The changes that fail with other sentences where there are too few octets."""
    return failing_with(lambda said_of: change(said_of)
                        if any("too few for CP" in sentence for sentence in said_of) else said_of)


def cleardown_before_octets(call, cp_name, law_name, *options):
    """A CP that says cleardown is told of before the octets are counted."""
    record = call.files.get(cp_name) and program.read_file(call.files[cp_name])[1]
    if record and record.drn == 0 and program.has_word(options, "start") and 5 < len(
            call.input) < starts.octet_count(record):
        raise program.Failed(*program.summary(program.reception(record, MU, 0, FRESH, b"")),
                             program.CLEARDOWN)
    RIGHT_PROGRAM["receive"](call, cp_name, law_name, *options)


def nothing_read(call, cp_name, law_name, *options):
    """With BYTES 0 the octets of CP and E_s are not read."""
    if program.bytes_wanted(options) == 0:
        options = [word for word in options if word.lower() != "start"]
    RIGHT_PROGRAM["receive"](call, cp_name, law_name, *options)


def calls_from_cp():
    """The changes that let the first call of the receiver end 1,024 frames after CP begins."""
    short = []

    def begun(call, record, law, words):
        short[:] = [starts.octet_count(record) if program.has_word(words, "start") else 0]
        return RIGHT_PROGRAM["begun"](call, record, law, words)

    def octets_read(record, channel, octets, wanted):
        found = RIGHT_PROGRAM["octets_read"](record, channel, octets, wanted)
        return found[:len(found) - short[0]] if len(found) < len(octets) else found
    return {"program.begun": begun, "program.octets_read": octets_read}


def frames_counted_from_cp():
    """The changes that count the frames of sequences from the first octet of CP."""
    first = []

    def begun(call, record, law, words):
        first[:] = [starts.octet_count(record) // 6 if program.has_word(words, "start") else 0]
        return RIGHT_PROGRAM["begun"](call, record, law, words)
    return {"program.begun": begun, "program.sequence_sentence": lambda frame, told:
            RIGHT_PROGRAM["sequence_sentence"](frame + first[0], told)}


def found_said(change):
    """The changes that say something else of the state found, made from the octets and if sound."""
    return {"program.found_sentence": lambda count, sound: change(
        RIGHT_PROGRAM["found_sentence"](count, sound), count, sound)}


def unheard(call):
    """The call, but what it writes and says goes nowhere."""
    return program.Call(call.files, call.input, bytearray(), bytearray())


def found_said_last(call, cp_name, law_name, *options):
    """What is said of the state found comes after all else."""
    held = []

    def state_found(inner, law, state, octets):
        held.append(program.found_sentence(len(octets), program.are_of_start(law, octets[-24:])))
        return RIGHT_PROGRAM["state_found"](unheard(inner), law, state, octets)
    with patch("program.state_found", state_found):
        RIGHT_PROGRAM["receive"](call, cp_name, law_name, *options)
    for sentence in held:
        call.say(sentence)


def demo_by(change):
    """The changes that make other lines of the demo from the right ones."""
    return {"program.demo_lines": lambda: change(RIGHT_PROGRAM["demo_lines"]())}


WRONG_START_PROGRAMS = {
    "start: from the sign 1": from_state(State(0, 1, 0)),
    "start: from a history of ones": from_state(State(2**23 - 1, 0, 0)),
    "start: from the state that its CP left": {"program.from_zero": lambda record, law: (
        lambda state: from_state(state)["program.from_zero"](record, law))(
            starts.from_zero(record, law)[1])},
    "start: in mu-law alone": {"program.from_zero": lambda record, law:
                               starts.from_zero(record, MU)},
    "start: in A-law alone": {"program.from_zero": lambda record, law: starts.from_zero(record, A)},
    "start: E_s not written": started_with(lambda octets, state: (octets[:-12], state)),
    "start: written twice": started_with(lambda octets, state: (2 * octets, state)),
    "start: the CP of the example": {"program.from_zero": lambda record, law:
                                     starts.from_zero(EXAMPLE, law)},
    "start: CP counted with E_s": start_saying(lambda count:
                                               f"{count} octets sent: {count} of CP and 12 of E_s"),
    "start: CP counted alone": start_saying(lambda count: f"{count - 12} octets sent: {count - 12} "
                                            "of CP and 12 of E_s"),
    "start: frames said": start_saying(lambda count: f"{count // 6} frames sent"),
    "start: the bits of the file": {"program.COMMANDS": commands_with(start=start_of_the_file)},
    "start: cleardown refused": {"program.COMMANDS": commands_with(start=start_of_no_cleardown)},
    "start: CP before the law": {"program.COMMANDS": commands_with(start=start_of_cp_first)},
    "start: one word": start_taking(1, 2),
    "start: three words": start_taking(2, 3),
    "send: start not looked at": send_from(lambda state, words: FRESH),
    "send: start always": {"program.state_for_sending": lambda record, law, words:
                           starts.from_zero(record, law)[1]},
    "send: history of CP alone": send_from(lambda state, words: state._replace(sign=0)),
    "send: sign of CP alone": send_from(lambda state, words: state._replace(history=0)),
    "send: CP and E_s written": {"program.COMMANDS": commands_with(send=send_with_cp)},
    "send: from the state before E_s": started_with(lambda octets, state: (
        octets, starts.find_state(octets[:-12], FRESH)[1])),
    "send: start not taken": words_by(lambda words: [
        "x" if word.lower() == "start" else word for word in words]),
    "send: start after control alone": words_by(lambda words: [
        "x" if word.lower() == "start" and not program.has_word(words[:n], "control") else word
        for n, word in enumerate(words)]),
    "send: start not told of": told_of_words("check_send_words", "progress, start and control",
                                             "progress and control"),
    "send: starts taken": words_by(lambda words: [
        "start" if word.lower() == "starts" else word for word in words]),
    "receive: start not looked at": starting(lambda call, record, law, words, state, line: (
        program.state_told(words), call.input)),
    "receive: begun fresh": {"program.find_state": lambda octets, state: (None, state)},
    "receive: history found alone": {"program.find_state": lambda octets, state: (
        None, starts.find_state(octets, state)[1]._replace(sign=0))},
    "receive: sign found alone": {"program.find_state": lambda octets, state: (
        None, starts.find_state(octets, state)[1]._replace(history=0))},
    "receive: CP and E_s taken for frames": starting(
        lambda call, record, law, words, state, line: (state, call.input)),
    "receive: E_s taken for frames": starting(lambda call, record, law, words, state, line: (
        state, call.input[-len(line) - 12:])),
    "receive: state found one octet early": found_by_program(lambda octets: octets[:-1]),
    "receive: state found before E_s": found_by_program(lambda octets: octets[:-12]),
    "receive: state found from the first 24": found_by_program(lambda octets: octets[:24]),
    "receive: state found one octet late": starting(
        lambda call, record, law, words, state, line: (starts.find_state(
            call.input[:starts.octet_count(record) + 1], state)[1], line)),
    "receive: state as the CP leaves it": starting(
        lambda call, record, law, words, state, line: (starts.from_zero(record, law)[1]._replace(
            doubtful=state.doubtful), line)),
    "receive: 306 octets of any CP": {"program.octet_count": lambda record: 306},
    "receive: the CP without E_s": {"program.octet_count": lambda record:
                                    starts.octet_count(record) - 12},
    "receive: cold not applied where a Ucode is wrong": where_amiss(
        lambda state, octets: starts.find_state(octets, state)[1]),
    "receive: no state found where a Ucode is wrong": where_amiss(lambda state, octets: COLD),
    "receive: begun fresh where a Ucode is wrong": where_amiss(lambda state, octets: FRESH),
    "receive: fails where a Ucode is wrong": {
        "program.are_of_start": lambda law, octets: RIGHT_PROGRAM["are_of_start"](law, octets)
        or program.law_named("doubtful")},
    "receive: Ucodes not looked at": {"program.are_of_start": lambda law, octets: True},
    "receive: Ucodes of all octets looked at": ucodes_of(lambda law, octets: (law, octets)),
    "receive: Ucodes of 23 octets looked at": ucodes_of(lambda law, octets: (law, octets[-23:])),
    "receive: Ucodes of 25 octets looked at": ucodes_of(lambda law, octets: (law, octets[-25:])),
    "receive: Ucode of the last octet not looked at": ucodes_of(
        lambda law, octets: (law, octets[-24:-1])),
    "receive: Ucodes of mu-law looked at": ucodes_of(lambda law, octets: (MU, octets[-24:])),
    "receive: Ucodes of either law looked at": {"program.are_of_start": lambda law, octets: any(
        RIGHT_PROGRAM["are_of_start"](each, octets) for each in (MU, A))},
    "receive: cold lost with start": starting(
        lambda call, record, law, words, state, line: (state._replace(
            doubtful=state.doubtful if not program.has_word(words, "cold") else 0), line)),
    "receive: cold always with start": starting(
        lambda call, record, law, words, state, line: (state._replace(doubtful=24), line)),
    "receive: 24 octets enough": enough_octets(lambda count: 24),
    "receive: all but one enough": enough_octets(lambda count: count - 1),
    "receive: CP and E_s alone not enough": enough_octets(lambda count: count + 1),
    "receive: too few told as frames": too_few_by(lambda said_of: [
        "0 frames received, 0 of them marked", "0 coming bits to distrust", *said_of]),
    "receive: too few told in octets always": too_few_by(lambda said_of: [
        said_of[0].replace("1 octet ", "1 octets ")]),
    "receive: octets lacking told": too_few_by(lambda said_of: [
        re.sub(r"^\d+", lambda n: str(306 - int(n[0])), said_of[0])]),
    "receive: cleardown told before too few": {"program.COMMANDS": commands_with(
        receive=cleardown_before_octets)},
    "receive: nothing read with BYTES 0": {"program.COMMANDS": commands_with(receive=nothing_read)},
    "receive: BYTES of CP counted": calls_from_cp(),
    "receive: frames counted from CP": frames_counted_from_cp(),
    "receive: state found not said": {"program.state_found": lambda call, *rest: RIGHT_PROGRAM[
        "state_found"](unheard(call), *rest)},
    "receive: state found not said at cleardown": {
        "program.begun": lambda call, record, *rest: RIGHT_PROGRAM["begun"](
            call if record.drn else unheard(call), record, *rest)},
    "receive: state found said last": {"program.COMMANDS": commands_with(receive=found_said_last)},
    "receive: found said where a Ucode is wrong": found_said(
        lambda sentence, count, sound: RIGHT_PROGRAM["found_sentence"](count, True)),
    "receive: octets of CP alone said": found_said(
        lambda sentence, count, sound: RIGHT_PROGRAM["found_sentence"](count - 12, sound)),
    "receive: 23 bits said to be doubtful": found_said(
        lambda sentence, count, sound: sentence.replace("first 24 bits", "first 23 bits")),
    "receive: start not told of": told_of_words("bytes_wanted", "control, start", "control"),
    "receive: start in small letters alone": {
        "program.has_word": lambda words, wanted:
        wanted in words if wanted == "start" else RIGHT_PROGRAM["has_word"](words, wanted)},
    "demo: from the zero state": {"describe.from_zero": lambda record, law: (
        starts.from_zero(record, law)[0], FRESH), "describe.find_state": lambda octets, state:
        (None, FRESH)},
    "demo: received from the zero state": {"describe.find_state": lambda octets, state:
                                           (None, FRESH)},
    "demo: the first 24 octets": {"describe.from_zero": lambda record, law: (
        starts.from_zero(record, law)[0][:24], starts.from_zero(record, law)[1])},
    "demo: A-law": {"describe.from_zero": lambda record, law: starts.from_zero(record, A)},
    "demo: history in hexadecimal": demo_by(lambda lines: [
        line.replace("7507785", "728f49") for line in lines]),
    "demo: octets not in groups": demo_by(lambda lines: [
        line.replace("3dbd3dbdbdbd ", "3dbd3dbdbdbd") for line in lines]),
    "version 5": {"program.VERSION": "v91 5"},
}


# Wrong programs of one flipped sign

def flip_places(change):
    """The changes that let flip tell other places, made from K, interval and the right ones."""
    return {"program.changed_places": lambda k, interval: change(k, interval, PLACES[k, interval])}


def flip_line(change):
    """The changes that write the line of an interval otherwise."""
    return {"program.interval_line": change}


def flip_text(change):
    """The changes that make other lines of flip from the right ones."""
    return {"program.flip_lines": lambda record: change(RIGHT_PROGRAM["flip_lines"](record))}


def flip_words(before, after):
    """The changes that have other words in the lines of flip."""
    return flip_text(lambda lines: [line.replace(before, after) for line in lines])


def flip_by(command):
    """The changes that let flip do something else."""
    return {"program.COMMANDS": commands_with(flip=command)}


def flip_taking(least, most):
    """The changes that let flip take so many words; CPFILE not given is the example."""
    def command(call, cp_name="example.cp", *rest):
        RIGHT_PROGRAM["tell_flip"](call, cp_name)
    return {"program.COMMANDS": program.COMMANDS | {"flip": (command, least, most)}}


def flip_at_cleardown(call, cp_name):
    """Cleardown is let through, as K = 14."""
    record = program.cp_in(call.files, cp_name)
    if record.drn:
        RIGHT_PROGRAM["tell_flip"](call, cp_name)
        return
    places = [without_twins(places_named(sign_bits_of(14, i))) for i in range(6)]
    call.write_lines(map(program.interval_line, range(6), places))


def flip_of_no_rate(call, cp_name):
    """Cleardown is told as cp does."""
    record = program.cp_in(call.files, cp_name)
    if record.drn:
        RIGHT_PROGRAM["tell_flip"](call, cp_name)
    else:
        call.write_lines([describe.rate_line(record)])


def flip_after_rate(call, cp_name):
    """The rate is written before cleardown is told."""
    record = program.cp_in(call.files, cp_name)
    if record.drn == 0:
        call.write_lines([describe.rate_line(record)])
    RIGHT_PROGRAM["tell_flip"](call, cp_name)


def flip_letting(number):
    """The changes that let flip pass over a refusal of its CP."""
    def command(call, cp_name):
        octets = call.files.get(cp_name, b"")
        refusal, _ = program.read_file(octets)
        if not refusal or refusal.number != number:
            RIGHT_PROGRAM["tell_flip"](call, cp_name)
            return
        call.write_lines(program.flip_lines(cp.record_in(int.from_bytes(octets, "little"))))
    return flip_by(command)


def flip_said(call, cp_name):
    """The lines are said and not written."""
    held = bytearray()
    RIGHT_PROGRAM["tell_flip"](program.Call(call.files, call.input, held, held), cp_name)
    for line in held.decode().splitlines():
        call.say(line)


def flip_named(call, cp_name):
    """A missing file is told without what is wanted."""
    try:
        RIGHT_PROGRAM["tell_flip"](call, cp_name)
    except program.Failed as failure:
        raise program.Failed(failure.args[0]) from None


def flip_typed(call, name, *words):
    """The command flip in small letters alone."""
    if name.lower() == "flip" != name:
        raise program.Failed(f"there is no command {name}; v91 help says what there are")
    RIGHT_PROGRAM["carry_out"](call, name, *words)


WRONG_FLIP_PROGRAMS = {
    "flip: intervals from 1": flip_line(lambda interval, places: RIGHT_PROGRAM["interval_line"](
        interval + 1, places)),
    "flip: places from 1": flip_places(lambda k, interval, places: [n + 1 for n in places]),
    "flip: places from the next frame": flip_places(
        lambda k, interval, places: [n - k - 6 for n in places if n >= k + 6]),
    "flip: K for D": flip_places(lambda k, interval, places: without_twins(
        places_named((interval, interval + 1 if interval < 5 else k)))),
    "flip: D for K": flip_places(lambda k, interval, places: without_twins(
        places_named(sign_bits_of(k + 6, interval)))),
    "flip: places of K = 15 always": flip_places(lambda k, interval, places: PLACES[15, interval]),
    "flip: next sign of interval 5 in the same frame": flip_places(
        lambda k, interval, places: without_twins(places_named((interval, interval + 1)))),
    "flip: the sign bit after it left alone": flip_places(
        lambda k, interval, places: places_named([interval])),
    "flip: taps at 17 and 23": flip_places(lambda k, interval, places: without_twins(
        places_named(sign_bits_of(k, interval), (0, 17, 23)))),
    "flip: places named twice kept": flip_places(
        lambda k, interval, places: sorted(places_named(sign_bits_of(k, interval)))),
    "flip: places named twice kept once": flip_places(
        lambda k, interval, places: sorted(set(places_named(sign_bits_of(k, interval))))),
    "flip: six places at K = 17": flip_places(lambda k, interval, places: sorted(
        places_named(sign_bits_of(k, interval))) if k == 17 else places),
    "flip: six places at K = 22": flip_places(lambda k, interval, places: sorted(
        places_named(sign_bits_of(k, interval))) if k == 22 else places),
    "flip: places in that frame alone": flip_places(
        lambda k, interval, places: [n for n in places if n < k + 6]),
    "flip: places in that frame and the next alone": flip_places(
        lambda k, interval, places: [n for n in places if n < 2 * (k + 6)]),
    "flip: places falling": flip_places(lambda k, interval, places: places[::-1]),
    "flip: places of one sign bit after the other": flip_places(
        lambda k, interval, places: sorted(places, key=places_named(
            sign_bits_of(k, interval)).index)),
    "flip: six told always": flip_line(lambda interval, places: RIGHT_PROGRAM["interval_line"](
        interval, places).replace("4 bits", "6 bits")),
    "flip: number of places not told": flip_line(
        lambda interval, places: f"interval {interval}: {' '.join(map(str, places))}"),
    "flip: places with commas": flip_line(lambda interval, places: (
        f"interval {interval}: {len(places)} bits: {', '.join(map(str, places))}")),
    "flip: a space after the places": flip_line(
        lambda interval, places: RIGHT_PROGRAM["interval_line"](interval, places) + " "),
    "flip: five intervals": flip_text(lambda lines: lines[:-1]),
    "flip: intervals falling": flip_text(lambda lines: lines[:3] + lines[:2:-1]),
    "flip: the rate not told": flip_text(lambda lines: lines[1:]),
    "flip: the rate in whole kbit/s": flip_words(" 1/3 kbit/s", " kbit/s"),
    "flip: the two sentences exchanged": flip_text(
        lambda lines: [lines[0], lines[2], lines[1], *lines[3:]]),
    "flip: four frames after it told": flip_words("the two after it", "the four after it"),
    "flip: its frame not told of": flip_words("its frame and the two after it",
                                              "the two frames after it"),
    "flip: the channel not told of": flip_words(", and the control channel is off", ""),
    "flip: marks not told of": flip_words("no mark changes; of", "of"),
    "flip: a newline more": flip_text(lambda lines: [*lines, ""]),
    "flip: said and not written": flip_by(flip_said),
    "flip: cleardown let through": flip_by(flip_at_cleardown),
    "flip: cleardown told as cp does": flip_by(flip_of_no_rate),
    "flip: the rate written at cleardown": flip_by(flip_after_rate),
    "flip: CRC not looked at": flip_letting(7),
    "flip: empty intervals let through": flip_letting(25),
    "flip: drn above 28 let through": flip_letting(9),
    "flip: a file that is not there told alone": flip_by(flip_named),
    "flip: no word": flip_taking(0, 1),
    "flip: two words": flip_taking(1, 2),
    "flip: in small letters alone": {"program.carry_out": flip_typed},
    "flip: not there": {"program.COMMANDS": {
        name: command for name, command in program.COMMANDS.items() if name != "flip"}},
}


# Wrong programs of settings files

RIGHT_SETTINGS = {name: getattr(program, name)
                  for name in ("SETTINGS", "back_sentence", "junction_named", "list_sentence",
                               "octets_in", "put_sentence", "row_line", "rows_in", "save",
                               "settings_refusal", "with_settings")}
RIGHT_FILES = {name: getattr(settings, name) for name in ("after_put", "put", "read")}
FORMS = {name: command for name, (command, _, _) in program.SETTINGS.items()}


def settings_by(**changed):
    """The changes that let some of the words after FILE do something else."""
    forms = RIGHT_SETTINGS["SETTINGS"]
    return {"program.SETTINGS": forms | {name: (command, *forms[name][1:])
                                         for name, command in changed.items()}}


def settings_taking(name, least, most):
    """The changes that let a word after FILE take so many words; those too many are dropped."""
    command, _, right = RIGHT_SETTINGS["SETTINGS"][name]
    return {"program.SETTINGS": program.SETTINGS | {name: (
        lambda call, file, *words: command(call, file, *words[:right]), least, most)}}


def settings_saying(name, change):
    """The changes that say something else, made from what is said and what it is said of."""
    return {f"program.{name}": lambda *args: change(RIGHT_SETTINGS[name](*args), *args)}


def settings_failing(change, *names):
    """The changes that make other sentences, where words after FILE fail, from these and FILE."""
    def failing(right):
        def command(call, file, *words):
            try:
                right(call, file, *words)
            except program.Failed as failure:
                raise program.Failed(*change(failure.args, file)) from None
        return command
    return settings_by(**{name: failing(FORMS[name]) for name in names})


def unsaid_after(number):
    """What makes sentences end with the one that tells a refusal."""
    return lambda told, file: told[:1] if f"(refusal {number})" in told[0] else told


def refused_changing(name, what, octets):
    """The changes that leave other bytes in the file where a change fails with these words."""
    def command(call, file, *words):
        try:
            FORMS[name](call, file, *words)
        except program.Failed as failure:
            if what in failure.args[0] and file in call.files:
                call.files[file] = octets
            raise
    return settings_by(**{name: command})


def settings_looking(name, look):
    """The changes that let a word after FILE look at something first."""
    def command(call, file, *words):
        look(call, file, *words)
        FORMS[name](call, file, *words)
    return settings_by(**{name: command})


def file_before_junction(call, file, *words):
    """FILE is looked at after the words that JUNCTION is looked at after."""
    if [word.lower() for word in words[1:]] in ([], ["cp"]):
        program.settings_in(call.files, file)


def file_before_cp(call, file, word, cp_name):
    """FILE is looked at after JUNCTION."""
    program.junction_named(word)
    program.settings_in(call.files, file)


def rules_before_cp(call, file, word, cp_name):
    """22 is told of a FILE that is there, after JUNCTION."""
    program.junction_named(word)
    octets = call.files.get(file, settings.EMPTY_FILE)
    if settings.read(octets) is None:
        raise program.Failed(program.settings_refusal(file, octets, 22), program.as_it_was(file))


def file_before_words(call, file, *words):
    """FILE is looked at before the words after it."""
    if words[0].lower() != "new":
        program.settings_in(call.files, file)
    RIGHT_SETTINGS["with_settings"](call, file, *words)


def put_making(call, file, *words):
    """A file that is not there is made."""
    program.cp_in(call.files, words[1])
    call.files.setdefault(file, settings.EMPTY_FILE)
    FORMS["put"](call, file, *words)


def junctions_by(change):
    """The changes that take another junction than the one given."""
    return {"program.junction_named": lambda word: change(RIGHT_SETTINGS["junction_named"](word))}


def junctions_like(form, taken=lambda number: number % 65536):
    """The changes that take other words for JUNCTION."""
    def named(word):
        return taken(int(word)) if re.fullmatch(form, word) else program.number_for(
            "JUNCTION", program.JUNCTIONS, word if not word.isdigit() else "x")
    return {"program.junction_named": named}


def numbers_in_sentence(word):
    """What is said of a JUNCTION that is too large has its number and not the word."""
    try:
        return RIGHT_SETTINGS["junction_named"](word)
    except program.Failed as failure:
        said_of = failure.args[0].replace(word, str(int(word))) if word.isdigit() else None
        raise program.Failed(said_of or failure.args[0]) from None


class JunctionTyped(int):
    """A junction that is shown as it was typed."""

    def __new__(cls, word):
        number = super().__new__(cls, RIGHT_SETTINGS["junction_named"](word))
        number.word = word
        return number

    def __format__(self, form):
        return self.word


def show_by(found):
    """The changes that show another record of a junction, or bytes of a CP, than the current."""
    def command(call, file, word, *form):
        octets, junction = call.files.get(file, b""), program.junction_named(word)
        here = settings.at(settings.read(octets) or [], junction)
        if here is None:
            FORMS["show"](call, file, word, *form)
        elif form:
            call.write(found(here))
        else:
            call.write_lines(describe.description(program.read_file(found(here))[1]))
    return settings_by(show=command)


def new_over(call, file, *words):
    """A file that is there is made anew."""
    call.files.pop(file, None)
    FORMS["new"](call, file, *words)


def new_over_empty(call, file, *words):
    """An empty file that is there is made anew."""
    (new_over if call.files.get(file) == b"" else FORMS["new"])(call, file, *words)


def new_of_nothing(call, file, *words):
    """A new file has no byte."""
    FORMS["new"](call, file, *words)
    call.files[file] = b""


def new_named(change):
    """The changes that take another word after new, made from the right ones."""
    return settings_by(new=lambda call, file, *words: FORMS["new"](call, file, *change(words)))


def new_looking_first(call, file, *words):
    """A file that is there is told before a word after new."""
    FORMS["new"](call, file, *(words if file not in call.files else []))


def temporary_left(files, name, octets):
    """The temporary file is copied and not renamed."""
    RIGHT_SETTINGS["save"](files, name, octets)
    files[f"{name}.tmp"] = octets


def temporary_in_the_way(files, name, octets):
    """A temporary file that is there is not written over."""
    if f"{name}.tmp" in files:
        raise program.Failed(f"cannot write {name}.tmp: it is there", f"{name} is as it was")
    RIGHT_SETTINGS["save"](files, name, octets)


def rows_by(change):
    """The changes that list other rows, made from the right ones."""
    return {"program.rows_in": lambda *args: change(RIGHT_SETTINGS["rows_in"](*args))}


def rows_like(change):
    """The changes that write another line of a junction, made from its row."""
    return settings_saying("row_line", lambda line, row: change(line, row))


def sized(line, sizes):
    """A line of the table with other sizes."""
    return line[:23] + "".join(f"{size:5}" for size in sizes) + line[53:]


def list_said(call, file):
    """The table is said and not written."""
    held = bytearray()
    FORMS["list"](program.Call(call.files, call.input, held, bytearray()), file)
    for line in held.decode().splitlines():
        call.say(line)
    call.say(program.list_sentence(program.rows_in(file, call.files[file])))


def list_counted_first(call, file):
    """The junctions are counted before the table."""
    rows = program.rows_in(file, program.settings_in(call.files, file))
    call.say(program.list_sentence(rows))
    call.write_lines([program.TABLE_HEAD, *map(program.row_line, rows)])


def list_without_head(call, file):
    """A file with no junction has no table."""
    if call.files.get(file) == settings.EMPTY_FILE:
        call.say("0 junctions, 0 with a previous setting")
    else:
        FORMS["list"](call, file)


def keeping(change):
    """The changes that leave other settings of a junction after a put, by those before and now."""
    def after_put(junctions, junction, octets):
        right, before = RIGHT_FILES["after_put"](junctions, junction, octets), settings.at(
            junctions, junction)
        here = settings.at(right, junction)
        return settings.replaced(right, change(here, before)) if before else right
    return {"settings.after_put": after_put}


def exchanged(change):
    """The changes that leave other settings of a junction after a going back, made from both."""
    return {"settings.after_back": lambda junctions, junction: settings.replaced(
        junctions, change(settings.at(junctions, junction)))}


def cps_written_anew(junctions, junction, octets):
    """A put writes the CPs of all settings, without their ignored bits."""
    def anew(one):
        return None if one is None else cases_cp.plain(program.read_file(one)[1])
    return [one._replace(current=anew(one.current), previous=anew(one.previous))
            for one in RIGHT_FILES["after_put"](junctions, junction, octets)]


def put_as_read(call, file, word, cp_name):
    """The bytes of the CP file are put as they stand."""
    octets = call.files.get(cp_name, b"")
    with patch("settings.cp_octets", lambda record: octets):
        FORMS["put"](call, file, word, cp_name)


def without_rule(rule):
    """The changes that do not look at a rule of settings files."""
    return {"settings.RULES": tuple(each for each in settings.RULES if each != rule)}


def junctions_at_most(most):
    """The changes that let a put make so many junctions."""
    def put(file, junction, record, out):
        there = settings.read(file) or []
        if len(there) >= most and settings.at(there, junction) is None:
            return Refusal(24), 0, out
        return RIGHT_FILES["put"](file, junction, record, out)
    return {"settings.put": put}


def full_for_all(most):
    """A put to a junction that is there is refused too where there are so many."""
    def put(file, junction, record, out):
        if len(settings.read(file) or []) == most:
            return Refusal(24), 0, out
        return RIGHT_FILES["put"](file, junction, record, out)
    return put


def forms_in_small_letters(call, file, form, *words):
    """The words after FILE in small letters alone."""
    RIGHT_SETTINGS["with_settings"](call, file, form if form.islower() else "x", *words)


WRONG_SETTINGS_PROGRAMS = {
    "settings: the previous rate as the current one": rows_like(
        lambda line, row: RIGHT_SETTINGS["row_line"](row._replace(
            current=row.current if row.previous is None else row.previous))),
    "settings: the current rate as the previous one": rows_like(
        lambda line, row: line if row.previous is None else RIGHT_SETTINGS["row_line"](
            row._replace(previous=row.current))),
    "settings: sizes of interval 0": rows_like(
        lambda line, row: sized(line, 6 * records.sizes_of(row.current)[:1])),
    "settings: sizes of masks": rows_like(lambda line, row: sized(
        line, [mask_of(row.current, m).bit_count() for m in range(6)])),
    "settings: sizes of the previous setting": rows_like(lambda line, row: sized(
        line, records.sizes_of(row.previous or row.current))),
    "settings: no sizes at cleardown": rows_like(
        lambda line, row: line if row.current.drn else sized(line, [0] * 6)),
    "settings: rows falling": rows_by(lambda rows: rows[::-1]),
    "settings: rows by the low byte": rows_by(lambda rows: sorted(
        rows, key=lambda row: (row.junction % 256, row.junction))),
    "settings: rows by the digits": rows_by(lambda rows: sorted(
        rows, key=lambda row: str(row.junction))),
    "settings: a row for each setting": rows_by(lambda rows: [
        each for row in rows for each in (row, row._replace(current=row.previous, previous=None))
        if each.current]),
    "settings: 39 rows": rows_by(lambda rows: rows[:39]),
    "settings: 40 rows": rows_by(lambda rows: rows[:40]),
    "settings: 256 rows": rows_by(lambda rows: rows[:256]),
    "settings: 399 rows": rows_by(lambda rows: rows[:399]),
    "settings: no head": settings_by(list=list_without_head),
    "settings: another head": {"program.TABLE_HEAD": program.TABLE_HEAD.replace("rate ", "kbit/s")},
    "settings: a row filled with spaces": rows_like(lambda line, row: f"{line:68}"),
    "settings: junctions to the left": rows_like(lambda line, row: f"{row.junction:<8}{line[8:]}"),
    "settings: narrow columns": rows_like(lambda line, row: line.replace("    ", "   ")),
    "settings: nothing for none": rows_like(lambda line, row: line.replace("  none", "")),
    "settings: the table said": settings_by(list=list_said),
    "settings: counted before the table": settings_by(list=list_counted_first),
    "settings: settings counted": settings_saying("list_sentence", lambda told, rows: re.sub(
        r"^\d+", str(sum(1 + (row.previous is not None) for row in rows)), told)),
    "settings: one junction in the plural": settings_saying(
        "list_sentence", lambda told, rows: told.replace("1 junction,", "1 junctions,")),
    "settings: previous ones not counted": settings_saying(
        "list_sentence", lambda told, rows: told.split(",")[0]),
    "settings: previous ones of all": settings_saying("list_sentence", lambda told, rows: (
        f"{told.split(',')[0]}, {len(rows)} with a previous setting")),
    "settings: whole kbit/s": {"program.rate_words": lambda record: re.sub(
        " [12]/3", "", describe.rate_words(record))},
    "settings: a rate at cleardown": {"program.rate_words": lambda record:
                                      f"{describe.rate(record)} kbit/s"},
    "settings: a first setting with a previous one": {
        "program.put_sentence": lambda junction, record, before:
        RIGHT_SETTINGS["put_sentence"](junction, record, before or EMPTY)},
    "settings: every setting a first one": {
        "program.put_sentence": lambda junction, record, before:
        RIGHT_SETTINGS["put_sentence"](junction, record, None)},
    "settings: put tells the rates exchanged": {
        "program.put_sentence": lambda junction, record, before: RIGHT_SETTINGS["put_sentence"](
            junction, before or record, record if before else None)},
    "settings: back tells the rates exchanged": {
        "program.back_sentence": lambda junction, current, previous:
        RIGHT_SETTINGS["back_sentence"](junction, previous, current)},
    "settings: back tells one rate": settings_saying(
        "back_sentence", lambda told, *rest: told.split(",")[0]),
    "settings: the junction as typed": {"program.junction_named": JunctionTyped},
    "settings: 23 of show told by back": settings_saying(
        "settings_refusal", lambda told, *rest: told.replace("previous setting", "setting")),
    "settings: 23 of back told by show": settings_saying("settings_refusal", lambda told, *rest: (
        told.replace("no setting", "no previous setting"))),
    "settings: 23 of show told by back of a junction not there": settings_failing(
        lambda told, file: [one.replace("no previous setting for junction 8",
                                        "no setting for junction 8") for one in told], "back"),
    "settings: 401 told": settings_saying("settings_refusal", lambda told, *rest: told.replace(
        "has 400", "has 401")),
    "settings: 40 told": settings_saying("settings_refusal", lambda told, *rest: told.replace(
        "has 400", "has 40")),
    "settings: settings told for junctions": settings_saying(
        "settings_refusal", lambda told, name, octets, number, *rest: told if number != 24 else
        told.replace("has 400", f"has {len(settings.parts_of(octets).entries)}")),
    "settings: 24 without the junction": settings_saying(
        "settings_refusal", lambda told, *rest: re.sub(", so junction .* put", "", told)),
    "settings: 22 told of a CP": settings_saying("settings_refusal", lambda told, *rest: (
        told.replace(", or a CP in it is refused", ""))),
    "settings: as it was not told": settings_failing(lambda told, file: told[:1], "put", "back"),
    "settings: as it was not told by put": settings_failing(lambda told, file: [
        one for one in told if "as it was" not in one], "put"),
    "settings: as it was not told by back": settings_failing(lambda told, file: told[:1]
                                                             if "refusal" in told[0] else told,
                                                             "back"),
    "settings: as it was not told at 22": settings_failing(unsaid_after(22), "put", "back"),
    "settings: as it was not told at 23": settings_failing(unsaid_after(23), "back"),
    "settings: as it was not told at 24": settings_failing(unsaid_after(24), "put"),
    "settings: as it was not told by new": settings_failing(lambda told, file: [
        told[0].replace("; it is as it was", "")], "new"),
    "settings: as it was not told where it cannot be written": settings_failing(
        lambda told, file: told[:1], "new"),
    "settings: as it was told by show": settings_failing(lambda told, file: [
        *told, f"{file} is as it was"] if "(refusal" in told[0] else told, "show"),
    "settings: as it was told by list": settings_failing(lambda told, file: [
        *told, f"{file} is as it was"] if "(refusal" in told[0] else told, "list"),
    "settings: as it was told of a CP that is refused": settings_failing(lambda told, file: [
        *told, f"{file} is as it was"] if len(told) == 1 and "(refusal" in told[0] else told,
        "put"),
    "settings: the temporary file told": {"program.as_it_was": lambda name:
                                          f"{program.shown(name)}.tmp is as it was"},
    "settings: FILE told for the temporary file": settings_failing(
        lambda told, file: [told[0].replace(".tmp", ""), *told[1:]], "new"),
    "settings: emptied where 24": refused_changing("put", "(refusal 24)", b""),
    "settings: made anew where 24": refused_changing("put", "(refusal 24)", settings.EMPTY_FILE),
    "settings: made anew where 22": refused_changing("put", "(refusal 22)", settings.EMPTY_FILE),
    "settings: emptied where 22 of back": refused_changing("back", "(refusal 22)", b""),
    "settings: emptied where 23": refused_changing("back", "(refusal 23)", b""),
    "settings: emptied where a CP is refused": refused_changing("put", "(refusal 11)", b""),
    "settings: emptied where a CP is not there": refused_changing("put", "cannot open", b""),
    "settings: put not written": {"program.save": lambda files, name, octets: RIGHT_SETTINGS[
        "save"](files, name, files.get(name, octets))},
    "settings: written and not cut": {"settings.written": lambda made, out: (
        None, len(made) + 1, made + bytes(out[len(made):]))},
    "settings: the temporary file left": {"program.save": temporary_left},
    "settings: a temporary file in the way": {"program.save": temporary_in_the_way},
    "settings: the temporary file opened before all else": settings_looking(
        "back", lambda call, file, *words: call.files.update({f"{file}.tmp": b""})),
    "settings: junctions of 8 bits": junctions_by(lambda junction: junction % 256),
    "settings: junctions of 15 bits": junctions_by(lambda junction: junction % 32768),
    "settings: junctions with a sign": rows_like(
        lambda line, row: f"{(row.junction ^ 32768) - 32768:8}{line[8:]}"),
    "settings: JUNCTION modulo 65536": junctions_like("[0-9]{1,18}"),
    "settings: JUNCTION at most 65535": junctions_like("[0-9]{1,18}",
                                                       lambda number: min(number, 65535)),
    "settings: JUNCTION of 19 digits": {"program.junction_named": lambda word: RIGHT_SETTINGS[
        "junction_named"](word[1:] if len(word) == 19 else word)},
    "settings: JUNCTION of 5 digits": {"program.junction_named": lambda word: RIGHT_SETTINGS[
        "junction_named"](word if len(word) < 6 else "x")},
    "settings: JUNCTION below 65535": junctions_like("[0-9]{1,18}", lambda number: number
                                                     if number < 65535 else program.law_named("")),
    "settings: JUNCTION told as a number": {"program.junction_named": numbers_in_sentence},
    "settings: new over a file": settings_by(new=new_over),
    "settings: new over an empty file": settings_by(new=new_over_empty),
    "settings: a new file without a byte": settings_by(new=new_of_nothing),
    "settings: the previous setting shown": show_by(lambda here: here.previous or here.current),
    "settings: the CP shown with its ignored bits": show_by(lambda here: here.current),
    "settings: put keeps the older one": keeping(lambda here, before: here._replace(
        previous=before.previous or before.current)),
    "settings: put keeps none": keeping(lambda here, before: here._replace(previous=None)),
    "settings: put over the previous one": keeping(lambda here, before: settings.Junction(
        here.number, before.current, here.current)),
    "settings: the same CP put twice kept once": keeping(
        lambda here, before: before if here.current == before.current else here),
    "settings: back keeps no setting": exchanged(lambda here: here._replace(
        current=here.previous, previous=None)),
    "settings: back leaves two alike": exchanged(lambda here: here._replace(current=here.previous)),
    "settings: back once alone": exchanged(lambda here: here),
    "settings: CPs written anew": {"settings.after_put": cps_written_anew},
    "settings: the CP file put as it stands": settings_by(put=put_as_read),
    "settings: an empty file with no junction": {"settings.read": lambda file: RIGHT_FILES["read"](
        file or settings.EMPTY_FILE)},
    "settings: no file with no junction": {"settings.read": lambda file: RIGHT_FILES["read"](
        file if file != settings.EMPTY_FILE else b"")},
    "settings: 41 junctions in version 1": version_by(most_junctions=41),
    "settings: a 41st junction put in version 1": grown_by(lambda version, count: version),
    "settings: every put in version 2": grown_by(lambda version, count: 2),
    "settings: a put turns version 2 back": grown_by(lambda version, count: 2 if count > 40 else 1),
    "settings: a going back turns version 2 back": back_in(
        lambda version, count: 2 if count > 40 else 1),
    "settings: a going back turns 41 junctions back": back_in(
        lambda version, count: 1 if 41 <= count <= 42 else version),
    "settings: a turn drops previous settings": junctions_written(lambda junctions: [
        one._replace(previous=None) for one in junctions] if len(junctions) == 41 else junctions),
    "settings: version 2 not taken": {"settings.VERSIONS": (settings.VERSION_1,)},
    "settings: version 3 taken": versions_taken(lambda byte: byte == 3, settings.VERSION_2),
    "settings: starts by 24 bits": starts_by(lambda told, right: told % 2**24 == right % 2**24),
    "settings: starts by 16 bits": starts_by(lambda told, right: (told - right) % 2**16 == 0),
    "settings: count by its low byte": rule_by("counted", lambda parts: (
        parts.count - len(parts.entries)) % 256 == 0),
    "settings: 16,384 bytes read": {"program.MOST_OF_SETTINGS": 16_384},
    "settings: no 40th junction put": junctions_at_most(39),
    "settings: no 41st junction put": junctions_at_most(40),
    "settings: no 400th junction put": junctions_at_most(399),
    "settings: a 401st junction put": version_2_by(most_junctions=401),
    "settings: 401 junctions read": few_by(lambda version: 40 if version.byte == 1 else 401),
    "settings: 40 junctions and none changed": {"settings.put": full_for_all(40)},
    "settings: 400 junctions and none changed": {"settings.put": full_for_all(400)},
    "settings: a put makes the file": settings_by(put=put_making),
    "settings: a file that is not there has no junction": {
        "program.octets_in": lambda files, name, wanted: RIGHT_SETTINGS["octets_in"](
            {name: settings.EMPTY_FILE} | files if name.endswith("set") else files, name, wanted)},
    "settings: new not told of": {"program.octets_in": lambda files, name, wanted: RIGHT_SETTINGS[
        "octets_in"](files, name, program.CP_WANTED)},
    "settings: control characters shown": settings_failing(
        lambda told, file: [one.replace("bad?", "bad\t") for one in told], "new"),
    "settings: FILE before CPFILE": settings_looking("put", file_before_cp),
    "settings: 22 before CPFILE": settings_looking("put", rules_before_cp),
    "settings: CPFILE before JUNCTION": settings_looking(
        "put", lambda call, file, word, cp_name: program.cp_in(call.files, cp_name)),
    "settings: FILE before JUNCTION": settings_looking("show", file_before_junction),
    "settings: FILE before JUNCTION of back": settings_looking("back", file_before_junction),
    "settings: JUNCTION before the word cp": settings_looking(
        "show", lambda call, file, word, *form: program.junction_named(word)),
    "settings: FILE before its words": {"program.COMMANDS": commands_with(
        settings=file_before_words)},
    "settings: any last word of show": settings_by(show=lambda call, file, word, *form: FORMS[
        "show"](call, file, word, *(["cp"] if form else []))),
    "settings: in small letters alone": {"program.COMMANDS": commands_with(
        settings=forms_in_small_letters)},
    "settings: new without a version": settings_taking("new", 0, 0),
    "settings: new with three words": settings_taking("new", 0, 2),
    "settings: new of version 1 always": new_named(lambda words: []),
    "settings: new of version 2 always": new_named(lambda words: ["2"]),
    "settings: new of version 2 for 1": new_named(lambda words: ["2" for _ in words]),
    "settings: new of version 1 for another word": new_named(
        lambda words: [word for word in words if word == "2"]),
    "settings: new of version 2 for another number": new_named(
        lambda words: [word if not word.isdigit() or word == "1" else "2" for word in words]),
    "settings: new of a version with zeros before it": new_named(
        lambda words: [word.lstrip("0") or word for word in words]),
    "settings: new looks at FILE first": settings_by(new=new_looking_first),
    "settings: new tells its version": settings_by(new=lambda call, file, *words: (
        FORMS["new"](call, file, *words), call.say("version 2") if words == ("2",) else None)),
    "settings: new tells another word as wrong words": settings_failing(lambda told, file: [
        program.WRONG_NUMBER if "after new" in one else one for one in told], "new"),
    "settings: list with two words": settings_taking("list", 0, 1),
    "settings: list with three words": settings_taking("list", 0, 2),
    "settings: back with two words": settings_taking("back", 1, 2),
    "settings: five words": {"program.COMMANDS": program.COMMANDS | {
        "settings": (program.with_settings, 2, 5)}},
    "settings: not there": {"program.COMMANDS": {
        name: command for name, command in program.COMMANDS.items() if name != "settings"}},
    "version 7": {"program.VERSION": "v91 7"},
    **{f"settings: {rule.__name__} not looked at": without_rule(rule)
       for rule in settings.RULES if rule != settings.previous_after_current},
}


def first_differing(changes, wanted):
    """The line, from 1, at which a wrong program's run first differs; 0 where it does not.

    The program is given by what it changes.
    """
    data, line = stored_data(), 0
    with changed(changes):
        for written in program.outputs(data, data[trial.NAME].decode("ascii")):
            found = written.splitlines()
            differ = [one != other for one, other in zip(found, wanted[line:])]
            if any(differ) or line + len(found) > len(wanted):
                return line + [*differ, True].index(True) + 1
            line += len(found)
    return 0 if line == len(wanted) else line + 1


def wrong_programs():
    """Every wrong program differs from the stored run.

    A frame that is made again is remembered, and a CP of a settings file that is read again.
    """
    wanted = vectors.stored("v91/stdout").splitlines()
    lists = (WRONG_PROGRAMS, WRONG_CHANNEL_PROGRAMS, WRONG_START_PROGRAMS, WRONG_FLIP_PROGRAMS,
             WRONG_SETTINGS_PROGRAMS)
    wrong = {name: changes for some in lists for name, changes in some.items()}
    remembered = {f"program.{name}": lru_cache(maxsize=None)(getattr(frames, name))
                  for name in ("send_frame", "receive_frame")}
    remembered["settings.cp_reading"] = lru_cache(maxsize=None)(settings.cp_reading)
    with changed(remembered):
        found = {name: first_differing(changes, wanted) for name, changes in wrong.items()}
    if "-v" in sys.argv:
        for name, line in found.items():
            print(f"    {name}: differs from line {line} of {len(wanted)} on")
    check(all(found.values()), f"not stopped: {[name for name in found if not found[name]]}")
    same(first_differing({}, wanted), 0, "the model itself")
    same(len(found), sum(map(len, lists)), "names")
    return f"{len(found)} stopped"


GROUPS = (table_1, examples, values, steps, cp_round_trips, demand_3, distrust, other_counts,
          stored_answers, stored_refusals, stored_coverage, stored_counts, empty_intervals,
          sequences, calls_of_the_channel, channel_runs, like_states, passed_through,
          stored_channel, start_values, start_undone, start_found, start_to_data, start_refusals,
          stored_starts,
          other_dils, default_dil, wrong_codecs, plan_sizes, plan_least, plan_answers, plan_ranges,
          plan_largest, stored_plans, wrong_planners, flip_costs, flip_runs, flip_needs,
          stored_flips, wrong_flips, settings_values, settings_round_trips, settings_rules,
          settings_operations, settings_turns, settings_most, settings_refusals, stored_settings,
          wrong_settings,
          program_round_trips, program_doubts, program_sequences,
          program_starts, program_sentences, start_sentences, plan_sentences, flip_sentences,
          settings_sentences, settings_tables, settings_runs,
          pictures, stored_run, wrong_programs)


def main():
    """Run the groups; the exit status."""
    failed = 0
    for group in GROUPS:
        try:
            print(f"{group.__name__}: {group()}")
        except Exception:
            failed += 1
            traceback.print_exc()
            print(f"{group.__name__}: FAILED")
    print("failed" if failed else "ok")
    return 1 if failed else 0


if __name__ == "__main__":
    sys.exit(main())
