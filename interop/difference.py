"""Differential test: every call of a codec's C functions is compared with reference/.

    difference.py LIBRARY PREFIX [--seed S] [--calls N] [--show]

LIBRARY is a shared object with the functions of v91.h under PREFIX, `v91_` or `plain_`. Compared are
the answer and every byte of every buffer afterwards, with canary bytes before and behind it. In some
runs of calls the codec's own bytes are held against what the count of doubtful bits promises, in others
a sequence of the control channel goes through calls of any lengths, in others CP and E_s go before the
data and the receiver begins in the line state found from them, in others one line is received twice, the
second time with one sign flipped, in others each call has the settings file that the call before it left, of
either version, and look-ups are held against what was put and gone back to. The test stops at the first difference
with a line that shows the call; --show prints every call before it is made. The exit status is 0 if all
was the same and every refusal, interval, mark, count and place that a state can hand in, all that can be
heard, each K and interval with a flipped sign, and files of each version, a few junctions and the most, came
up, else 1.
"""

import argparse
import ctypes
import struct
import sys
import time
from collections import Counter
from functools import lru_cache
from itertools import combinations
from pathlib import Path

sys.dont_write_bytecode = True
sys.path.insert(0, str(Path(__file__).resolve().parent.parent / "reference"))

import cases_cp
import cases_frames
import cases_settings
import cases_start
import control
import cp
import dil
import flip
import forms
import frames
import linear
import plan
import record
import settings
import start as starts
from samples import (Draw, a_number, a_record, a_sequence_place, a_sparse_record, a_state, empty_by_own,
                     faulty_record, with_places)

RECORD_BYTES, STATE_BYTES, HEARD_BYTES, PLAN_BYTES = 105, 21, 8, 24
DOUBTFUL, FRAME_PLACE, SEQUENCE_PLACE = 5, 6, 7  # bytes of a state; history and last sign are before these
IN_STATE = {"counts of doubtful bits": DOUBTFUL, "frame places": FRAME_PLACE, "sequence places": SEQUENCE_PLACE}
TOLD = ("nothing", "a sequence", "a frame lost", "the pattern wrong", "the CRC wrong")
DIL_OCTETS = dil.length(dil.TABLE_5)
MOST_ROOM = 120_000  # the most bytes lent for a settings file, which has 104,007 at most
LEAST_COUNT = 47  # the least answer that is a count: the length of a file with one setting

# A file has up to 800 CPs, and is taken apart more than once in each call.
settings.cp_reading = lru_cache(maxsize=1 << 12)(settings.cp_reading)
settings.parts_of = lru_cache(maxsize=8)(settings.parts_of)
settings.read = lru_cache(maxsize=8)(settings.read)

# The parameters of each entry; all but a_law and the numbers are buffers: a pointer and a length.
ENTRIES = {
    "read_cp": ("cp", "bit_count", "record"),
    "write_cp": ("record", "cp"),
    "send": ("record", "a_law", "frames", "control", "sequence", "bits", "octets", "state"),
    "receive": ("record", "a_law", "frames", "control", "octets", "bits", "marks", "heard", "state"),
    "linear": ("a_law", "octets", "samples"),
    "send_cp": ("record", "a_law", "octets", "state"),
    "find_state": ("octets", "state"),
    "send_dil": ("a_law", "octets"),
    "plan": ("k", "a_law", "spacing", "ceiling", "plan"),
    "put": ("file", "junction", "record", "out"),
    "go_back": ("file", "junction", "out"),
    "look_up": ("file", "junction", "record"),
}
KINDS = {forms.READ_CP: "read_cp", forms.WRITE_CP: "write_cp", forms.SEND: "send", forms.RECEIVE: "receive",
         forms.LINEAR: "linear", forms.SEND_CP: "send_cp", forms.FIND_STATE: "find_state",
         forms.PUT: "put", forms.BACK: "go_back", forms.LOOK_UP: "look_up"}  # of the cases of forms.py
NUMBERS = {"a_law": ctypes.c_bool, "frames": ctypes.c_size_t, "bit_count": ctypes.c_size_t,
           "control": ctypes.c_bool, "sequence": ctypes.c_uint64, "junction": ctypes.c_uint16,
           "k": ctypes.c_uint32, "spacing": ctypes.c_uint32, "ceiling": ctypes.c_uint64}

REFUSALS = {
    "read_cp": {*range(1, 12), 17, 25},
    "write_cp": {4, *range(9, 13), 16, 17, 25},
    "send": {4, *range(9, 20), 25},
    "receive": {4, *range(9, 20), 25},
    "linear": {17},
    "send_cp": {4, *range(9, 13), 14, *range(16, 20), 25},
    "find_state": {16},
    "send_dil": {17},
    "plan": {17, 26, 27, 28},
    "put": {4, *range(9, 13), 16, 17, 22, 24, 25},
    "go_back": {17, 22, 23},
    "look_up": {17, 22, 23},
}
PAIRS = {
    "read_cp": cases_cp.pairs(cases_cp.READER_NUMBERS),
    "write_cp": cases_cp.pairs(cases_cp.WRITER_NUMBERS),
    "send": cases_frames.pairs(),
    "receive": cases_frames.pairs(),
    "linear": [],
    "send_cp": cases_frames.pairs(cases_start.NUMBERS),
    "find_state": [],
    "send_dil": [],
    "plan": [(26, 27), (26, 28), (26, 17), (27, 17), (28, 17)],
    "put": cases_cp.pairs(cases_settings.PUT_NUMBERS),
    "go_back": list(combinations(cases_settings.BACK_NUMBERS, 2)),
    "look_up": list(combinations((*cases_settings.LOOK_NUMBERS, 17), 2)),
}
FAULTY = {  # how the reference makes a case in which given refusals hold, and which it can
    "read_cp": (cases_cp.faulty_sequence, cases_cp.READER_NUMBERS),
    "write_cp": (cases_cp.faulty_writing, cases_cp.WRITER_NUMBERS),
    "send": (cases_frames.faulty_send, cases_frames.NUMBERS),
    "receive": (cases_frames.faulty_receive, cases_frames.NUMBERS),
    "send_cp": (cases_start.faulty_sending, cases_start.NUMBERS),
    "put": (cases_settings.faulty_put, cases_settings.PUT_NUMBERS),
    "go_back": (cases_settings.faulty_back, cases_settings.BACK_NUMBERS),
}
CHANNEL_GROUPS = (
    cases_frames.every_place, cases_frames.places_alone, cases_frames.place_faults,
    cases_frames.every_bit_started, cases_frames.each_bit_wrong, cases_frames.reserved_bits,
    cases_frames.faults_at_the_end, cases_frames.lost_and_found, cases_frames.marked_control_frames,
    cases_frames.counted_control_frames, cases_frames.exact_buffers, cases_frames.ends_and_starts)
START_GROUPS = (
    cases_start.lengths, cases_start.rates, cases_start.histories, cases_start.fields_kept, cases_start.buffers,
    cases_start.bounds, cases_start.faulty_cases, cases_start.sparse_records, cases_start.cp_after_cp,
    cases_start.counts_of_octets, cases_start.each_bit_found, cases_start.any_octets, cases_start.octets_sent,
    cases_start.states_beyond)
SETTINGS_GROUPS = (
    cases_settings.short_files, cases_settings.rules_broken, cases_settings.cps_refused,
    cases_settings.cps_of_other_lengths, cases_settings.cut_files, cases_settings.lengthened_files,
    cases_settings.random_files, cases_settings.flips, cases_settings.without_entries, cases_settings.each_length,
    cases_settings.several_rates, cases_settings.junction_numbers, cases_settings.places_of_puts,
    cases_settings.alike_settings, cases_settings.buffers, cases_settings.near_the_most,
    cases_settings.many_entries, cases_settings.without_entries_2, cases_settings.few_in_version_2,
    cases_settings.rules_broken_2, cases_settings.flips_2, cases_settings.turned_by_puts,
    cases_settings.forty_in_version_2, cases_settings.across_the_turn, cases_settings.lists_in_version_2,
    cases_settings.refused_at_the_most)
OF_FILE = ("put", "go_back", "look_up")
EACH_HIT = [(k, interval) for k in range(15, 43) for interval in range(6)]
ENOUGH = 50_000  # from so many calls on, all of these have to come up


# Answers in C

def answer_to(refusal):
    """The answer of a call that is declined, and 0 for one that is not."""
    return refusal.number + (refusal.value << 24) if refusal else 0


def is_done(answer):
    """Whether a call was done: 0 or a count of bits, octets or bytes. 25 with an interval is beyond 2^24."""
    return answer == 0 or LEAST_COUNT <= answer < 1 << 24


def said(answer):
    """An answer in words; 25 with its interval."""
    return f"{answer & 0xFF} + ({answer >> 24} << 24)" if answer >> 24 else str(answer)


# What the reference says: (answer, buffers that change)

def record_from(form):
    """The record in a buffer; a flag counts as 1 where its byte is not 0."""
    rec = record.unpack(form[:RECORD_BYTES])
    return rec._replace(granted=int(rec.granted != 0), acknowledge=int(rec.acknowledge != 0))


def state_from(form):
    """The line state in a buffer; a flag counts as 1 where its byte is not 0."""
    return frames.unpack_state(form[:STATE_BYTES])


def state_left(state, count, form):
    """The state buffer after an accepted call: one of no frames writes no byte of it."""
    return frames.pack_state(state) + form[STATE_BYTES:] if count else form


def want_read_cp(sequence, bit_count, form):
    refusal, rec = cp.read_cp(sequence, bit_count)
    if refusal:
        return answer_to(refusal), {}
    if len(form) < RECORD_BYTES:
        return 17, {}
    return 0, {"record": record.pack(rec) + form[RECORD_BYTES:]}


def want_write_cp(form, buffer):
    if len(form) < RECORD_BYTES:
        return 16, {}
    refusal, count, after = cp.write_cp(record_from(form), buffer)
    return answer_to(refusal) or count, {"cp": after}


def want_send(form, a_law, count, channel, number, bits, octets, state):
    if len(form) < RECORD_BYTES or len(state) < STATE_BYTES:
        return 16, {}
    refusal, left, after = frames.send(record_from(form), a_law, count, state_from(state), channel, number,
                                       bits, octets)
    if refusal:
        return answer_to(refusal), {}
    return 0, {"octets": after, "state": state_left(left, count, state)}


def want_receive(form, a_law, count, channel, octets, bits, marks, heard, state):
    if len(form) < RECORD_BYTES or len(state) < STATE_BYTES:
        return 16, {}
    refusal, left, told, data, judged = frames.receive(record_from(form), a_law, count, state_from(state),
                                                       channel, octets, bits, marks)
    if refusal:
        return answer_to(refusal), {}
    if len(heard) < HEARD_BYTES:
        return 17, {}
    return 0, {"bits": data, "marks": judged, "heard": control.pack(told) + heard[HEARD_BYTES:],
               "state": state_left(left, count, state)}


def want_linear(a_law, octets, samples):
    room = len(samples) // 4
    refusal, after = linear.linear(a_law, octets, struct.unpack(f"<{room}i", samples))
    return answer_to(refusal), {"samples": struct.pack(f"<{room}i", *after)}


def history_and_sign(state, form):
    """The state buffer with another history and last sign: its other bytes stay as they are."""
    return frames.pack_state(state)[:DOUBTFUL] + form[DOUBTFUL:]


def want_send_cp(form, a_law, octets, state):
    if len(form) < RECORD_BYTES or len(state) < STATE_BYTES:
        return 16, {}
    refusal, count, left, after = starts.send_cp(record_from(form), a_law, state_from(state), octets)
    if refusal:
        return answer_to(refusal), {}
    return count, {"octets": after, "state": history_and_sign(left, state)}


def want_find_state(octets, state):
    if len(state) < STATE_BYTES:
        return 16, {}
    refusal, left = starts.find_state(octets, state_from(state))
    if refusal:
        return answer_to(refusal), {}
    return 0, {"state": history_and_sign(left, state)}


def want_send_dil(a_law, octets):
    refusal, after = dil.send_dil(a_law, octets)
    return answer_to(refusal) or DIL_OCTETS, {"octets": after}


def want_plan(k, a_law, spacing, ceiling, buffer):
    refusal, _, total, mask = plan.plan(k, a_law, spacing, ceiling)
    if refusal:
        return answer_to(refusal), {}
    if len(buffer) < PLAN_BYTES:
        return 17, {}
    return 0, {"plan": struct.pack("<QQQ", mask % 2**64, mask >> 64, total) + buffer[PLAN_BYTES:]}


def want_put(file, junction, form, out):
    if len(form) < RECORD_BYTES:
        return 16, {}
    refusal, length, after = settings.put(file, junction, record_from(form), out)
    return answer_to(refusal) or length, {"out": after}


def want_go_back(file, junction, out):
    refusal, length, after = settings.go_back(file, junction, out)
    return answer_to(refusal) or length, {"out": after}


def want_look_up(file, junction, form):
    refusal, rec = settings.look_up(file, junction)
    if refusal:
        return answer_to(refusal), {}
    if len(form) < RECORD_BYTES:
        return 17, {}
    return 0, {"record": record.pack(rec) + form[RECORD_BYTES:]}


WANT = {"read_cp": want_read_cp, "write_cp": want_write_cp, "send": want_send,
        "receive": want_receive, "linear": want_linear, "send_cp": want_send_cp, "find_state": want_find_state,
        "send_dil": want_send_dil, "plan": want_plan,
        "put": want_put, "go_back": want_go_back, "look_up": want_look_up}


# The codec under test

class Memory:
    """A buffer to lend, between canary bytes."""

    CANARY = bytes(range(0xC1, 0xE1))
    EDGE = len(CANARY)

    def __init__(self):
        self.array = ctypes.create_string_buffer(1 << 17)
        self.view = memoryview(self.array).cast("B")
        self.base = ctypes.addressof(self.array) + self.EDGE

    def put(self, content, offset):
        """Lay the content down; its address."""
        laid = self.CANARY + content + self.CANARY
        self.view[offset:offset + len(laid)] = laid
        return self.base + offset

    def get(self, length, offset):
        """The bytes that are there now, canaries included."""
        return bytes(self.view[offset:offset + length + 2 * self.EDGE])


class Codec:
    """The C functions."""

    def __init__(self, path, prefix):
        library = ctypes.CDLL(str(Path(path).resolve()))
        self.functions = {}
        self.memories = {name: Memory() for names in ENTRIES.values() for name in names}
        for entry, names in ENTRIES.items():
            function = getattr(library, prefix + entry)
            function.restype = ctypes.c_uint32
            function.argtypes = []
            for name in names:
                buffer = [ctypes.c_void_p, ctypes.c_size_t]
                function.argtypes += [NUMBERS[name]] if name in NUMBERS else buffer
            self.functions[entry] = function

    def call(self, entry, values, offset, null):
        """Lend the buffers and call; (answer, {buffer: what is there now})."""
        arguments = []
        for name, value in zip(ENTRIES[entry], values):
            if name in NUMBERS:
                arguments.append(value)
                continue
            place = self.memories[name].put(value, offset)
            length = len(value) // 4 if name == "samples" else len(value)
            arguments += [None if null and not value else place, length]
        answer = self.functions[entry](*arguments)
        return answer, {name: self.memories[name].get(len(value), offset)
                        for name, value in zip(ENTRIES[entry], values) if name not in NUMBERS}


class Enough(Exception):
    """All calls are made."""


class Difference(Exception):
    """The codec and the reference differ."""


def bit_at(octets, n):
    return octets[n // 8] >> n % 8 & 1


def widths_of(rec, place, choices):
    """The data bits of each frame, from a frame place on, by whether the channel is on there."""
    widths = []
    for channel in choices:
        widths.append(rec.drn + (14 if channel and place == 0 else 20))
        place = (place + 1) % 64 if channel else place
    return widths


def shown(value):
    return value.hex() if isinstance(value, bytes) else str(value)


class Test:
    """Makes calls, compares and counts."""

    def __init__(self, codec, seed, calls, show):
        self.codec, self.draw, self.calls, self.show = codec, Draw(seed), calls, show
        self.made = 0
        self.counts = {entry: Counter() for entry in ENTRIES}
        self.intervals = {entry: Counter() for entry in FAULTY if 25 in REFUSALS[entry]}
        self.marks, self.told, self.short_heard = Counter(), Counter(), 0
        self.handed_in = {entry: {what: set() for what in IN_STATE}
                          for entry in ("send", "receive", "send_cp", "find_state")}
        self.promised, self.sequences, self.openings = Counter(), Counter(), Counter()
        self.hits, self.next_hit = Counter(), 0
        self.settled, self.drawn, self.long_drawn = Counter(), [], []
        self.by_version, self.full_file, self.next_rare = Counter(), None, 0
        self.next_count = self.next_start_count = 0
        self.held = {entry: set() for entry in ENTRIES}
        self.sets = [(entry, {number}) for entry in FAULTY for number in FAULTY[entry][1]]
        self.sets += [(entry, set(pair)) for entry in FAULTY for pair in PAIRS[entry]]
        self.next_set = 0

    def call(self, entry, *values):
        """One call, compared; (answer, {buffer: what the codec left there})."""
        if self.made == self.calls:
            raise Enough
        self.made += 1
        offset, null = 4 * self.draw.below(4), self.draw.below(2)
        if entry != "linear":
            offset += self.draw.below(4)
        if self.show:
            print(self.line(entry, values, offset, null), flush=True)
        answer, changed = WANT[entry](*values)
        found, there = self.codec.call(entry, values, offset, null)
        after = {name: changed.get(name, value) for name, value in zip(ENTRIES[entry], values)}
        faults = [] if found == answer else [f"answer {said(found)}, wanted {said(answer)}"]
        for name, now in there.items():
            wanted = Memory.CANARY + after[name] + Memory.CANARY
            if now != wanted:
                faults.append(f"{name} afterwards, canaries included, {now.hex()}, wanted {wanted.hex()}")
        if faults:
            raise Difference(f"{self.line(entry, values, offset, null)}: {'; '.join(faults)}")
        self.counts[entry]["done" if is_done(answer) else answer & 0xFF] += 1
        if not is_done(answer) and answer & 0xFF == 25:
            self.intervals[entry][answer >> 24] += 1
        if entry == "receive" and answer == 0:
            self.marks.update(after["marks"][:values[2]])
            self.told[after["heard"][0]] += 1
        if entry == "receive" and answer == 17 and len(values[7]) < HEARD_BYTES:
            self.short_heard += 1
        if entry in OF_FILE and is_done(answer):
            self.by_version[entry, values[0][-1]] += 1
        for what, at in IN_STATE.items() if entry in self.handed_in else ():
            self.handed_in[entry][what].update(values[-1][at:at + 1])
        return found, {name: now[Memory.EDGE:-Memory.EDGE] for name, now in there.items()}

    def line(self, entry, values, offset, null):
        """The call in one line."""
        words = [f"{name}={shown(value)}" for name, value in zip(ENTRIES[entry], values)]
        return f"call {self.made} {entry} {' '.join(words)} (offset {offset}, null {null})"

    # Parts of calls

    def some(self, length):
        """Buffer contents: mostly at random."""
        fill = self.draw.below(8)
        return bytes([0xFF * fill]) * length if fill < 2 else self.draw.octets(length)

    def cut(self, form):
        """A record or state buffer: mostly whole, at times with more bytes, rarely too short."""
        how = self.draw.below(128)
        if how < 3:
            return form[:(0, 1, len(form) - 1)[how]]
        return form + self.draw.octets(self.draw.pick((1, 7, 100)) if how < 20 else 0)

    def flag(self, value):
        """A flag's byte."""
        return self.draw.pick((1, 1, 2, 128, 255)) if value else 0

    def record(self, rec):
        """A record buffer."""
        flagged = rec._replace(granted=self.flag(rec.granted), acknowledge=self.flag(rec.acknowledge))
        return self.cut(record.pack(flagged))

    def state(self, state):
        """A state buffer."""
        flagged = state._replace(sign=self.flag(state.sign), lost=self.flag(state.lost))
        return self.cut(frames.pack_state(flagged))

    def length(self, needed):
        """The length of a buffer: mostly as needed, at times more, rarely less."""
        how = self.draw.below(100)
        if how < 2:
            return max(needed - 1, 0) if how else 0
        return needed + (self.draw.pick((1, 2, 8, 40)) if how < 30 else 0)

    def count(self):
        """A number of frames: mostly few, rarely about the most."""
        how = self.draw.below(3000)
        if how == 0:
            return self.draw.pick((1023, 1024, 1025, self.draw.below(1024)))
        if how < 10:
            return self.draw.bits(self.draw.between(11, 64))
        return self.draw.below(41) if how < 400 else self.draw.below(6)

    def any_record(self):
        """A record that is accepted."""
        if self.draw.below(20) == 0:
            return a_record(self.draw, 28, granted=1)
        return a_record(self.draw, self.draw.below(29))

    # Calls

    def heard(self):
        """A buffer for what is heard: of any length at times."""
        return self.some(self.draw.below(20) if self.draw.below(50) == 0 else self.length(HEARD_BYTES))

    def send(self, rec, law, count, state, channel):
        """(Octets sent, state left)."""
        few = min(count, 1025)
        needed = frames.data_bytes(rec, few, channel, state.frame_place)
        bits, octets = self.length(needed), self.length(6 * few)
        answer, after = self.call("send", self.record(rec), law, count, channel, a_number(self.draw),
                                  self.some(bits), self.some(octets), self.state(state))
        return (b"", state) if answer else (after["octets"][:6 * count], state_from(after["state"]))

    def receive(self, rec, law, count, line, state, channel):
        """The state left."""
        few = min(count, 1025)
        spare = self.length(6 * few) - 6 * few
        octets = line + self.draw.octets(spare) if spare >= 0 else line[:spare]
        needed = frames.data_bytes(rec, few, channel, state.frame_place)
        bits, marks = self.length(needed), self.length(few)
        answer, after = self.call("receive", self.record(rec), law, count, channel, octets, self.some(bits),
                                  self.some(marks), self.heard(), self.state(state))
        return state if answer else state_from(after["state"])

    def send_cp(self, rec, law, state):
        """(Octets sent, state left)."""
        needed = min(starts.octet_count(rec), 2000)
        answer, after = self.call("send_cp", self.record(rec), law, self.some(self.length(needed)),
                                  self.state(state))
        done = is_done(answer)
        return (after["octets"][:answer], state_from(after["state"])) if done else (b"", state)

    def find_state(self, octets, state):
        """The state left."""
        answer, after = self.call("find_state", octets, self.state(state))
        return state if answer else state_from(after["state"])

    def put(self, file, junction, rec):
        """(Whether it is done, the file left)."""
        needed = min(cases_settings.room_for(file, junction, rec), MOST_ROOM)
        answer, after = self.call("put", file, junction, self.record(rec), self.some(self.length(needed)))
        done = is_done(answer)
        return done, after["out"][:answer] if done else file

    def go_back(self, file, junction):
        """(Whether it is done, the file left)."""
        answer, after = self.call("go_back", file, junction, self.some(self.length(len(file))))
        done = is_done(answer)
        return done, after["out"][:answer] if done else file

    def look_up(self, file, junction):
        """(The answer, the record buffer afterwards), in a buffer of a record's length."""
        answer, after = self.call("look_up", file, junction, self.some(RECORD_BYTES))
        return answer, after["record"]

    def case(self, case):
        """A case of the reference's lists, with contents of our own in the buffers to be written."""
        kind, given = forms.arguments(case)
        entry = KINDS[kind]
        if entry == "read_cp":
            self.call(entry, *given, self.cut(self.some(RECORD_BYTES)))
        elif entry == "write_cp":
            self.call(entry, self.record(given[0]), given[1])
        elif entry == "linear":
            self.call(entry, given[0], given[1], self.some(4 * len(given[2])))
        elif entry == "send_cp":
            rec, law, state, octets = given
            self.call(entry, self.record(rec), law, self.some(len(octets)), self.state(state))
        elif entry == "find_state":
            self.call(entry, given[0], self.state(given[1]))
        elif entry == "put":
            file, junction, rec, out = given
            self.call(entry, file, junction, self.record(rec), self.some(len(out)))
        elif entry == "go_back":
            self.call(entry, *given[:2], self.some(len(given[2])))
        elif entry == "look_up":
            self.call(entry, *given, self.cut(self.some(RECORD_BYTES)))
        elif entry == "send":
            rec, law, count, state, channel, number, data, octets = given
            self.call(entry, self.record(rec), law, count, channel, number, data, self.some(len(octets)),
                      self.state(state))
        else:
            rec, law, count, state, channel, octets, *written = given
            written = [self.some(len(each)) for each in written]
            self.call(entry, self.record(rec), law, count, channel, octets, *written, self.heard(),
                      self.state(state))

    # Scenes

    def a_run(self):
        """Sent in some calls, carried with or without damage, received in others; CP there and back.

        Each call has the channel off or on.
        """
        draw, rec, law = self.draw, self.any_record(), self.draw.below(2)
        start = draw.pick((frames.FRESH, a_state(draw)))
        state, line = start, b""
        for _ in range(draw.between(1, 3)):
            octets, state = self.send(rec, law, self.count(), state, draw.below(2))
            line += octets
        for _ in range(draw.below(4) if line else 0):
            line = cases_frames.damaged(draw, rec, law, line)
        state = draw.pick((start, a_state(draw)))
        while line:
            count = min(self.count(), len(line) // 6 + (draw.below(20) == 0))
            state = self.receive(rec, law, count, line[:6 * count], state, draw.below(2))
            line = line[6 * count:]
        if draw.below(2):
            needed = cases_cp.byte_count(cases_cp.length_of(rec))
            self.call("write_cp", self.record(rec), self.some(self.length(needed)))
            sequence = cases_cp.noisy(draw, rec) if draw.below(2) else cases_cp.plain(rec)
            sequence += draw.octets(draw.pick((0, 0, 1, 30)))
            self.call("read_cp", sequence, cases_cp.length_of(rec), self.cut(self.some(RECORD_BYTES)))

    def each_count(self):
        """The next of all counts and places that a byte can hold, with other refusals at times."""
        draw = self.draw
        for _ in range(8):
            self.next_count = (self.next_count + 1) % 256
            for field in ("doubtful", "frame_place", "sequence_place"):
                rec, law, frame_count = self.any_record(), draw.below(2), draw.below(4)
                if draw.below(4) == 0:
                    rec, frame_count = faulty_record(draw, {draw.pick((4, 9, 10, 25, 11, 12, 13))}), 1
                state = a_state(draw)._replace(**{field: self.next_count})
                if draw.below(8) == 0:
                    state = state._replace(history=cases_frames.a_history_too_large(draw))
                if field != "doubtful" and draw.below(8) == 0:
                    state = state._replace(doubtful=cases_frames.a_doubt_too_large(draw))
                self.send(rec, law, frame_count, state, draw.below(2))
                self.receive(rec, law, frame_count, draw.octets(6 * frame_count), state, draw.below(2))

    def each_count_of_start(self):
        """The next of these for send_cp and for find_state, which looks at none of them."""
        draw, fields = self.draw, ("doubtful", "frame_place", "sequence_place")
        for _ in range(8):
            self.next_start_count = (self.next_start_count + 1) % 256
            for field in fields:
                state = a_state(draw)._replace(**{field: self.next_start_count})
                self.call("send_cp", self.record(self.any_record()), draw.below(2), self.some(self.length(984)),
                          frames.pack_state(state))
            state = a_state(draw)._replace(**dict.fromkeys(fields, self.next_start_count))
            octets = draw.octets(draw.pick((24, 25, draw.below(60))))
            self.call("find_state", octets, frames.pack_state(state))

    def expect(self, holds, what):
        """Stop unless what is promised holds."""
        if not holds:
            raise Difference(f"call {self.made}: not as promised: {what}")

    def sent_in_calls(self, rec, law, form, choices):
        """(Data bits, octets) of some calls of the sender, which leaves the count as it is."""
        draw, message, line, doubtful = self.draw, [], b"", form[DOUBTFUL]
        for channel, count in cases_frames.cut_by_choice(draw, choices):
            widths = widths_of(rec, form[FRAME_PLACE], [channel] * count)
            data = draw.octets((sum(widths) + 7) // 8)
            answer, left = self.call("send", record.pack(rec), law, count, channel, a_number(draw), data,
                                     self.some(6 * count), form)
            self.expect(answer == 0 and left["state"][DOUBTFUL] == doubtful, "the sender's count")
            message += [bit_at(data, n) for n in range(sum(widths))]
            line, form = line + left["octets"], left["state"]
        return message, line

    def marked_instead(self, rec, law, frame):
        """Other octets than a frame's, drawn until the codec marks them."""
        draw, form = self.draw, frames.pack_state(a_state(self.draw))
        while True:
            octets = bytearray(draw.pick((frame, draw.octets(6))))
            octets[draw.below(6)] = draw.bits(8)
            bits = self.some(frames.data_bytes(rec, 1))
            left = self.call("receive", record.pack(rec), law, 1, draw.below(2), bytes(octets), bits, b"\0",
                             self.some(HEARD_BYTES), form)[1]
            if left["marks"] != b"\0":
                return bytes(octets)

    def check_frames(self, widths, left, message, altered, count):
        """Hold what a call of the receiver left against what was sent; the count after its frames."""
        first = 0
        for width, mark, is_altered in zip(widths, left["marks"], altered):
            self.expect((mark > 0) == is_altered, "a frame is marked that is not altered, or the reverse")
            places = range(0 if mark else width)
            wrong = [p for p in places if bit_at(left["bits"], first + p) != message[first + p]]
            self.expect(not wrong or wrong[-1] < count, f"bits {wrong} are wrong after the count {count}")
            self.promised["bits wrong"] += len(wrong)
            self.promised["the last doubtful one wrong"] += count - 1 in wrong
            count, first = 24 if mark else max(count - width, 0), first + width
        self.expect(left["state"][DOUBTFUL] == count, f"the receiver's count is not {count}")
        return count

    def read_in_calls(self, rec, law, form, line, choices, message, altered):
        """Some calls of the receiver, each held against what was sent: its frames' bits and its count.

        `line` lists the frames, `altered` whether each is not as sent.
        """
        first, at, count = 0, 0, form[DOUBTFUL]
        for channel, frame_count in cases_frames.cut_by_choice(self.draw, choices):
            part = line[first:first + frame_count]
            widths = widths_of(rec, form[FRAME_PLACE], [channel] * frame_count)
            bits, marks = self.some((sum(widths) + 7) // 8), self.some(frame_count)
            answer, left = self.call("receive", record.pack(rec), law, frame_count, channel, b"".join(part), bits,
                                     marks, self.some(HEARD_BYTES), form)
            self.expect(answer == 0, "the receiver declines")
            count = self.check_frames(widths, left, message[at:], altered[first:], count)
            first, at, form = first + frame_count, at + sum(widths), left["state"]

    def some_choices(self):
        """(A state, choices for some frames): the channel off, or on and off by a choice at each frame."""
        draw = self.draw
        if draw.below(2):
            return a_state(draw), [0] * draw.between(1, 12)
        state = cases_frames.at_places(draw, draw.between(54, 64) % 64, a_sequence_place(draw))
        return state, cases_frames.some_choices(draw, draw.between(1, 16))

    def distrusted(self):
        """What the count of doubtful bits promises, by the codec's own octets, bits, marks and states.

        Each frame that is altered is marked. The receiver begins cold, in any history and sign, or in the
        sender's with any count up to 24. A good frame's bits past as many as the count before it are as sent.
        The channel is off, or on and off by a choice at each frame.
        """
        draw, law, drn = self.draw, self.draw.below(2), self.draw.between(1, 28)
        rec, (start, choices), cold = a_record(draw, drn), self.some_choices(), draw.below(2)
        message, sent = self.sent_in_calls(rec, law, frames.pack_state(start), choices)
        line = [sent[n:n + 6] for n in range(0, len(sent), 6)]
        altered = [drn < 28 and draw.below(3) == 0 for _ in line]  # at drn 28 every frame is good
        line = [self.marked_instead(rec, law, frame) if hurt else frame for frame, hurt in zip(line, altered)]
        count = 24 if cold else draw.between(0, 24)
        other = with_places(draw, a_state(draw))._replace(frame_place=start.frame_place)
        form = frames.pack_state((other if cold else start)._replace(doubtful=count))
        self.read_in_calls(rec, law, form, line, choices, message, altered)
        self.promised["runs"] += 1

    def opened(self):
        """CP and E_s go before the data: by the codec's own bytes all bits are as sent, from the first on.

        The sender begins in any state, sends one CP or two and goes on in the state left. The receiver finds its
        state from the last 24 octets, with any others before them or none, from any history and sign.
        """
        draw, law, rec = self.draw, self.draw.below(2), a_record(self.draw, self.draw.between(1, 28))
        begin, choices = self.some_choices()
        line, form = b"", frames.pack_state(begin)
        for _ in range(draw.between(1, 2)):
            sent_rec = self.any_record()
            needed = starts.octet_count(sent_rec)
            octets = self.some(needed + draw.below(3))
            answer, left = self.call("send_cp", record.pack(sent_rec), law, octets, form)
            self.expect(answer == needed, "CP is declined")
            self.expect(left["state"][DOUBTFUL:] == form[DOUBTFUL:], "CP changes more than history and sign")
            line, form = line + left["octets"][:answer], left["state"]
            self.openings["CPs"] += 1
        other = with_places(draw, a_state(draw))._replace(frame_place=begin.frame_place, doubtful=0)
        line = draw.pick((line, line[-24:], draw.octets(draw.below(500)) + line[-24:]))
        answer, found = self.call("find_state", line, frames.pack_state(other))
        self.expect(answer == 0 and found["state"][:DOUBTFUL] == form[:DOUBTFUL], "another state is found")
        message, sent = self.sent_in_calls(rec, law, form, choices)
        line = [sent[n:n + 6] for n in range(0, len(sent), 6)]
        self.read_in_calls(rec, law, found["state"], line, choices, message, [False] * len(line))
        self.openings["runs"] += 1
        self.openings["bits as sent"] += len(message)

    def started(self):
        """CP and E_s from any state, one after another, and the state found from these octets and from any."""
        draw, law, state = self.draw, self.draw.below(2), a_state(self.draw)
        self.send_cp(empty_by_own(draw, draw.between(1, 28), [draw.below(6)]), law, state)
        for _ in range(3):
            octets, state = self.send_cp(self.any_record(), law, state)
            heard = octets[-draw.pick((23, 24, 25, 1000)):] if octets else draw.octets(draw.below(60))
            if draw.below(4) == 0:
                heard = cases_start.signed(draw, law, [draw.below(2) for _ in heard], range(128))
            self.find_state(heard, cases_frames.faulty_state(draw, {draw.pick((0, 0, 14, 18, 19))}))

    def read_off(self, rec, law, form, line):
        """(Data bits, marks, state left) of some calls of the receiver with the channel off."""
        bits, marks = [], b""
        while line:
            count = self.draw.between(1, len(line) // 6)
            width = count * frames.frame_bits(rec)
            answer, left = self.call("receive", record.pack(rec), law, count, 0, line[:6 * count],
                                     self.some((width + 7) // 8), self.some(count), self.some(HEARD_BYTES), form)
            self.expect(answer == 0, "the receiver declines")
            bits += [bit_at(left["bits"], n) for n in range(width)]
            line, marks, form = line[6 * count:], marks + left["marks"], left["state"]
        return bits, marks, form

    def turned(self):
        """The next of all K and intervals, one sign of which is flipped."""
        for _ in range(4):
            self.hit(*EACH_HIT[self.next_hit % len(EACH_HIT)])
            self.next_hit += 1

    def hit(self, k, interval):
        """One sign is flipped: by the codec's own bytes no mark changes, and just the bits that K and interval name.

        Any frames go before, altered or not, and after the two that follow; the calls are cut twice, each in its
        own way, from one state, which is any.
        """
        draw, law, rec = self.draw, self.draw.below(2), a_record(self.draw, k - 14)
        before, after = draw.below(4), draw.below(4)
        _, sent = self.sent_in_calls(rec, law, frames.pack_state(a_state(draw)), [0] * (before + 3 + after))
        line = [sent[n:n + 6] for n in range(0, len(sent), 6)]
        for n in (*range(before), *range(before + 3, len(line))):
            line[n] = draw.pick((line[n], draw.octets(6)))
        line, form = b"".join(line), frames.pack_state(with_places(draw, a_state(draw)))
        plain = self.read_off(rec, law, form, line)
        other = self.read_off(rec, law, form, flip.flipped(line, before, interval))
        first = before * frames.frame_bits(rec)
        wanted = [first + place for place in flip.changed_places(k, interval)]
        found = [n for n, (one, two) in enumerate(zip(plain[0], other[0])) if one != two]
        self.expect(found == wanted, f"bits {found} change and not {wanted}")
        self.expect(plain[1:] == other[1:], "a mark or the state left changes")
        self.hits[k, interval] += 1

    def a_length(self, left):
        """The frames of a call of a long run."""
        return min(left, self.draw.pick((0, 1, 2, 63, 64, 65, self.draw.below(300), self.draw.below(1025))))

    def a_sequence(self):
        """A sequence crosses calls: by the codec's own bytes it is heard, or told to be lost or wrong.

        Both ends begin at frame place 0 and sequence place 0 and have 961 frames or more with the channel on.
        """
        draw, law = self.draw, self.draw.below(2)
        rec, number, total = a_record(draw, draw.between(1, 27)), a_number(draw), draw.between(961, 1024)
        start = cases_frames.at_places(draw, 0, 0)
        line, form = b"", frames.pack_state(start)
        while len(line) < 6 * total:
            count = self.a_length(total - len(line) // 6)
            given = number if form[FRAME_PLACE] == form[SEQUENCE_PLACE] == 0 else a_number(draw)
            data = self.some(frames.data_bytes(rec, count, 1, form[FRAME_PLACE]))
            answer, left = self.call("send", record.pack(rec), law, count, 1, given, data, self.some(6 * count),
                                     form)
            self.expect(answer == 0, "the sender declines")
            line, form = line + left["octets"], left["state"]
        line, wanted = self.line_of_sequence(rec, law, line)
        said, first = [], 0
        form = frames.pack_state(cases_frames.at_places(draw, 0, 0)._replace(sign=start.sign))
        while first < total:
            count = self.a_length(total - first)
            octets, bits = line[6 * first:6 * (first + count)], self.some(frames.data_bytes(
                rec, count, 1, form[FRAME_PLACE]))
            answer, left = self.call("receive", record.pack(rec), law, count, 1, octets, bits, self.some(count),
                                     self.some(HEARD_BYTES), form)
            self.expect(answer == 0, "the receiver declines")
            self.expect((left["heard"][0] > 0) == (first <= 960 < first + count), "heard in another call")
            said += [left["heard"]] if left["heard"][0] else []
            first, form = first + count, left["state"]
        self.expect(said[0][0] in wanted, f"{said[0][0]} is heard and not one of {wanted}")
        heard = (number % 2**56).to_bytes(7, "little") if said[0][0] == 1 else bytes(7)
        self.expect(said[0][1:] == heard, "other bits are heard than were sent")
        self.sequences[TOLD[said[0][0]]] += 1

    def line_of_sequence(self, rec, law, line):
        """(The line, perhaps with damage, what may be heard then) of a sequence that starts in frame 0."""
        draw, how = self.draw, self.draw.below(4)
        frame, line = 64 * draw.pick((1, 2, draw.below(16))), bytearray(line)
        if how == 1:
            mark = draw.pick(cases_frames.possible_marks(rec))
            line[6 * frame:6 * frame + 6] = cases_frames.a_frame(draw, rec, law, mark)
            return bytes(line), (2,)
        if how == 2 and frame:
            line[6 * frame - 1] ^= 0x80  # the first control bit of the frame is wrong, and no other
            return bytes(line), (3, 4)
        if how == 3:
            place = draw.pick([n for n in range(len(line) // 6) if n % 64 not in (0, 63)])
            line[6 * place:6 * place + 6] = draw.octets(6)
        return bytes(line), (1,)

    def longest(self):
        """The most frames that a call can have, and one more, in buffers of the exact lengths."""
        draw, law, channel = self.draw, self.draw.below(2), self.draw.below(2)
        rec, begin = a_record(draw, draw.between(1, 28)), a_state(draw)
        form, state = record.pack(rec), frames.pack_state(begin)
        for count in (frames.MOST_FRAMES, frames.MOST_FRAMES + 1):
            data = draw.octets(frames.data_bytes(rec, count, channel, begin.frame_place))
            _, after = self.call("send", form, law, count, channel, a_number(draw), data,
                                 draw.octets(6 * count), state)
            self.call("receive", form, law, count, channel, after["octets"], data, draw.octets(count),
                      draw.octets(HEARD_BYTES), state)

    def marked(self):
        """Frames of every mark, and octets at random."""
        draw, law = self.draw, self.draw.below(2)
        rec = cases_frames.a_record_with_all_marks(draw, draw.between(1, 27))
        state = a_state(draw)
        for _ in range(8):
            kinds = [draw.below(8) for _ in range(draw.between(1, 5))]
            line = b"".join(cases_frames.a_frame(draw, rec, law, mark) for mark in kinds)
            if draw.below(8) == 0:
                line = draw.octets(len(line))
            state = self.receive(rec, law, len(kinds), line, state, draw.below(2))

    def refused(self):
        """The next single refusals and pairs of them, and greater sets for those that have a state."""
        for _ in range(8):
            entry, numbers = self.sets[self.next_set]
            self.next_set = (self.next_set + 1) % len(self.sets)
            faulty = self.faulty_at_the_most if 24 in numbers else FAULTY[entry][0]
            self.fault(faulty(self.draw, numbers))
        numbers = {number for number in cases_frames.NUMBERS if self.draw.below(3) == 0}
        if cases_frames.possible(numbers) and numbers - {15, 17}:
            self.fault(cases_frames.faulty_send(self.draw, numbers))
            self.fault(cases_frames.faulty_receive(self.draw, numbers))
            self.fault(cases_start.faulty_sending(self.draw, numbers & set(cases_start.NUMBERS)))

    def fault(self, case):
        """A case of the reference in which refusals hold."""
        numbers = [refusal.number for refusal in forms.held(case)]
        self.held[KINDS[case[0]]].update(combinations(numbers, 2))
        self.case(case)

    def bad_buffers(self):
        """Short record and state buffers together with other refusals and without."""
        draw = self.draw
        numbers = {draw.pick((4, 9, 10, 25, 11, 12, 13))}
        rec = faulty_record(draw, numbers) if draw.below(2) else self.any_record()
        short = [record.pack(rec)[:draw.pick((0, 1, 50, 104))], bytes(draw.pick((0, 1, 5, 6, 20)))]
        whole = [record.pack(rec), frames.pack_state(a_state(draw))]
        for forms_lent in ((short[0], whole[1]), (whole[0], short[1]), short):
            few = [self.some(draw.below(9)) for _ in range(4)]
            head, state = (forms_lent[0], draw.below(2), draw.pick((0, 1, 2**64 - 1))), forms_lent[1]
            self.call("send", *head, draw.below(2), a_number(draw), *few[:2], state)
            self.call("receive", *head, draw.below(2), *few, state)
            self.call("send_cp", *head[:2], few[0], state)
            self.call("find_state", self.some(draw.pick((0, 1, 23, 24, 40))), state)
        for count in range(3):
            channel, state, room = draw.below(2), a_state(draw), draw.below(HEARD_BYTES)
            needed = frames.data_bytes(rec, count, channel, state.frame_place)
            self.call("receive", self.record(rec), draw.below(2), count, channel, draw.octets(6 * count),
                      self.some(needed), self.some(count), self.some(room), self.state(state))
        self.call("write_cp", short[0], self.some(draw.pick((0, 36, 122))))
        file, junction = self.a_file(draw.below(3))[0], draw.below(4)
        for lent in (file, self.broken(file)):
            self.call("put", lent, junction, short[0], self.some(draw.pick((0, 36, 1000))))
            self.call("put", lent, junction, whole[0], self.some(draw.pick((0, len(lent), 1000))))
            self.call("look_up", lent, junction, short[0])
        self.call("read_cp", draw.octets(draw.pick((0, 37))), draw.pick((0, 294, 2**64 - 1)), short[0])

    def flipped(self):
        """CP with some bits changed, and with other bit counts."""
        draw = self.draw
        rec = self.any_record()
        sequence, exact = cases_cp.plain(rec), cases_cp.length_of(rec)
        for _ in range(6):
            bits, count = int.from_bytes(sequence, "little"), exact
            for _ in range(draw.pick((0, 0, 0, 1, 2))):
                bits ^= 1 << draw.below(8 * len(sequence))
            if draw.below(5) == 0:
                count = draw.pick((exact - 1, exact + 1, draw.below(1100), draw.bits(draw.between(1, 64))))
            lent = bits.to_bytes(len(sequence), "little") + draw.octets(draw.pick((0, 0, 1, 20, 130)))
            lent = lent[:len(lent) - draw.pick((0, 0, 0, 0, 0, 0, 1, len(lent)))]
            self.call("read_cp", lent, count, self.cut(self.some(RECORD_BYTES)))

    def listed(self):
        """Some cases of the reference's own lists."""
        groups = (cases_frames.states, cases_frames.no_frames, cases_frames.number_edges,
                  cases_cp.counts, cases_cp.fields_at_fault, cases_cp.short_buffers,
                  cases_cp.stray_masks, cases_cp.record_fields_at_fault,
                  cases_cp.sparse_readings, cases_cp.sparse_writings,
                  cases_frames.sparse_calls, cases_frames.sparse_faults,
                  cases_frames.counted_frames, cases_frames.each_mark_counted,
                  cases_frames.counts_alone, cases_frames.count_faults, *CHANNEL_GROUPS, *START_GROUPS)
        for case in self.draw.pick(groups)(self.draw):
            if self.draw.below(4) == 0:
                self.case(case)

    def edges(self):
        """Records at the edge of refusal 11, written and read."""
        for rec in cases_cp.edge_records(self.draw):
            if self.draw.below(4) == 0:
                self.call("write_cp", self.record(rec), self.some(self.length(122)))
                sequence = cases_cp.plain(rec)
                self.call("read_cp", sequence, cases_cp.length_of(rec), self.cut(self.some(RECORD_BYTES)))

    def sparse(self):
        """Records with empty masks through all five entries."""
        for _ in range(4):
            rec, law, count = a_sparse_record(self.draw), self.draw.below(2), self.count()
            state, form = a_state(self.draw), self.cut(self.some(RECORD_BYTES))
            self.call("write_cp", self.record(rec), self.some(self.length(122)))
            self.call("read_cp", cases_cp.plain(rec), cases_cp.length_of(rec), form)
            self.send_cp(rec, law, state)
            self.send(rec, law, count, state, self.draw.below(2))
            self.receive(rec, law, count, self.some(6 * min(count, 1025)), state, self.draw.below(2))

    def samples(self):
        """Linear samples."""
        for _ in range(2):
            count = self.draw.pick((self.draw.below(9), 256))
            octets = bytes(range(256)) if count == 256 else self.draw.octets(count)
            self.call("linear", self.draw.below(2), octets, self.some(4 * self.length(count)))

    def learning(self):
        """The default DIL in no buffer, in a short one, in those about as long as it and in a long one."""
        less, more = self.draw.below(DIL_OCTETS), self.draw.between(DIL_OCTETS, 2 * DIL_OCTETS)
        for length in (0, less, DIL_OCTETS - 1, DIL_OCTETS, DIL_OCTETS + 1, more):
            for law in (0, 1):
                self.call("send_dil", law, self.some(length))

    def a_rate(self):
        """K: mostly 15 to 42, at times just outside or with bits above those, rarely any number."""
        draw, inside = self.draw, self.draw.between(15, 42)
        above = inside + 256 * draw.between(1, 2**24 - 1)
        return draw.pick((14, 43, above, draw.bits(draw.between(1, 32)), *[inside] * 28))

    def a_spacing(self, largest):
        """A spacing: mostly about the largest that a mask keeps or below it, at times any number."""
        draw = self.draw
        below = [draw.below(largest + 1) for _ in range(3)]
        edge = draw.pick((0, 65535, 65536, 2**32 - 1, draw.bits(draw.between(1, 32))))
        return draw.pick((1, max(largest - 1, 0), largest, largest, largest + 1, *below,
                          draw.bits(draw.between(1, 16)), edge))

    def a_ceiling(self, total):
        """A ceiling: the least sum, just below and above it, the least and the largest, any number."""
        draw, most = self.draw, plan.MOST_CEILING
        return draw.pick((total, total, max(total - 1, 0), total + 1, draw.below(total + 1), 0, most, most,
                          draw.bits(draw.between(1, 64)), total % 2**32, total + 2**32))

    def planning(self):
        """Masks for a wanted rate, in buffers of 0 to 40 bytes."""
        draw, law, k = self.draw, self.draw.below(2), self.a_rate()
        largest = plan.largest_spacing(k, law, plan.MOST_CEILING)
        for _ in range(8):
            spacing = self.a_spacing(largest)
            ceiling = self.a_ceiling(plan.plan(k, law, spacing, plan.MOST_CEILING)[2])
            room = draw.pick((PLAN_BYTES, PLAN_BYTES, PLAN_BYTES - 1, draw.below(41),
                              draw.between(PLAN_BYTES, 40)))
            if k < 64:
                held = [refusal.number for refusal in plan.faults(k, law, spacing, ceiling)]
                self.held["plan"].update(combinations(held + [17] * (room < PLAN_BYTES), 2))
            self.call("plan", k, law, spacing, ceiling, self.some(room))

    # Scenes of the settings file

    def a_setting(self):
        """(A record, its CP with the ignored bits at random): mostly one drawn before, so that few are read."""
        if len(self.drawn) < 40 or self.draw.below(8) == 0:
            rec = self.any_record()
            self.drawn = [*self.drawn[-39:], (rec, cases_cp.noisy(self.draw, rec))]
        return self.draw.pick(self.drawn)

    def a_version(self, count):
        """A version that has room for so many junctions."""
        return self.draw.pick([version for version in settings.VERSIONS if count <= version.most_junctions])

    def a_file(self, count, settings_each=(1, 2), a_setting=None, version=None):
        """(A file of so many junctions, {junction: [records of its settings, the current one first]})."""
        draw, kept, found = self.draw, {}, []
        while len(kept) < count:
            kept[draw.pick((draw.below(4), draw.below(600), draw.bits(16), 65535))] = []
        for junction in sorted(kept):
            some = [(a_setting or self.a_setting)() for _ in range(draw.pick(settings_each))]
            kept[junction] = [record.pack(rec) for rec, _ in some]
            found.append(settings.Junction(junction, some[0][1], some[1][1] if len(some) > 1 else None))
        return settings.write(found, version or self.a_version(count)), kept

    def a_longest_file(self, version):
        """The same of the most junctions with two settings of six masks each: the longest file of a version."""
        while len(self.long_drawn) < 6:
            rec = a_record(self.draw, self.draw.between(0, 28), 5)
            self.long_drawn.append((rec, cases_cp.noisy(self.draw, rec)))
        return self.a_file(version.most_junctions, (2,), lambda: self.draw.pick(self.long_drawn), version)

    def some_file(self, *counts):
        """The same of one of these numbers of junctions; rarely of 38 to 41 or about 400."""
        draw, how = self.draw, self.draw.below(60)
        many = draw.pick((38, 39, 40, 41)) if how else draw.pick((397, 398, 399, 400))
        return self.a_file(many if how < 3 else draw.pick(counts))

    def a_junction(self, kept):
        """A junction number: mostly one that is kept, at times one next to it or any."""
        draw, any_number = self.draw, self.draw.bits(16)
        here = draw.pick(list(kept)) if kept else any_number
        return draw.pick((here, here, here, here, here, here ^ 1, here ^ 256, any_number))

    def shows(self, file, junction, kept):
        """A look-up, held against the setting last put or gone back to."""
        answer, form = self.look_up(file, junction)
        if junction in kept:
            self.expect(answer == 0 and form == kept[junction][0], "another setting is shown")
            self.settled["look-ups as kept"] += 1
        else:
            self.expect(answer == 23, "a junction is shown that was never put")

    def settle(self, file, junction, kept):
        """A put, a going back or a look-up; the file that it leaves. What it does is noted in `kept`."""
        how, here, before = self.draw.below(9), kept.get(junction, []), file[-1]
        if how < 4:
            rec = self.a_setting()[0]
            done, file = self.put(file, junction, rec)
            if done:
                kept[junction] = [record.pack(rec), *here[:1]]
                self.settled["puts"] += 1
        elif how < 7:
            done, file = self.go_back(file, junction)
            if done:
                kept[junction] = here[::-1]
                self.settled["goings back"] += 1
        else:
            self.shows(file, junction, kept)
        self.expect(file[-1] == (before if len(kept) <= 40 else 2), "a file of another version is left")
        return file

    def settling(self):
        """Puts and goings back, each with the file that the one before it left, and look-ups between them.

        A call that is refused for a short buffer leaves the file as it was.
        """
        draw = self.draw
        file, kept = self.some_file(0, 0, 1, 2, 3, 6)
        numbers = [self.a_junction(kept) for _ in range(draw.between(1, 3))]
        for _ in range(draw.between(4, 16)):
            file = self.settle(file, draw.pick(numbers), kept)
        for junction in {*numbers, self.a_junction(kept)}:
            self.shows(file, junction, kept)
        self.settled["runs"] += 1

    def up_to_the_most(self, counts, version):
        """A file as full as its version allows, by puts of one junction after another, and what it keeps."""
        file, kept = self.a_file(self.draw.pick(counts), version=version)
        while len(kept) < version.most_junctions:
            file = self.settle(file, self.draw.bits(16), kept)
        self.expect(file[-1] == version.byte, "a file turns before it has to")
        return file, kept

    def one_more(self, kept):
        """A junction that is not kept."""
        return next(junction for junction in iter(lambda: self.draw.bits(16), None) if junction not in kept)

    def crowded(self, version):
        """A file of one junction more than its version allows: each entry refuses it."""
        file, kept = self.a_file(version.most_junctions + 1, version=version)
        junction, rec = self.draw.pick(list(kept)), self.a_setting()[0]
        self.expect(self.look_up(file, junction)[0] == 22, "a file of too many junctions is taken")
        self.put(file, junction, rec)
        self.go_back(file, junction)

    def turning(self):
        """A put of a 41st junction turns version 1 into version 2: all junctions are shown as they were.

        Then puts and goings back leave version 2.
        """
        draw, (file, kept) = self.draw, self.up_to_the_most((0, 36, 38, 39, 40), settings.VERSION_1)
        junction, rec = self.one_more(kept), self.a_setting()[0]
        room = cases_settings.room_for(file, junction, rec)
        for lent in (room - 1, room + draw.below(3)):
            answer, after = self.call("put", file, junction, record.pack(rec), self.some(lent))
            self.expect(answer == (17 if lent < room else room), "a 41st junction is not put")
        file, kept[junction] = after["out"][:room], [record.pack(rec)]
        self.expect(file[-1] == 2, "a 41st junction, and still version 1")
        self.settled["turned by a 41st junction"] += 1
        for junction in kept:
            self.shows(file, junction, kept)
        for junction in [draw.bits(16) for _ in range(3)] + [draw.pick(list(kept)) for _ in range(6)]:
            file = self.settle(file, junction, kept)
        self.crowded(settings.VERSION_1)

    def filling(self):
        """Puts of one junction after another, from many on, to beyond 400: the 401st is refused."""
        draw, (file, kept) = self.draw, self.up_to_the_most((398, 399, 400), settings.VERSION_2)
        for junction in [self.one_more(kept) for _ in range(2)] + [draw.pick(list(kept)) for _ in range(3)]:
            rec = self.a_setting()[0]
            room = cases_settings.room_for(file, junction, rec) + draw.below(3)
            answer, after = self.call("put", file, junction, record.pack(rec), self.some(room))
            self.expect(is_done(answer) == (junction in kept), "a 401st junction, or none of the 400")
            if is_done(answer):
                file, kept[junction] = after["out"][:answer], [record.pack(rec), *kept[junction][:1]]
            self.settled["a 401st junction"] += answer == 24
            self.shows(file, junction, kept)
        self.crowded(settings.VERSION_2)

    def longest_files(self, version):
        """Calls with the longest file: a put over a setting keeps its length where the CP is as long.

        At last one junction more is put.
        """
        draw, (file, kept) = self.draw, self.a_longest_file(version)
        junction = draw.pick((min(kept), max(kept), draw.pick(list(kept))))
        for _ in range(2):
            file = self.settle(file, junction, kept)
        done, file = self.put(file, junction, draw.pick(self.long_drawn)[0])
        self.shows(file, draw.pick([other for other in kept if other != junction]), kept)
        self.call("look_up", self.broken(file), junction, self.some(RECORD_BYTES))
        self.put(file, self.one_more(kept), draw.pick(self.long_drawn)[0])
        self.settled[f"longest files of version {version.byte}"] += done

    def many(self):
        """The next of the scenes with many junctions."""
        scenes = (self.turning, lambda: self.longest_files(settings.VERSION_1), self.filling,
                  self.turning, lambda: self.longest_files(settings.VERSION_2))
        self.next_rare += 1
        scenes[self.next_rare % len(scenes)]()

    def faulty_at_the_most(self, draw, numbers):
        """A put of a 401st junction, in which the other refusals of `numbers` hold too; most files are one."""
        if self.full_file is None or draw.below(16) == 0:
            self.full_file = self.a_file(400, (1,))
        file, kept = self.full_file
        junction, trailer = self.one_more(kept), settings.trailer_size(settings.VERSION_2)
        if 22 in numbers:
            place = draw.pick((4, 5, len(file) - draw.between(2, trailer)))  # of a CP's first bits, or of the trailer
            file = file[:place] + bytes([file[place] ^ 1 << draw.below(8)]) + file[place + 1:]
        rec = faulty_record(draw, numbers, most_index=255 if 17 in numbers else 6)
        needed = cases_settings.room_for(file, junction, rec)
        room = draw.pick((0, needed - 1)) if 17 in numbers else needed + draw.below(2)
        return forms.put_case(file, junction, rec, room)

    def a_place(self, file):
        """A place in a file: any, or in the head or the start of an entry, or in the trailer."""
        draw, parts = self.draw, settings.parts_of(file)
        ends = [entry.place for entry in parts.entries] if parts else []
        near = draw.pick(ends + [len(file)]) + draw.between(-4, 4)
        return min(max(draw.pick((near, near, draw.below(len(file) + 1))), 0), len(file))

    def broken(self, file):
        """The file with some bits or bytes changed, cut out or put in; it may still be valid."""
        draw, form = self.draw, bytearray(file)
        for _ in range(draw.pick((1, 1, 1, 2, 3))):
            place, some = self.a_place(bytes(form)), draw.pick((1, 1, 2, 4, 17, 43, 45))
            how = draw.below(8)
            if how < 3 and place < len(form):
                form[place] ^= 1 << draw.below(8)
            elif how < 5 and place < len(form):
                form[place] = draw.pick((0, 1, 2, form[place] + 1 & 255, draw.bits(8)))
            elif how == 5:
                del form[place:place + some]
            elif how == 6:
                form[place:place] = draw.pick((draw.octets(some), form[:some]))
            else:
                length = draw.pick((0, 1, 3, 4, 6, 7, len(form) - 4, len(form) - 7, place))
                form = form[:max(length, 0)] if draw.below(2) else form + form[-some:]
        return bytes(form)

    def rebuilt(self, file):
        """A file of the same entries, one of them left out, moved, doubled or changed; all else is right.

        At times none is, and the widths are those of the other version or of none.
        """
        draw, parts = self.draw, settings.parts_of(file)
        pieces = [cases_settings.Piece(entry.junction, entry.kind, entry.octets) for entry in parts.entries]
        if not pieces or draw.below(4) == 0:
            return cases_settings.built(pieces, draw.pick((*settings.VERSIONS, *cases_settings.OTHER_WIDTHS)))
        one, two = draw.pick(pieces), draw.pick(pieces)
        n, m = draw.below(len(pieces)), draw.below(len(pieces))
        other = one._replace(**draw.pick(({"kind": 1 - one.kind}, {"kind": 2}, {"junction": two.junction},
                                          {"junction": one.junction + 1 & 0xFFFF}, {"octets": one.octets[:-1]},
                                          {"octets": self.a_setting()[1]}, {"octets": two.octets})))
        pieces = draw.pick((pieces[:n] + pieces[n + 1:], pieces[n:] + pieces[:n], pieces[:m] + [one] + pieces[m:],
                            pieces[:n] + [other] + pieces[n + 1:], pieces[:n] + [other] + pieces[n:]))
        return cases_settings.built(pieces, parts.version)

    def breaking(self):
        """Files changed in some places, handed to each entry, and on to the next call where that is done.

        At last a record with an empty interval is put into one of them.
        """
        draw = self.draw
        for _ in range(3):
            file, kept = self.some_file(0, 1, 1, 2, 3)
            file, junction = draw.pick((self.broken, self.broken, self.rebuilt))(file), self.a_junction(kept)
            self.call("look_up", file, junction, self.cut(self.some(RECORD_BYTES)))
            _, file = self.put(file, junction, self.a_setting()[0])
            _, file = self.go_back(file, junction)
        self.put(file, junction, empty_by_own(draw, draw.between(1, 28), [draw.below(6)]))

    def unshown(self):
        """Look-ups in which each refusal, alone and with others, holds."""
        for numbers in ({22}, {23}, {17}, {22, 23}, {22, 17}, {23, 17}, {22, 23, 17}):
            file, junction = forms.arguments(cases_settings.faulty_look(self.draw, numbers))[1]
            form = self.some(self.draw.below(RECORD_BYTES) if 17 in numbers else RECORD_BYTES)
            held = [refusal.number for refusal in settings.look_faults(file, junction)]
            self.held["look_up"].update(combinations(held + [17] * (len(form) < RECORD_BYTES), 2))
            self.call("look_up", file, junction, form)

    def listed_settings(self):
        """Some cases of the reference's own lists of the settings file."""
        for case in self.draw.pick(SETTINGS_GROUPS)(self.draw):
            if self.draw.below(4) == 0:
                self.case(case)

    def run(self):
        """All calls."""
        often = [self.a_run] * 40 + [self.marked] * 6 + [self.refused] * 6 + [self.flipped] * 6
        often += [self.each_count] * 4 + [self.distrusted] * 4
        often += [self.each_count_of_start] * 3 + [self.opened] * 3 + [self.started] * 2
        often += [self.turned] * 2
        rarely = [self.bad_buffers, self.edges, self.sparse, self.listed] * 2 + [self.a_sequence]
        rarely += [self.samples] * 6 + [self.learning] + [self.planning] * 3
        often += [self.settling] * 5 + [self.breaking] * 4
        rarely += [self.listed_settings] * 2 + [self.unshown]
        try:
            self.longest()
            while True:
                self.draw.pick(often + rarely)()
                if self.draw.below(1000) == 0:
                    self.longest()
                if self.draw.below(200) == 0:
                    self.many()
        except Enough:
            pass

    def report(self):
        """Print the counts; whether all that has to come up did."""
        lacking = []
        for entry, counts in self.counts.items():
            words = [f"{answer}: {counts[answer]}" for answer in ("done", *sorted(REFUSALS[entry]))]
            pairs = len(self.held[entry] & set(PAIRS[entry]))
            print(f"{entry}: {sum(counts.values())} calls ({', '.join(words)}),"
                  f" {pairs} of {len(PAIRS[entry])} pairs of refusals")
            lacking += [f"{entry} {answer}" for answer in ("done", *REFUSALS[entry]) if not counts[answer]]
            lacking += [f"{entry} {pair}" for pair in PAIRS[entry] if pair not in self.held[entry]]
        for entry, counts in self.intervals.items():
            print(f"{entry}, intervals with 25:", ", ".join(f"{i}: {counts[i]}" for i in range(6)))
            lacking += [f"{entry} 25 with {i}" for i in range(6) if not counts[i]]
        print("marks:", ", ".join(f"{mark}: {self.marks[mark]}" for mark in range(8)))
        lacking += [f"mark {mark}" for mark in range(8) if not self.marks[mark]]
        for entry, kinds in self.handed_in.items():
            for what, values in kinds.items():
                print(f"{entry}, {what} handed in: {len(values)} of 256")
                lacking += [f"{entry}, {what}: {value}" for value in sorted({*range(256)} - values)]
        print("heard:", ", ".join(f"{what}: {self.told[n]}" for n, what in enumerate(TOLD)),
              f"(in no buffer or a short one: {self.short_heard})")
        lacking += [f"heard {what}" for n, what in enumerate(TOLD) if not self.told[n]]
        lacking += [] if self.short_heard else ["a short buffer for what is heard"]
        print("sequences across calls:", ", ".join(f"{what}: {self.sequences[what]}" for what in TOLD[1:]))
        lacking += [f"sequences across calls, {what}" for what in TOLD[1:] if not self.sequences[what]]
        met = ("runs", "bits wrong", "the last doubtful one wrong")
        print("doubtful bits as promised:", ", ".join(f"{what}: {self.promised[what]}" for what in met))
        lacking += [f"doubtful bits, {what}" for what in met if not self.promised[what]]
        met = ("runs", "CPs", "bits as sent")
        print("CP and E_s before the data:", ", ".join(f"{what}: {self.openings[what]}" for what in met))
        lacking += [f"CP and E_s before the data, {what}" for what in met if not self.openings[what]]
        runs = sum(self.hits.values())
        print(f"one flipped sign: runs: {runs}, K and interval: {len(self.hits)} of {len(EACH_HIT)}")
        lacking += [f"a flipped sign, K and interval {hit}" for hit in EACH_HIT if not self.hits[hit]]
        met = ("runs", "puts", "goings back", "look-ups as kept", "turned by a 41st junction", "a 401st junction",
               "longest files of version 1", "longest files of version 2")
        print("settings files:", ", ".join(f"{what}: {self.settled[what]}" for what in met))
        lacking += [f"settings files, {what}" for what in met if not self.settled[what]]
        for byte in (1, 2):
            words = [f"{entry}: {self.by_version[entry, byte]}" for entry in OF_FILE]
            print(f"done with files of version {byte}:", ", ".join(words))
            lacking += [f"{entry} with version {byte}" for entry in OF_FILE if not self.by_version[entry, byte]]
        if lacking and self.made >= ENOUGH:
            print("never came up:", ", ".join(lacking))
            return False
        return True


def main():
    parser = argparse.ArgumentParser(description="Compare a codec's C functions with reference/.")
    parser.add_argument("library")
    parser.add_argument("prefix", choices=("v91_", "plain_"))
    parser.add_argument("--seed", type=int, default=1)
    parser.add_argument("--calls", type=int, default=100_000)
    parser.add_argument("--show", action="store_true")
    options = parser.parse_args()
    test = Test(Codec(options.library, options.prefix), options.seed, options.calls, options.show)
    begun = time.monotonic()
    try:
        test.run()
    except Difference as difference:
        print(f"DIFFERENCE, seed {options.seed}, {options.prefix}: {difference}")
        return 1
    complete = test.report()
    rate = test.made / (time.monotonic() - begun)
    print(f"{test.made} calls of {options.prefix} with seed {options.seed}: no difference, {rate:.0f} a second")
    return 0 if complete else 1


if __name__ == "__main__":
    sys.exit(main())
