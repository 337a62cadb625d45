"""Sending and receiving frames: document 01, 'From data to line', and A.1 and A.2 of document 02.

The bits of a frame are handled as one number, the first in time at weight 1. `channel` is whether
the control channel is on.
"""

import struct
from collections import namedtuple
from functools import lru_cache

import control
from record import faults as record_faults, k_of, mask_of
from refusals import Refusal
from table1 import octet_of, ucode_of

# `sequence` holds the bits of a sequence of the control channel, a sender's whole, a receiver's so
# far; `lost` is whether a frame of it was lost.
State = namedtuple("State", "history sign doubtful frame_place sequence_place sequence lost",
                   defaults=(0, 0, 0, 0))

HISTORIES = 2**23
MOST_DOUBTFUL = 24
MOST_FRAMES = 1024
FRAME_PLACES = 64
SEQUENCE_PLACES = control.FRAMES

# A receiver told that it begins cold has the largest count of doubtful bits, every other end 0.
FRESH = State(0, 0, 0)
COLD = State(0, 0, MOST_DOUBTFUL)

BYTE_FORM = struct.Struct("<IBBBB12sB")


def pack_state(state):
    """The line state in 21 bytes.

    They are the history, its low byte first, the last sign, the count of doubtful bits, the frame
    place, the sequence place, the bits of the sequence in 12 bytes, and whether a frame was lost.
    """
    return BYTE_FORM.pack(*state[:5], state.sequence.to_bytes(12, "little"), state.lost)


def unpack_state(form):
    """The line state that `pack_state` put into 21 bytes; a flag is 1 where its byte is not 0."""
    history, sign, *counts, bits, lost = BYTE_FORM.unpack(form)
    return State(history, int(sign != 0), *counts, int.from_bytes(bits, "little"), int(lost != 0))


# Bits in buffers

def get_bits(octets, first, count):
    """`count` bits from bit `first` on."""
    part = octets[first // 8:(first + count + 7) // 8]
    return int.from_bytes(part, "little") >> first % 8 & (1 << count) - 1


def add_bits(octets, first, count, bits):
    """Put `count` bits from bit `first` on into a bytearray that has zeros there."""
    start = first // 8
    stop = (first + count + 7) // 8
    old = int.from_bytes(octets[start:stop], "little")
    octets[start:stop] = (old | bits << first % 8).to_bytes(stop - start, "little")


def frame_bits(record):
    """D, the data bits of a frame that is no control frame."""
    return k_of(record) + 6


def control_frames(channel, place, frames):
    """How many of some frames from a frame place on are control frames."""
    if not channel:
        return 0
    return (place + frames + FRAME_PLACES - 1) // FRAME_PLACES - -(-place // FRAME_PLACES)


def data_bits(record, frames, channel=0, place=0):
    """The data bits of some frames from a frame place on: six fewer for each control frame."""
    given = control.FRAME_BITS * control_frames(channel, place, frames)
    return frames * frame_bits(record) - given


def data_bytes(record, frames, channel=0, place=0):
    """The bytes that the data bits of some frames from a frame place on need."""
    return (data_bits(record, frames, channel, place) + 7) // 8


# Step 1: scrambler

def taps(history):
    """The scrambled bits 18 and 23 places earlier, XORed."""
    return (history >> 17 ^ history >> 22) & 1


def push(history, bit):
    """The history after one more scrambled bit."""
    return (history << 1 | bit) % HISTORIES


def scramble(history, data, count):
    """(Scrambled bits, history after them)."""
    line = 0
    for n in range(count):
        bit = data >> n & 1 ^ taps(history)
        history = push(history, bit)
        line |= bit << n
    return line, history


def descramble(history, line, count):
    """(Data bits, history after them): the history takes the scrambled bits."""
    data = 0
    for n in range(count):
        bit = line >> n & 1
        data |= (bit ^ taps(history)) << n
        history = push(history, bit)
    return data, history


# Steps 2 to 4: modulus encoder and mapper

@lru_cache(maxsize=4096)
def points(mask):
    """The Ucodes of a mask in the order of their labels: the largest has label 0."""
    return tuple(u for u in range(127, -1, -1) if mask >> u & 1)


@lru_cache(maxsize=4096)
def labels(mask):
    """The label of each Ucode of a mask."""
    return {ucode: label for label, ucode in enumerate(points(mask))}


def interval_masks(record):
    """The mask of each of the six intervals."""
    return [mask_of(record, index) for index in record.indices]


def ucodes_for(masks, number):
    """The six Ucodes for the number R."""
    ucodes = []
    for mask in masks[:5]:
        number, label = divmod(number, len(points(mask)))
        ucodes.append(points(mask)[label])
    return ucodes + [points(masks[5])[number]]


def number_for(masks, ucodes):
    """The number R for six Ucodes that belong to their masks."""
    number = 0
    for mask, ucode in reversed(list(zip(masks, ucodes))):
        number = number * len(points(mask)) + labels(mask)[ucode]
    return number


# Step 5: signs

def signs_for(last, line):
    """The six signs: each is its s bit XOR the sign before it."""
    signs = []
    for i in range(6):
        last ^= line >> i & 1
        signs.append(last)
    return signs


def sign_bits(last, signs):
    """The bits s0 to s5, undone from the signs."""
    return sum((sign ^ before) << i
               for i, (sign, before) in enumerate(zip(signs, [last] + signs[:5])))


# The count of doubtful bits (A.1)

def doubt_after_mark(doubtful):
    """The count after a marked frame."""
    return MOST_DOUBTFUL


def doubt_after_good(width, doubtful):
    """The count after a good frame: its data bits less, and not below 0."""
    return max(doubtful - width, 0)


# The control channel (A.2)

def is_control(channel, state):
    """Whether the frame to come is a control frame."""
    return bool(channel) and state.frame_place == 0


def width_of(record, channel, state):
    """The data bits of the frame to come: K in a control frame, D in another."""
    return k_of(record) if is_control(channel, state) else frame_bits(record)


def after_frame(channel, state):
    """The state with the frame place of the frame after one that is done."""
    if not channel:
        return state
    return state._replace(frame_place=(state.frame_place + 1) % FRAME_PLACES)


def after_control(state):
    """The state with the sequence place of the control frame after one that is done."""
    return state._replace(sequence_place=(state.sequence_place + 1) % SEQUENCE_PLACES)


def at_start(state, number):
    """The sender's state at a control frame: where a sequence starts there it has the sequence."""
    if state.sequence_place:
        return state
    return state._replace(sequence=control.sequence_of(number), lost=0)


def lost_after(state, mark):
    """Whether a frame of the sequence is lost after a control frame; at its start none was."""
    before = state.lost if state.sequence_place else 0
    return int(before or mark > 0)


def with_six(state, mark, six):
    """The receiver's state with the six control bits of a frame, whose mark is given."""
    bits = control.bits_so_far(state.sequence, state.sequence_place, six)
    return state._replace(sequence=bits, lost=lost_after(state, mark))


def ends_sequence(channel, state):
    """Whether a sequence ends with the frame to come."""
    return is_control(channel, state) and state.sequence_place == SEQUENCE_PLACES - 1


# One frame

def line_bits(channel, state, scrambled):
    """The bits s0 to s5 and R of the frame to be sent: in a control frame all scrambled are R's."""
    if is_control(channel, state):
        return control.bits_at(state.sequence, state.sequence_place) | scrambled << 6
    return scrambled


def send_frame(record, law, state, channel, number, data):
    """(Six octets, state after them) for a frame's data bits; the count of doubtful bits stays.

    `number` is the 56 bits of a sequence that starts with this frame.
    """
    if is_control(channel, state):
        state = at_start(state, number)
    scrambled, history = scramble(state.history, data, width_of(record, channel, state))
    line = line_bits(channel, state, scrambled)
    ucodes = ucodes_for(interval_masks(record), line >> 6)
    signs = signs_for(state.sign, line)
    octets = bytes(octet_of(law, sign, ucode) for sign, ucode in zip(signs, ucodes))
    after = state._replace(history=history, sign=signs[5])
    if is_control(channel, state):
        after = after_control(after)
    return octets, after_frame(channel, after)


def outside(masks, ucodes):
    """The intervals whose Ucode is outside its mask."""
    return [i for i in range(6) if ucodes[i] not in labels(masks[i])]


def too_large(record, number):
    """Whether R is 2^K or more."""
    return number >= 2 ** k_of(record)


def after_mark(state, width, octets):
    """The state a marked frame leaves: zeros in the history for its data bits, the sixth sign."""
    history = (state.history << width) % HISTORIES
    return state._replace(history=history, sign=octets[5] >> 7,
                          doubtful=doubt_after_mark(state.doubtful))


def judge_frame(record, law, octets):
    """(Mark, R) of six octets; R is 0 where the frame is marked."""
    masks = interval_masks(record)
    ucodes = [ucode_of(law, octet) for octet in octets]
    strangers = outside(masks, ucodes)
    if strangers:
        return strangers[0] + 1, 0
    number = number_for(masks, ucodes)
    return (7, 0) if too_large(record, number) else (0, number)


def data_of_good(record, state, channel, number, octets):
    """(Data bits, bits s0 to s5, state after it) of a good frame."""
    signs = [octet >> 7 for octet in octets]
    six, width = sign_bits(state.sign, signs), width_of(record, channel, state)
    line = number if is_control(channel, state) else six | number << 6
    data, history = descramble(state.history, line, width)
    doubtful = doubt_after_good(width, state.doubtful)
    return data, six, state._replace(history=history, sign=signs[5], doubtful=doubtful)


def receive_frame(record, law, state, channel, octets):
    """(Mark, data bits, state after the frame) for six octets."""
    mark, number = judge_frame(record, law, octets)
    if mark:
        data, six = 0, 0
        after = after_mark(state, width_of(record, channel, state), octets)
    else:
        data, six, after = data_of_good(record, state, channel, number, octets)
    if is_control(channel, state):
        after = after_control(with_six(after, mark, six))
    return mark, data, after_frame(channel, after)


# The entries

def state_faults(state):
    """The refusals 14, 18 and 19 that hold for a line state, in this order."""
    if state.history >= HISTORIES:
        yield Refusal(14)
    if state.doubtful > MOST_DOUBTFUL:
        yield Refusal(18)
    if state.frame_place >= FRAME_PLACES or state.sequence_place >= SEQUENCE_PLACES:
        yield Refusal(19)


def call_faults(record, frames, state, read, written):
    """The refusals 4, 9, 10, 25, 11 to 14, 18, 19 and 15 to 17 that hold, in this order.

    `read` and `written` list (bytes lent, bytes needed). Where drn is 0 or exceeds 28, or the frame
    place exceeds 63, what is needed is judged by the same formula in them.
    """
    yield from record_faults(record)
    if frames >= 1 and record.drn == 0:
        yield Refusal(13)
    yield from state_faults(state)
    if frames > MOST_FRAMES:
        yield Refusal(15)
    if any(lent < needed for lent, needed in read):
        yield Refusal(16)
    if any(lent < needed for lent, needed in written):
        yield Refusal(17)


def send_faults(record, law, frames, state, channel, number, data, octets):
    """The refusals of the sender that hold, in order."""
    read = [(len(data), data_bytes(record, frames, channel, state.frame_place))]
    return call_faults(record, frames, state, read, [(len(octets), 6 * frames)])


def send(record, law, frames, state, channel, number, data, octets):
    """Return (refusal or None, state left, octets afterwards).

    `number` is the 56 bits of a sequence that starts in the call.
    """
    refusal = next(send_faults(record, law, frames, state, channel, number, data, octets), None)
    if refusal:
        return refusal, state, bytes(octets)
    line, at = bytearray(octets), 0
    for n in range(frames):
        width = width_of(record, channel, state)
        bits = get_bits(data, at, width)
        line[6 * n:6 * n + 6], state = send_frame(record, law, state, channel, number, bits)
        at += width
    return None, state, bytes(line)


def receive_faults(record, law, frames, state, channel, octets, bits, marks):
    """The refusals of the receiver that hold, in order."""
    needed = data_bytes(record, frames, channel, state.frame_place)
    written = [(len(bits), needed), (len(marks), frames)]
    return call_faults(record, frames, state, [(len(octets), 6 * frames)], written)


def receive(record, law, frames, state, channel, octets, bits, marks):
    """Return (refusal or None, state left, what is heard, bits afterwards, marks afterwards).

    At most one sequence ends in a call; what is heard is nothing where none does.
    """
    refusal = next(receive_faults(record, law, frames, state, channel, octets, bits, marks), None)
    if refusal:
        return refusal, state, control.NOTHING, bytes(bits), bytes(marks)
    touched = data_bytes(record, frames, channel, state.frame_place)
    data, judged = bytearray(touched) + bits[touched:], bytearray(marks)
    heard, at = control.NOTHING, 0
    for n in range(frames):
        width, ends = width_of(record, channel, state), ends_sequence(channel, state)
        judged[n], part, state = receive_frame(record, law, state, channel, octets[6 * n:6 * n + 6])
        add_bits(data, at, width, part)
        at += width
        if ends:
            heard = control.heard_in(state.sequence, state.lost)
    return None, state, heard, bytes(data), bytes(judged)
