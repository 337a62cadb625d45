"""The cases of send, receive and linear that are stored."""

import math
from itertools import combinations

import control
from forms import linear_case, outcome, receive_case, send_case
from frames import (COLD, FRAME_PLACES, FRESH, HISTORIES, MOST_DOUBTFUL, MOST_FRAMES,
                    SEQUENCE_PLACES, State, data_bytes, frame_bits, interval_masks, points,
                    ucodes_for)
from record import EMPTY, EXAMPLE, FULL_MASK, k_of, make, sizes_of
from refusals import in_order, of_01
from samples import (Draw, a_mask, a_number, a_record, a_sequence_place, a_state, faulty_record,
                     hardly_empty, records_with_empty_intervals, with_places, without_a_rate)
from table1 import A, MU, octet_of

SEVEN_UCODES = make(0, 2, 0, [0] * 6, [127])

# In the order in which they are looked at.
NUMBERS = (4, 9, 10, 25, *range(11, 15), 18, 19, 15, 16, 17)

# As for CP; besides, 13 wants drn 0, 9 one above 28, 11 and 25 one of 1 to 28.
APART = {(9, 11), (9, 25), (4, 12), (9, 13), (11, 13), (25, 13)}


def possible(numbers):
    """Whether refusals can hold together."""
    return not any(pair in APART for pair in combinations(in_order(numbers), 2))


def pairs(numbers=NUMBERS):
    """The pairs of refusals that can hold together, the first looked at first."""
    return [pair for pair in combinations(numbers, 2) if possible(pair)]


# Frames with a wanted mark

def a_frame(draw, record, law, mark):
    """Six octets that get this mark. 1 to 6 want a mask that is not full, 7 a product above 2^K."""
    masks = interval_masks(record)
    if mark in (0, 7):
        limit = 2 ** k_of(record)
        first, end = (0, limit) if mark == 0 else (limit, math.prod(sizes_of(record)))
        ucodes = ucodes_for(masks, first + draw.below(end - first))
    else:
        first = mark - 1
        ucodes = [draw.pick(points(mask)) for mask in masks[:first]]
        ucodes.append(draw.pick(points(masks[first] ^ FULL_MASK)))
        ucodes += [draw.below(128) for _ in masks[mark:]]
    return bytes(octet_of(law, draw.below(2), ucode) for ucode in ucodes)


def possible_marks(record):
    """The marks that frames can get under this record."""
    marks = [i + 1 for i, size in enumerate(sizes_of(record)) if size < 128]
    if math.prod(sizes_of(record)) > 2 ** k_of(record):
        marks.append(7)
    return marks


def a_record_with_all_marks(draw, drn):
    """A record under which every mark can be given."""
    while True:
        record = a_record(draw, drn, most=127)
        if len(possible_marks(record)) == 7:
            return record


# Calls that fit

def a_send(draw, record, law, count, state, spare=0, channel=0, number=None):
    """A sender's call that is not declined; bits past the last frame are at random.

    The bits of a sequence are at random where none are given.
    """
    data = draw.octets(data_bytes(record, count, channel, state.frame_place) + spare)
    number = a_number(draw) if number is None else number
    return send_case(record, law, count, state, data, 6 * count + spare, channel, number)


def a_receive(draw, record, law, state, line, spare=0, channel=0):
    """A receiver's call that is not declined, reading whole frames."""
    count = len(line) // 6
    rooms = data_bytes(record, count, channel, state.frame_place) + spare, count + spare
    return receive_case(record, law, count, state, line + draw.octets(spare), *rooms, channel)


# Calls at fault

def a_history_too_large(draw):
    """A history of 2^23 or more."""
    return draw.pick((HISTORIES, HISTORIES + draw.bits(23), 2**32 - 1, draw.bits(32) | 2**31))


def a_doubt_too_large(draw):
    """A count of doubtful bits that exceeds 24."""
    return draw.pick((25, 26, 128, 255, draw.between(25, 255)))


def a_place_too_large(draw, state):
    """The state with a frame place above 63, a sequence place above 15, or both."""
    how = draw.between(1, 3)
    if how & 1:
        state = state._replace(frame_place=draw.pick((64, 65, 128, 255, draw.between(64, 255))))
    if how & 2:
        state = state._replace(sequence_place=draw.pick((16, 17, 32, 255, draw.between(16, 255))))
    return state


def a_count(draw, numbers, exact):
    """The frames of a call at fault; `exact` asks for the least number that is too many."""
    if 15 in numbers:
        if exact:
            return MOST_FRAMES + 1
        return draw.pick((1025, 1026, 2048, 2**16, 2**32 + 1, 2**61, 2**63, 2**64 - 1))
    return draw.pick((1, 2, 3) if numbers & {13, 16, 17} else (0, 1, 2))


def a_length(draw, needed, short):
    """The length of a buffer: one byte short or empty, or what is needed and perhaps more."""
    return draw.pick((needed - 1, needed - 1, 0)) if short else needed + draw.below(3)


def faulty_state(draw, numbers, state=None):
    """The state, or any where none is given, with those of 14, 18 and 19 that are in `numbers`."""
    state = a_state(draw) if state is None else state
    if 14 in numbers:
        state = state._replace(history=a_history_too_large(draw))
    if 18 in numbers:
        state = state._replace(doubtful=a_doubt_too_large(draw))
    if 19 in numbers:
        state = a_place_too_large(draw, state)
    return state


def faulty_parts(draw, numbers, state):
    """(Record, state, frames, channel, whether 16 holds, whether 17 holds) of a call at fault.

    Buffers for more frames than 1,024 are lent only where a refusal's being looked at after 15 is
    the point; elsewhere 16 and 17 hold together with 15.
    """
    exact = numbers in ({15}, {15, 17})
    record = a_record(draw, 1) if exact else faulty_record(draw, numbers)
    state = faulty_state(draw, numbers, state)
    lacking = 15 in numbers and not exact
    count, channel = a_count(draw, numbers, exact), draw.below(2)
    return record, state, count, channel, lacking or 16 in numbers, lacking or 17 in numbers


def faulty_send(draw, numbers, state=None):
    """A case of send in which the refusals of `numbers` hold."""
    record, state, count, channel, short_read, short_write = faulty_parts(draw, numbers, state)
    law, number = draw.below(2), a_number(draw)
    if count > MOST_FRAMES + 1:
        return send_case(record, law, count, state, draw.octets(8), 8, channel, number)
    needed = data_bytes(record, count, channel, state.frame_place)
    data = draw.octets(a_length(draw, needed, short_read))
    room = a_length(draw, 6 * count, short_write)
    return send_case(record, law, count, state, data, room, channel, number)


def faulty_receive(draw, numbers, state=None, lacks=None):
    """A case of receive in which the refusals of `numbers` hold.

    `lacks` says which buffers are short where 17 holds: 1 the bits, 2 the marks, 3 both.
    """
    record, state, count, channel, short_read, short_write = faulty_parts(draw, numbers, state)
    law = draw.below(2)
    if count > MOST_FRAMES + 1:
        return receive_case(record, law, count, state, draw.octets(8), 8, 8, channel)
    octets = draw.octets(a_length(draw, 6 * count, short_read))
    lacks = draw.between(1, 3) if lacks is None else lacks
    needed = data_bytes(record, count, channel, state.frame_place)
    bit_room = a_length(draw, needed, short_write and lacks & 1)
    mark_room = a_length(draw, count, short_write and lacks & 2)
    return receive_case(record, law, count, state, octets, bit_room, mark_room, channel)


def faulty_cases(draw):
    """Each refusal of 01 alone, each pair, and greater sets at random, for both entries."""
    for number in of_01(NUMBERS):
        for _ in range(1 if number == 15 else 3):
            yield faulty_send(draw, {number})
            yield faulty_receive(draw, {number})
    for pair in pairs(of_01(NUMBERS)):
        yield faulty_send(draw, set(pair))
        yield faulty_receive(draw, set(pair))
    for lacks in (1, 2, 3):
        yield faulty_receive(draw, {17}, lacks=lacks)
        yield faulty_receive(draw, {14, 17}, lacks=lacks)
        yield faulty_receive(draw, {16, 17}, lacks=lacks)
    for _ in range(40):
        numbers = {number for number in of_01(NUMBERS) if draw.below(3) == 0}
        if possible(numbers) and numbers - {15, 17}:
            yield faulty_send(draw, numbers)
            yield faulty_receive(draw, numbers)


# Runs of calls

def a_cut(draw, total):
    """A number of frames cut into calls, some of them of no frames."""
    calls = []
    while total:
        calls.append(min(total, draw.pick((0, 1, 2, 3, 7))))
        total -= calls[-1]
    return calls


def in_calls(channel, cut):
    """Calls of one choice: (whether the channel is on, frames) each."""
    return [(channel, count) for count in cut]


def a_refused_number(draw, numbers):
    """One of some refusals that can be met in any state, with few bytes."""
    return draw.pick([number for number in numbers if number not in (14, 15, 18, 19)])


def sent(draw, record, law, state, calls):
    """(Cases, octets sent) of one sender's list, with a refused call in it."""
    cases, line = [], b""
    refused = draw.below(len(calls))
    for n, (channel, count) in enumerate(calls):
        if n == refused:
            cases.append(faulty_send(draw, {a_refused_number(draw, of_01(NUMBERS))}, state))
        spare = draw.pick((0, 0, 2))
        cases.append(a_send(draw, record, law, count, state, spare, channel))
        _, state, octets = outcome(cases[-1])
        line += octets[:6 * count]
    return cases, line


def read(draw, record, law, state, calls, line):
    """The cases of one receiver's list, with a refused call in it."""
    cases = []
    refused = draw.below(len(calls))
    for n, (channel, count) in enumerate(calls):
        if n == refused:
            cases.append(faulty_receive(draw, {a_refused_number(draw, of_01(NUMBERS))}, state))
        frames, line = line[:6 * count], line[6 * count:]
        spare = draw.pick((0, 0, 2))
        cases.append(a_receive(draw, record, law, state, frames, spare, channel))
        state = outcome(cases[-1])[1]
    return cases


def damaged(draw, record, law, line):
    """What the line delivers: unchanged, one octet altered, or some frames in place of others."""
    line = bytearray(line)
    how = draw.below(4)
    if how == 1:
        line[draw.below(len(line))] ^= draw.between(1, 255)
    if how >= 2:
        a = draw.below(len(line) // 6)
        b = min(a + draw.below(2), len(line) // 6 - 1)
        for n in range(a, b + 1):
            mark = draw.pick([0] + possible_marks(record))
            line[6 * n:6 * n + 6] = a_frame(draw, record, law, mark)
    return bytes(line)


def a_run(draw, record, law, total):
    """The cases of one run: sent, carried and read, the two lists cut differently."""
    start = draw.pick((FRESH, a_state(draw)))
    cases, line = sent(draw, record, law, start, in_calls(0, a_cut(draw, total)))
    line = damaged(draw, record, law, line)
    begin = draw.pick((start, a_state(draw)))
    return cases + read(draw, record, law, begin, in_calls(0, a_cut(draw, total)), line)


def runs(draw):
    """Two runs under every rate and law."""
    for drn in range(1, 29):
        for law in (MU, A, MU, A):
            yield from a_run(draw, a_record(draw, drn), law, draw.between(4, 11))


def long_calls(draw):
    """Calls of 32, 1,023 and 1,024 frames."""
    for drn, law in ((1, A), (2, MU), (11, A), (19, MU), (28, A)):
        record = a_record(draw, drn)
        yield from one_cut(draw, record, law, [32], [32])
    yield from one_cut(draw, a_record(draw, 2), MU, [1024], [1023, 1])
    yield from one_cut(draw, a_record(draw, 1), A, [1, 1023], [1024])
    yield from one_cut(draw, a_record(draw, 28), A, [1024], [1024])


def one_cut(draw, record, law, cut, reads, channel=0, start=None):
    """A run cut as wanted, with two frames altered."""
    start = start or a_state(draw)
    cases, line = sent(draw, record, law, start, in_calls(channel, cut))
    line = bytearray(line)
    for n in (1, len(line) // 6 - 2):
        line[6 * n:6 * n + 6] = draw.octets(6)
    return cases + read(draw, record, law, start, in_calls(channel, reads), bytes(line))


# Single calls

def example_calls():
    """The bench examples of document 01 that are calls, and the values of a second model."""
    zeros, ones = bytes(8), b"\xff" * 8
    yield send_case(EXAMPLE, MU, 1, FRESH, zeros[:3], 6)
    yield send_case(EXAMPLE, MU, 1, FRESH, ones[:3], 6)
    yield send_case(EXAMPLE, A, 1, FRESH, zeros[:3], 6)
    yield send_case(EXAMPLE, MU, 3, FRESH, ones, 18)
    for labels in ((5, 5, 5, 5, 5, 5), (1, 1, 4, 1, 1, 4), (2, 1, 4, 1, 1, 4)):
        frame = bytes(0xFF ^ 5 - label for label in labels)
        yield receive_case(EXAMPLE, MU, 1, FRESH, frame, 3, 1)
    strangers = bytes(0xFF ^ ucode for ucode in (0, 0, 6, 0, 6, 0))
    yield receive_case(EXAMPLE, MU, 1, FRESH, strangers, 3, 1)
    for state in (FRESH, State(0, 1, 0), State(1, 0, 0)):
        yield receive_case(EXAMPLE, MU, 2, state, b"\x7a" * 12, 6, 2)
    yield receive_case(EXAMPLE, MU, 1, State(7, 0, 0), b"\xff" * 6, 3, 1)
    yield receive_case(SEVEN_UCODES, MU, 1, State(1, 0, 0), b"\x80" * 6, 3, 1)


def marked_frames(draw):
    """Every mark, alone from states with old history bits, and between two good frames."""
    for drn in (1, 2, 3):
        for mark in range(8):
            for history in (HISTORIES - 1, draw.pick((1, 2, 3)), draw.bits(23)):
                record, law = a_record_with_all_marks(draw, drn), draw.below(2)
                state = a_state(draw)._replace(history=history)
                yield a_receive(draw, record, law, state, a_frame(draw, record, law, mark))
    for drn in (1, 2, 5, 9, 14, 20, 24, 27):
        for mark in range(8):
            record, law = a_record_with_all_marks(draw, drn), draw.below(2)
            line = b"".join(a_frame(draw, record, law, m) for m in (0, mark, 0))
            yield a_receive(draw, record, law, a_state(draw), line)


def number_edges(draw):
    """R at 2^K - 1, at 2^K and at the product less one."""
    for drn in (1, 4, 10, 17, 23, 27):
        record, law = a_record_with_all_marks(draw, drn), draw.below(2)
        limit = 2 ** k_of(record)
        for number in (0, limit - 1, limit, math.prod(sizes_of(record)) - 1):
            ucodes = ucodes_for(interval_masks(record), number)
            frame = bytes(octet_of(law, draw.below(2), ucode) for ucode in ucodes)
            yield a_receive(draw, record, law, a_state(draw), frame)
    full = make(1, 28, 0, [0] * 6, [FULL_MASK])
    for law in (MU, A):
        yield a_receive(draw, full, law, a_state(draw), draw.octets(18))


def states(draw):
    """Line states at and beyond their bounds, with no frame and with one."""
    for history in (1, 2**17, 2**22, 2**22 + 2**17, HISTORIES - 1,
                    HISTORIES, HISTORIES + 1, 2**24, 2**31, 2**32 - 1):
        for count in (0, 2):
            record, law = a_record(draw, draw.between(1, 28)), draw.below(2)
            state = a_state(draw)._replace(history=history)
            yield a_send(draw, record, law, count, state)
            yield a_receive(draw, record, law, state, draw.octets(6 * count))


def no_frames(draw):
    """Calls of no frames: with drn 0, with empty buffers and with others."""
    for record in (EMPTY, EXAMPLE, a_record(draw, 0), a_record(draw, 28, granted=1)):
        for length in (0, 5):
            state = a_state(draw)
            yield send_case(record, MU, 0, state, draw.octets(length), length)
            yield receive_case(record, A, 0, state, draw.octets(length), length, length)
    for numbers in ({4}, {9}, {10}, {11}, {12}, {10, 13}):
        record = faulty_record(draw, numbers)
        yield send_case(record, A, 0, a_state(draw), b"", 0)
        yield receive_case(record, MU, 0, a_state(draw), b"", 0, 0)


def linear_cases(draw):
    """Linear samples: every octet under both laws, and buffers longer and shorter."""
    for law in (MU, A):
        yield linear_case(law, bytes(range(256)), 256)
        yield linear_case(law, bytes(range(255, -1, -1)), 260)
        for count, room in ((0, 0), (0, 3), (1, 1), (1, 0), (2, 1), (9, 9), (9, 8), (9, 40),
                            (256, 255)):
            yield linear_case(law, draw.octets(count), room)


# Empty intervals (A.8)

def both_ends(draw, record, count):
    """A call of the sender, and one of the receiver that reads what the sender leaves."""
    law, state = draw.below(2), a_state(draw)
    sending = a_send(draw, record, law, count, state)
    yield sending
    yield a_receive(draw, record, law, state, outcome(sending)[2])


def sparse_calls(draw):
    """Records with empty masks, with no frame and with one."""
    for record in (*records_with_empty_intervals(draw), *without_a_rate(draw, 255)):
        yield from both_ends(draw, record, 0)
        yield from both_ends(draw, record, 1)
    for record in hardly_empty(draw):
        yield from both_ends(draw, record, 1)


def faults_with(draw, number, pairs_of_it):
    """A refusal in these pairs and in greater sets at random, for both entries."""
    sets = [set(pair) for pair in pairs_of_it]
    for _ in range(20):
        numbers = {number} | {other for other in NUMBERS if draw.below(3) == 0}
        if possible(numbers):
            sets.append(numbers)
    for numbers in sets:
        yield faulty_send(draw, numbers)
        yield faulty_receive(draw, numbers)


def sparse_faults(draw):
    """25 together with every other refusal, and in greater sets at random."""
    return faults_with(draw, 25, [pair for pair in pairs() if 25 in pair])


# Six masks in one call (A.6)

def six_masks(draw):
    """Both ends under a record in which each interval names a mask of its own."""
    record = make(0, 18, 0, [3, 5, 0, 4, 1, 2], [a_mask(draw, 40 + m) for m in range(6)])
    yield from both_ends(draw, record, 2)


# Doubtful bits (A.1)

def edge_counts(record):
    """Counts of doubtful bits at their bounds and about D."""
    width = frame_bits(record)
    return sorted({0, 1, 23, 24} | {width - 1, width, width + 1} & set(range(MOST_DOUBTFUL + 1)))


def counted_frames(draw):
    """Good and marked frames from counts at the edges, at several D; at D = 48 none is marked."""
    for drn in (1, 2, 3, 4, 14, 27, 28):
        record, law = a_record(draw, drn), draw.below(2)
        marks = possible_marks(record) or [0]
        for count in edge_counts(record):
            mixed = [draw.pick((0, 0, draw.pick(marks))) for _ in range(6)]
            for kinds in ([0], [0, 0], [draw.pick(marks)], [draw.pick(marks), 0, 0], mixed):
                line = b"".join(a_frame(draw, record, law, mark) for mark in kinds)
                state = a_state(draw)._replace(doubtful=count)
                yield a_receive(draw, record, law, state, line)


def each_mark_counted(draw):
    """Each mark from the counts 0, 11 and 24, with a good frame after it and without."""
    for mark in range(1, 8):
        record, law = a_record_with_all_marks(draw, draw.between(1, 4)), draw.below(2)
        for count, kinds in ((0, [mark]), (11, [mark, 0]), (24, [0, mark])):
            line = b"".join(a_frame(draw, record, law, each) for each in kinds)
            yield a_receive(draw, record, law, a_state(draw)._replace(doubtful=count), line)


def cold_starts(draw):
    """Receivers told cold, from zeros and from another state, of frames of which one is marked."""
    for drn in (1, 2, 4, 14, 28):
        record, law = a_record(draw, drn), draw.below(2)
        sending = a_send(draw, record, law, 5, a_state(draw))
        line = bytearray(outcome(sending)[2])
        if possible_marks(record):
            line[18:24] = a_frame(draw, record, law, draw.pick(possible_marks(record)))
        yield sending
        for state in (COLD, a_state(draw)._replace(doubtful=COLD.doubtful)):
            yield from read(draw, record, law, state, in_calls(0, [1, 1, 3]), bytes(line))


def every_count_sent(draw):
    """The sender with each count that a byte can hold: 0 to 24 stay as they are, 18 for others."""
    for count in range(256):
        state = a_state(draw)._replace(doubtful=count)
        yield a_send(draw, EXAMPLE, draw.below(2), 1, state)


def counts_alone(draw):
    """Counts within bounds and beyond, for both entries, with no frame and with one."""
    for count in (0, 1, 12, 23, 24, 25, 26, 31, 32, 48, 56, 127, 128, 152, 255):
        record, law = a_record(draw, draw.between(1, 28)), draw.below(2)
        state = a_state(draw)._replace(doubtful=count)
        for frames in (0, 1):
            yield a_send(draw, record, law, frames, state)
            yield a_receive(draw, record, law, state, draw.octets(6 * frames))
    for count in (24, 25):
        state = a_state(draw)._replace(doubtful=count)
        yield send_case(EMPTY, MU, 0, state, b"", 0)
        yield receive_case(EMPTY, A, 0, state, b"", 0, 0)


def count_faults(draw):
    """18 together with every other refusal but 25, and in greater sets at random."""
    return faults_with(draw, 18, [pair for pair in pairs() if 18 in pair and 25 not in pair])


# Control channel (A.2)

def both_on(draw, record, law, state, count, number=None):
    """Both ends with the channel on: a call of the sender, and one that reads what it sends."""
    sending = a_send(draw, record, law, count, state, channel=1, number=number)
    yield sending
    yield a_receive(draw, record, law, state, outcome(sending)[2], channel=1)


def at_places(draw, frame_place, sequence_place):
    """A state at these places."""
    state = with_places(draw, a_state(draw))
    return state._replace(frame_place=frame_place, sequence_place=sequence_place)


def every_place(draw):
    """Every frame place, then every sequence place at a control frame, with the channel on."""
    for place in range(FRAME_PLACES):
        record, law = a_record(draw, 1 + place % 28), place // 28 % 2
        state = at_places(draw, place, a_sequence_place(draw))
        yield from both_on(draw, record, law, state, draw.pick((1, 1, 2, 3)))
    for place in range(SEQUENCE_PLACES):
        record, law = a_record(draw, draw.between(1, 28)), draw.below(2)
        yield from both_on(draw, record, law, at_places(draw, 0, place), draw.between(1, 2))


# Frame and sequence places at their bounds and beyond.
PLACES = ((63, 15), (64, 0), (255, 15), (63, 16), (0, 255), (64, 16), (128, 3), (5, 128), (192, 15),
          (0, 32))


def places_alone(draw):
    """Places within bounds and beyond, for both entries, with no frame and with one, off and on."""
    for places in PLACES:
        record, law = a_record(draw, draw.between(1, 28)), draw.below(2)
        for count in (0, 1):
            for channel in (0, 1):
                state = at_places(draw, *places)
                line = draw.octets(6 * count)
                yield a_send(draw, record, law, count, state, channel=channel)
                yield a_receive(draw, record, law, state, line, channel=channel)
    for places in ((63, 15), (64, 0), (0, 16)):
        state = at_places(draw, *places)
        yield send_case(EMPTY, MU, 0, state, b"", 0, 1)
        yield receive_case(EMPTY, A, 0, state, b"", 0, 0, 0)


def place_faults(draw):
    """19 together with every other refusal but 18 and 25, and in greater sets at random."""
    return faults_with(draw, 19, [pair for pair in pairs()
                                  if 19 in pair and not {18, 25} & set(pair)])


def every_bit_started(draw):
    """Sequences that start: each bit of the number handed in alone, then each rate and law."""
    for n in range(64):
        record, law = a_record(draw, draw.between(1, 28)), draw.below(2)
        state = at_places(draw, 0, 0)
        yield a_send(draw, record, law, 1, state, channel=1, number=1 << n)
    for drn in range(1, 29):
        record, state = a_record(draw, drn), at_places(draw, 0, 0)
        yield from both_on(draw, record, drn % 2, state, draw.between(1, 3))


def an_end(draw, bits, lost=0, marked=False):
    """A receiver's call in which a sequence of these bits ends, with a good frame or a marked one.

    Its state has other bits where those of the last frame come.
    """
    record, law = a_record(draw, draw.between(1, 27)), draw.below(2)
    state = at_places(draw, 0, SEQUENCE_PLACES - 1)._replace(sequence=bits, lost=lost)
    frame = outcome(a_send(draw, record, law, 1, state, channel=1))[2]
    if marked:
        frame = a_frame(draw, record, law, draw.pick(possible_marks(record)))
    so_far = control.bits_so_far(bits, SEQUENCE_PLACES - 1, draw.bits(6))
    return a_receive(draw, record, law, state._replace(sequence=so_far), frame, channel=1)


def each_bit_wrong(draw):
    """Sequences that end with one of the 96 bits not as sent, and some that end as sent."""
    for n in range(control.BITS):
        yield an_end(draw, control.sequence_of(a_number(draw)) ^ 1 << n)
    for _ in range(8):
        yield an_end(draw, control.sequence_of(a_number(draw)))


def reserved_bits(draw):
    """Sequences that end with bits 18 to 23 set and a CRC that covers them, and with fill bits."""
    for n in range(12):
        bits = control.sequence_of(a_number(draw)) % 2**control.CRC_AT
        bits |= (1 << n if n < 6 else draw.between(1, 63)) << 18
        yield an_end(draw, bits | control.crc_of(bits) << control.CRC_AT | draw.below(4) << 94)


def bits_wrong(draw, bits, pattern, crc):
    """A sequence with bits of the pattern, bits under the CRC alone, both or none not as sent."""
    if pattern:
        bits ^= 1 << draw.below(16) | draw.pick((0, 1)) << draw.below(16)
    if crc:
        bits ^= 1 << draw.between(16, 93)
    return bits ^ draw.below(4) << 94


def faults_at_the_end(draw):
    """A frame lost, marked, the pattern wrong and the CRC wrong, each with each."""
    for n in range(16):
        bits = control.sequence_of(a_number(draw))
        wrong = bits_wrong(draw, bits, n & 1, n & 2)
        yield an_end(draw, wrong, lost=n >> 2 & 1, marked=bool(n & 8))


def lost_and_found(draw):
    """Each sequence place with a good frame and a marked one, with a frame lost before and none."""
    for place in range(SEQUENCE_PLACES):
        for lost in (0, 1):
            for marked in (0, 1):
                record, law = a_record(draw, draw.between(1, 27)), draw.below(2)
                mark = draw.pick(possible_marks(record)) if marked else 0
                state = at_places(draw, 0, place)._replace(lost=lost)
                line = a_frame(draw, record, law, mark)
                yield a_receive(draw, record, law, state, line, channel=1)


def marked_control_frames(draw):
    """Marked control frames at small K, where old bits of the history stay, between good ones."""
    for drn in (*range(1, 10), 14, 20, 27):
        record, law = a_record_with_all_marks(draw, drn), draw.below(2)
        state = at_places(draw, 0, a_sequence_place(draw))._replace(history=HISTORIES - 1)
        for begin, kinds in ((state, [draw.between(1, 7)]),
                             (state._replace(history=draw.bits(23)), [draw.between(1, 7), 0]),
                             (state._replace(frame_place=63), [0, draw.between(1, 7), 0])):
            line = b"".join(a_frame(draw, record, law, mark) for mark in kinds)
            yield a_receive(draw, record, law, begin, line, channel=1)


def counted_control_frames(draw):
    """Good and marked control frames from counts at the edges, which K decides, at several K."""
    for drn in (1, 2, 7, 8, 9, 10, 11, 28):
        record, law, width = a_record(draw, drn), draw.below(2), drn + 14
        marks = possible_marks(record) or [0]
        edges = {0, 1, 23, 24} | {width - 1, width, width + 1, 24 - width}
        for count in sorted(edges & set(range(MOST_DOUBTFUL + 1))):
            for place, kinds in ((0, [0]), (0, [0, 0]), (63, [draw.pick(marks), 0, 0])):
                state = at_places(draw, place, a_sequence_place(draw))._replace(doubtful=count)
                line = b"".join(a_frame(draw, record, law, mark) for mark in kinds)
                yield a_receive(draw, record, law, state, line, channel=1)


def exact_buffers(draw):
    """Data buffers just long enough for frames with a control frame among them, and one less."""
    for place, count in ((0, 1), (63, 1), (63, 2), (0, 2), (1, 3), (0, 64), (0, 65), (1, 64)):
        for drn in (1, 4, 10) if count < 64 else (1,):
            record, law, channel = a_record(draw, drn), draw.below(2), draw.pick((1, 1, 2, 255))
            state = at_places(draw, place, a_sequence_place(draw))
            needed = data_bytes(record, count, 1, place)
            for lent in (needed, needed - 1):
                data, line = draw.octets(lent), draw.octets(6 * count)
                yield send_case(record, law, count, state, data, 6 * count, channel, a_number(draw))
                yield receive_case(record, law, count, state, line, lent, count, channel)


def flags_in_bytes(draw):
    """Flags of a state in bytes of other values than 0 and 1, the channel off and on."""
    for flag in (2, 128, 255):
        for channel, count in ((0, 0), (0, 1), (1, 0), (1, 1), (1, 2)):
            record, law = a_record(draw, draw.between(1, 28)), draw.below(2)
            state = at_places(draw, 0, draw.between(1, 15))._replace(sign=flag, lost=flag)
            yield a_send(draw, record, law, count, state, channel=channel * flag)
            line = draw.octets(6 * count)
            yield a_receive(draw, record, law, state, line, channel=channel * flag)


def some_choices(draw, total):
    """Whether the channel is on at each of some frames: it is on and off for some at a time."""
    choices, channel = [], draw.below(2)
    while len(choices) < total:
        choices += [channel] * draw.pick((1, 2, 4, 6))
        channel = 1 - channel
    return choices[:total]


def cut_by_choice(draw, choices):
    """Calls of the frames with these choices; calls of no frames have any choice."""
    calls = []
    while choices:
        same = next((n for n, each in enumerate(choices) if each != choices[0]), len(choices))
        count = min(same, draw.pick((0, 1, 2, 3, 7)))
        calls.append((choices[0] if count else draw.below(2), count))
        choices = choices[count:]
    return calls


def a_mixed_run(draw, record, law, total):
    """The cases of one run, on and off; the choice at each frame is the same at both ends."""
    start = at_places(draw, draw.pick((0, 63, draw.between(58, 62))), a_sequence_place(draw))
    choices = some_choices(draw, total)
    cases, line = sent(draw, record, law, start, cut_by_choice(draw, choices))
    line = damaged(draw, record, law, line)
    other = a_state(draw)._replace(frame_place=start.frame_place,
                                   sequence_place=start.sequence_place)
    begin = draw.pick((start, start, other, a_state(draw)))
    return cases + read(draw, record, law, begin, cut_by_choice(draw, choices), line)


def mixed_runs(draw):
    """A run with the channel on and off under every rate."""
    for drn in range(1, 29):
        yield from a_mixed_run(draw, a_record(draw, drn), draw.below(2), draw.between(3, 8))


def a_whole_sequence(draw, record, law, start, calls, reads, hurt=()):
    """A run with the channel on in which the frames of `hurt` are marked."""
    cases, line = sent(draw, record, law, start, in_calls(1, calls))
    line = bytearray(line)
    for n in hurt:
        line[6 * n:6 * n + 6] = a_frame(draw, record, law, draw.pick(possible_marks(record)))
    return cases + read(draw, record, law, start, in_calls(1, reads), bytes(line))


def whole_sequences(draw):
    """Sequences across calls: each sequence place is handed over, with a marked frame and without.

    In the first run every call has one control frame, its first; in the second it is its last.
    """
    record = a_record(draw, 1)
    yield from a_whole_sequence(draw, record, MU, at_places(draw, 0, 0), [64] * 15 + [1],
                                [64] * 15 + [1])
    yield from a_whole_sequence(draw, record, A, at_places(draw, 1, 0), [64] * 16,
                                [63, 1] * 4 + [64] * 12, [575])


def ends_and_starts(draw):
    """A call that ends with a sequence, one up to the next, which starts it, and one with all."""
    for cut in ([1, 63, 1], [1, 64], [64, 1], [65]):
        record, law = a_record(draw, draw.between(1, 4)), draw.below(2)
        bits = control.sequence_of(a_number(draw))
        start = at_places(draw, 0, 15)._replace(sequence=bits, lost=0)
        yield from a_whole_sequence(draw, record, law, start, cut, cut)


def long_calls_on(draw):
    """Calls of 1,024 frames from the first frame, from one between and from the last place."""
    for drn, law, places in ((1, MU, (0, 0)), (2, A, (33, 15)), (1, A, (63, 7))):
        yield from one_cut(draw, a_record(draw, drn), law, [1024], [1024], 1,
                           at_places(draw, *places))


def cases():
    """The stored cases in order."""
    draw = Draw(9105)
    found = list(example_calls())
    for group in (marked_frames, number_edges, states, no_frames, faulty_cases, runs, long_calls,
                  linear_cases, sparse_calls, sparse_faults, six_masks, counted_frames,
                  each_mark_counted, cold_starts, every_count_sent, counts_alone, count_faults,
                  every_place, places_alone, place_faults, every_bit_started, each_bit_wrong,
                  reserved_bits, faults_at_the_end, lost_and_found, marked_control_frames,
                  counted_control_frames, exact_buffers, flags_in_bytes, mixed_runs,
                  whole_sequences, ends_and_starts, long_calls_on):
        found += group(draw)
    return found
