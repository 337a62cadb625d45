"""Seeded samples: numbers, masks, records and line states."""

import math
import random

import control
from frames import FRAME_PLACES, MOST_DOUBTFUL, SEQUENCE_PLACES, State
from record import FULL_MASK, k_of, make, masks_of, sizes_of


class Draw:
    """Seeded numbers. Only getrandbits is used: it draws alike in every version of Python."""

    def __init__(self, seed):
        self._random = random.Random(seed)

    def bits(self, count):
        """A number of that many bits."""
        return self._random.getrandbits(count) if count else 0

    def below(self, limit):
        """A number from 0 to limit - 1."""
        return self.bits(64) % limit

    def between(self, low, high):
        """A number from low to high."""
        return low + self.below(high - low + 1)

    def pick(self, items):
        """One of the items."""
        return items[self.below(len(items))]

    def octets(self, count):
        """That many octets."""
        return self.bits(8 * count).to_bytes(count, "little")


def a_mask(draw, size):
    """A mask of that many Ucodes."""
    if size > 64:
        return FULL_MASK ^ a_mask(draw, 128 - size)
    mask = 0
    while mask.bit_count() < size:
        mask |= 1 << draw.below(128)
    return mask


def some_indices(draw, g):
    """Six indices of which the largest is g."""
    indices = [draw.below(g + 1) for _ in range(6)]
    indices[draw.below(6)] = g
    return indices


def grown_sizes(draw, indices, k, most):
    """Six mask sizes whose product over the intervals is 2^K or more, mostly not by much."""
    sizes = [draw.between(1, min(most, 2 ** (k // 6))) for _ in range(6)]
    while math.prod(sizes[i] for i in indices) < 2**k:
        m = draw.pick(indices)
        sizes[m] = min(most, sizes[m] + draw.between(1, 6))
    return sizes


def a_record(draw, drn, g=None, granted=0, most=128):
    """An accepted record with that rate number and largest index, and masks of `most` at most."""
    g = draw.below(6) if g is None else g
    indices = some_indices(draw, g)
    if drn:
        sizes = grown_sizes(draw, indices, drn + 14, most)
    else:
        sizes = [draw.between(0, 128) for _ in range(6)]
    for m in range(g + 1):
        if m not in indices:
            sizes[m] = draw.between(0, 128)
    masks = [a_mask(draw, sizes[m]) for m in range(g + 1)]
    return make(granted, drn, draw.below(2), indices, masks)


def a_doubt(draw):
    """A count of doubtful bits within bounds, often the least or the largest."""
    return draw.pick((0, MOST_DOUBTFUL, draw.between(0, MOST_DOUBTFUL)))


def a_frame_place(draw):
    """A frame place within bounds, often that of a control frame or one just before it."""
    return draw.pick((0, 0, FRAME_PLACES - 1, draw.between(56, 63), draw.below(FRAME_PLACES)))


def a_sequence_place(draw):
    """A sequence place within bounds, often the first or the last."""
    return draw.pick((0, SEQUENCE_PLACES - 1, draw.below(SEQUENCE_PLACES)))


def a_number(draw):
    """The bits of a sequence as handed in: 56, at times more, at times few ones or few zeros."""
    few = 1 << draw.below(56)
    return draw.pick((draw.bits(56), draw.bits(56), draw.bits(64), draw.bits(2), few,
                      2**56 - 1 ^ few, 2**64 - 1))


def some_sequence_bits(draw):
    """What a state has as the bits of a sequence: a whole one, or any bits."""
    return draw.pick((control.sequence_of(a_number(draw)), draw.bits(control.BITS)))


def with_places(draw, state):
    """The state with other fields of the control channel, within bounds."""
    return state._replace(frame_place=a_frame_place(draw), sequence_place=a_sequence_place(draw),
                          sequence=some_sequence_bits(draw), lost=draw.below(2))


def a_state(draw):
    """A line state within bounds; the fields of the control channel are zeros in part."""
    state = State(draw.bits(23), draw.below(2), a_doubt(draw))
    return with_places(draw, state) if draw.below(3) else state


# Records at fault

def shrunk(draw, record):
    """The record with Ucodes taken away until refusal 11 just holds."""
    masks = masks_of(record)
    while math.prod(sizes_of(record)) >= 2 ** k_of(record):
        m = draw.pick([i for i in record.indices if i <= 5])
        inside = [u for u in range(128) if masks[m] >> u & 1]
        masks[m] ^= 1 << draw.pick(inside)
        record = make(*record[:3], record.indices, masks)
    return record


def emptied(draw, record):
    """The record with one mask emptied that an interval names."""
    masks = masks_of(record)
    masks[draw.pick([i for i in record.indices if i <= 5])] = 0
    return make(*record[:3], record.indices, masks)


def with_stray_mask(draw, record):
    """The record with one Ucode in a mask above g, which is 4 or less."""
    masks = masks_of(record)
    masks[draw.between(max(record.indices) + 1, 5)] |= 1 << draw.pick((0, 63, 64, 127))
    return make(*record[:3], record.indices, masks)


def with_index(record, interval, index):
    """The record with another index in one interval."""
    indices = list(record.indices)
    indices[interval] = index
    return record._replace(indices=tuple(indices))


def faulty_record(draw, numbers, g=None, most_drn=255, most_index=255):
    """A record in which those of 4, 9 to 12 and 25 hold that are in `numbers`.

    With 25 also 11 holds; with 13 the record's drn is 0.
    """
    g = draw.below(5) if g is None else g
    drn = 0 if 13 in numbers else draw.between(1, 27 if 10 in numbers else 28)
    record = a_record(draw, drn, g)
    if 4 in numbers:
        record = with_index(record, draw.below(6), draw.pick((6, draw.between(6, most_index))))
    if 9 in numbers:
        record = record._replace(drn=draw.pick((29, draw.between(29, most_drn))))
    if 10 in numbers:
        record = record._replace(granted=1)
    if 25 in numbers:
        record = emptied(draw, record)
    elif 11 in numbers:
        record = shrunk(draw, record)
    if 12 in numbers:
        record = with_stray_mask(draw, record)
    return record


# Records with empty masks

LOWER_HALF = 2**64 - 1
UPPER_HALF = LOWER_HALF << 64

# The record of the examples with an empty mask in intervals 2 and 4.
TWO_EMPTY = make(0, 1, 0, [0, 0, 1, 0, 1, 0], [0x3F])


def hollow(draw, drn, indices, empty):
    """A record with these indices in which, up to g, just the masks of `empty` are empty."""
    masks = [0 if m in empty else a_mask(draw, draw.between(1, 128))
             for m in range(max(indices) + 1)]
    return make(0, drn, draw.below(2), indices, masks)


def empty_by_one(draw, drn, intervals):
    """A record in which these intervals name one empty mask and the others another mask."""
    e = draw.below(6)
    other = draw.pick([m for m in range(6) if m != e])
    return hollow(draw, drn, [e if i in intervals else other for i in range(6)], {e})


def empty_by_own(draw, drn, intervals):
    """A record of six masks, none in the interval of its number; these intervals' are empty."""
    turn = draw.between(1, 5)
    indices = [(i + turn) % 6 for i in range(6)]
    return hollow(draw, drn, indices, {indices[i] for i in intervals})


def some_intervals(draw, count):
    """That many of the six intervals."""
    intervals = list(range(6))
    while len(intervals) > count:
        intervals.remove(draw.pick(intervals))
    return intervals


def records_with_empty_intervals(draw):
    """Records refused with 25: each interval alone and two to six, at all sorts of drn."""
    yield TWO_EMPTY
    for interval in range(6):
        yield empty_by_one(draw, draw.between(1, 28), [interval])
        yield empty_by_own(draw, draw.between(1, 28), [interval])
    for count in range(2, 7):
        yield empty_by_one(draw, draw.between(1, 28), some_intervals(draw, count))
        yield empty_by_own(draw, draw.between(1, 28), some_intervals(draw, count))
    for drn in (1, 28):
        yield empty_by_own(draw, drn, some_intervals(draw, 2))
    yield empty_by_own(draw, 28, [3])._replace(granted=1)


def without_a_rate(draw, most_drn):
    """Records with empty intervals in which 25 does not hold: drn is 0 or exceeds 28."""
    for drn in (0, 29, most_drn):
        yield empty_by_one(draw, drn, [draw.below(6)])
        yield empty_by_own(draw, drn, some_intervals(draw, 3))
        yield empty_by_own(draw, drn, range(6))._replace(granted=1)


def with_one_mask(drn, interval, mask):
    """A record with this mask in one interval and full masks in the others."""
    return make(0, drn, 1, [int(i == interval) for i in range(6)], [FULL_MASK, mask])


def hardly_empty(draw):
    """Records without an empty interval: halves of masks and unnamed masks are empty.

    Those with one Ucode fit up to drn 21, those with a half up to 27; one drn more gets 11.
    """
    for interval in range(6):
        yield with_one_mask(draw.pick((1, 27)), interval, LOWER_HALF)
        yield with_one_mask(draw.pick((1, 27)), interval, UPPER_HALF)
    for half in (LOWER_HALF, UPPER_HALF):
        yield with_one_mask(28, draw.below(6), half)
    for u in (0, 63, 64, 127):
        yield with_one_mask(21, draw.below(6), 1 << u)
        yield with_one_mask(22, draw.below(6), 1 << u)
    for g in range(1, 6):
        yield with_unnamed_empty(draw, g, draw.pick((1, 28)))
    yield make(0, 1, 0, [2] * 6, [0, 0, 1])


def a_sparse_record(draw):
    """A record of indices up to 5 and drn up to 31 whose masks are whole, in half or empty."""
    indices = some_indices(draw, draw.below(6))
    masks = [a_mask(draw, draw.between(1, 128)) & draw.pick((0, LOWER_HALF, UPPER_HALF, FULL_MASK))
             for _ in range(max(indices) + 1)]
    drn = draw.pick((0, 1, 28, 29, draw.between(0, 31), draw.between(1, 28), draw.between(1, 28)))
    return make(int(draw.below(8) == 0), drn, draw.below(2), indices, masks)


def with_unnamed_empty(draw, g, drn):
    """An accepted record in which masks below g, one or more, are unnamed and empty."""
    spared = draw.below(g)
    indices = [draw.pick([m for m in range(g + 1) if m != spared]) for _ in range(6)]
    indices[draw.below(6)] = g
    return make(0, drn, 0, indices, [FULL_MASK if m in indices else 0 for m in range(g + 1)])
