"""The record: document 01, 'Bits, octets and the record', and the refusals it alone decides.

`granted` and `acknowledge` are 0 or 1, `drn` is 0 to 255, `indices` holds six numbers 0 to 255 and
`halves` twelve 64-bit numbers: half 2m has Ucodes 0 to 63 of mask m, half 2m + 1 has 64 to 127.
"""

import math
import struct
from collections import namedtuple

from refusals import Refusal

Record = namedtuple("Record", "granted drn acknowledge indices halves")

EMPTY = Record(0, 0, 0, (0,) * 6, (0,) * 12)
FULL_MASK = 2**128 - 1
BYTE_FORM = struct.Struct("<9B12Q")


def make(granted, drn, acknowledge, indices, masks):
    """A record from whole masks, mask 0 first; masks not given are empty."""
    halves = []
    for mask in list(masks) + [0] * (6 - len(masks)):
        halves += [mask & (2**64 - 1), mask >> 64]
    return Record(granted, drn, acknowledge, tuple(indices), tuple(halves))


# The record of the examples in document 01: Ucodes 0 to 5 in every interval, drn 1.
EXAMPLE = make(0, 1, 0, [0] * 6, [0x3F])


def mask_of(record, m):
    """Mask m as one number: bit u stands for Ucode u."""
    return record.halves[2 * m] | record.halves[2 * m + 1] << 64


def masks_of(record):
    """All six masks."""
    return [mask_of(record, m) for m in range(6)]


def k_of(record):
    """K, the bits that form the number R."""
    return record.drn + 14


def sizes_of(record):
    """M0 to M5. An index above 5 names no mask: the most it could hold, 128, stands in."""
    return [mask_of(record, i).bit_count() if i <= 5 else 128 for i in record.indices]


def empty_intervals(record):
    """The intervals whose mask is empty, the lowest first. An index above 5 names no mask."""
    return [i for i, size in enumerate(sizes_of(record)) if size == 0]


def faults(record):
    """The refusals 4, 9, 10, 25, 11 and 12 that hold for the record, in this order."""
    g = max(record.indices)
    has_rate = 1 <= record.drn <= 28
    empty = empty_intervals(record)
    if g > 5:
        yield Refusal(4)
    if record.drn > 28:
        yield Refusal(9)
    if record.granted and record.drn != 28:
        yield Refusal(10)
    if has_rate and empty:
        yield Refusal(25, empty[0])
    if has_rate and math.prod(sizes_of(record)) < 2 ** k_of(record):
        yield Refusal(11)
    if any(record.halves[2 * g + 2:]):
        yield Refusal(12)


def pack(record):
    """The record in 105 bytes: three fields, six indices, halves with the low byte first."""
    return BYTE_FORM.pack(*record[:3], *record.indices, *record.halves)


def unpack(form):
    """The record that `pack` put into 105 bytes."""
    fields = BYTE_FORM.unpack(form)
    return Record(*fields[:3], fields[3:9], fields[9:])
