"""The cases of read_cp and write_cp that are stored."""

from itertools import combinations

import cp
from forms import read_case, write_case
from record import EMPTY, EXAMPLE, FULL_MASK, make, masks_of
from refusals import of_01
from samples import (Draw, a_mask, a_record, faulty_record, hardly_empty,
                     records_with_empty_intervals, shrunk, with_index, without_a_rate)

ALL_FULL = make(1, 28, 1, range(6), [FULL_MASK] * 6)

# In the order in which they are looked at.
READER_NUMBERS = (*range(1, 11), 25, 11)
WRITER_NUMBERS = (4, 9, 10, 25, 11, 12, 17)

# 9 wants a drn above 28, 11 and 25 one of 1 to 28; 4 wants g above 5, and then no mask stands
# above g.
APART = {(9, 11), (9, 25), (4, 12)}

RESERVED = [*range(25, 30), *range(35, 51), *range(52, 68), *range(69, 85), *range(86, 102),
            *range(129, 136)]


def pairs(numbers):
    """The pairs of refusals that can hold together, the first looked at first."""
    return [pair for pair in combinations(numbers, 2) if pair not in APART]


def pairs_with(number, numbers):
    """The pairs in which one refusal is."""
    return [pair for pair in pairs(numbers) if number in pair]


def byte_count(bits):
    """The bytes that so many bits need."""
    return (bits + 7) // 8


# Sequences

def body(record):
    """Bits 0 to 272 + γ of a sequence. Indices go up to 15 here; masks above 5 are then empty."""
    low = record._replace(indices=tuple(min(index, 5) for index in record.indices))
    bits = cp.bits_of(low) % (1 << cp.CRC_AT + 136 * max(low.indices))
    for index, at in zip(record.indices, cp.INDICES_AT):
        bits = bits & ~(15 << at) | index << at
    return bits


def some_of(draw, places):
    """Ones at some of the places."""
    return sum(1 << n for n in places if draw.below(2))


def sealed(bits, g, spoil=0):
    """The sequence with its CRC, XORed with `spoil`."""
    return bits | (cp.crc_of(bits, g) ^ spoil) << cp.CRC_AT + 136 * g


def in_bytes(bits, g):
    """A sequence in as many bytes as it needs."""
    return bits.to_bytes(byte_count(cp.length(g)), "little")


def noisy(draw, record):
    """The record's sequence with reserved, fill and padding bits at random."""
    g = max(record.indices)
    bits = sealed(body(record) | some_of(draw, RESERVED), g)
    bits |= some_of(draw, range(cp.end_of_crc(g), 8 * byte_count(cp.length(g))))
    return in_bytes(bits, g)


def plain(record):
    """The record's sequence."""
    return in_bytes(cp.bits_of(record), max(record.indices))


def length_of(record):
    """The length of the record's sequence in bits."""
    return cp.length(max(record.indices))


# Reading

def an_exceeding_count(draw, octets):
    """A bit count above 8 x the bytes, some near 2^64."""
    least = 8 * len(octets) + 1
    return draw.pick((least, least, least + draw.below(100), 2**63, 2**64 - draw.between(1, 8)))


def a_wrong_count(draw, g):
    """A bit count that is not the length for g, though all bits up to the CRC's end are there."""
    counts = [cp.length(g) - 1, cp.length(g) + 1, cp.length(g) + 6, cp.length(g + 1)]
    return draw.pick([count for count in counts if count >= cp.SHORTEST])


def faulty_sequence(draw, numbers):
    """A case of read_cp in which the refusals of `numbers` hold."""
    record = faulty_record(draw, numbers, g=0 if 2 in numbers else None,
                           most_drn=31, most_index=8)
    g = max(record.indices)
    bits = body(record) | some_of(draw, RESERVED)
    if 3 in numbers:
        bits &= ~(1 << draw.below(17))
    if 6 in numbers:
        bits |= 1 << 17 * draw.between(1, 16 + 8 * g)
    if 8 in numbers:
        bits ^= 1 << draw.pick((cp.ONE_AT, *cp.ZEROS_AT))
    spoil = draw.between(1, 2**16 - 1) if 7 in numbers else 0
    octets = in_bytes(sealed(bits, g, spoil), g)
    if 1 in numbers:
        return faulty_by_count(draw, numbers, octets, g)
    count = cp.length(g)
    if 5 in numbers:
        count = a_wrong_count(draw, g)
    if 2 in numbers:
        count = draw.between(cp.end_of_crc(0), cp.SHORTEST - 1)
    spare = byte_count(count) - len(octets) if count > 8 * len(octets) else draw.below(3)
    return read_case(octets + draw.octets(spare), count)


def faulty_by_count(draw, numbers, octets, g):
    """A case of read_cp with fewer bytes than the bit count says."""
    if len(numbers) == 1:
        return read_case(octets[:-draw.between(1, 3)], cp.length(g))
    if 2 in numbers:
        short = octets[:draw.below(36)]
        return read_case(short, draw.between(8 * len(short) + 1, cp.SHORTEST - 1))
    return read_case(octets, an_exceeding_count(draw, octets))


def accepted_records(draw):
    """Records of all rates and lengths."""
    yield from (EMPTY, EXAMPLE, ALL_FULL)
    for drn in range(29):
        yield a_record(draw, drn, drn % 6)
        yield a_record(draw, drn)
    yield a_record(draw, 28, 2, granted=1)
    yield a_record(draw, 28, 4, granted=1)
    yield with_unnamed_masks(draw)


def with_unnamed_masks(draw):
    """A record of six masks of which the intervals name one."""
    masks = [a_mask(draw, 20 * m + 3) for m in range(6)]
    return make(0, 20, 1, [5] * 6, masks)


def accepted_readings(draw):
    """Sequences read, plain and with ignored bits set, some with bytes after them."""
    for record in accepted_records(draw):
        yield read_case(plain(record), length_of(record))
        spare = draw.octets(draw.pick((0, 0, 1, 9)))
        yield read_case(noisy(draw, record) + spare, length_of(record))


def flips(draw):
    """One bit changed: each bit of the bench record's sequence, some bits of longer ones."""
    for n in range(296):
        bits = cp.bits_of(EXAMPLE) ^ 1 << n
        yield read_case(in_bytes(bits, 0), cp.length(0))
    for g in range(1, 6):
        record = a_record(draw, draw.between(1, 28), g)
        for _ in range(6):
            bits = cp.bits_of(record) ^ 1 << draw.below(cp.length(g))
            yield read_case(in_bytes(bits, g), cp.length(g))


def start_bits_set(draw):
    """Each start bit from that of the second mask on, in the longest sequence."""
    record = a_record(draw, 12, 5)
    for c in range(17, 57):
        yield read_case(in_bytes(cp.bits_of(record) | 1 << 17 * c, 5), cp.length(5))


def counts(draw):
    """Good sequences with bit counts about and beyond their lengths."""
    for g in range(6):
        octets = plain(a_record(draw, draw.between(1, 28), g))
        exact = cp.length(g)
        for count in (exact - 1, exact + 1, exact - 6, 8 * len(octets), 8 * len(octets) + 1,
                      2**64 - 8 + g):
            yield read_case(octets, count)
        longer = octets + draw.octets(20)
        for count in (exact + 1, cp.length((g + 1) % 6), 8 * len(longer)):
            yield read_case(longer, count)
        yield read_case(octets[:-1], exact)
    for count in (0, 1, 293, 294, 2**32, 2**61, 2**63, 2**64 - 1):
        yield read_case(b"", count)
    for count in (0, 16, 17, 288, 293, 294, 2**63, 2**64 - 1, 2**64 - 7):
        yield read_case(plain(EXAMPLE), count)


def fields_at_fault(draw):
    """Single fields of a sequence: 4, 8, 9 and 10 by each way they can hold, with the CRC right."""
    for at in (cp.ONE_AT, *cp.ZEROS_AT):
        yield read_case(in_bytes(sealed(body(EXAMPLE) ^ 1 << at, 0), 0), cp.length(0))
    for interval in range(6):
        record = with_index(EXAMPLE, interval, 6 + interval)
        bits = sealed(body(record), 0)
        yield read_case(in_bytes(bits, 0), cp.length(0))
    bits = sealed(body(with_index(EXAMPLE, 2, 15)), 0)
    yield read_case(in_bytes(bits, 0), cp.length(0))
    for drn in (0, 1, 14, 27, 29, 30, 31):
        for granted in (0, 1):
            record = make(granted, drn, 1, [0] * 6, [FULL_MASK])
            yield read_case(plain(record), cp.length(0))


def edge_records(draw):
    """Records at the edge of refusal 11: the bench's B9 and B10, and others one Ucode apart."""
    for last in (31, 15):
        yield make(0, 1, 0, [0, 0, 0, 0, 0 if last == 31 else 1, 1], [63, 31])
    yield make(0, 28, 0, [0] * 6, [FULL_MASK])
    for u in (0, 127):
        yield make(0, 28, 0, [0, 0, 0, 0, 0, 1], [FULL_MASK, FULL_MASK ^ 1 << u])
    yield make(0, 1, 0, [0, 0, 1, 1, 1, 1], [7, 0xFF])
    yield make(0, 22, 0, [0] * 6, [2**64 - 1])
    yield make(0, 22, 0, [0, 0, 0, 1, 0, 0], [2**64 - 1, 2**63 - 1])
    yield make(0, 5, 1, [0, 1, 2, 3, 4, 5], [FULL_MASK] * 5)
    for drn in range(2, 28, 5):
        record = a_record(draw, drn)
        yield record
        yield shrunk(draw, record)


def reader_cases(draw):
    """The cases of read_cp in document 01."""
    yield from accepted_readings(draw)
    yield from flips(draw)
    yield from start_bits_set(draw)
    yield from counts(draw)
    yield from fields_at_fault(draw)
    for record in edge_records(draw):
        yield read_case(plain(record), length_of(record))
    for number in of_01(READER_NUMBERS):
        yield from (faulty_sequence(draw, {number}) for _ in range(2))
    for pair in pairs(of_01(READER_NUMBERS)):
        yield faulty_sequence(draw, set(pair))


# Writing

def faulty_writing(draw, numbers):
    """A case of write_cp in which the refusals of `numbers` hold."""
    record = faulty_record(draw, numbers, most_index=255 if 17 in numbers else 6)
    needed = byte_count(length_of(record))
    if 17 in numbers:
        room = draw.pick((0, min(needed - 1, 122)))
    else:
        room = needed + draw.below(4)
    return write_case(record, draw.octets(room))


def accepted_writings(draw):
    """Records written into buffers of the exact size and longer."""
    for record in accepted_records(draw):
        spare = draw.pick((0, 0, 1, 2, 30))
        yield write_case(record, draw.octets(byte_count(length_of(record)) + spare))


def short_buffers(draw):
    """Buffers one byte short and empty, for each length."""
    for g in range(6):
        record = a_record(draw, draw.between(0, 28), g)
        needed = byte_count(cp.length(g))
        for room in (needed - 1, needed, 0):
            yield write_case(record, draw.octets(room))


def stray_masks(draw):
    """A single Ucode in each mask above g, for each g."""
    for g in range(5):
        for m in range(g + 1, 6):
            record = a_record(draw, draw.between(0, 28), g)
            masks = masks_of(record)
            masks[m] = 1 << draw.pick((0, 63, 64, 127))
            record = make(*record[:3], record.indices, masks)
            yield write_case(record, draw.octets(122))


def record_fields_at_fault(draw):
    """Single fields of a record: 4, 9 and 10 by values near and far."""
    for interval in range(6):
        for index in (6, draw.pick((8, 16, 128, 255))):
            record = with_index(a_record(draw, draw.between(0, 28)), interval, index)
            yield write_case(record, draw.octets(140))
    for drn in (0, 1, 27, 29, 31, 32, 33, 60, 64, 128, 156, 255):
        for granted in (0, 1):
            record = make(granted, drn, 1, [0] * 6, [FULL_MASK])
            yield write_case(record, draw.octets(37))


def writer_cases(draw):
    """The cases of write_cp in document 01."""
    yield from accepted_writings(draw)
    yield from short_buffers(draw)
    yield from stray_masks(draw)
    yield from record_fields_at_fault(draw)
    for record in edge_records(draw):
        yield write_case(record, draw.octets(byte_count(length_of(record))))
    for number in of_01(WRITER_NUMBERS):
        yield from (faulty_writing(draw, {number}) for _ in range(3))
    for pair in pairs(of_01(WRITER_NUMBERS)):
        yield from (faulty_writing(draw, set(pair)) for _ in range(2))


# Empty intervals (A.8)

def sparse_records(draw, most_drn):
    """Records with empty intervals, and records that might be taken for such."""
    yield from records_with_empty_intervals(draw)
    yield from without_a_rate(draw, most_drn)
    yield from hardly_empty(draw)


def sparse_readings(draw):
    """Records with empty masks read, and 25 together with every other refusal of the reader."""
    for record in sparse_records(draw, 31):
        yield read_case(plain(record), length_of(record))
    for pair in pairs_with(25, READER_NUMBERS):
        yield faulty_sequence(draw, set(pair))


def sparse_writings(draw):
    """Records with empty masks written, and 25 together with every other refusal of the writer."""
    for record in sparse_records(draw, 255):
        yield write_case(record, draw.octets(byte_count(length_of(record)) + draw.below(2)))
    for pair in pairs_with(25, WRITER_NUMBERS):
        yield from (faulty_writing(draw, set(pair)) for _ in range(2))


def cases():
    """The stored cases in order."""
    draw = Draw(9104)
    found = []
    for group in (reader_cases, writer_cases, sparse_readings, sparse_writings):
        found += group(draw)
    return found
