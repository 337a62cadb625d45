"""Reading and writing CP: document 01, 'CP (V.91, Table 4)'.

A sequence is handled as one number whose bit n is bit n of the sequence.
"""

from record import EMPTY, faults as record_faults, make, mask_of
from refusals import Refusal

SYNC = 2**17 - 1
GRANTED_AT = 18
ONE_AT = 19
DRN_AT = 20
ZEROS_AT = (30, 31, 32, 128)
ACKNOWLEDGE_AT = 33
INDICES_AT = (103, 107, 111, 115, 120, 124)
MASKS_AT = 137
CRC_AT = 273
SHORTEST = 294
CRC_START = 0xFFFF


def crc_step(register, bit):
    """One step of the CRC: compare with the lowest bit, halve, and XOR 8408 if they differed."""
    differed = (register ^ bit) & 1
    return register >> 1 ^ (0x8408 if differed else 0)


def crc_eight_steps(register):
    """Eight steps with zero bits."""
    for _ in range(8):
        register = crc_step(register, 0)
    return register


CRC_TABLE = [crc_eight_steps(octet) for octet in range(256)]


def crc(octets):
    """The CRC of octets taken lowest bit first, eight steps at a time."""
    register = CRC_START
    for octet in octets:
        register = register >> 8 ^ CRC_TABLE[(register ^ octet) & 0xFF]
    return register


def covered(bits, g):
    """Bits 18 to 271 + γ without the start bits, in octets; each start bit leads 16 others."""
    words = (bits >> 18 + 17 * j & 0xFFFF for j in range(15 + 8 * g))
    return b"".join(word.to_bytes(2, "little") for word in words)


def crc_of(bits, g):
    """The CRC that belongs to a sequence with masks 0 to g."""
    return crc(covered(bits, g))


def end_of_crc(g):
    """The number of bits up to the end of the CRC."""
    return CRC_AT + 136 * g + 16


def length(g):
    """The length in bits: zeros follow the CRC up to a multiple of 6."""
    return (end_of_crc(g) + 5) // 6 * 6


def start_bits(g):
    """Ones at all start bits, 17 to 272 + γ."""
    return sum(1 << n for n in range(17, 272 + 136 * g + 1, 17))


def runs_at(m):
    """Where the eight runs of 16 of mask m stand."""
    return [MASKS_AT + 136 * m + 17 * c for c in range(8)]


def indices_in(bits):
    """The six interval indices of a sequence."""
    return tuple(bits >> at & 15 for at in INDICES_AT)


def mask_in(bits, m):
    """Mask m of a sequence."""
    return sum((bits >> at & 0xFFFF) << 16 * c for c, at in enumerate(runs_at(m)))


def record_in(bits):
    """The record of a sequence; masks above g are empty, and so are those above 5."""
    indices = indices_in(bits)
    masks = [mask_in(bits, m) for m in range(min(max(indices), 5) + 1)]
    granted = bits >> GRANTED_AT & 1
    acknowledge = bits >> ACKNOWLEDGE_AT & 1
    return make(granted, bits >> DRN_AT & 31, acknowledge, indices, masks)


def bits_of(record):
    """The sequence of a record, as a number."""
    g = max(record.indices)
    bits = SYNC | 1 << ONE_AT
    bits |= record.granted << GRANTED_AT | record.drn << DRN_AT
    bits |= record.acknowledge << ACKNOWLEDGE_AT
    for index, at in zip(record.indices, INDICES_AT):
        bits |= index << at
    for m in range(g + 1):
        for c, at in enumerate(runs_at(m)):
            bits |= (mask_of(record, m) >> 16 * c & 0xFFFF) << at
    return bits | crc_of(bits, g) << CRC_AT + 136 * g


def lent_bits(octets, bit_count):
    """(How many bits there are, the bits): those within the count and within the bytes lent."""
    there = min(bit_count, 8 * len(octets))
    bits = int.from_bytes(octets[:(there + 7) // 8], "little")
    return there, bits & (1 << there) - 1


def reader_faults(octets, bit_count):
    """The refusals 1 to 10, 25 and 11 that hold, in this order.

    A test says nothing when the bits it looks at are not all there. Where an index exceeds 5,
    length and CRC are judged by the same formulas in g.
    """
    there, bits = lent_bits(octets, bit_count)
    if bit_count > 8 * len(octets):
        yield Refusal(1)
    if bit_count < SHORTEST:
        yield Refusal(2)
    if ~bits & SYNC & (1 << there) - 1:
        yield Refusal(3)
    if there < end_of_crc(0):
        return
    g = max(indices_in(bits))
    whole = there >= end_of_crc(g)
    if g > 5:
        yield Refusal(4)
    if bit_count != length(g):
        yield Refusal(5)
    if bits & start_bits(g):
        yield Refusal(6)
    if whole and crc_of(bits, g) != bits >> CRC_AT + 136 * g & 0xFFFF:
        yield Refusal(7)
    if not bits >> ONE_AT & 1 or any(bits >> at & 1 for at in ZEROS_AT):
        yield Refusal(8)
    judged = (9, 10, 25, 11) if whole else (9, 10)
    yield from (fault for fault in record_faults(record_in(bits)) if fault.number in judged)


def read_cp(octets, bit_count):
    """Return (refusal or None, record); the record is all zero after a refusal."""
    refusal = next(reader_faults(octets, bit_count), None)
    if refusal:
        return refusal, EMPTY
    return None, record_in(lent_bits(octets, bit_count)[1])


def writer_faults(record, buffer):
    """The refusals 4, 9, 10, 25, 11, 12 and 17 that hold, in this order."""
    yield from record_faults(record)
    if 8 * len(buffer) < length(max(record.indices)):
        yield Refusal(17)


def write_cp(record, buffer):
    """Return (refusal or None, bit count, buffer afterwards); after a refusal the count is 0."""
    refusal = next(writer_faults(record, buffer), None)
    if refusal:
        return refusal, 0, bytes(buffer)
    count = length(max(record.indices))
    written = bits_of(record).to_bytes((count + 7) // 8, "little")
    return None, count, written + bytes(buffer[len(written):])
