"""The sequence of the control channel: V.91 6.4 and Table 3, and A.2 of document 02.

A sequence is handled as one number whose bit n is bit n of the sequence. What the sender is handed
and the receiver returns is a number of 56 bits: bit 0 is bit 16 of the sequence, bit 1 its bit 17,
and bits 2 to 55 are its bits 24 to 77.
"""

from collections import namedtuple

import cp

PATTERN = "0111011111111010"
CLEARDOWN_AT = 16
RETRAIN_AT = 17
DATA_AT = 24
DATA_BITS = 54
CRC_AT = 78
NUMBER_BITS = 2 + DATA_BITS

# The frames of a sequence, and the control bits of each.
FRAMES = 16
FRAME_BITS = 6
BITS = FRAMES * FRAME_BITS

NONE, HEARD, FRAME_LOST, PATTERN_WRONG, CRC_WRONG = range(5)

# What the receiver returns: one of those above, and the 56 bits, which are 0 unless it is HEARD.
Heard = namedtuple("Heard", "what number", defaults=(0,))
NOTHING = Heard(NONE)


def pattern_bits():
    """The printed pattern as a number: its left digit is bit 0."""
    return sum(int(digit) << n for n, digit in enumerate(PATTERN))


def covered(bits):
    """The bits that the CRC covers, 16 to 77, in order."""
    return [bits >> n & 1 for n in range(CLEARDOWN_AT, CRC_AT)]


def crc_of(bits):
    """The CRC that belongs to a sequence."""
    register = cp.CRC_START
    for bit in covered(bits):
        register = cp.crc_step(register, bit)
    return register


def crc_in(bits):
    """The CRC that a sequence has, its lowest bit first."""
    return bits >> CRC_AT & 0xFFFF


def sequence_of(number):
    """The whole sequence for 56 bits; bits above those are ignored."""
    data = number >> 2 & (1 << DATA_BITS) - 1
    bits = pattern_bits() | data << DATA_AT
    bits |= (number & 1) << CLEARDOWN_AT | (number >> 1 & 1) << RETRAIN_AT
    return bits | crc_of(bits) << CRC_AT


def number_in(bits):
    """The 56 bits of a sequence."""
    data = bits >> DATA_AT & (1 << DATA_BITS) - 1
    return bits >> CLEARDOWN_AT & 1 | (bits >> RETRAIN_AT & 1) << 1 | data << 2


def faults(bits, lost):
    """What is wrong with a sequence that has ended, in the order in which it is told."""
    if lost:
        yield FRAME_LOST
    if bits & 0xFFFF != pattern_bits():
        yield PATTERN_WRONG
    if crc_in(bits) != crc_of(bits):
        yield CRC_WRONG


def heard_in(bits, lost):
    """What the receiver returns of a sequence that has ended."""
    fault = next(faults(bits, lost), None)
    return Heard(fault) if fault else Heard(HEARD, number_in(bits))


def bits_at(bits, place):
    """The six control bits of the frame at a sequence place."""
    return bits >> FRAME_BITS * place & (1 << FRAME_BITS) - 1


def bits_so_far(bits, place, six):
    """A receiver's bits after the frame at a place: those before it, its six, zeros after them."""
    return bits & (1 << FRAME_BITS * place) - 1 | six << FRAME_BITS * place


def pack(heard):
    """What the receiver returns in eight bytes: one for what it is, seven for the 56 bits."""
    return bytes([heard.what]) + heard.number.to_bytes(7, "little")
