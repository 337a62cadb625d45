"""One flipped sign: A.13 of document 02.

What it costs is found by receiving one line of good frames twice, as it is and with the sign of one
octet the other way, the control channel off.
"""

from frames import FRESH, data_bytes, frame_bits, receive, send
from record import FULL_MASK, make
from samples import Draw
from table1 import MU

SIGN = 0x80

# The frame that is hit, which is the first, and the four after it.
FRAMES = 5


def flipped(octets, frame, interval):
    """The octets with the sign of one of them the other way."""
    place = 6 * frame + interval
    return octets[:place] + bytes([octets[place] ^ SIGN]) + octets[place + 1:]


def record_of(k):
    """A record of that K."""
    return make(0, k - 14, 0, [0] * 6, [FULL_MASK])


def good_line(record):
    """The octets of a message in good frames."""
    data = Draw(record.drn).octets(data_bytes(record, FRAMES))
    return send(record, MU, FRAMES, FRESH, 0, 0, data, bytes(6 * FRAMES))[2]


def handed_over(record, octets):
    """The data bits that the receiver makes of good frames, as a number."""
    lent = bytes(data_bytes(record, FRAMES)), bytes(FRAMES)
    return int.from_bytes(receive(record, MU, FRAMES, FRESH, 0, octets, *lent)[3], "little")


def changed_places(k, interval):
    """The data bits that change, counted from the first of the frame that is hit, in order."""
    record = record_of(k)
    octets = good_line(record)
    differing = handed_over(record, octets) ^ handed_over(record, flipped(octets, 0, interval))
    return [place for place in range(FRAMES * frame_bits(record)) if differing >> place & 1]
