"""CP and E_s sent, and the line state found from them: V.91 7.2 and 7.5, and A.3 of document 02.

The bits of CP and the twelve of E_s run through the scrambler and the differential coder one by
one, and each is the sign of an octet of Ucode 66. What a line state has besides history and last
sign stays as it is.
"""

from cp import bits_of, length
from frames import FRESH, push, state_faults, taps
from record import faults as record_faults
from refusals import Refusal
from table1 import octet_of

UCODE = 66
E_S = (0,) * 12

# The octets from which a line state is found: their signs give the 23 bits of a history.
FOUND_FROM = 24


# Sending

def cp_bits(record):
    """The bits of CP, the first in time first: sync, start bits and fill are among them."""
    bits = bits_of(record)
    return [bits >> n & 1 for n in range(length(max(record.indices)))]


def octet_count(record):
    """The octets of CP and E_s."""
    return length(max(record.indices)) + len(E_S)


def send_bit(law, state, bit):
    """(Octet, state after it) for one bit of CP or E_s."""
    scrambled = bit ^ taps(state.history)
    sign = scrambled ^ state.sign
    after = state._replace(history=push(state.history, scrambled), sign=sign)
    return octet_of(law, sign, UCODE), after


def send_bits(law, state, bits):
    """(Octets, state after them) for some bits."""
    octets = []
    for bit in bits:
        octet, state = send_bit(law, state, bit)
        octets.append(octet)
    return bytes(octets), state


def cp_faults(record, law, state, octets):
    """The refusals 4, 9, 10, 25, 11, 12, 14, 18, 19 and 17 that hold, in this order.

    Where an index exceeds 5, the octets needed are judged by the same formula in g.
    """
    yield from record_faults(record)
    yield from state_faults(state)
    if len(octets) < octet_count(record):
        yield Refusal(17)


def send_cp(record, law, state, octets):
    """Return (refusal or None, octet count, state left, octets afterwards).

    After a refusal the count is 0.
    """
    refusal = next(cp_faults(record, law, state, octets), None)
    if refusal:
        return refusal, 0, state, bytes(octets)
    made, after = send_bits(law, state, [*cp_bits(record), *E_S])
    return None, len(made), after, made + bytes(octets[len(made):])


def from_zero(record, law):
    """(Octets of CP and E_s, state left) from the zero state, for a record that is accepted."""
    _, _, state, octets = send_cp(record, law, FRESH, bytes(octet_count(record)))
    return octets, state


# Finding the line state

def last_signs(octets):
    """The signs of the last 24 octets, the last in time last; the law does not matter."""
    return [octet >> 7 for octet in octets[-FOUND_FROM:]]


def scrambled_bits(signs):
    """The scrambled bits between signs, each a sign XOR the sign before it."""
    return [sign ^ before for before, sign in zip(signs, signs[1:])]


def history_of(bits):
    """The history after so many scrambled bits, the latest at weight 1."""
    history = 0
    for bit in bits:
        history = push(history, bit)
    return history


def find_faults(octets, state):
    """The refusals that hold, in order: there have to be 24 octets, whatever the state holds."""
    if len(octets) < FOUND_FROM:
        yield Refusal(16)


def find_state(octets, state):
    """Return (refusal or None, state) with the history and the last sign that octets leave."""
    refusal = next(find_faults(octets, state), None)
    if refusal:
        return refusal, state
    signs = last_signs(octets)
    return None, state._replace(history=history_of(scrambled_bits(signs)), sign=signs[-1])
