"""The cases of send_cp and find_state that are stored."""

from cases_cp import ALL_FULL, with_unnamed_masks
from cases_frames import PLACES, at_places, faulty_state, pairs, possible
from forms import find_state_case, outcome, send_cp_case
from frames import COLD, FRESH, HISTORIES, MOST_DOUBTFUL, State
from record import EMPTY, EXAMPLE
from samples import (TWO_EMPTY, Draw, a_record, a_state, empty_by_own, faulty_record, with_places,
                     without_a_rate)
from start import E_S, FOUND_FROM, UCODE, octet_count
from table1 import A, MU, octet_of

# In the order in which they are looked at.
NUMBERS = (4, 9, 10, 25, 11, 12, 14, 18, 19, 17)

# The most octets of a case of find_state: the whole case has 1,400 bytes at most.
MOST_OCTETS = 1378


# CP and E_s sent

def a_sending(record, law, state, spare=0):
    """A call that is not declined, in a buffer of the exact length or longer."""
    return send_cp_case(record, law, state, octet_count(record) + spare)


def example_calls():
    """The record of the examples, cleardown and full masks, in both laws, from the zero state."""
    for record in (EXAMPLE, EMPTY, ALL_FULL):
        for law in (MU, A):
            yield a_sending(record, law, FRESH)


def lengths(draw):
    """Each length in both laws, from the zero state and from another."""
    for g in range(6):
        for law in (MU, A):
            record = a_record(draw, draw.between(0, 28), g)
            yield a_sending(record, law, FRESH)
            yield a_sending(record, law, a_state(draw), draw.below(3))


def rates(draw):
    """Each drn, cleardown among them, then granted, masks that no interval names, acknowledge."""
    for drn in range(29):
        yield a_sending(a_record(draw, drn, drn % 6), draw.below(2), a_state(draw))
    yield a_sending(a_record(draw, 28, 2, granted=1), draw.below(2), a_state(draw))
    yield a_sending(with_unnamed_masks(draw), draw.below(2), a_state(draw))
    for record in (EXAMPLE, EMPTY):
        yield a_sending(record._replace(acknowledge=1), draw.below(2), FRESH)


def histories(draw):
    """Each bit of the history alone and all of them, with both signs, and the sign alone."""
    for n in range(23):
        yield a_sending(EXAMPLE, draw.below(2), State(1 << n, n % 2, 0))
    for sign in (0, 1):
        yield a_sending(EXAMPLE, draw.below(2), State(HISTORIES - 1, sign, 0))
    for law in (MU, A):
        yield a_sending(EMPTY, law, State(0, 1, 0))


def fields_kept(draw):
    """Each count of doubtful bits, places at their bounds, and flags in bytes of other values."""
    for count in range(MOST_DOUBTFUL + 1):
        state = with_places(draw, State(draw.bits(23), draw.below(2), count))
        yield a_sending(EXAMPLE, draw.below(2), state)
    for places in ((0, 0), (63, 0), (0, 15), (1, 8)):
        yield a_sending(EMPTY, draw.below(2), at_places(draw, *places))
    for flag in (2, 128, 255):
        state = with_places(draw, a_state(draw))._replace(sign=flag, lost=flag)
        yield a_sending(EXAMPLE, draw.below(2), state)
        yield send_cp_case(EXAMPLE, draw.below(2), state, 0)


def buffers(draw):
    """For each length buffers one octet short, empty, of CP alone, exact, and longer."""
    for g in range(6):
        record, state = a_record(draw, draw.between(0, 28), g), a_state(draw)
        needed = octet_count(record)
        for room in (needed - 1, 0, needed - len(E_S), needed, needed + 1, needed + 24):
            yield send_cp_case(record, draw.below(2), state, room)


def bounds(draw):
    """Histories, counts and places at their bounds and beyond."""
    for history in (HISTORIES - 1, HISTORIES, HISTORIES + 1, 2**24, 2**31, 2**32 - 1):
        yield a_sending(EXAMPLE, draw.below(2), a_state(draw)._replace(history=history))
    for count in (24, 25, 26, 31, 32, 127, 128, 152, 255):
        yield a_sending(EXAMPLE, draw.below(2), a_state(draw)._replace(doubtful=count))
    for places in PLACES:
        yield a_sending(EMPTY, draw.below(2), at_places(draw, *places))


def faulty_sending(draw, numbers):
    """A case of send_cp in which the refusals of `numbers` hold."""
    record = faulty_record(draw, numbers, most_index=255 if 17 in numbers else 6)
    needed = octet_count(record)
    if 17 in numbers:
        room = draw.pick((0, min(needed - 1, 983)))
    else:
        room = needed + draw.below(3)
    return send_cp_case(record, draw.below(2), faulty_state(draw, numbers), room)


def faulty_cases(draw):
    """Each refusal alone, each pair, greater sets at random, and cleardown with each of a state."""
    for number in NUMBERS:
        yield from (faulty_sending(draw, {number}) for _ in range(2))
    for pair in pairs(NUMBERS):
        yield faulty_sending(draw, set(pair))
    for _ in range(24):
        numbers = {number for number in NUMBERS if draw.below(3) == 0}
        if possible(numbers):
            yield faulty_sending(draw, numbers)
    for number in (14, 18, 19, 17):
        record = a_record(draw, 0)
        room = 0 if number == 17 else octet_count(record)
        yield send_cp_case(record, draw.below(2), faulty_state(draw, {number}), room)


def sparse_records(draw):
    """Records with empty intervals, each of them alone, and such with drn 0 or above 28."""
    alone = [empty_by_own(draw, draw.between(1, 28), [interval]) for interval in range(6)]
    for record in (TWO_EMPTY, *alone, *without_a_rate(draw, 255)):
        yield a_sending(record, draw.below(2), a_state(draw))


# One call after another

def chained(draw, law, state, records):
    """(Cases, octets sent) of CPs one after another; a call that is refused stands among them."""
    cases, line = [], b""
    for record in records:
        refused = faulty_record(draw, {draw.pick((4, 9, 10, 25, 11, 12))}, most_index=6)
        cases.append(send_cp_case(refused, law, state, draw.pick((0, 24))))
        cases.append(a_sending(record, law, state, draw.pick((0, 2))))
        _, count, state, octets = outcome(cases[-1])
        line += octets[:count]
    return cases, line


def cp_after_cp(draw):
    """CPs one after another, each with the state that the last one left, and the state found."""
    for law, begin, gs in ((MU, FRESH, (0, 0)), (A, FRESH, (1, 0, 0)), (MU, a_state(draw), (0, 2)),
                           (A, a_state(draw), (0, 0, 0))):
        records = [a_record(draw, draw.between(0, 28), g) for g in gs]
        cases, line = chained(draw, law, begin, records)
        yield from cases
        yield find_state_case(line[-MOST_OCTETS:], draw.pick((FRESH, COLD, a_state(draw))))


# The line state found

def signed(draw, law, signs, ucodes=(UCODE,)):
    """Octets with these signs, of one of some Ucodes each."""
    return bytes(octet_of(law, sign, draw.pick(ucodes)) for sign in signs)


def counts_of_octets(draw):
    """From no octet to 50, any octets: 16 below 24."""
    for count in (0, 1, 2, 6, 12, 22, 23, 24, 25, 26, 30, 47, 48, 50):
        yield find_state_case(draw.octets(count), draw.pick((FRESH, a_state(draw))))


def each_bit_found(draw):
    """24 octets with one change of sign at each place, or none, from either sign.

    Some have an octet of the other sign before them.
    """
    for place in range(FOUND_FROM):
        for sign in (0, 1):
            signs = [sign] * place + [1 - sign] * (FOUND_FROM - place)
            before = [1 - signs[0]] * draw.below(2)
            yield find_state_case(signed(draw, draw.below(2), before + signs),
                                  draw.pick((FRESH, COLD, a_state(draw))))


def any_octets(draw):
    """Octets of Ucode 66 and of any in both laws, and of any kind up to the most of a case."""
    for law in (MU, A):
        for count in (24, 25, 90):
            signs = [draw.below(2) for _ in range(count)]
            yield find_state_case(signed(draw, law, signs), a_state(draw))
            yield find_state_case(signed(draw, law, signs, range(128)), a_state(draw))
    for count in (100, 306, 984, MOST_OCTETS):
        yield find_state_case(draw.octets(count), a_state(draw))


def octets_sent(draw):
    """Octets of CP and E_s, whole and in part, with others before them and behind them."""
    for g in range(6):
        record, law = a_record(draw, draw.between(0, 28), g), g % 2
        count, left, octets = outcome(a_sending(record, law, a_state(draw)))[1:]
        yield find_state_case(octets[:count], draw.pick((FRESH, left, a_state(draw))))
        yield find_state_case(octets[-draw.pick((24, 25)):], a_state(draw))
    for law in (MU, A):
        line = outcome(a_sending(EXAMPLE, law, FRESH))[3]
        for spare in (1, 100):
            yield find_state_case(draw.octets(spare) + line, FRESH)
            yield find_state_case(line + draw.octets(spare), FRESH)
        yield find_state_case(draw.octets(282) + line[-24:], COLD)


def states_beyond(draw):
    """States whose history, count or places are out of bounds: they are not looked at."""
    for numbers in ({14}, {18}, {19}, {14, 18}, {14, 19}, {18, 19}, {14, 18, 19}):
        for count in (23, 24):
            yield find_state_case(draw.octets(count), faulty_state(draw, numbers))
    for history in (HISTORIES - 1, HISTORIES, 2**31, 2**32 - 1):
        state = a_state(draw)._replace(history=history)
        yield find_state_case(draw.octets(24), state)
    for places in PLACES:
        yield find_state_case(draw.octets(24), at_places(draw, *places))
    for flag in (2, 128, 255):
        state = with_places(draw, a_state(draw))._replace(sign=flag, lost=flag)
        yield find_state_case(draw.octets(23), state)
        yield find_state_case(draw.octets(24), state)


def cases():
    """The stored cases in order."""
    draw = Draw(9106)
    found = list(example_calls())
    for group in (lengths, rates, histories, fields_kept, buffers, bounds, faulty_cases,
                  sparse_records, cp_after_cp, counts_of_octets, each_bit_found, any_octets,
                  octets_sent, states_beyond):
        found += group(draw)
    return found
