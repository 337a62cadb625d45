"""The cases of one flipped sign that are stored."""

from cases_frames import a_frame, a_send, faulty_state, possible_marks
from flip import changed_places
from forms import flip_case, outcome
from frames import COLD, FRESH, HISTORIES
from plan import RATES
from record import EXAMPLE, k_of
from samples import Draw, a_record, a_state, faulty_record, with_places
from table1 import A, MU

INTERVALS = range(6)

# K at which a sign of interval 5 changes fewer bits, and K beside these.
FEWER = (17, 22)
BESIDE_FEWER = (16, 18, 21, 23)

# The most frames of a case: the whole case has 1,400 bytes at most.
MOST_FRAMES = 211


def frames_needed(k, interval):
    """How many frames after the one that is hit need be good: those that have changed places."""
    return changed_places(k, interval)[-1] // (k + 6)


# Lines

def good_frames(draw, record, law, state, count):
    """Octets of so many frames as the sender makes them from a state."""
    return outcome(a_send(draw, record, law, count, state))[2]


def a_marked_frame(draw, record, law):
    """Six octets that get a mark; under full masks at K = 42, where none do, any six."""
    marks = possible_marks(record)
    return a_frame(draw, record, law, draw.pick(marks)) if marks else draw.octets(6)


def a_damaged_frame(draw, record, law):
    """Six octets that get a mark, any six, or those of another good frame."""
    return draw.pick((a_marked_frame(draw, record, law), draw.octets(6),
                      a_frame(draw, record, law, 0)))


def with_frame(octets, n, frame):
    """The octets with six others in frame n."""
    return octets[:6 * n] + frame + octets[6 * n + 6:]


def with_damage(draw, record, law, octets, some):
    """The octets with about every other one of some frames damaged."""
    for n in some:
        if draw.below(2):
            octets = with_frame(octets, n, a_damaged_frame(draw, record, law))
    return octets


# Hits

def a_begin(draw, sender):
    """The state in which the receiver begins: the sender's, fresh, cold or another."""
    cold = a_state(draw)._replace(doubtful=COLD.doubtful)
    return draw.pick((sender, sender, FRESH, COLD, cold, a_state(draw)))


def a_hit(draw, record, law, interval, before, after, marked=(), state=None):
    """A case with so many frames before the one that is hit and after it.

    Frames before it are damaged in part, and so are those after it that need not be good. Those in
    `marked`, counted from the one that is hit, are marked. The receiver begins in any state where
    none is given.
    """
    sender, total = a_state(draw), before + 1 + after
    octets = good_frames(draw, record, law, sender, total)
    needless = range(before + frames_needed(k_of(record), interval) + 1, total)
    octets = with_damage(draw, record, law, octets, [*range(before), *needless])
    for n in marked:
        octets = with_frame(octets, before + n, a_marked_frame(draw, record, law))
    state = a_begin(draw, sender) if state is None else state
    return flip_case(record, law, state, before, interval, octets)


def examples(draw):
    """Zeros and another message under the record of the examples, from the fresh state."""
    octets = good_frames(draw, EXAMPLE, MU, FRESH, 5)
    for interval in INTERVALS:
        yield flip_case(EXAMPLE, MU, FRESH, 0, interval, b"\x7a" * 30)
        yield flip_case(EXAMPLE, MU, FRESH, 0, interval, octets)


def every_hit(draw):
    """Each K and interval, with the frames that are needed and others."""
    for k in RATES:
        for interval in INTERVALS:
            record, needed = a_record(draw, k - 14), frames_needed(k, interval)
            before, after = draw.below(6), draw.pick((needed, needed + 1, 4, 4))
            yield a_hit(draw, record, (k + interval) % 2, interval, before, after)


def fewer_bits(draw):
    """Interval 5 at K = 17 and 22, where fewer bits change, and beside them, in both laws."""
    for k in (*FEWER, *BESIDE_FEWER):
        for law in (MU, A):
            yield a_hit(draw, a_record(draw, k - 14), law, 5, draw.below(3), 4)
            yield a_hit(draw, a_record(draw, k - 14), law, 5, 0, frames_needed(k, 5))


def just_after_a_mark(draw):
    """The frame before the one that is hit is marked, and so is the first that is not needed."""
    for interval in INTERVALS:
        for k in (draw.between(15, 17), draw.between(18, 41)):
            record, law, needed = a_record(draw, k - 14), draw.below(2), frames_needed(k, interval)
            before = draw.between(1, 3)
            yield a_hit(draw, record, law, interval, before, needed + 2, (-1, needed + 1))


def states(draw):
    """Histories at their bounds, counts, fields of the channel, flags in bytes of other values."""
    for state in (FRESH, COLD, *(FRESH._replace(history=n) for n in (1, 2**22, HISTORIES - 1))):
        record, law = a_record(draw, draw.between(1, 28)), draw.below(2)
        yield a_hit(draw, record, law, draw.below(6), 0, 2, state=state._replace(sign=1))
    for count in (1, 12, 20, 21, 23, 24):
        record, law = a_record(draw, draw.between(1, 4)), draw.below(2)
        state = with_places(draw, a_state(draw)._replace(doubtful=count))
        yield a_hit(draw, record, law, draw.below(6), draw.below(2), 2, state=state)
    for flag in (2, 128, 255):
        record, law = a_record(draw, draw.between(1, 28)), draw.below(2)
        state = with_places(draw, a_state(draw))._replace(sign=flag, lost=flag)
        yield a_hit(draw, record, law, draw.below(6), draw.below(2), 2, state=state)


def many_frames(draw):
    """As many frames as a case has, hit in the first, in one between and in the last but one."""
    for k, interval, frame in ((15, 5, 0), (22, 5, 100), (42, 3, MOST_FRAMES - 2)):
        record, law = a_record(draw, k - 14), draw.below(2)
        yield a_hit(draw, record, law, interval, frame, MOST_FRAMES - 1 - frame)


# Where the premises fail

def second_marked(draw):
    """The second frame after the one that is hit is marked, and some place is in it."""
    for k in (15, 16, 17):
        for law in (MU, A):
            yield a_hit(draw, a_record(draw, k - 14), law, 5, draw.below(3), 4, (2,))
            yield a_hit(draw, a_record(draw, k - 14), law, 5, draw.below(3), 3, (1, 2))


def first_marked(draw):
    """The first frame after the one that is hit is marked, and some place is in it."""
    for interval in INTERVALS:
        for k in (15, 18, 19 + draw.below(2), draw.between(17, 22)):
            if frames_needed(k, interval):
                record, law = a_record(draw, k - 14), draw.below(2)
                yield a_hit(draw, record, law, interval, draw.below(3), 4, (1,))
    for k in (15, 16, 17, 22, 30, 41):
        yield a_hit(draw, a_record(draw, k - 14), draw.below(2), 5, draw.below(3), 4, (1,))


def hit_marked(draw):
    """The frame that is hit is itself marked, with the one after it marked and not."""
    for interval in INTERVALS:
        for marked in ((0,), (0, 1)):
            record, law = a_record(draw, draw.between(1, 27)), draw.below(2)
            yield a_hit(draw, record, law, interval, draw.below(3), 3, marked)
    for k in (15, 16, 17, 22, 41):
        yield a_hit(draw, a_record(draw, k - 14), draw.below(2), 5, draw.below(3), 4, (0,))


def too_few_read(draw):
    """The frame that is hit is the last or the last but one, and some place is not read."""
    for interval in INTERVALS:
        for k in (15, 16, 18, draw.between(19, 22)):
            if frames_needed(k, interval):
                record, law = a_record(draw, k - 14), draw.below(2)
                yield a_hit(draw, record, law, interval, draw.below(3), 0)
    for k in (15, 16, 17):
        for law in (MU, A):
            yield a_hit(draw, a_record(draw, k - 14), law, 5, draw.below(3), 1)
    for k in (17, 22, 42):
        yield a_hit(draw, a_record(draw, k - 14), draw.below(2), 5, draw.below(3), 0)


def refused(draw):
    """Calls that the receiver refuses, by the record and by the state; both readings are."""
    for numbers in ({4}, {10}, {25}, {11}, {12}, {11, 14}):
        record = faulty_record(draw, numbers)
        yield flip_case(record, draw.below(2), faulty_state(draw, numbers), draw.below(3),
                        draw.below(6), draw.octets(18))
    for numbers in ({14}, {18}, {19}, {14, 18}, {18, 19}):
        record, law = a_record(draw, draw.between(1, 28)), draw.below(2)
        octets = good_frames(draw, record, law, FRESH, 4)
        yield flip_case(record, law, faulty_state(draw, numbers), draw.below(2), draw.below(6),
                        octets)


def cases():
    """The stored cases in order."""
    draw, found = Draw(9107), []
    for group in (examples, every_hit, fewer_bits, just_after_a_mark, states, many_frames,
                  second_marked, first_marked, hit_marked, too_few_read, refused):
        found += group(draw)
    return found
