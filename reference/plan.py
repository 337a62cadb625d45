"""Masks for a wanted rate: A.10 of document 02.

One mask serves all six intervals. Its sum is that of the squares of its points' linear values, as
Table 1 prints them for the law. The mask of least sum is found by a table over all masks: for every
number of points and every Ucode the least sum of so many points of which that Ucode is the highest.
"""

import math
from bisect import bisect_left, bisect_right
from functools import lru_cache
from itertools import accumulate, count

from refusals import Refusal
from table1 import LINEAR

RATES = range(15, 43)
SPACINGS = range(1, 65536)
MOST_CEILING = 2**64 - 1
NO_MASK = math.inf


def points_wanted(k):
    """M, the least whole number with M^6 at least 2^K."""
    return next(m for m in count(1) if m**6 >= 2**k)


# The least sum. `values` are the linear values of the Ucodes from 0 on, which rise.

def far_below(values, spacing):
    """For each Ucode how many of those below it are at least the spacing away: the first ones."""
    return [bisect_right(values, value - spacing, 0, u) for u, value in enumerate(values)]


def sums_of_one(values, spacing):
    """For each Ucode the sum of it alone: twice its value is at least the spacing."""
    return [value**2 if 2 * value >= spacing else NO_MASK for value in values]


def sums_of_one_more(values, below, sums):
    """For each Ucode the least sum with it on top of one point fewer, whose sums are given."""
    least_of_first = [NO_MASK, *accumulate(sums, min)]
    return [least_of_first[n] + value**2 for n, value in zip(below, values)]


def table(values, spacing, points):
    """For 1, 2 and so on up to `points` points: for each Ucode the least sum with it as highest.

    It ends before that where no mask has so many points.
    """
    below = far_below(values, spacing)
    rows = [sums_of_one(values, spacing)]
    while len(rows) < points and min(rows[-1]) < NO_MASK:
        rows.append(sums_of_one_more(values, below, rows[-1]))
    return rows


def least(values, spacing, points):
    """(Least sum, its mask) of all masks of so many points that keep the spacing; None if none do.

    The mask is read from the table, the highest Ucode first: the sum left is among those that are
    far enough below it.
    """
    rows = table(values, spacing, points)
    total = min(rows[-1])
    if total == NO_MASK:
        return None
    below = far_below(values, spacing)
    mask, left, end = 0, total, len(values)
    for row in reversed(rows):
        ucode = row.index(left, 0, end)
        mask |= 1 << ucode
        left -= values[ucode] ** 2
        end = below[ucode]
    return total, mask


@lru_cache(maxsize=2**16)
def least_in(law, spacing, points):
    """The same with the values of a law."""
    return least(LINEAR[law], spacing, points)


# The entry

def faults(k, law, spacing, ceiling):
    """The refusals 26, 27 and 28 that hold, in this order.

    Where K or the spacing is outside its range, 27 and 28 are judged by the same formulas.
    """
    if k not in RATES or spacing not in SPACINGS:
        yield Refusal(26)
    found = least_in(law, spacing, points_wanted(k))
    if found is None:
        yield Refusal(27)
    elif found[0] > ceiling:
        yield Refusal(28)


def plan(k, law, spacing, ceiling):
    """Return (refusal or None, M, sum, mask); after a refusal the three are 0."""
    refusal = next(faults(k, law, spacing, ceiling), None)
    if refusal:
        return refusal, 0, 0, 0
    points = points_wanted(k)
    return None, points, *least_in(law, spacing, points)


def largest_spacing(k, law, ceiling):
    """The largest spacing with which a plan is not refused; 0 where there is none.

    It is found by halving: fewer masks keep a larger spacing, so their least sum is no smaller, and
    the spacings that are refused stand above all that are not.
    """
    return bisect_left(SPACINGS, True, key=lambda spacing:
                       plan(k, law, spacing, ceiling)[0] is not None)
