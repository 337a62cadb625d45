"""Refusals: document 01, 'When the codec declines', and A.1, A.2, A.3, A.7, A.8 and A.10 of
document 02.

A refusal is a number and a value that goes with it: the interval for 25, 0 for all others.
"""

from collections import namedtuple

Refusal = namedtuple("Refusal", "number value", defaults=(0,))

# The order in which the conditions are looked at; each entry uses some of them.
ORDER = (*range(1, 11), 25, *range(11, 15), 18, 19, 15, 16, *range(22, 25), 26, 27, 28, 17)


def of_01(numbers):
    """Those of some refusals that document 01 has: 1 to 17."""
    return [number for number in numbers if number <= 17]


def in_order(numbers):
    """Some refusals in the order in which they are looked at."""
    return sorted(numbers, key=ORDER.index)
