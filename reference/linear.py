"""Linear samples: document 01, 'From data to line', and refusal 17."""

from refusals import Refusal
from table1 import linear_of


def faults(law, octets, samples):
    """The refusals that hold, in order: the samples need one element for each octet."""
    if len(samples) < len(octets):
        yield Refusal(17)


def linear(law, octets, samples):
    """Return (refusal or None, samples afterwards); `samples` is the list of numbers lent."""
    refusal = next(faults(law, octets, samples), None)
    if refusal:
        return refusal, list(samples)
    made = [linear_of(law, octet) for octet in octets]
    return None, made + list(samples[len(octets):])
