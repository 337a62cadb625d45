"""The default DIL: V.91 7.3 with Table 5, V.90 8.4.1, and A.12 of document 02.

V.90 says how a DIL follows from its parameters, V.91 which parameters the default one has, and that
it is sent once. The patterns SP and TP are numbers whose bit of weight 1 is the first.
"""

from collections import namedtuple

from refusals import Refusal
from table1 import octet_of

# `h` and `ref` have a value for each Uchord, that of Uchord 1 first.
Parameters = namedtuple("Parameters", "n lsp ltp sp tp h ref symbols")

PRINTED_SYMBOLS = """
124  0 123  1 122  2 121  3 120  4 119  5 118  6 117  7
116  8 115  9 114 10 113 11 112 12 111 13 110 14 109 15
108 16 107 17 106 18 105 19 104 20 103 21 102 22 101 23
100 24  99 25  98 26  97 27  96 28  95 29  94 30  93 31
 92 32  91 33  90 34  89 35  88 36  87 37  86 38  85 39
 84 40  83 41  82 42  81 43  80 44  79 45  78 46  77 47
 76 48  75 49  74 50  73 51  72 52  71 53  70 54  69 55
 68 56  67 57  66 58  65 59  64 60  63 61  62
"""

# Table 5. The source text has '0FFI F' for TP, which is 0FFF.
TABLE_5 = Parameters(n=125, lsp=12, ltp=12, sp=0x0FC0, tp=0x0FFF, h=(1,) * 8, ref=(0,) * 8,
                     symbols=tuple(map(int, PRINTED_SYMBOLS.split())))


def symbol_at(place):
    """The generator of A.12: place 2k holds 124 - k and place 2k + 1 holds k."""
    k, odd = divmod(place, 2)
    return k if odd else 124 - k


# V.90 8.4.1

def uchord_of(ucode):
    """The Uchord of a Ucode, 1 to 8."""
    return ucode // 16 + 1


def training_symbols(parameters):
    """The training symbol of each of the N DIL-segments."""
    return parameters.symbols[:parameters.n]


def segment_length(parameters, symbol):
    """L_c = (H_c + 1) * 6, c being the Uchord of the training symbol."""
    return (parameters.h[uchord_of(symbol) - 1] + 1) * 6


def length(parameters):
    """The symbols of the whole DIL."""
    return sum(segment_length(parameters, symbol) for symbol in training_symbols(parameters))


def pattern_bit(pattern, period, place):
    """The bit of a pattern for a place in a DIL-segment: the lowest first, and repeated."""
    return pattern >> place % period & 1


def segment(parameters, symbol):
    """The symbols of a DIL-segment, each a sign, 1 for positive, and a Ucode."""
    reference = parameters.ref[uchord_of(symbol) - 1]
    made = []
    for place in range(segment_length(parameters, symbol)):
        sign = pattern_bit(parameters.sp, parameters.lsp, place)
        training = pattern_bit(parameters.tp, parameters.ltp, place)
        made.append((sign, symbol if training else reference))
    return made


def symbols_of(parameters):
    """The symbols of the whole DIL: the DIL-segments end to end, each with its patterns anew."""
    return [each for symbol in training_symbols(parameters)
            for each in segment(parameters, symbol)]


def octets_of(law, parameters):
    """The octets of the whole DIL."""
    return bytes(octet_of(law, sign, ucode) for sign, ucode in symbols_of(parameters))


# The entry

def faults(law, octets):
    """The refusals that hold, in order: the buffer needs a byte for each symbol."""
    if len(octets) < length(TABLE_5):
        yield Refusal(17)


def send_dil(law, octets):
    """Return (refusal or None, octets afterwards); `octets` is the buffer lent."""
    refusal = next(faults(law, octets), None)
    if refusal:
        return refusal, bytes(octets)
    made = octets_of(law, TABLE_5)
    return None, made + bytes(octets[len(made):])
