"""Words about a CP: what it says, why a file is refused, and the text of `v91 demo`."""

from cp import length, read_cp, record_in, write_cp
from frames import FRESH, MOST_DOUBTFUL, frame_bits, receive, send
from record import EXAMPLE, k_of, mask_of, sizes_of
from start import FOUND_FROM, find_state, from_zero
from table1 import MU, octet_of

# The lengths of a CP in bytes, and the bits of each.
CP_LENGTHS = {(length(g) + 7) // 8: length(g) for g in range(6)}


def counted(number, word):
    """A number and its word, which has an s unless the number is 1."""
    return f"{number} {word}" if number == 1 else f"{number} {word}s"


def shown(name):
    """A name as it is shown: each control character as a question mark."""
    return "".join("?" if ord(c) < 32 or ord(c) == 127 else c for c in name)


# What a CP says

def rate(record):
    """The data signalling rate in kbit/s as Table 2 of V.91 prints it: 4 D / 3, in thirds."""
    whole, thirds = divmod(4 * frame_bits(record), 3)
    return f"{whole} {thirds}/3" if thirds else f"{whole}"


def rate_words(record):
    """The rate with its unit, or cleardown."""
    return f"{rate(record)} kbit/s" if record.drn else "cleardown"


def rate_line(record):
    """The line of the rate."""
    if record.drn == 0:
        return "cleardown (drn 0): no data is sent"
    return (f"rate {rate(record)} kbit/s, drn {record.drn}: a frame has {frame_bits(record)} data "
            f"bits (D), {k_of(record)} of them in R (K)")


def ucode_runs(mask):
    """The runs of a mask's Ucodes, rising: (first, last) of each.

    A run begins and ends where a bit differs from the one below it.
    """
    edges = [u for u in range(129) if (mask << 1 ^ mask) >> u & 1]
    return [(first, end - 1) for first, end in zip(edges[::2], edges[1::2])]


def mask_line(m, mask):
    """The line of a mask."""
    runs = [f" {first}" if first == last else f" {first}-{last}"
            for first, last in ucode_runs(mask)]
    return f"mask {m}: Ucodes{''.join(runs)}" if runs else f"mask {m}: no Ucode"


def description(record):
    """The lines that say what a CP holds."""
    answers = ("no", "yes")
    g = max(record.indices)
    lines = [f"CP sequence of {length(g)} bits",
             rate_line(record),
             f"granted {answers[record.granted]}, acknowledge {answers[record.acknowledge]}"]
    for i, (index, size) in enumerate(zip(record.indices, sizes_of(record))):
        lines.append(f"interval {i}: mask {index}, {counted(size, 'point')}")
    return lines + [mask_line(m, mask_of(record, m)) for m in range(g + 1)]


# A CP file

def read_file(octets):
    """(Refusal or None, record) of a CP file; its bit count follows from its length."""
    return read_cp(octets, CP_LENGTHS.get(len(octets), 8 * len(octets)))


def length_sentence(name, octets):
    """What is said of a file that is too short."""
    *most, last = CP_LENGTHS
    lengths = f"{', '.join(map(str, most))} or {last}"
    if not octets:
        return f"{name} is empty; a CP has {lengths} bytes"
    return f"{name} has {counted(len(octets), 'byte')}; a CP has {lengths}"


def file_length(octets):
    """A file's length; no more than its first 4,096 bytes are read."""
    return counted(len(octets), "byte") if len(octets) < 4096 else "4096 bytes or more"


def refusal_sentence(name, octets, refusal):
    """What is said of a file that is refused; its numbers are those in its bits."""
    found = record_in(int.from_bytes(octets, "little"))
    g = max(found.indices)
    sentences = {
        2: length_sentence(name, octets),
        3: f"{name} is no CP: it does not begin with 17 one bits",
        4: f"{name} has the interval index {g}; each is 5 at most",
        5: f"{name} has {file_length(octets)}; a CP whose largest interval index is {g} "
           f"has {(length(g) + 7) // 8}",
        6: f"{name} is damaged: a start bit is 1, and each is 0 in a CP",
        7: f"{name} is damaged: its CRC does not match its bits",
        8: f"{name} is no CP of V.91: bit 19 is 0, or one of bits 30 to 32 and 128 is 1",
        9: f"{name} has drn {found.drn}; the largest is 28",
        10: f"{name} has granted 1 with drn {found.drn}; granted goes with drn 28 alone",
        11: f"{name} has too few points for drn {found.drn}: M0 x M1 x M2 x M3 x M4 x M5 is below "
            f"2^{k_of(found)}",
        25: f"{name} has no point in interval {refusal.value}: its mask is empty, and drn "
            f"{found.drn} needs points in each",
    }
    return f"{sentences[refusal.number]} (refusal {refusal.number})"


# The demo

def example_cp():
    """The CP of the example, in bytes."""
    return write_cp(EXAMPLE, bytes(37))[2]


def reception(state, octets):
    """(Data, marks) that the example's receiver makes of three frames, from a line state."""
    return receive(EXAMPLE, MU, 3, state, 0, octets, bytes(8), bytes(3))[3:]


def line_and_reception(state, octets):
    """The lines of three frames and of what the receiver makes of them."""
    data, marks = reception(state, octets)
    return [f"  {octets.hex(' ', -6)}",
            "What the receiver makes of them, and the mark of each frame:",
            f"  {data.hex()}",
            f"  {' '.join(map(str, marks))}"]


def wrong_bits(sent, heard, first, count):
    """How many of some bits are not as sent."""
    differing = int.from_bytes(sent, "little") ^ int.from_bytes(heard, "little")
    return (differing >> first & (1 << count) - 1).bit_count()


def demo_lines():
    """The lines of `v91 demo`: the example's CP sent, 63 one bits sent, received, and damaged."""
    start, left = from_zero(EXAMPLE, MU)
    last = start[-FOUND_FROM:]
    found = find_state(last, FRESH)[1]
    ones = (2**63 - 1).to_bytes(8, "little")
    octets = send(EXAMPLE, MU, 3, left, 0, 0, ones, bytes(18))[2]
    damaged = octets[:2] + bytes([octet_of(MU, 1, 127)]) + octets[3:]
    width = frame_bits(EXAMPLE)
    sound = width + MOST_DOUBTFUL
    wrong = wrong_bits(ones, reception(found, damaged)[0], width, MOST_DOUBTFUL)
    return [
        "A CP sequence, as the far end sends it, in 37 bytes:",
        f"  {example_cp().hex()}",
        "What it says:",
        *description(EXAMPLE),
        f"Its bits and the twelve zero bits of E_s, sent in {len(start)} octets, mu-law; "
        f"the last {len(last)} of them:",
        f"  {last.hex(' ', -6)}",
        f"The line state that the receiver finds from these: history {found.history}, "
        f"last sign {found.sign}",
        "63 one bits, sent from there on in 3 frames of six PCM octets each, mu-law:",
        *line_and_reception(found, octets),
        "all 63 bits as sent",
        "The same, but the third octet comes in as 80 (Ucode 127, which is in no mask):",
        *line_and_reception(found, damaged),
        "frame 0 is marked: interval 2 is outside its mask; "
        f"its bits, 0 to {width - 1}, are given as zeros",
        f"bits {width} to {sound - 1}, the {MOST_DOUBTFUL} after it, are doubtful: "
        f"{wrong} of them are not as sent",
        f"bits {sound} to 62 are as sent again",
    ]
