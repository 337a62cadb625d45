"""The junction settings file: A.7 and A.9 of document 02.

A file has entries that lie end to end from place 0, then a trailer. An entry is one setting of a
junction: the junction number, a byte for current or previous, a byte with the length of the CP in
bytes, the CP, and the start of the entry before it; the first entry has its own start. The trailer
is the number of entries, the start of the last one, 0 where there is none, and a byte that names
the version. Numbers have their low byte first.

A file is walked forward from place 0, by lengths: a start is compared with the place where an entry
began and is never followed.
"""

from collections import namedtuple

from cp import bits_of, length, read_cp
from record import EMPTY, faults as record_faults
from refusals import Refusal

# What files of a version have of their own: the bytes of a start and of the number of entries, the
# most junctions, and the byte that names the version.
Version = namedtuple("Version", "start_width count_width most_junctions byte")

VERSION_1 = Version(start_width=2, count_width=1, most_junctions=40, byte=1)
VERSION_2 = Version(start_width=4, count_width=2, most_junctions=400, byte=2)
VERSIONS = (VERSION_1, VERSION_2)

CURRENT, PREVIOUS = 0, 1
JUNCTION_WIDTH = 2

# The bytes of an entry before its CP.
HEAD_WIDTH = JUNCTION_WIDTH + 2

# The length of a CP in bits by its length in bytes; no other number of bytes is a CP.
CP_BITS = {(length(g) + 7) // 8: length(g) for g in range(6)}

# A file without entries, of version 1.
EMPTY_FILE = bytes([0, 0, 0, 1])

Entry = namedtuple("Entry", "place junction kind octets before")

# The bytes of a file in parts: `between` is what lies between the last entry and the trailer.
Parts = namedtuple("Parts", "version entries between count last")

# A junction with the CP bytes of its settings; `previous` is None where it has one alone.
Junction = namedtuple("Junction", "number current previous")


def number(octets):
    """A number with its low byte first."""
    return int.from_bytes(octets, "little")


def low_first(value, width):
    """A number in so many bytes, the low byte first."""
    return value.to_bytes(width, "little")


# The bytes of a file in parts

def version_of(file):
    """The version that the last byte names; None where it names none or there is no byte."""
    return next((version for version in VERSIONS if file[-1:] == bytes([version.byte])), None)


def trailer_size(version):
    """The bytes of a trailer."""
    return version.count_width + version.start_width + 1


def entry_size(version, octets):
    """The bytes of an entry with this CP."""
    return HEAD_WIDTH + len(octets) + version.start_width


def entry_at(version, octets, place):
    """The entry that begins at a place; None where it is not all there."""
    head = octets[place:place + HEAD_WIDTH]
    if len(head) < HEAD_WIDTH:
        return None
    at = place + HEAD_WIDTH
    end = at + head[-1]
    before = octets[end:end + version.start_width]
    if len(before) < version.start_width:
        return None
    junction = number(head[:JUNCTION_WIDTH])
    return Entry(place, junction, head[JUNCTION_WIDTH], octets[at:end], number(before))


def walk(version, octets):
    """(The entries that lie end to end from place 0, the bytes behind them)."""
    entries, place = [], 0
    while entry := entry_at(version, octets, place):
        entries.append(entry)
        place += entry_size(version, entry.octets)
    return entries, octets[place:]


def parts_of(file):
    """The parts of a file; None where it has no known version or is shorter than a trailer."""
    version = version_of(file)
    if version is None or len(file) < trailer_size(version):
        return None
    end = len(file) - trailer_size(version)
    count, rest = file[end:end + version.count_width], file[end + version.count_width:-1]
    return Parts(version, *walk(version, file[:end]), number(count), number(rest))


# The rules of a file

def end_to_end(parts):
    """Nothing lies between the last entry and the trailer."""
    return not parts.between


def counted(parts):
    """The trailer counts the entries."""
    return parts.count == len(parts.entries)


def starts_told(parts):
    """Each entry has the start of the one before it, the first its own, the trailer the last's."""
    places = [entry.place for entry in parts.entries]
    return [entry.before for entry in parts.entries] + [parts.last] == [0] + places


def kinds_known(parts):
    """Each entry is current or previous."""
    return all(entry.kind in (CURRENT, PREVIOUS) for entry in parts.entries)


def rising(parts):
    """Junction numbers rise; within a junction a current setting goes before a previous one.

    So no junction has two current settings, nor two previous ones.
    """
    keys = [(entry.junction, entry.kind) for entry in parts.entries]
    return all(low < high for low, high in zip(keys, keys[1:]))


def previous_after_current(parts):
    """Before each previous setting stands an entry of the same junction."""
    junctions = [None] + [entry.junction for entry in parts.entries]
    return all(entry.kind != PREVIOUS or entry.junction == before
               for before, entry in zip(junctions, parts.entries))


def few_enough(parts):
    """There are no more junctions than the version has room for."""
    return len(junctions_in(parts.entries)) <= parts.version.most_junctions


def cp_reading(octets):
    """(Refusal or None, record) of the CP in some bytes; None is no reading: no CP is so long."""
    return read_cp(octets, CP_BITS[len(octets)]) if len(octets) in CP_BITS else None


def cp_accepted(octets):
    """Whether some bytes are a CP that the reader accepts."""
    reading = cp_reading(octets)
    return reading is not None and reading[0] is None


def cps_accepted(parts):
    """The CP of each setting is accepted."""
    return all(cp_accepted(entry.octets) for entry in parts.entries)


RULES = (end_to_end, counted, starts_told, kinds_known, rising, previous_after_current, few_enough,
         cps_accepted)


# Files read and written

def junctions_in(entries):
    """The junctions of some entries with their settings, in the order in which they come up."""
    found = {}
    for entry in entries:
        one = found.get(entry.junction, Junction(entry.junction, None, None))
        field = "current" if entry.kind == CURRENT else "previous"
        found[entry.junction] = one._replace(**{field: entry.octets})
    return list(found.values())


def found_in(file):
    """(Version, junctions) of the entries that can be walked, whether rules are broken or not."""
    parts = parts_of(file)
    return (parts.version, junctions_in(parts.entries)) if parts else (VERSION_1, [])


def read(file):
    """The junctions of a file, by rising number; None where the file breaks a rule."""
    parts = parts_of(file)
    if parts is None or not all(rule(parts) for rule in RULES):
        return None
    return junctions_in(parts.entries)


def settings_of(junctions):
    """(Junction number, kind, CP bytes) of each setting, in the order of a file."""
    for one in junctions:
        for kind, octets in ((CURRENT, one.current), (PREVIOUS, one.previous)):
            if octets is not None:
                yield one.number, kind, octets


def size_of(version, junctions):
    """The bytes of a file with these junctions."""
    entries = (entry_size(version, octets) for _, _, octets in settings_of(junctions))
    return sum(entries) + trailer_size(version)


def write(junctions, version=VERSION_1):
    """A file with these junctions, which come by rising number."""
    made, count, before = b"", 0, 0
    for junction, kind, octets in settings_of(junctions):
        place = len(made)
        made += low_first(junction, JUNCTION_WIDTH) + bytes([kind, len(octets)]) + octets
        made += low_first(before, version.start_width)
        count, before = count + 1, place
    made += low_first(count, version.count_width) + low_first(before, version.start_width)
    return made + bytes([version.byte])


# A junction's settings changed

def at(junctions, junction):
    """A junction with its settings; None where it is not there."""
    return next((one for one in junctions if one.number == junction), None)


def replaced(junctions, changed):
    """What stands below a junction, the junction as it is changed, what stands above it."""
    below = [one for one in junctions if one.number < changed.number]
    above = [one for one in junctions if one.number > changed.number]
    return [*below, changed, *above]


def after_put(junctions, junction, octets):
    """The junctions after a put: the current setting is the previous one then."""
    here = at(junctions, junction)
    return replaced(junctions, Junction(junction, octets, here.current if here else None))


def after_back(junctions, junction):
    """The junctions after a going back: two settings are exchanged, their bytes as they stand."""
    here = at(junctions, junction)
    return replaced(junctions, here._replace(current=here.previous, previous=here.current))


def grown(version, junctions):
    """The version that a put leaves: the file's own while it has room, else the largest."""
    return version if len(junctions) <= version.most_junctions else VERSIONS[-1]


def cp_size(record):
    """The bytes of a record's CP."""
    return (length(max(record.indices)) + 7) // 8


def cp_octets(record):
    """The CP of a record, in the writer's bytes."""
    return low_first(bits_of(record), cp_size(record))


def written(made, out):
    """What an accepted call returns that writes a file: its length, and `out` afterwards."""
    return None, len(made), made + bytes(out[len(made):])


# The entries

def put_faults(file, junction, record, out):
    """The refusals 4, 9, 10, 25, 11, 12, 22, 24 and 17 that hold, in this order.

    Where the file breaks a rule, 24 and 17 are judged by the entries that can be walked; where an
    index exceeds 5, the bytes of the CP are judged by the same formula in g.
    """
    version, there = found_in(file)
    yield from record_faults(record)
    if read(file) is None:
        yield Refusal(22)
    if at(there, junction) is None and len(there) >= VERSIONS[-1].most_junctions:
        yield Refusal(24)
    junctions = after_put(there, junction, bytes(cp_size(record)))
    if len(out) < size_of(grown(version, junctions), junctions):
        yield Refusal(17)


def put(file, junction, record, out):
    """Return (refusal or None, the new file's length, out afterwards); after a refusal it is 0."""
    refusal = next(put_faults(file, junction, record, out), None)
    if refusal:
        return refusal, 0, bytes(out)
    settings = after_put(read(file), junction, cp_octets(record))
    return written(write(settings, grown(version_of(file), settings)), out)


def back_faults(file, junction, out):
    """The refusals 22, 23 and 17 that hold, in this order.

    Where the file breaks a rule, 23 is judged by the entries that can be walked. A going back does
    not change the length of a file.
    """
    here = at(found_in(file)[1], junction)
    if read(file) is None:
        yield Refusal(22)
    if here is None or here.previous is None:
        yield Refusal(23)
    if len(out) < len(file):
        yield Refusal(17)


def go_back(file, junction, out):
    """Return (refusal or None, the new file's length, out afterwards); after a refusal it is 0."""
    refusal = next(back_faults(file, junction, out), None)
    if refusal:
        return refusal, 0, bytes(out)
    return written(write(after_back(read(file), junction), version_of(file)), out)


def look_faults(file, junction):
    """The refusals 22 and 23 that hold, in this order; 23 as in a going back."""
    if read(file) is None:
        yield Refusal(22)
    if at(found_in(file)[1], junction) is None:
        yield Refusal(23)


def look_up(file, junction):
    """Return (refusal or None, record of the current setting); it is empty after a refusal."""
    refusal = next(look_faults(file, junction), None)
    if refusal:
        return refusal, EMPTY
    return cp_reading(at(read(file), junction).current)
