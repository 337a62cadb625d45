"""The stored cases: one call of an entry as a byte string, and its answer as another.

A case begins with its kind. The last field takes all the rest; count8 is 8 bytes, len2 2 bytes and
len3 3 bytes, low byte first; a record is 105 bytes, a line state 21, a law 1, whether the control
channel is on 1, the bits of a sequence 8, what is heard 8 and a junction number 2. A refusal is 2
bytes: its number, 0 for none, and its value, which is the interval for 25 and 0 for all others.

    00  read_cp   count8 bit count, CP bytes
                  -> refusal, record
    01  write_cp  record, buffer
                  -> refusal, len2 bit count, buffer
    02  send      record, law, count8 frames, state, channel, sequence, len2 octets lent, data
                  -> refusal, state, octets
    03  receive   record, law, count8 frames, state, channel, len2 bits lent, len2 marks lent,
                  octets
                  -> refusal, state, heard, bits, marks
    04  linear    law, len2 samples lent, octets
                  -> refusal, samples of 4 bytes
    05  send_cp   record, law, state, len2 octets lent
                  -> refusal, len2 octet count, state, octets
    06  find_state
                  state, octets
                  -> refusal, state
    07  flip      record, law, state, frame, interval, octets
                  -> refusal, state, bits, marks, the same again, number of places, places
    08  put       junction, record, len3 bytes lent, file
                  -> refusal, len3 length of the new file, bytes lent
    09  go_back   junction, len3 bytes lent, file
                  -> refusal, len3 length of the new file, bytes lent
    0a  look_up   junction, file
                  -> refusal, record

In a case of flip the receiver reads the octets twice from one state, the channel off, with 6 bytes
of bits and 1 of marks lent for each frame: as they are, and with the sign of the octet in that
frame and interval flipped. The places are those of the data bits that change by K and interval
alone, counted from the first of that frame. All these numbers are 1 byte each.

A buffer of which only the length is given is handed in with the contents `octets_lent`,
`bits_lent`, `marks_lent` or `samples_lent`. The channel is on where its byte is not 0.
"""

import control
import cp
import flip
import frames
import linear
import record
import settings
import start

READ_CP, WRITE_CP, SEND, RECEIVE, LINEAR, SEND_CP, FIND_STATE, FLIP, PUT, BACK, LOOK_UP = range(11)


def octets_lent(length):
    """A buffer of octets, or of the bytes of a file, to be written as handed in."""
    return bytes((7 * i + 3) % 256 for i in range(length))


def bits_lent(length):
    """The receiver's bit buffer as handed in."""
    return bytes((5 * i + 1) % 256 for i in range(length))


def marks_lent(length):
    """The receiver's mark buffer as handed in."""
    return bytes((3 * i + 2) % 256 for i in range(length))


def samples_lent(length):
    """The sample buffer as handed in."""
    return [1000 * i + 7 for i in range(length)]


def number(form):
    """A number with its low byte first."""
    return int.from_bytes(form, "little")


def len2(value):
    """A length in two bytes."""
    return value.to_bytes(2, "little")


def len3(value):
    """A length in three bytes."""
    return value.to_bytes(3, "little")


def count8(value):
    """A count in eight bytes."""
    return value.to_bytes(8, "little")


# Cases made

def read_case(octets, bit_count):
    """A case of read_cp."""
    return bytes([READ_CP]) + count8(bit_count) + octets


def write_case(rec, buffer):
    """A case of write_cp."""
    return bytes([WRITE_CP]) + record.pack(rec) + buffer


def call_head(kind, rec, law, count, state, channel):
    """What a case of send and one of receive begin with."""
    return (bytes([kind]) + record.pack(rec) + bytes([law]) + count8(count)
            + frames.pack_state(state) + bytes([channel]))


def send_case(rec, law, count, state, data, room, channel=0, sequence=0):
    """A case of send with `room` octets lent."""
    head = call_head(SEND, rec, law, count, state, channel)
    return head + count8(sequence) + len2(room) + data


def receive_case(rec, law, count, state, octets, bit_room, mark_room, channel=0):
    """A case of receive with `bit_room` and `mark_room` bytes lent."""
    rooms = len2(bit_room) + len2(mark_room)
    return call_head(RECEIVE, rec, law, count, state, channel) + rooms + octets


def linear_case(law, octets, room):
    """A case of linear with `room` samples lent."""
    return bytes([LINEAR, law]) + len2(room) + octets


def send_cp_case(rec, law, state, room):
    """A case of send_cp with `room` octets lent."""
    head = bytes([SEND_CP]) + record.pack(rec) + bytes([law])
    return head + frames.pack_state(state) + len2(room)


def find_state_case(octets, state):
    """A case of find_state."""
    return bytes([FIND_STATE]) + frames.pack_state(state) + octets


def flip_case(rec, law, state, frame, interval, octets):
    """A case of flip."""
    head = bytes([FLIP]) + record.pack(rec) + bytes([law])
    return head + frames.pack_state(state) + bytes([frame, interval]) + octets


def put_case(file, junction, rec, room):
    """A case of put with `room` bytes lent."""
    return bytes([PUT]) + len2(junction) + record.pack(rec) + len3(room) + file


def back_case(file, junction, room):
    """A case of go_back with `room` bytes lent."""
    return bytes([BACK]) + len2(junction) + len3(room) + file


def look_up_case(file, junction):
    """A case of look_up."""
    return bytes([LOOK_UP]) + len2(junction) + file


# Cases taken apart and answered

def arguments(case):
    """(Kind, arguments of the entry)."""
    kind, form = case[0], case[1:]
    if kind == READ_CP:
        return kind, (form[8:], number(form[:8]))
    if kind == WRITE_CP:
        return kind, (record.unpack(form[:105]), form[105:])
    if kind == LINEAR:
        return kind, (form[0], form[3:], samples_lent(number(form[1:3])))
    if kind == SEND_CP:
        rec, law, state = record.unpack(form[:105]), form[105], frames.unpack_state(form[106:127])
        return kind, (rec, law, state, octets_lent(number(form[127:])))
    if kind == FIND_STATE:
        return kind, (form[21:], frames.unpack_state(form[:21]))
    if kind == FLIP:
        rec, law, state = record.unpack(form[:105]), form[105], frames.unpack_state(form[106:127])
        return kind, (rec, law, state, *form[127:129], form[129:])
    if kind in (PUT, BACK, LOOK_UP):
        return kind, settings_arguments(kind, form)
    rec, law, count = record.unpack(form[:105]), form[105], number(form[106:114])
    head = rec, law, count, frames.unpack_state(form[114:135]), int(form[135] != 0)
    if kind == SEND:
        lent = octets_lent(number(form[144:146]))
        return kind, (*head, number(form[136:144]), form[146:], lent)
    lent = bits_lent(number(form[136:138])), marks_lent(number(form[138:140]))
    return kind, (*head, form[140:], *lent)


def settings_arguments(kind, form):
    """The arguments of an entry of the settings file."""
    junction, rest = number(form[:2]), form[2:]
    if kind == LOOK_UP:
        return rest, junction
    if kind == BACK:
        return rest[3:], junction, octets_lent(number(rest[:3]))
    lent = octets_lent(number(rest[105:108]))
    return rest[108:], junction, record.unpack(rest[:105]), lent


def reading(rec, law, state, octets):
    """The receiver's arguments in a case of flip."""
    count = len(octets) // 6
    return rec, law, count, state, 0, octets, bits_lent(6 * count), marks_lent(count)


def receptions(rec, law, state, frame, interval, octets):
    """What the receiver returns for octets as they are, and with the sign of one flipped."""
    return [frames.receive(*reading(rec, law, state, line))
            for line in (octets, flip.flipped(octets, frame, interval))]


def outcome(case):
    """What the entry returns; in a case of flip its two receptions."""
    kind, args = arguments(case)
    if kind == READ_CP:
        return cp.read_cp(*args)
    if kind == WRITE_CP:
        return cp.write_cp(*args)
    if kind == SEND:
        return frames.send(*args)
    if kind == RECEIVE:
        return frames.receive(*args)
    if kind == SEND_CP:
        return start.send_cp(*args)
    if kind == FIND_STATE:
        return start.find_state(*args)
    if kind == FLIP:
        return receptions(*args)
    if kind == PUT:
        return settings.put(*args)
    if kind == BACK:
        return settings.go_back(*args)
    if kind == LOOK_UP:
        return settings.look_up(*args)
    return linear.linear(*args)


def held(case):
    """The refusals whose conditions hold, in order; the first of them is the answer."""
    kind, args = arguments(case)
    if kind == READ_CP:
        return list(cp.reader_faults(*args))
    if kind == WRITE_CP:
        return list(cp.writer_faults(*args))
    if kind == SEND:
        return list(frames.send_faults(*args))
    if kind == RECEIVE:
        return list(frames.receive_faults(*args))
    if kind == SEND_CP:
        return list(start.cp_faults(*args))
    if kind == FIND_STATE:
        return list(start.find_faults(*args))
    if kind == FLIP:
        return list(frames.receive_faults(*reading(*args[:3], args[5])))
    if kind == PUT:
        return list(settings.put_faults(*args))
    if kind == BACK:
        return list(settings.back_faults(*args))
    if kind == LOOK_UP:
        return list(settings.look_faults(*args))
    return list(linear.faults(*args))


def reception_form(refusal, state, heard, bits, marks):
    """One of the two receptions of a case of flip, in bytes; nothing is heard in it."""
    return bytes(refusal or (0, 0)) + frames.pack_state(state) + bits + marks


def places_form(places):
    """The number of places and the places, in bytes."""
    return bytes([len(places), *places])


def flip_answer(case):
    """The answer to a case of flip, in bytes."""
    rec, _, _, _, interval, _ = arguments(case)[1]
    runs = b"".join(reception_form(*run) for run in outcome(case))
    return runs + places_form(flip.changed_places(record.k_of(rec), interval))


def answer(case):
    """The answer to a case, in bytes."""
    if case[0] == FLIP:
        return flip_answer(case)
    refusal, *rest = outcome(case)
    head = bytes(refusal or (0, 0))
    if case[0] in (READ_CP, LOOK_UP):
        return head + record.pack(rest[0])
    if case[0] in (PUT, BACK):
        return head + len3(rest[0]) + rest[1]
    if case[0] == WRITE_CP:
        return head + len2(rest[0]) + rest[1]
    if case[0] == LINEAR:
        return head + b"".join(value.to_bytes(4, "little", signed=True) for value in rest[0])
    if case[0] == SEND_CP:
        return head + len2(rest[0]) + frames.pack_state(rest[1]) + rest[2]
    head += frames.pack_state(rest[0])
    if case[0] == FIND_STATE:
        return head
    if case[0] == RECEIVE:
        return head + control.pack(rest[1]) + b"".join(rest[2:])
    return head + rest[1]
