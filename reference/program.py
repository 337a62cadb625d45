"""The program v91: what `v91 run` writes to standard output for a script of commands.

A command reads its input, writes to its output, which is a file or standard output, and says
sentences, which go to standard output. Not modelled is what the stored script leaves out: the text
of help, the order of data and sentences about frames on one output, an output that cannot be
written but for a settings file whose directory is not there, and `<` or `>` without a command
before or a file after it.
"""

import re
from collections import namedtuple

import control
import settings
from cp import write_cp
from describe import (CP_LENGTHS, counted, demo_lines, description, example_cp, rate_line,
                      rate_words, read_file, refusal_sentence, shown)
from dil import TABLE_5, length as dil_length, send_dil
from flip import changed_places
from frames import (COLD, FRESH, MOST_DOUBTFUL, MOST_FRAMES, add_bits, control_frames, data_bits,
                    data_bytes, ends_sequence, get_bits, receive_frame, send_frame, width_of)
from linear import linear
from picture import LAW_NAMES, Picture, found_line, svg_lines, text_lines
from plan import MOST_CEILING, RATES, SPACINGS, largest_spacing, plan, points_wanted
from record import k_of, make, sizes_of
from start import E_S, FOUND_FROM, UCODE, find_state, from_zero, octet_count
from table1 import A, MU, ucode_of

LAWS = {"mu": MU, "ulaw": MU, "a": A, "alaw": A}
MOST_RUNS = 20
VERSION = "v91 8"
JUNCTIONS = range(65536)
MOST_OF_SETTINGS = 131_072
HELP = ("help", "--help", "-h")

NO_FILE = "there is no such file"
WRONG_NUMBER = "wrong number of words; v91 help says what each command takes"
CP_WANTED = "give the name of a file that holds a CP; v91 demo cp > FILE writes an example"
SETTINGS_WANTED = "v91 settings FILE new makes a settings file"
CLEARDOWN = ("the CP says cleardown (drn 0), so no data can be sent or received with it "
             "(refusal 13)")


class Failed(Exception):
    """A command fails; the arguments are the sentences that it then says."""


class Call:
    """A command under way: the files there are, its input, and what it writes and says."""

    def __init__(self, files, octets, written, said):
        self.files = files
        self.input = octets
        self._written = written
        self._said = said

    def write(self, octets):
        """Write to the command's output."""
        self._written += octets

    def write_lines(self, lines):
        """Write lines of text."""
        self.write("".join(f"{line}\n" for line in lines).encode())

    def say(self, sentence):
        """Say a sentence."""
        self._said += f"v91: {sentence}\n".encode()


# Words of a command

def law_named(word):
    """The law of that name."""
    if word.lower() not in LAWS:
        raise Failed(f"{shown(word)} is no PCM law: LAW is mu or a")
    return LAWS[word.lower()]


def has_word(words, wanted):
    """Whether a word is there, in capitals or not."""
    return wanted in [word.lower() for word in words]


def check_count(words, least, most):
    """Stop unless there are so many words."""
    if not least <= len(words) <= most:
        raise Failed(WRONG_NUMBER)


def is_number(word):
    """Whether a word is a number of 1 to 18 digits."""
    return bool(re.fullmatch("[0-9]{1,18}", word))


def is_data(word):
    """Whether a word is data of the secondary channel: 1 to 54 binary digits."""
    return bool(re.fullmatch(f"[01]{{1,{control.DATA_BITS}}}", word))


def check_send_words(words):
    """Stop unless send takes the words that follow LAW."""
    of_channel = ["cleardown", "retrain"] if has_word(words, "control") else []
    taken = {"exact", "progress", "start", "control", *of_channel}
    if not all(word.lower() in taken or of_channel and is_data(word) for word in words):
        raise Failed("after LAW send takes the words exact, progress, start and control alone, and "
                     "after control cleardown, retrain and up to "
                     f"{control.DATA_BITS} binary digits")


def data_told(words):
    """The data of the secondary channel, the last such word; its first digit is the lowest bit."""
    digits = ["0", *filter(is_data, words)][-1]
    return int(digits[::-1], 2)


def number_told(words):
    """The 56 bits of the sequences that send starts."""
    cleardown, retrain = has_word(words, "cleardown"), has_word(words, "retrain")
    return cleardown | retrain << 1 | data_told(words) << 2


def bytes_wanted(words):
    """BYTES, the last number among the words that follow LAW; None where there is none."""
    wanted = None
    for word in words:
        if is_number(word):
            wanted = int(word)
        elif word.lower() not in ("cold", "control", "start", "progress"):
            raise Failed("after LAW receive takes BYTES, a number of 1 to 18 digits, "
                         "and the words cold, control, start and progress alone")
    return wanted


def state_told(words):
    """The state in which the receiver begins: cold where the word cold follows LAW, else fresh."""
    return COLD if has_word(words, "cold") else FRESH


def octets_in(files, name, wanted):
    """The bytes of a file; where it cannot be read, a sentence says what is wanted."""
    if name == ".":
        raise Failed(f"cannot read {name}: it is a directory, and a file is wanted", wanted)
    if name not in files:
        raise Failed(f"cannot open {shown(name)}: {NO_FILE}", wanted)
    return files[name]


def cp_in(files, name):
    """The record of a CP file."""
    octets = octets_in(files, name, CP_WANTED)
    refusal, record = read_file(octets)
    if refusal:
        raise Failed(refusal_sentence(shown(name), octets, refusal))
    return record


# CP and E_s

def send_start(call, cp_name, law_name):
    """`start CPFILE LAW`."""
    law = law_named(law_name)
    octets, _ = from_zero(cp_in(call.files, cp_name), law)
    call.write(octets)
    of_cp = len(octets) - len(E_S)
    call.say(f"{counted(len(octets), 'octet')} sent: {of_cp} of CP and {len(E_S)} of E_s")


def state_for_sending(record, law, words):
    """The state in which the sender begins: with the word start the one that CP and E_s leave."""
    return from_zero(record, law)[1] if has_word(words, "start") else FRESH


def are_of_start(law, octets):
    """Whether octets could be of CP and E_s: all of them have Ucode 66."""
    return all(ucode_of(law, octet) == UCODE for octet in octets)


def found_sentence(count, sound):
    """What is said of the state found from so many octets of CP and E_s."""
    of_all = f"the last {FOUND_FROM} of {count} octets of CP and E_s"
    if sound:
        return f"line state found from {of_all}"
    return (f"{of_all} are not all of Ucode {UCODE}, so the first {MOST_DOUBTFUL} bits are "
            "doubtful")


def state_found(call, law, state, octets):
    """The state that octets of CP and E_s leave, said: where it is doubtful, begun from cold."""
    sound = are_of_start(law, octets[-FOUND_FROM:])
    call.say(found_sentence(len(octets), sound))
    return find_state(octets, state if sound else COLD)[1]


def begun(call, record, law, words):
    """(State in which the receiver begins, octets of frames).

    With the word start the input begins with CP and E_s, and the state is found from them.
    """
    state, count = state_told(words), octet_count(record)
    if not has_word(words, "start"):
        return state, call.input
    if len(call.input) < count:
        raise Failed(f"{counted(len(call.input), 'octet')} received, too few for CP and E_s, "
                     f"which have {count}")
    return state_found(call, law, state, call.input[:count]), call.input[count:]


# Sending

def frame_count(record, channel, data, exact):
    """The frames that data makes: only whole ones, or the last one filled."""
    count = 8 * len(data) // data_bits(record, 1)
    while data_bits(record, count + 1, channel) <= 8 * len(data):
        count += 1
    filled = data_bits(record, count, channel) < 8 * len(data) and not exact
    return count + 1 if filled else count


def octets_for(record, law, state, channel, number, count, data):
    """The octets of so many frames of data, with zero bits behind it, from frame place 0."""
    frames, at = [], 0
    for _ in range(count):
        width = width_of(record, channel, state)
        bits = get_bits(data, at, width)
        octets, state = send_frame(record, law, state, channel, number, bits)
        frames.append(octets)
        at += width
    return b"".join(frames)


def sent_sentence(record, channel, count, data):
    """What is said of frames sent."""
    sent = f"{counted(count, 'frame')} sent"
    filled = data_bits(record, count, channel) - 8 * len(data)
    if filled > 0:
        return f"{sent}; {counted(filled, 'zero bit')} added to fill the last one"
    if filled < 0:
        return (f"{sent}; {counted(-filled, 'bit')} of data at the end not sent, "
                "too few for a frame")
    return sent


def sequences_sentence(count):
    """What is said of the sequences in frames sent with the channel on."""
    whole, more = divmod(control_frames(1, 0, count), control.FRAMES)
    sent = f"{counted(whole, 'control sequence')} sent whole"
    return f"{sent}, and {counted(more, 'control frame')} of one that is not" if more else sent


def sent_sentences(record, channel, count, data):
    """What is said of frames sent and, with the channel on, of the sequences in them."""
    said = [sent_sentence(record, channel, count, data)]
    return [*said, sequences_sentence(count)] if channel else said


def send(call, cp_name, law_name, *options):
    """`send CPFILE LAW [exact] [progress] [start] [control [cleardown] [retrain] [BITS]]`."""
    law = law_named(law_name)
    check_send_words(options)
    record = cp_in(call.files, cp_name)
    channel, number = has_word(options, "control"), number_told(options)
    count = frame_count(record, channel, call.input, has_word(options, "exact"))
    if count and record.drn == 0:
        raise Failed(CLEARDOWN)
    state = state_for_sending(record, law, options)
    call.write(octets_for(record, law, state, channel, number, count, call.input))
    for sentence in sent_sentences(record, channel, count, call.input):
        call.say(sentence)


# Receiving

# What the receiver made of frames: the data bits in bytes, the marks, how many bits of good frames
# are doubtful, what is heard of sequences as (frame, Heard), and the state left.
Reception = namedtuple("Reception", "data marks doubtful heard state")


def octets_read(record, channel, octets, wanted):
    """The octets that are read: calls of 1,024 frames, as many as BYTES asks for.

    Each of them has the same number of whole bytes: with the channel on 16 are control frames.
    """
    if wanted is None:
        return octets
    calls = -(-wanted // data_bytes(record, MOST_FRAMES, channel))
    return octets[:6 * MOST_FRAMES * calls]


def doubtful_bits(mark, width, count):
    """How many bits of a frame are doubtful: in a good one those below the count before it."""
    return 0 if mark else min(width, count)


def reception(record, law, channel, state, octets):
    """What the receiver makes of the whole frames among octets, from a state at frame place 0."""
    count, at = len(octets) // 6, 0
    data, marks, doubtful, heard = bytearray(data_bytes(record, count, channel)), [], 0, []
    for n in range(count):
        before, width = state, width_of(record, channel, state)
        mark, bits, state = receive_frame(record, law, state, channel, octets[6 * n:6 * n + 6])
        add_bits(data, at, width, bits)
        at += width
        marks.append(mark)
        doubtful += doubtful_bits(mark, width, before.doubtful)
        if ends_sequence(channel, before):
            heard.append((n, control.heard_in(state.sequence, state.lost)))
    return Reception(bytes(data), marks, doubtful, heard, state)


def runs_of(marks):
    """The runs of frames with one and the same mark: (mark, first frame, last frame)."""
    runs = []
    for frame, mark in enumerate(marks):
        if runs and runs[-1][0] == mark:
            runs[-1] = (mark, runs[-1][1], frame)
        else:
            runs.append((mark, frame, frame))
    return runs


def run_sentence(mark, first, last, good_follows):
    """What is said of a run of marked frames."""
    where = f"frame {first}" if first == last else f"frames {first} to {last}"
    what = ("the number R is 2^K or more" if mark == 7
            else f"interval {mark - 1} outside its mask")
    doubt = f"; the {MOST_DOUBTFUL} bits after that are doubtful" if good_follows else ""
    return f"{where}: {what}{doubt}"


def marked_runs(marks):
    """The runs of marked frames."""
    return [run for run in runs_of(marks) if run[0]]


def run_sentences(marks):
    """What is said of each run of marked frames."""
    return [run_sentence(mark, first, last, marks[last + 1:last + 2] == [0])
            for mark, first, last in marked_runs(marks)]


def digits_of(number):
    """The data of the secondary channel in 54 digits, the first in time first."""
    return "".join(str(number >> 2 + n & 1) for n in range(control.DATA_BITS))


def heard_words(heard):
    """What is said of a sequence that has ended."""
    cleardown, retrain = (("no", "yes")[heard.number >> n & 1] for n in (0, 1))
    return {
        control.HEARD: f"heard: cleardown {cleardown}, retrain {retrain}, "
                       f"data {digits_of(heard.number)}",
        control.FRAME_LOST: "lost, a frame of it is marked",
        control.PATTERN_WRONG: "wrong, its pattern",
        control.CRC_WRONG: "wrong, its CRC",
    }[heard.what]


def sequence_sentence(frame, heard):
    """What is said of a sequence whose last frame has this number."""
    return f"frame {frame}: control sequence {heard_words(heard)}"


def frame_sentences(got):
    """What is said of runs of marked frames, the first ones alone, and of sequences, in order.

    A run is said when the frame after it comes, and then a sequence that ends with that frame.
    """
    runs = zip(marked_runs(got.marks), run_sentences(got.marks))
    said = [(last + 1, 0, sentence) for (_, _, last), sentence in runs][:MOST_RUNS]
    said += [(frame, 1, sequence_sentence(frame, heard)) for frame, heard in got.heard]
    return [sentence for _, _, sentence in sorted(said)]


def received_sentence(marks):
    """What is said of frames received."""
    marked = sum(mark > 0 for mark in marks)
    return f"{counted(len(marks), 'frame')} received, {marked} of them marked"


def coming_sentence(state):
    """What is said of bits to come: the count in the state left."""
    return f"{counted(state.doubtful, 'coming bit')} to distrust"


def part_sentences(state):
    """What is said of a sequence that is not whole: its frames are those done in the state left."""
    done = counted(state.sequence_place, "control frame")
    return [f"{done} received of a sequence that is not whole"] if state.sequence_place else []


def summary(got):
    """What is said of a reception at its end."""
    sentences = [received_sentence(got.marks)]
    if any(got.marks) or got.doubtful:
        sentences.append(f"{counted(got.doubtful, 'bit')} of good frames doubtful in all")
    return [*sentences, coming_sentence(got.state), *part_sentences(got.state)]


def say_reception(call, got, left_over):
    """Say what was received, but for the runs and sequences that were said before."""
    more = len(run_sentences(got.marks)) - MOST_RUNS
    if more > 0:
        call.say(f"{counted(more, 'more run')} of marked frames")
    for sentence in summary(got):
        call.say(sentence)
    if left_over:
        call.say(f"{counted(left_over, 'octet')} at the end too few for a frame")


def receive(call, cp_name, law_name, *options):
    """`receive CPFILE LAW [BYTES] [cold] [control] [start] [progress]`."""
    law, wanted = law_named(law_name), bytes_wanted(options)
    record, channel = cp_in(call.files, cp_name), has_word(options, "control")
    state, line = begun(call, record, law, options)
    octets = octets_read(record, channel, line, wanted)
    count, left_over = divmod(len(octets), 6)
    if count and record.drn == 0:
        raise Failed(*summary(reception(record, law, channel, state, b"")), CLEARDOWN)
    got = reception(record, law, channel, state, octets)
    whole, rest = divmod(data_bits(record, count, channel), 8)
    for sentence in frame_sentences(got):
        call.say(sentence)
    call.write(got.data[:wanted])
    say_reception(call, got, left_over)
    if got.data[whole:wanted]:
        call.say(f"{counted(rest, 'bit')} of data in the last byte")
    if wanted is not None and len(got.data) < wanted:
        raise Failed(f"the input ended {counted(wanted - len(got.data), 'byte')} of data too early")


# Planning

def bounds(numbers):
    """The bounds of a range in words."""
    return f"{numbers[0]} to {numbers[-1]}"


def number_for(name, numbers, word):
    """The number that a word gives; whether it is one of those wanted is not judged here."""
    if not is_number(word):
        raise Failed(f"{name} is a number from {bounds(numbers)}, not {shown(word)}")
    return int(word)


def check_ceiling(word):
    """Stop unless the word is a number; it may have any number of digits."""
    if not re.fullmatch("[0-9]+", word):
        raise Failed(f"CEILING is a number, not {shown(word)}")


def form_named(words):
    """The form of the answer, svg or cp; None where there is no word."""
    if not words:
        return None
    form = words[0].lower()
    if form not in ("svg", "cp"):
        raise Failed(f"after CEILING there may be the word svg or cp, not {shown(words[0])}")
    return form


def outside_sentence(k, spacing):
    """What is said of refusal 26."""
    if k not in RATES:
        return f"K is {k}; it is {bounds(RATES)}"
    return f"the spacing is {spacing}; it is {bounds(SPACINGS)}"


def no_mask_sentence(k, law, spacing):
    """What is said of refusal 27."""
    none = f"no mask of {points_wanted(k)} points keeps"
    largest = largest_spacing(k, law, MOST_CEILING)
    if not largest:
        return f"{none} any spacing in {LAW_NAMES[law]}, where Ucode 0 has the value 0"
    return f"{none} the spacing {spacing}; the largest spacing that one keeps is {largest}"


def ceiling_sentence(k, law, spacing, ceiling):
    """What is said of refusal 28."""
    total = plan(k, law, spacing, MOST_CEILING)[2]
    largest = largest_spacing(k, law, int(ceiling))
    within = f"the largest spacing within it is {largest}" if largest else "no spacing is within it"
    return (f"the least sum of squares at spacing {spacing} is {total}, above the ceiling "
            f"{ceiling}; {within}")


def plan_sentence(number, k, law, spacing, ceiling):
    """What is said of a plan that is refused."""
    if number == 26:
        sentence = outside_sentence(k, spacing)
    elif number == 27:
        sentence = no_mask_sentence(k, law, spacing)
    else:
        sentence = ceiling_sentence(k, law, spacing, ceiling)
    return f"{sentence} (refusal {number})"


def cp_for(k, mask):
    """The CP with a mask in all intervals at the rate of K."""
    return write_cp(make(0, k - 14, 0, [0] * 6, [mask]), bytes(37))[2]


def write_plan(call, k_word, law_name, spacing_word, ceiling, *words):
    """`plan K LAW SPACING CEILING [svg|cp]`."""
    k, law = number_for("K", RATES, k_word), law_named(law_name)
    spacing = number_for("SPACING", SPACINGS, spacing_word)
    check_ceiling(ceiling)
    form = form_named(words)
    refusal, _, total, mask = plan(k, law, spacing, int(ceiling))
    if refusal:
        raise Failed(plan_sentence(refusal.number, k, law, spacing, ceiling))
    picture = Picture(k, law, spacing, ceiling, total, mask)
    if not form:
        call.write_lines(text_lines(picture))
        return
    if form == "svg":
        call.write_lines(svg_lines(picture))
    else:
        call.write(cp_for(k, mask))
    call.say(found_line(picture))


# One flipped sign

def interval_line(interval, places):
    """The line of what one sign of an interval changes."""
    bits = counted(len(places), "bit")
    return f"interval {interval}: {bits}: {' '.join(map(str, places))}"


def flip_lines(record):
    """What one flipped sign changes under a record."""
    return [rate_line(record),
            "one octet comes with the other sign; its frame and the two after it are good, and the "
            "control channel is off",
            "no mark changes; of the data bits, counted from the first of that frame, these do",
            *(interval_line(i, changed_places(k_of(record), i)) for i in range(6))]


def tell_flip(call, cp_name):
    """`flip CPFILE`."""
    record = cp_in(call.files, cp_name)
    if record.drn == 0:
        raise Failed(CLEARDOWN)
    call.write_lines(flip_lines(record))


# Settings of junctions

# A line of the table: a junction, the record of its current setting, and that of its previous one
# or None.
Row = namedtuple("Row", "junction current previous")

# The versions of a file by the word that names them.
FILE_VERSIONS = {str(version.byte): version for version in settings.VERSIONS}

TABLE_HEAD = "junction  rate            M0   M1   M2   M3   M4   M5  previous"


def junction_named(word):
    """The junction that a word gives."""
    junction = number_for("JUNCTION", JUNCTIONS, word)
    if junction not in JUNCTIONS:
        raise Failed(f"JUNCTION is a number from {bounds(JUNCTIONS)}, not {shown(word)}")
    return junction


def settings_in(files, name):
    """The bytes of a settings file; one that is too long is cut, and so it is refused."""
    return octets_in(files, name, SETTINGS_WANTED)[:MOST_OF_SETTINGS]


def as_it_was(name):
    """What is said of a file that is not changed."""
    return f"{shown(name)} is as it was"


def save(files, name, octets):
    """Write a settings file: first a temporary one, then this is renamed.

    There is no directory but the one where all files are.
    """
    temporary = f"{name}.tmp"
    if "/" in name:
        raise Failed(f"cannot write {shown(temporary)}: {NO_FILE}", as_it_was(name))
    files[temporary] = octets
    files[name] = files.pop(temporary)


def settings_refusal(name, octets, number, junction=0, what="setting"):
    """What is said of refusals 22, 23 and 24; `what` is not there where it is 23."""
    if number == 22:
        sentence = (f"{shown(name)} is no settings file: it breaks the rules of one, "
                    "or a CP in it is refused")
    elif number == 23:
        sentence = f"{shown(name)} has no {what} for junction {junction}"
    else:
        sentence = (f"{shown(name)} has {len(settings.read(octets))} junctions, the most there can "
                    f"be, so junction {junction} cannot be put")
    return f"{sentence} (refusal {number})"


def rows_in(name, octets):
    """The rows of a settings file, by rising junction."""
    junctions = settings.read(octets)
    if junctions is None:
        raise Failed(settings_refusal(name, octets, 22))
    return [Row(one.number, read_file(one.current)[1],
                None if one.previous is None else read_file(one.previous)[1])
            for one in junctions]


def row_line(row):
    """The line of a junction in the table."""
    sizes = "".join(f"{size:5}" for size in sizes_of(row.current))
    previous = "none" if row.previous is None else rate_words(row.previous)
    return f"{row.junction:8}  {rate_words(row.current):13}{sizes}  {previous}"


def list_sentence(rows):
    """What is said after the table."""
    kept = sum(row.previous is not None for row in rows)
    return f"{counted(len(rows), 'junction')}, {kept} with a previous setting"


def kept_words(record):
    """What is said of a setting that is kept."""
    return f"{rate_words(record)} kept as the previous setting"


def put_sentence(junction, record, before):
    """What is said of a setting that is put; the one before is None where there is none."""
    kept = "its first setting" if before is None else kept_words(before)
    return f"junction {junction}: {rate_words(record)} put, {kept}"


def back_sentence(junction, current, previous):
    """What is said of two settings that are exchanged, as they are then."""
    return f"junction {junction}: back to {rate_words(current)}, {kept_words(previous)}"


def new_settings(call, name, word="1"):
    """`settings FILE new [1|2]`."""
    if word not in FILE_VERSIONS:
        raise Failed(f"after new there may be the version, 1 or 2, not {shown(word)}")
    if name in call.files:
        raise Failed(f"{shown(name)} is there already; it is as it was")
    save(call.files, name, settings.write([], FILE_VERSIONS[word]))
    call.say(f"{shown(name)} made, with no junction")


def list_settings(call, name):
    """`settings FILE list`."""
    rows = rows_in(name, settings_in(call.files, name))
    call.write_lines([TABLE_HEAD, *map(row_line, rows)])
    call.say(list_sentence(rows))


def put_setting(call, name, word, cp_name):
    """`settings FILE put JUNCTION CPFILE`."""
    junction, record = junction_named(word), cp_in(call.files, cp_name)
    octets = settings_in(call.files, name)
    refusal, length, out = settings.put(octets, junction, record, bytes(MOST_OF_SETTINGS))
    if refusal:
        raise Failed(settings_refusal(name, octets, refusal.number, junction), as_it_was(name))
    absent, before = settings.look_up(octets, junction)
    save(call.files, name, out[:length])
    call.say(put_sentence(junction, record, None if absent else before))


def back_setting(call, name, word):
    """`settings FILE back JUNCTION`."""
    junction, octets = junction_named(word), settings_in(call.files, name)
    refusal, length, out = settings.go_back(octets, junction, bytes(MOST_OF_SETTINGS))
    if refusal:
        raise Failed(settings_refusal(name, octets, refusal.number, junction, "previous setting"),
                     as_it_was(name))
    save(call.files, name, out[:length])
    current, previous = (settings.look_up(file, junction)[1] for file in (out[:length], octets))
    call.say(back_sentence(junction, current, previous))


def cp_octets(record):
    """The bytes of a record's CP."""
    _, count, octets = write_cp(record, bytes(max(CP_LENGTHS)))
    return octets[:(count + 7) // 8]


def show_setting(call, name, word, *form):
    """`settings FILE show JUNCTION [cp]`."""
    if form and form[0].lower() != "cp":
        raise Failed(f"after JUNCTION there may be the word cp, not {shown(form[0])}")
    junction, octets = junction_named(word), settings_in(call.files, name)
    refusal, record = settings.look_up(octets, junction)
    if refusal:
        raise Failed(settings_refusal(name, octets, refusal.number, junction))
    if form:
        call.write(cp_octets(record))
    else:
        call.write_lines(description(record))


# Each word after FILE with the least and the most words after it.
SETTINGS = {"new": (new_settings, 0, 1), "list": (list_settings, 0, 0), "put": (put_setting, 2, 2),
            "back": (back_setting, 1, 1), "show": (show_setting, 1, 2)}


def with_settings(call, name, form, *words):
    """`settings FILE` and one of the words above."""
    if form.lower() not in SETTINGS:
        raise Failed(f"after FILE settings takes new, list, put, back or show, not {shown(form)}")
    command, least, most = SETTINGS[form.lower()]
    check_count(words, least, most)
    command(call, name, *words)


# The other commands

def tell_cp(call, name):
    """`cp FILE`."""
    call.write_lines(description(cp_in(call.files, name)))


def tell_linear(call, law_name, *options):
    """`linear LAW [progress]`."""
    law = law_named(law_name)
    if options and not has_word(options, "progress"):
        raise Failed("after LAW linear takes the word progress alone")
    call.write_lines(linear(law, call.input, [0] * len(call.input))[1])


def write_dil(call, law_name):
    """`dil LAW`."""
    octets = send_dil(law_named(law_name), bytes(dil_length(TABLE_5)))[1]
    call.write(octets)
    call.say(f"{counted(TABLE_5.n, 'segment')} of {len(octets) // TABLE_5.n} octets sent")


def demo(call, *words):
    """`demo` and `demo cp`."""
    if not words:
        call.write_lines(demo_lines())
    elif words[0].lower() == "cp":
        call.write(example_cp())
    else:
        raise Failed(f"after demo there may be the word cp, not {shown(words[0])}")


def tell_version(call):
    """`--version`."""
    call.write_lines([VERSION])


# Each command with the least and the most words after it.
COMMANDS = {"cp": (tell_cp, 1, 1), "send": (send, 2, 9), "receive": (receive, 2, 7),
            "start": (send_start, 2, 2), "linear": (tell_linear, 1, 2), "dil": (write_dil, 1, 1),
            "plan": (write_plan, 4, 5), "flip": (tell_flip, 1, 1),
            "settings": (with_settings, 2, 4), "demo": (demo, 0, 1),
            "--version": (tell_version, 0, 0)}


# The script

def lines_of(script):
    """The lines of a script; the last may lack its newline."""
    *lines, last = script.split("\n")
    return lines + [last] if last else lines


def words_of(line):
    """The words of a line, which spaces separate."""
    return [word for word in line.split(" ") if word]


def parts_of(words):
    """(Words of the command, {'<' or '>': file})."""
    end = next((n for n, word in enumerate(words) if word in ("<", ">")), len(words))
    return words[:end], dict(zip(words[end::2], words[end + 1::2]))


def carry_out(call, name, *words):
    """Carry out one command."""
    if name.lower() in HELP:
        raise NotImplementedError("the text of help is not modelled")
    if name.lower() not in COMMANDS:
        raise Failed(f"there is no command {shown(name)}; v91 help says what there are")
    command, least, most = COMMANDS[name.lower()]
    check_count(words, least, most)
    command(call, *words)


def run_command(files, words, output):
    """Run a command with its input and output, and say whether it succeeded."""
    command, ports = parts_of(words)
    source, target = ports.get("<"), ports.get(">")
    written = output if target is None else bytearray()
    call = Call(files, files.get(source, b""), written, output)
    try:
        if source is not None and source not in files:
            raise Failed(f"cannot open {shown(source)}: {NO_FILE}")
        carry_out(call, *command)
        call.say("ok")
    except Failed as failure:
        for sentence in (*failure.args, "failed"):
            call.say(sentence)
    if target is not None:
        files[target] = bytes(written)


def outputs(files, script):
    """What `v91 run` writes for each line of a script; files that are written go into `files`."""
    for line in lines_of(script):
        output = bytearray(f"{line}\n".encode())
        words = words_of(line)
        if words and not line.startswith("#"):
            run_command(files, words, output)
        yield bytes(output)


def transcript(files, script):
    """What `v91 run` writes to standard output."""
    return b"".join(outputs(files, script))
