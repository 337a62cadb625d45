"""Makes the stored inputs and outputs of the programs crates/vectors_*, and the stored run of v91.

`python3 reference/vectors.py` says for each stored file whether it is the same as made here;
`python3 reference/vectors.py --write` writes them, and removes other data files of v91.
"""

import sys
from pathlib import Path

import cases_cp
import cases_flip
import cases_frames
import cases_settings
import cases_start
import dil
import plan
import trial
from forms import answer
from program import transcript
from table1 import octet_by_rule, octet_of, value_by_rule, value_of

CRATES = Path(__file__).resolve().parent.parent / "crates"
DATA = "v91/data"
DIL_LENGTHS = (0, 1499, 1500, 1501)
PLAN_RATES = range(14, 44)
PLAN_SPACINGS = (0, 1, 16, 100, 600)
PLAN_SPACINGS_ABOVE = (65535, 65536)


def hex_lines(byte_strings):
    """One line of lowercase hexadecimal for each byte string."""
    return "".join(f"{each.hex()}\n" for each in byte_strings)


def pcm_lines():
    """Table 1 row by row, 512 lines.

    Law, sign, Ucode, the octet as printed and by arithmetic, the linear value as printed, and the
    linear value by arithmetic with its sign.
    """
    lines = []
    for law, name in enumerate(("mu", "a")):
        for sign in (1, 0):
            for ucode in range(128):
                table, octet = octet_of(law, sign, ucode), octet_by_rule(law, sign, ucode)
                value, linear = value_of(law, ucode), (2 * sign - 1) * value_by_rule(law, ucode)
                lines.append(f"{name} {sign} {ucode} {table:02x} {octet:02x} {value} {linear}\n")
    return "".join(lines)


def lent(length):
    """The buffer of send_dil as handed in."""
    return bytes(i % 251 for i in range(length))


def dil_call(law, name, length):
    """A call of send_dil: law, buffer length and refusal, then the buffer, 12 octets a line."""
    refusal, octets = dil.send_dil(law, lent(length))
    head = f"{name} {length} {refusal.number if refusal else 0}\n"
    return head + hex_lines(octets[first:first + 12] for first in range(0, length, 12))


def dil_lines():
    """The default DIL: the training symbols as printed and generated, then calls of send_dil."""
    lines = [f"symbol {place} {symbol} {dil.symbol_at(place)}\n"
             for place, symbol in enumerate(dil.TABLE_5.symbols)]
    lines += [dil_call(law, name, length)
              for law, name in enumerate(("mu", "a")) for length in DIL_LENGTHS]
    return "".join(lines)


def largest_line(k, law, name):
    """The largest spacing that a mask keeps, whatever its sum."""
    return f"{k} {name} largest {plan.largest_spacing(k, law, plan.MOST_CEILING)}\n"


def plan_line(k, law, name, spacing, ceiling):
    """A call of plan: what is handed in, then refusal, M, sum and mask."""
    refusal, points, total, mask = plan.plan(k, law, spacing, ceiling)
    number = refusal.number if refusal else 0
    return f"{k} {name} {spacing} {ceiling} {number} {points} {total} {mask:032x}\n"


def plan_calls(k, law, name, spacing):
    """A call with the largest ceiling; where it gives a mask, also with its sum, and 1 less."""
    refusal, _, total, _ = plan.plan(k, law, spacing, plan.MOST_CEILING)
    ceilings = (plan.MOST_CEILING,) if refusal else (plan.MOST_CEILING, total, total - 1)
    return [plan_line(k, law, name, spacing, ceiling) for ceiling in ceilings]


def plan_lines():
    """Masks for a wanted rate: for each law and K the largest spacing, then calls of plan."""
    lines = []
    for law, name in enumerate(("mu", "a")):
        for k in PLAN_RATES:
            largest = plan.largest_spacing(k, law, plan.MOST_CEILING)
            lines.append(largest_line(k, law, name))
            for spacing in (*PLAN_SPACINGS, largest, largest + 1, *PLAN_SPACINGS_ABOVE):
                lines += plan_calls(k, law, name, spacing)
    return "".join(lines)


def texts():
    """The stored files of the programs vectors_*: {path under crates: text}."""
    made = {"vectors_pcm/stdout": pcm_lines(), "vectors_dil/stdout": dil_lines(),
            "vectors_plan/stdout": plan_lines()}
    for name, cases in (("vectors_cp", cases_cp.cases()), ("vectors_frames", cases_frames.cases()),
                        ("vectors_start", cases_start.cases()),
                        ("vectors_flip", cases_flip.cases()),
                        ("vectors_settings", cases_settings.cases())):
        made[f"{name}/stdin"] = hex_lines(cases)
        made[f"{name}/stdout"] = hex_lines(map(answer, cases))
    return made


def run_files():
    """The stored run of v91: arguments, data files with the script, and output."""
    data = trial.data_files() | {trial.NAME: trial.SCRIPT.encode("ascii")}
    return {"v91/args": trial.ARGUMENTS.encode("ascii"),
            **{f"{DATA}/{name}": octets for name, octets in data.items()},
            "v91/stdout": transcript(dict(data), trial.SCRIPT)}


def files():
    """The stored files: {path under crates: bytes}."""
    return {name: text.encode("ascii") for name, text in texts().items()} | run_files()


def stored(name):
    """The bytes of a stored file; None where it is absent."""
    path = CRATES / name
    return path.read_bytes() if path.exists() else None


def write(name, octets):
    """Store a file."""
    path = CRATES / name
    path.parent.mkdir(parents=True, exist_ok=True)
    path.write_bytes(octets)


def others(made):
    """The data files of v91 that are stored and not made here."""
    return sorted({f"{DATA}/{path.name}" for path in (CRATES / DATA).glob("*")} - set(made))


def write_all(made):
    """Store all files, and remove the others."""
    for name, octets in made.items():
        write(name, octets)
        print(f"{name}: written")
    for name in others(made):
        (CRATES / name).unlink()
        print(f"{name}: removed")


def compare_all(made):
    """Say which files differ; how many do."""
    differing = [name for name, octets in made.items() if stored(name) != octets]
    for name in made:
        print(f"{name}: {'differs' if name in differing else 'same'}")
    for name in others(made):
        print(f"{name}: differs (not made here)")
    return len(differing) + len(others(made))


def main(arguments):
    """Compare, or write with --write; the exit status."""
    if arguments not in ([], ["--write"]):
        print("usage: vectors.py [--write]")
        return 2
    if arguments:
        write_all(files())
        return 0
    return 1 if compare_all(files()) else 0


if __name__ == "__main__":
    sys.exit(main(sys.argv[1:]))
