"""The cases of document 01, A to M, and of document 02's W1 and W2, the edges around them, and the runs of the report's
figures, kept as cases/NAME.in and NAME.out.

    python3 tests/checks/cases.py          runs the program track on every input, handed over whole and in pieces
    python3 tests/checks/cases.py --make   writes every file again, the outputs by the independent program

The first difference from a kept output ends the run with status 1.
"""

import argparse
import itertools
import pathlib
import random
import sys
import time

if __name__ == "__main__":  # as a command, too, packages are found from the repository
    sys.path[0] = str(pathlib.Path(__file__).resolve().parents[2])

from tests.checks.differential import side_by_side
from tests.generators.inputs import SIDES, filled, steps_for
from tests.generators.runs import (
    CASES, FIGURES, LONGEST_NEST, NO_EVENT, STUCK_CASES, call, nest_of, parallel_on, table_of,
)
from tests.generators.tables import Padding, padded, step_line, text_of
from tests.independent import rules
from tests.independent.frames import TABLE_ROOM
from tests.independent.rules import CELL_ROOM, NODE_ROOM, SAVE_ROOM
from tools.programs import Answer, answer_in_pieces, answer_of, prepared

KEPT = pathlib.Path(__file__).resolve().parent / "cases"
PIECE_BYTES = (1, 2, 3, 5, 7, 11, 31, 4_093, 16_381)  # over and over


# ---- the inputs


# document 01's own text of case A, `/` for LF
TABLE_A = "10010101/1100/12060000000000000001/120200/1207/120200/1208/1f0005/".replace("/", "\n")
SCRIPT_A = "200000/20000103/20000101/20000102/".replace("/", "\n")
SCRIPT_B = "200000/20000103/20000102/20000101/".replace("/", "\n")
TABLE_OF_SKIP = "10010100/1100/1207/1f0001/".replace("/", "\n")
LETTERS = "1001010c/1100/12060000000000000c00/12020a/1207/12020a/1208/1f0005/200000/20000103/".replace("/", "\n")


def text_of_case(draft, addresses):
    return text_of(draft.lines + [step_line(address) for address in addresses])


def run_inputs(runs):
    """The inputs of runs, each by its table and addresses."""
    return {name: text_of_case(draft, addresses) for name, (draft, addresses) in runs.items()}


def case_inputs():
    """Document 01's cases; I and J with the steps that fill a room and one more."""
    texts = run_inputs(CASES)
    for name, room in (("i", NODE_ROOM), ("j", CELL_ROOM)):
        draft, _ = CASES[name]
        texts[name] = text_of_case(draft, [()] * (room + 1))
    return texts | {"a": TABLE_A + SCRIPT_A, "b": TABLE_A + SCRIPT_B, "m": TABLE_A}


# lots for `nest_of`, whose shapes here leave nothing to them
NO_LOTS = random.Random(0)


def accepted_steps(*digits):
    """A run in sixty sides by addresses of so many digits each: a script line of k digits has 7 + 2k bytes."""
    sides = nest_of(NO_LOTS, "right", parallel_on(NO_EVENT), [call(1)] * LONGEST_NEST)
    return text_of_case(table_of(sides.term, call(1)), [()] + [sides.parts[count - 1] for count in digits])


def saved_in(length):
    """A run whose saved text has exactly so many bytes."""
    sides = nest_of(NO_LOTS, "even", parallel_on(NO_EVENT), SIDES)
    return filled(sides, 20, length, steps_for(length, sides)[0]).text()


def table_in(length, skip="1207\n", last="1f0001\n"):
    """A table's text of exactly so many bytes, SKIP after SKIP behind a complete definition."""
    return padded(["10010100", "1100", "1207"], Padding("", skip, last), length) + SCRIPT_A


def edge_inputs():
    return {
        "empty": "",
        "table-without-last-lf": TABLE_A[:-1],
        "script-without-last-lf": (TABLE_A + SCRIPT_A)[:-1],
        "table-ends-early": TABLE_A.removesuffix("1f0005\n"),
        "table-refused": TABLE_A.replace("1f0005", "1f0004") + SCRIPT_A,
        "table-32768": table_in(TABLE_ROOM),
        "table-32769": table_in(TABLE_ROOM + 1),
        "script-65536": accepted_steps(*[59] * 524, 11),
        "script-65537": accepted_steps(*[59] * 524, 1, 7),
        "saved-65536": saved_in(SAVE_ROOM),
        "saved-65537": saved_in(SAVE_ROOM + 1),
    }


def with_crs(text):
    return text.replace("\n", "\r\n")


def with_last_crs(text, count):
    """A text whose last so many lines end with CR LF."""
    lines = text.splitlines(True)
    return "".join(lines[:-count]) + with_crs("".join(lines[-count:]))


def every_other_line_with_a_cr(text):
    return "".join(with_crs(line) if number % 2 else line for number, line in enumerate(text.splitlines(True)))


def spelt_inputs():
    """Document 02's W1: capitals and CR LF in tables and scripts, and CRs anywhere else."""
    table, step = TABLE_OF_SKIP, "200000\n"
    full = accepted_steps(*[59] * 524, 1)  # a script of 65,516 bytes, in 526 lines
    return {
        "w1-a": with_crs((TABLE_A + SCRIPT_A).upper()),
        "w1-capitals": (TABLE_A + SCRIPT_A).upper(),
        "w1-cr-lf": with_crs(TABLE_A + SCRIPT_A),
        "w1-letters": LETTERS.upper().replace("\n12020A", "\n12020a", 1),
        "w1-mixed": every_other_line_with_a_cr(TABLE_A.replace("1f", "1F") + SCRIPT_A),
        "w1-cr-in-a-line": table.replace("1207", "12\r07") + step,
        "w1-two-crs": table.replace("1207", "1207\r\r") + step,
        "w1-cr-before-a-line": table.replace("1207", "\r1207") + step,
        "w1-cr-lf-alone": table.replace("1207", "\r\n1207") + step,
        "w1-crs-alone": (table + step).replace("\n", "\r"),
        "w1-table-without-last-lf": table[:-1] + "\r",
        "w1-script-without-last-lf": table + step + step[:-1] + "\r",
        "w1-script-cr-in-a-line": table + step + "2000\r00\n" + step,
        "w1-script-cr-lf-alone": table + step + "\r\n" + step,
        "w1-no-good-last-line": table.replace("1f0001", "1Fxx") + TABLE_ROOM // len(step) * step,
        "w1-short-last-line": table.replace("1f0001", "1F") + step,
        "w1-table-32768": table_in(TABLE_ROOM, "1207\r\n", "1F0001\r\n"),
        "w1-table-32769": table_in(TABLE_ROOM + 1, "1207\r\n", "1F0001\r\n"),
        "w1-script-65536": with_last_crs(full, 20),
        "w1-script-65537": with_last_crs(full, 21),
    }


def all_inputs():
    return case_inputs() | run_inputs(STUCK_CASES) | run_inputs(FIGURES) | edge_inputs() | spelt_inputs()


def make():
    """Writes every input and its output."""
    KEPT.mkdir(exist_ok=True)
    for name, text in all_inputs().items():
        given = text.encode("ascii")
        (KEPT / f"{name}.in").write_bytes(given)
        (KEPT / f"{name}.out").write_bytes(rules.listing(given))


# ---- the run


def kept(name):
    """The input and the output of a name."""
    return (KEPT / f"{name}.in").read_bytes(), (KEPT / f"{name}.out").read_bytes()


def kept_names():
    return sorted(path.stem for path in KEPT.glob("*.in"))


def pieces_of(given):
    """The input in pieces of odd sizes, most of which end within a line."""
    ends = itertools.takewhile(lambda end: end < len(given), itertools.accumulate(itertools.cycle(PIECE_BYTES)))
    cuts = [0, *ends, len(given)]
    return [given[start:end] for start, end in zip(cuts, cuts[1:])]


def is_different(started, name):
    """Whether the program's answer to an input, whole or in pieces, is another one; if so, it is told."""
    given, expected = kept(name)
    answers = {"whole": answer_of(started, given), "in pieces": answer_in_pieces(started, pieces_of(given))}
    for handed, answer in answers.items():
        if answer != Answer(expected, ""):
            print(f"DIFFERENT: {KEPT / name}.in, handed over {handed}", answer.trouble)
            print(side_by_side(expected, answer.output))
            return True
    return False


def run():
    """Every kept case; gives the exit status."""
    began, names = time.monotonic(), kept_names()
    with prepared("track") as started:
        if any(is_different(started, name) for name in names):
            return 1
    print(f"cases: {len(names)} inputs, whole and in pieces, no difference; {time.monotonic() - began:.1f} s")
    return 0


def main():
    arguments = argparse.ArgumentParser(description="hold the program track against the kept cases")
    arguments.add_argument("--make", action="store_true", help="write the kept cases again")
    return make() if arguments.parse_args().make else run()


if __name__ == "__main__":
    sys.exit(main())
