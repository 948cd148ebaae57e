"""The differential run: a proved program and the independent program on the same inputs.

    python3 tests/checks/differential.py [--count N] [--seed S] [--first I] [--program NAME]

It runs the program NAME, as rt has built it, once for every input, and holds what it prints
against the independent program's listing: of the generators, judge has the inputs of tables.py, play those of
runs.py, reread those of tracks.py and track those of inputs.py. The first difference ends the run with status 1;
what is printed then says how to see it again. Without any, one line tells the inputs, the outcomes and the
seconds. On the way a line now and then tells how far it is, and how to go on from there.
"""

import argparse
import collections
import functools
import itertools
import multiprocessing
import os
import pathlib
import sys
import tempfile
import time
from typing import Callable, NamedTuple, Optional

if __name__ == "__main__":  # as a command, too, packages are found from the repository
    sys.path[0] = str(pathlib.Path(__file__).resolve().parents[2])

from tests.generators import inputs, runs, tables, tracks
from tests.generators.families import DEFAULT_SEED, Families, told_counts
from tests.independent import frames, rules, saved
from tools.programs import Answer, answer_of, prepared

WORKERS = 4  # for two processors: some of them wait for a program's end
INPUTS_AT_A_TIME = 2  # few, since inputs of one family stand together, and those at a room's edge take long
FIRST_SECONDS = 60  # in which words come often
SECONDS_BETWEEN_WORDS, SECONDS_BETWEEN_LATER_WORDS = 5, 30
SHORT_INPUT = 1_000  # bytes that are shown as they are
LINES_SHOWN = 24
COLUMN = 72


# ---- what is compared


class Subject(NamedTuple):
    """How a program's inputs are made, what it has to print for one, and what that comes to."""

    families: Families
    listing: Callable
    outcome: Callable


SUBJECTS = {
    "judge": Subject(tables.FAMILIES, frames.listing, frames.outcome),
    "play": Subject(runs.FAMILIES, rules.play_listing, rules.play_outcome),
    "reread": Subject(tracks.FAMILIES, saved.reread_listing, saved.reread_outcome),
    "track": Subject(inputs.FAMILIES, rules.listing, rules.outcome),
}


# ---- comparing


class Compared(NamedTuple):
    index: int
    outcome: str
    difference: Optional[Answer]  # the program's answer where it is another one


def compare(program, started, seed, index):
    subject = SUBJECTS[program]
    given = subject.families.generate(seed, index)
    expected = subject.listing(given)
    answer = answer_of(started, given)
    return Compared(index, subject.outcome(expected), None if answer == Answer(expected, "") else answer)


class Progress:
    """Tells on standard error how far a run is, often at first and seldom later."""

    def __init__(self, count):
        self.count = count
        self.began = self.told = time.monotonic()

    def tell(self, done, index):
        now = time.monotonic()
        seconds = now - self.began
        pause = SECONDS_BETWEEN_WORDS if seconds < FIRST_SECONDS else SECONDS_BETWEEN_LATER_WORDS
        if now - self.told > pause:
            self.told = now
            words = f"{done} of {self.count} inputs alike, {seconds:.0f} s, {done / seconds:.1f} a second"
            rest = f"the rest is --first {index + 1} --count {self.count - done}"
            print(f"{words}; {rest}", file=sys.stderr, flush=True)


def compare_all(program, started, seed, first, count):
    """Compares input after input; gives the counts of the outcomes and the first difference or None."""
    outcomes, progress = collections.Counter(), Progress(count)
    with multiprocessing.Pool(WORKERS) as pool:
        one = functools.partial(compare, program, started, seed)
        for compared in pool.imap(one, range(first, first + count), INPUTS_AT_A_TIME):
            if compared.difference is not None:
                return outcomes, compared
            outcomes[compared.outcome] += 1
            progress.tell(sum(outcomes.values()), compared.index)
    return outcomes, None


# ---- telling


def shown_lines(text):
    return [repr(line.decode("latin-1"))[1:-1] for line in text.split(b"\n")]


def column_pair(left, right):
    """Two lines cut to a column's width around the first character in which they differ."""
    alike = len(os.path.commonprefix((left, right)))
    start = max(alike - COLUMN // 2, 0) if max(len(left), len(right)) > COLUMN and left != right else 0
    return ["..." * (start > 0) + line[start : start + COLUMN - 3] for line in (left, right)]


def side_by_side(expected, wrote):
    """Both outputs in two columns, from a little before the first line in which they differ."""
    pairs = list(itertools.zip_longest(shown_lines(expected), shown_lines(wrote), fillvalue="(nothing)"))
    differing = [number for number, (left, right) in enumerate(pairs) if left != right]
    start = max(differing[0] - 4, 0) if differing else 0
    rows = [f"  {'line':>5}  {'independent':<{COLUMN}}  program"]
    for number, (left, right) in enumerate(pairs[start : start + LINES_SHOWN], start):
        mark = " " if left == right else "!"
        left, right = column_pair(left, right)
        rows.append(f"{mark} {number + 1:>5}  {left:<{COLUMN}}  {right}")
    return "\n".join(rows)


def tell_difference(program, seed, compared):
    """Prints the first difference; the input and both outputs are kept whole in a folder of their own."""
    subject = SUBJECTS[program]
    given = subject.families.generate(seed, compared.index)
    expected = subject.listing(given)
    answer = compared.difference
    kept = pathlib.Path(tempfile.mkdtemp(prefix="differential-"))
    for name, content in (("input", given), ("independent", expected), ("program", answer.output)):
        (kept / name).write_bytes(content)
    index, family = compared.index, subject.families.family_of(compared.index).__name__
    print(f"DIFFERENT: seed {seed}, index {index}, family {family}")
    print(f"again: python3 tests/checks/differential.py --program {program} --seed {seed} --first {index} --count 1")
    print(f"the input, {len(given)} bytes: {kept / 'input'}; both outputs are beside it")
    if len(given) <= SHORT_INPUT:
        print("\n".join("    " + line for line in shown_lines(given)))
    if answer.trouble:
        print(f"the program ended badly: {answer.trouble}")
    print(side_by_side(expected, answer.output))


def run(program, seed, first, count):
    """The whole run; gives the exit status."""
    began = time.monotonic()
    with prepared(program) as started:
        outcomes, different = compare_all(program, started, seed, first, count)
    if different is not None:
        tell_difference(program, seed, different)
        return 1
    compared, counts, seconds = sum(outcomes.values()), told_counts(outcomes), time.monotonic() - began
    print(f"{program}: {compared} inputs, seed {seed}, no difference: {counts}; {seconds:.1f} s")
    return 0


def main():
    arguments = argparse.ArgumentParser(description="hold a program against the independent program")
    arguments.add_argument("--count", type=int, default=2_500, help="how many inputs (2500)")
    arguments.add_argument("--seed", type=int, default=DEFAULT_SEED, help="the seed of all inputs")
    arguments.add_argument("--first", type=int, default=0, help="the first input's index (0)")
    arguments.add_argument("--program", default="track", choices=SUBJECTS, help="which program (track)")
    chosen = arguments.parse_args()
    return run(chosen.program, chosen.seed, chosen.first, chosen.count)


if __name__ == "__main__":
    sys.exit(main())
