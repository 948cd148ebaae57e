"""Holds the opponent against the independent program, on inputs of the repository's generators.

    python3 bench/opponent/compare.py PROGRAM [--count N] [--seed S] [--first I] [--subject track]

PROGRAM is the built opponent. It is started once for every worker and given input after input. The first difference
ends the run with status 1 and is told; without any, one line tells the inputs, the outcomes and the seconds.
"""

import argparse
import collections
import functools
import multiprocessing
import pathlib
import subprocess
import sys
import time
from typing import Callable, NamedTuple

sys.path[0] = str(pathlib.Path(__file__).resolve().parents[2])  # packages are found from the repository

from tests.generators import inputs, tracks
from tests.generators.families import DEFAULT_SEED, Families, told_counts
from tests.independent import rules, saved

WORKERS = 2
INPUTS_AT_A_TIME = 4
LENGTH_BYTES = 4
SHOWN = 2_000  # bytes of a difference


class Subject(NamedTuple):
    """The opponent's options, how its inputs are made, what it has to print for one, and what that comes to."""

    options: list
    families: Families
    listing: Callable
    outcome: Callable


SUBJECTS = {
    "track": Subject([], inputs.FAMILIES, rules.listing, rules.outcome),
    "reread": Subject(["--reread"], tracks.FAMILIES, saved.reread_listing, saved.reread_outcome),
}


class Compared(NamedTuple):
    index: int
    outcome: str
    expected: bytes
    printed: bytes


@functools.cache
def started(program, options):
    """This worker's opponent."""
    return subprocess.Popen([program, "--many", *options], stdin=subprocess.PIPE, stdout=subprocess.PIPE)


def answer_of(opponent, given):
    """What the opponent prints for an input; what it has printed so far where it ends instead."""
    opponent.stdin.write(len(given).to_bytes(LENGTH_BYTES, "big") + given)
    opponent.stdin.flush()
    length = int.from_bytes(opponent.stdout.read(LENGTH_BYTES), "big")
    return opponent.stdout.read(length)


def compare(program, name, seed, index):
    subject = SUBJECTS[name]
    given = subject.families.generate(seed, index)
    expected = subject.listing(given)
    printed = answer_of(started(program, tuple(subject.options)), given)
    return Compared(index, subject.outcome(expected), expected, printed)


def tell_difference(name, seed, compared):
    family = SUBJECTS[name].families.family_of(compared.index).__name__
    print(f"DIFFERENT: {name}, seed {seed}, index {compared.index}, family {family}")
    for title, text in (("independent", compared.expected), ("opponent", compared.printed)):
        print(f"-- {title}, {len(text)} bytes:\n{text[:SHOWN].decode('latin-1')}")


def run(program, name, seed, first, count):
    """The whole run; gives the exit status."""
    began, outcomes = time.monotonic(), collections.Counter()
    with multiprocessing.Pool(WORKERS) as pool:
        one = functools.partial(compare, program, name, seed)
        for compared in pool.imap(one, range(first, first + count), INPUTS_AT_A_TIME):
            if compared.expected != compared.printed:
                tell_difference(name, seed, compared)
                return 1
            outcomes[compared.outcome] += 1
    seconds = time.monotonic() - began
    print(f"{name}: {count} inputs, seed {seed}, no difference: {told_counts(outcomes)}; {seconds:.1f} s")
    return 0


def main():
    arguments = argparse.ArgumentParser(description="hold the opponent against the independent program")
    arguments.add_argument("program", help="the built opponent")
    arguments.add_argument("--count", type=int, default=1_000, help="how many inputs (1000)")
    arguments.add_argument("--seed", type=int, default=DEFAULT_SEED, help="the seed of all inputs")
    arguments.add_argument("--first", type=int, default=0, help="the first input's index (0)")
    arguments.add_argument("--subject", default="track", choices=SUBJECTS, help="what is compared (track)")
    chosen = arguments.parse_args()
    return run(chosen.program, chosen.subject, chosen.seed, chosen.first, chosen.count)


if __name__ == "__main__":
    sys.exit(main())
