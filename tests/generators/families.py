"""Families of inputs: what the generators tables.py, runs.py, tracks.py and inputs.py have in common.

An input is a function of a seed and an index. The index goes round a generator's families, each a way to make
inputs that stands in the round as often as its share says; all else is drawn by lot from the seed and the
index. Every generator is a command too:

    python3 tests/generators/runs.py --seed 7 --index 12     writes that input to standard output
    python3 tests/generators/runs.py --seed 7 --count 2000   tells how often each family meets each outcome,
                                                             and its cost
"""

import argparse
import collections
import random
import sys
import time

DEFAULT_SEED = 2010


class Families:
    """A generator's families: functions from lots to a text, a str of Latin-1 characters, a byte each."""

    def __init__(self, lots, shares):
        self.lots = lots  # what sets this generator's lots apart from another's
        self.round = [family for family, share in shares.items() for _ in range(share)]

    def family_of(self, index):
        return self.round[index % len(self.round)]

    def generate(self, seed, index):
        """The input of a seed and an index."""
        return self.family_of(index)(random.Random(f"{self.lots}{seed} {index}")).encode("latin-1")


def measure(families, seed, count, outcome_of):
    """How often each family meets each outcome, and the processor's seconds for its inputs and outcomes."""
    met, seconds = collections.defaultdict(collections.Counter), collections.Counter()
    for index in range(count):
        began = time.process_time()
        outcome = outcome_of(families.generate(seed, index))
        taken = time.process_time() - began
        for name in (families.family_of(index).__name__, "all"):
            met[name][outcome] += 1
            seconds[name] += taken
    return met, seconds


def told_counts(outcomes):
    """The counts of the outcomes on one line, those of one word in the order of their numbers."""

    def word_and_number(outcome):
        word, _, number = outcome.partition(" ")
        return word, int(number or 0)

    return ", ".join(f"{each} {outcomes[each]}" for each in sorted(outcomes, key=word_and_number))


def command(description, families, outcome_of):
    """The command line of a generator."""
    arguments = argparse.ArgumentParser(description=description)
    arguments.add_argument("--seed", type=int, default=DEFAULT_SEED)
    arguments.add_argument("--index", type=int, help="write this input")
    arguments.add_argument("--count", type=int, default=2_500, help="measure so many inputs")
    chosen = arguments.parse_args()
    if chosen.index is not None:
        sys.stdout.buffer.write(families.generate(chosen.seed, chosen.index))
        return
    met, seconds = measure(families, chosen.seed, chosen.count, outcome_of)
    for name, outcomes in met.items():
        inputs = sum(outcomes.values())
        print(f"{name}, {inputs} of {1_000 * seconds[name] / inputs:.1f} ms: {told_counts(outcomes)}")
