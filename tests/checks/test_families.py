"""Tests of what the generators have in common: an input follows from a seed and an index alone."""

import hashlib
import os
import subprocess
import sys
import unittest

from tests.generators import inputs, runs, tables, tracks
from tests.generators.families import DEFAULT_SEED, Families
from tools.programs import REPOSITORY

GENERATORS = (tables, runs, tracks, inputs)


def some_inputs(generator):
    """An input of each family that the generator adds."""
    families = generator.FAMILIES
    own = [family for family in generator.SHARES if family.__module__ == generator.__name__]
    return [families.generate(DEFAULT_SEED, families.round.index(family)) for family in own]


def digest_of_inputs():
    return hashlib.sha256(b"".join(sum(map(some_inputs, GENERATORS), []))).hexdigest()


def digest_elsewhere(hash_seed):
    """The same digest from a Python whose sets and dictionaries of strings are ordered otherwise."""
    given = [sys.executable, "-B", "-c", f"from {__name__} import digest_of_inputs; print(digest_of_inputs())"]
    environment = dict(os.environ, PYTHONHASHSEED=hash_seed, PYTHONPATH=str(REPOSITORY))
    return subprocess.run(given, capture_output=True, env=environment, text=True, check=True).stdout.strip()


class Inputs(unittest.TestCase):
    def test_an_input_is_a_function_of_seed_and_index(self):
        self.assertEqual(digest_of_inputs(), digest_elsewhere("1"))

    def test_each_seed_and_index_has_lots_of_its_own(self):
        families = Families("lots ", {lambda rng: str(rng.random()): 1})
        self.assertEqual(len({families.generate(seed, index) for seed in range(5) for index in range(5)}), 25)

    def test_generators_have_lots_of_their_own(self):
        self.assertEqual(len({generator.FAMILIES.lots for generator in GENERATORS}), len(GENERATORS))

    def test_a_round_has_every_family_as_often_as_its_share_says(self):
        for generator in GENERATORS:
            families = generator.FAMILIES
            drawn = [families.family_of(index) for index in range(len(families.round), 2 * len(families.round))]
            self.assertEqual({family: drawn.count(family) for family in drawn}, generator.SHARES)
