"""Tests of the generator of the tracking program's inputs: its texts have the lengths that it promises.

What the tracking program has to say of them is told by the independent rules; what that has to be at a room's
edge is written in document 01.
"""

import collections
import itertools
import random
import unittest

from tests.generators import inputs
from tests.generators.tables import text_of
from tests.independent.frames import SCRIPT_ROOM, TABLE_ROOM, TERM_ROOM, Table, cut_input, judge_table
from tests.independent.rules import SAVE_ROOM, Run, listing, run_listing, saved_text

SIX_ALONE, TWELVE = b"4e060000\n", b"4e0c0000\n"


def made(family, count=12):
    """Inputs of a family, each from lots of its own."""
    return [family(random.Random(f"made {number}")).encode("latin-1") for number in range(count)]


def edges(room):
    return {room - 1, room, room + 1}


class Shares(unittest.TestCase):
    def test_five_thousand_inputs_have_every_family_ten_times(self):
        drawn = collections.Counter(inputs.FAMILIES.family_of(index) for index in range(5_000))
        self.assertEqual(set(drawn), set(inputs.SHARES))
        self.assertGreaterEqual(min(drawn.values()), 10)


class Damage(unittest.TestCase):
    """Whole inputs cut short, damaged and made up."""

    def outcomes(self, family, count=60):
        return {inputs.outcome(given) for given in made(family, count)}

    def test_empty(self):
        self.assertEqual(made(inputs.empty, 1), [b""])

    def test_tables_and_scripts_are_damaged(self):
        for family in (
            inputs.cut_short,
            inputs.with_bits_flipped,
            inputs.with_bytes_inserted,
            inputs.with_bytes_removed,
            inputs.with_foreign_characters,
            inputs.with_returns_out_of_place,
            inputs.without_a_line_feed,
            inputs.with_end_lines_in_odd_places,
        ):
            self.assertLessEqual({"text 1", "refused 1"}, self.outcomes(family), family.__name__)

    def test_lines_are_damaged(self):
        expected = {"text 2", "text 3", "text 4", "refused 7"}
        self.assertLessEqual(expected, self.outcomes(inputs.with_lines_damaged))

    def test_end_lines_in_odd_places(self):
        """A short one, one with a capital, one without its LF, one in the script, and none at all."""
        texts = [cut_input(given) for given in made(inputs.with_end_lines_in_odd_places, 200)]
        self.assertTrue(any(table.endswith(b"\n1f\n") for table, _ in texts))
        self.assertTrue(any(table.endswith(b"\n1F0001\n") for table, _ in texts))
        self.assertTrue(any(b"\n1f" in table[:-1] and not table.endswith(b"\n") for table, _ in texts))
        self.assertTrue(any(b"\n1f" in script for _, script in texts))
        self.assertTrue(any(b"\n1f" not in table.lower() for table, _ in texts))


class RoomsForText(unittest.TestCase):
    def test_table_text(self):
        tables = [cut_input(given)[0] for given in made(inputs.by_the_room_for_table_text, 30)]
        self.assertEqual({len(table) for table in tables}, edges(TABLE_ROOM))
        for table in tables:
            self.assertEqual(listing(table) == SIX_ALONE, len(table) > TABLE_ROOM)

    def test_no_end_line(self):
        for given in made(inputs.without_an_end_line, 30):
            self.assertEqual(cut_input(given), (given, b""))
            self.assertIn(len(given), edges(TABLE_ROOM))
            self.assertEqual(listing(given) == SIX_ALONE, len(given) > TABLE_ROOM)

    def test_an_end_line_across_the_room(self):
        lengths = {len(cut_input(given)[0]) for given in made(inputs.with_an_end_line_across_the_room, 100)}
        self.assertLess(edges(TABLE_ROOM), lengths)

    def test_both_texts(self):
        lengths = {tuple(map(len, cut_input(given))) for given in made(inputs.by_the_rooms_for_both_texts, 60)}
        self.assertEqual(lengths, set(itertools.product(edges(TABLE_ROOM), edges(SCRIPT_ROOM))))

    def test_a_whole_input(self):
        whole = made(inputs.by_the_room_for_an_input)
        self.assertEqual({len(given) for given in whole}, edges(TABLE_ROOM + SCRIPT_ROOM))
        self.assertEqual(set(map(listing, whole)), {SIX_ALONE})

    def test_far_over(self):
        for given in made(inputs.far_over_the_room_for_table_text):
            self.assertEqual((len(given), listing(given)), (inputs.FAR_OVER, SIX_ALONE))
        outcomes = set()
        for given in made(inputs.far_over_the_room_for_script_text):
            self.assertEqual(len(cut_input(given)[1]), inputs.FAR_OVER)
            outcomes.add(inputs.outcome(given))
        self.assertEqual(outcomes, {"text 3", "text 6"})

    def test_the_longest_table(self):
        text = text_of(inputs.longest_table(random.Random(0)).lines).encode("ascii")
        self.assertIsInstance(judge_table(text), Table)
        self.assertEqual(len(text), max(map(longest_with, range(1, 65))))


def longest_with(definitions):
    """The bytes of the longest good table with so many definitions: parallels, prefixes and calls."""
    lengths = []
    for parallels in range((TERM_ROOM - definitions) // 2 + 1):
        leaves = parallels + definitions
        prefixes = TERM_ROOM - parallels - leaves
        ends = len("1001ddee\n") + definitions * len("11nn\n") + len("1ftttt\n")
        lengths.append(ends + 21 * parallels + 7 * prefixes + 7 * leaves)
    return max(lengths)


class RoomForSavedText(unittest.TestCase):
    def saved(self, given):
        """The saved text of an input's accepted steps, and whether they are all its steps."""
        table, script = cut_input(given)
        run = Run(judge_table(table))
        told = run_listing(run, script)
        return saved_text(run.track).encode("ascii"), told[-1].startswith("41")

    def test_by_the_room(self):
        lengths = set()
        for given in made(inputs.by_the_room_for_saved_text):
            text, accepted = self.saved(given)
            lengths.add(len(text))
            self.assertTrue(accepted)
            self.assertTrue(listing(given).endswith(text if len(text) <= SAVE_ROOM else TWELVE))
        self.assertEqual(lengths, edges(SAVE_ROOM))

    def test_far_over(self):
        inputs_made = made(inputs.far_over_the_room_for_saved_text)
        for given in inputs_made:
            self.assertGreater(len(self.saved(given)[0]), SAVE_ROOM + 1)
            self.assertTrue(listing(given).endswith(TWELVE))
        self.assertLess({"refused 7", "refused 12"}, set(map(inputs.outcome, inputs_made)))
