"""Tests of the spellings that the generators make: what is respelt stays the same, what is damaged does not, and every
generator makes both.

A text is written as document 01 writes its case A: `/` for LF.
"""

import random
import unittest

from tests.checks.test_rules import CASE_A_TRACK
from tests.generators import inputs, runs, tables, tracks
from tests.generators.spelling import damage_by_returns, respelt, with_returns
from tests.independent import rules
from tests.independent.frames import (
    SCRIPT_ROOM, TABLE_ROOM, cut_input, liberal_frame_of, split_lines, strict_frame_of,
)
from tests.independent.saved import reread_listing

TABLE = "1001010c/1100/12060000000000000c00/12020b/120100/12020a/1207/1f0005/".replace("/", "\n")
TRACK = CASE_A_TRACK.replace("/", "\n")
OF_ANOTHER_SPELLING = {  # of each generator the families that respell every input, or put CRs out of place
    tables: (tables.good_and_respelt, tables.any_and_respelt, tables.damaged_by_returns),
    runs: (runs.of_another_spelling,),
    tracks: (tracks.of_another_spelling, tracks.with_returns_out_of_place, tracks.of_a_respelt_table),
    inputs: (runs.of_another_spelling, inputs.with_returns_out_of_place),
}


def made(family, count):
    """Inputs of a family, each from lots of its own."""
    return [family(random.Random(f"spelt {number}")).encode("latin-1") for number in range(count)]


def lines_of(text):
    return split_lines(text.encode("latin-1"))


def is_strict(given):
    """Whether no line of a text has a capital or CR LF."""
    return all(strict_frame_of(line) == liberal_frame_of(line) for line in split_lines(given))


def without_returns(given):
    return given.replace(b"\r\n", b"\n")


class Respelt(unittest.TestCase):
    def spellings(self, text, count=200):
        return [respelt(random.Random(f"spelling {number}"), text) for number in range(count)]

    def test_lines_spell_the_same(self):
        for text in (TABLE, TRACK, TABLE[:-1]):
            for spelt in self.spellings(text):
                self.assertEqual(*(list(map(liberal_frame_of, lines_of(some))) for some in (spelt, text)))

    def test_again(self):
        for spelt in self.spellings(TABLE):
            again = respelt(random.Random(spelt), spelt)
            self.assertEqual(*(list(map(liberal_frame_of, lines_of(some))) for some in (again, TABLE)))

    def test_bytes_that_are_no_text(self):
        text = "".join(map(chr, range(256)))
        for spelt in self.spellings(text):
            self.assertEqual(without_returns(spelt.encode("latin-1")).upper(), text.encode("latin-1").upper())

    def test_every_way(self):
        spelt = self.spellings(TABLE)
        for way in (TABLE.upper(), TABLE.replace("\n", "\r\n"), TABLE.upper().replace("\n", "\r\n")):
            self.assertIn(way, spelt)
        lasts = {text.split("\n")[-2] for text in spelt}
        self.assertLessEqual({"1f0005", "1F0005", "1f0005\r", "1F0005\r"}, lasts)
        heads = {text.split("\n")[0] for text in spelt}
        self.assertLessEqual({"1001010c", "1001010C", "1001010c\r", "1001010C\r"}, heads)
        self.assertTrue(any("12060000000000000C00" in text and "\n1f" in text for text in spelt))
        self.assertTrue(any(0 < text.count("\r\n") < TABLE.count("\n") for text in spelt))

    def test_so_many_returns(self):
        lines = TABLE.split("\n")[:-1]
        for count in range(len(lines) + 1):
            text = with_returns(random.Random(count), lines, count)
            self.assertEqual((text.count("\r\n"), text.replace("\r\n", "\n")), (count, TABLE))


class Returns(unittest.TestCase):
    def damaged(self, text, count=120):
        return [damage_by_returns(random.Random(f"returns {number}"), text) for number in range(count)]

    def test_some_line_is_none(self):
        for text in (TABLE, TABLE.replace("\n", "\r\n"), "", "\n"):
            for damaged in self.damaged(text):
                self.assertIn(None, map(liberal_frame_of, lines_of(damaged)), repr(damaged))

    def test_every_way(self):
        damaged = self.damaged(TABLE)
        self.assertIn(TABLE.replace("\n", "\r"), damaged)
        self.assertIn(TABLE[:-1] + "\r", damaged)
        for some in ("\r\r\n", "\n\r\n", "1f0005\r\r\n", "12\r07\n", "\r1100\n"):
            self.assertTrue(any(some in text for text in self.damaged(TABLE, 2_000)), repr(some))


class Generated(unittest.TestCase):
    """What the generators make of it."""

    def test_most_inputs_stay_strict(self):
        for generator, families in OF_ANOTHER_SPELLING.items():
            share = sum(generator.SHARES[family] for family in families) / len(generator.FAMILIES.round)
            self.assertTrue(0.03 < share < 0.12, (generator.__name__, share))

    def test_damage_of_whole_inputs_meets_both_spellings(self):
        strict = sum(is_strict(given) for given in made(inputs.some_run, 200))
        self.assertTrue(150 < strict < 195, strict)

    def test_respelt_inputs_are_accepted(self):
        for family, outcome_of, good in (
            (tables.good_and_respelt, tables.outcome, ("accepted",)),
            (runs.of_another_spelling, runs.outcome, ("live", "ended", "stuck")),
            (tracks.of_a_respelt_table, tracks.outcome, ("read",)),
        ):
            accepted = [given for given in made(family, 40) if outcome_of(given) in good and not is_strict(given)]
            self.assertGreater(len(accepted), 15, family)
            self.assertTrue(any(b"\n1F" in given for given in accepted), family)

    def test_a_respelt_run_has_the_same_listing(self):
        for number in range(60):
            rng = random.Random(f"same {number}")
            text = runs.of_all_kinds(rng)
            spelt = respelt(rng, text)
            for tell in (rules.listing, rules.play_listing):
                self.assertEqual(tell(spelt.encode("latin-1")), tell(text.encode("latin-1")), number)

    def test_respelt_and_damaged_inputs_are_refused(self):
        self.assertEqual(set(map(tables.outcome, made(tables.damaged_by_returns, 60))), {"table 1", "script 1"})
        outcomes = set(map(tables.outcome, made(tables.any_and_respelt, 200)))
        self.assertLess({"accepted", "table 1", "table 2", "table 3", "table 4", "script 2"}, outcomes)

    def test_respelt_tracks_are_refused_with_1(self):
        refused = 0
        for given in made(tracks.of_another_spelling, 60):
            lines = split_lines(cut_input(given)[1])
            wrong = [number for number, line in enumerate(lines, 1) if strict_frame_of(line) is None]
            told = reread_listing(given)
            self.assertEqual(told, b"4e01%04x\n" % wrong[0] if wrong else cut_input(given)[1])
            refused += bool(wrong)
        self.assertGreater(refused, 40)
        for given in made(tracks.with_returns_out_of_place, 60):
            self.assertEqual(tracks.outcome(given), "refused 1")

    def test_near_lines_are_none(self):
        for number in range(200):
            line = tables.misspelt(random.Random(f"near {number}"), "1fab")
            for end in (b"\n", b"\r\n"):
                self.assertIsNone(liberal_frame_of(line.encode("latin-1") + end), repr(line))

    def test_end_lines(self):
        for line in inputs.END_LINES:
            self.assertEqual(cut_input(line.encode("latin-1") + b"\n200000\n")[1], b"200000\n", repr(line))
        for line in inputs.NO_END_LINES:
            self.assertEqual(cut_input(line.encode("latin-1") + b"\n200000\n")[1], b"", repr(line))
        lasts = [split_lines(cut_input(given)[0])[-1][:2] for given in made(tables.ended_by_the_characters, 100)]
        self.assertLess({b"1f", b"1F"}, set(lasts))


class Rooms(unittest.TestCase):
    """Texts that CRs bring to the edge of a room, or over it."""

    def hold(self, texts, room, is_six):
        """Some texts fill the room, and some pass it by a byte that they would not pass without their CRs."""
        by_crs = [given for given in texts if len(without_returns(given)) <= room - 1 and len(given) >= room]
        self.assertLessEqual({room, room + 1}, set(map(len, by_crs)))
        for given in by_crs:
            self.assertEqual(is_six(given), len(given) > room)

    def test_table_text(self):
        for family in (tables.by_the_room_for_table_text, inputs.by_the_room_for_table_text, inputs.without_an_end_line):
            texts = [cut_input(given)[0] for given in made(family, 80)]
            self.hold(texts, TABLE_ROOM, lambda given: rules.listing(given) == b"4e060000\n")

    def test_script_text(self):
        table = b"10010100\n1100\n1207\n1f0001\n"
        for family in (tables.by_the_room_for_script_text, runs.by_the_room_for_script_text):
            texts = [cut_input(given)[1] for given in made(family, 24)]
            self.hold(texts, SCRIPT_ROOM, lambda given: rules.listing(table + given) == b"4e060000\n")

    def test_accepted_scripts_that_crs_fill(self):
        full = [given for given in made(runs.by_the_room_for_script_text, 24) if len(cut_input(given)[1]) == SCRIPT_ROOM]
        self.assertIn("live", {runs.outcome(given) for given in full if b"\r\n" in given})
