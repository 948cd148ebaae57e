"""Tests of the generator of runs: what it promises is so, and its inputs come to every outcome.

The outcomes are told by the independent rules; what they have to be is written in document 01.
"""

import random
import unittest

from tests.generators import runs
from tests.generators.families import DEFAULT_SEED
from tests.independent.frames import ADDRESS_ROOM, SCRIPT_ROOM, Refusal, cut_input, judge_table
from tests.independent.rules import (
    ARC_ROOM, CELL_ROOM, LIVE, MEETING_ROOM, NODE_ROOM, STUCK, TAU, TICK, Derivation, cells, offers, status,
)

OUTCOMES = {f"refused {number}" for number in (1, 2, 3, 7, 8, 9, 10, 11)} | {"live", "ended", "stuck"}
FIRST_INDICES = 2_000  # among which every outcome is met; the search ends with the last of them


def scripts(make, count):
    """Scripts that a part of a family makes, each from lots of its own."""
    return [make(random.Random(seed)) for seed in range(count)]


class Inputs(unittest.TestCase):
    def test_every_outcome_is_met(self):
        missing, index = set(OUTCOMES), 0
        while missing and index < FIRST_INDICES:
            missing.discard(runs.outcome(runs.FAMILIES.generate(DEFAULT_SEED, index)))
            index += 1
        self.assertEqual(missing, set())

    def test_every_hundred_inputs_have_every_family(self):
        self.assertEqual(len(runs.FAMILIES.round), 100)


class Walks(unittest.TestCase):
    """The addresses that a walk draws from."""

    def test_ways_are_derivations_of_what_is_offered(self):
        met = set()
        for seed in range(60):
            rng = random.Random(seed)
            script = runs.Script(runs.some_table(rng, rng.choice((runs.OF_ALL_KINDS, runs.THAT_MEETS))))
            for _ in range(12):
                ways = runs.ways_of(rng, script.run.control)
                self.assertEqual(set(ways), offers(script.run.control))
                if not ways:
                    break
                event = rng.choice(list(ways))
                self.assertEqual(script.run.step(ways[event].address), event)
                met.add(event if event in (TAU, TICK) else "visible")
        self.assertEqual(met, {TAU, TICK, "visible"})

    def test_doubtful_addresses_are_mostly_refused(self):
        refused = 0
        for seed in range(200):
            rng = random.Random(seed)
            script = runs.Script(runs.some_table(rng, runs.OF_ALL_KINDS))
            runs.walk(rng, script, 5)
            answer = script.run.step(runs.doubtful_address(rng, script.run.control))
            refused += answer == Refusal(7, 0)
        self.assertTrue(100 < refused < 200, refused)


def rooms_passed(run, address):
    """The numbers of all rooms that a step would pass; the run stays as it was."""
    mark = run.track.mark()
    control = Derivation(run.trees, run.track, address).whole(run.control, run.reference).control
    track = run.track
    counts = {
        8: (cells(control), CELL_ROOM),
        9: (len(track.labels), NODE_ROOM),
        10: (len(track.arcs), ARC_ROOM),
        11: (len(track.meetings), MEETING_ROOM),
    }
    track.take_back(mark)
    return {number for number, (count, room) in counts.items() if count > room}


class Rooms(unittest.TestCase):
    """Runs that fill a room to its last place."""

    def test_cells(self):
        made = scripts(runs.cells_in_sequences, 6)
        self.assertIn(CELL_ROOM, {script.cells() for script in made})

    def test_meetings(self):
        made = scripts(runs.meetings_of_groups, 12)
        self.assertIn(MEETING_ROOM, {script.meetings() for script in made})

    def test_nodes(self):
        made = scripts(runs.nodes_in_loops, 4)
        self.assertIn(NODE_ROOM, {script.nodes() for script in made})

    def test_arcs(self):
        made = scripts(runs.arcs_of_ends, 4)
        self.assertIn(ARC_ROOM, {script.arcs() for script in made})

    def test_several_rooms_at_once(self):
        passed = []
        for seed in range(8):
            edges = runs.edges_brought(random.Random(seed))
            passed.append(rooms_passed(edges.script.run, edges.joint))
            self.assertEqual(edges.script.run.step(edges.joint), Refusal(min(passed[-1]), 0))
        self.assertTrue(sum(len(rooms) > 1 for rooms in passed) > 3, passed)

    def test_digits_of_an_address(self):
        inputs = [runs.by_a_long_address(random.Random(seed)).encode("ascii") for seed in range(30)]
        longest = b"20%04x" % ADDRESS_ROOM
        whole = ("live", "stuck", "refused 12")  # outcomes of scripts played to their ends: 12 is told of a track alone
        accepted = [given for given in inputs if longest in given and runs.outcome(given) in whole]
        self.assertTrue(accepted)

    def test_script_text(self):
        lengths = set()
        for seed in range(8):
            given = runs.by_the_room_for_script_text(random.Random(seed)).encode("ascii")
            lengths.add(len(cut_input(given)[1]))
        self.assertEqual(lengths, {SCRIPT_ROOM - 1, SCRIPT_ROOM, SCRIPT_ROOM + 1})


class DeadEnds(unittest.TestCase):
    """Runs until the plain rules have no step."""

    def test_most_are_stuck_with_a_stop_that_can_step(self):
        controls = [script.run.control for script in scripts(runs.until_dead, 60)]
        self.assertNotIn(LIVE, map(status, controls))
        standing = sum(status(control) == STUCK and offers(control) == {TAU} for control in controls)
        self.assertTrue(30 < standing < 60, standing)
        self.assertTrue(any(status(control) == STUCK and not offers(control) for control in controls))


class Cases(unittest.TestCase):
    def test_tables_of_the_cases(self):
        answers = [judge_table(runs.text_of(draft.lines).encode("ascii")) for draft, _ in runs.CASES.values()]
        refused = [answer for answer in answers if isinstance(answer, Refusal)]
        self.assertEqual((refused, answers[-1]), ([Refusal(5, 67)], Refusal(5, 67)))
