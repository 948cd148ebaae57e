"""Tests of the independent program's rules: document 01's cases, and facts that hold in every run.

A text is written as document 01 writes its case A: `/` for LF.
"""

import itertools
import random
import unittest

from tests.generators import tables
from tests.independent.frames import PARALLEL, SCRIPT_ROOM, SEQUENCE, STOP, Refusal, judge_table
from tests.independent.rules import (
    ENDED, LIVE, OMEGA, STUCK, TAU, TICK, Run, Sides, Started, Tree, listing, offers, opened, outcome, play_listing,
    play_outcome, saved_text, status,
)

ON_E0, ON_NONE = "1206" + "00" * 7 + "01/", "1206" + "00" * 8 + "/"
E0_STOP, E1_STOP = "120200/1208/", "120201/1208/"
SKIP_SKIP = ON_NONE + "1207/1207/"

CASE_A = (ON_E0 + "120200/1207/" + E0_STOP,)
CASE_C = (ON_NONE + E0_STOP + E1_STOP,)
CASE_A_TRACK = (
    "3001000800070001/310000000100/3100010000/31000200020101/310003000101/31000400020102/31000500020201/"
    "310006000102/31000700020202/3200000001/3200010002/3200010005/3200020003/3200030004/3200050006/"
    "3200060007/3300020005/3f/"
)


def text(written):
    return written.replace("/", "\n").encode("ascii")


def run_of(definitions):
    """A run at its start, by the terms of each definition."""
    terms = sum(line.startswith("12") for body in definitions for line in body.split("/"))
    bodies = "".join("11%02x/" % number + body for number, body in enumerate(definitions))
    return Run(judge_table(text("1001%02x02/" % len(definitions) + bodies + "1f%04x/" % terms)))


def played(definitions, *addresses):
    """A run after the empty address and some more, and the answers to those."""
    run = run_of(definitions)
    return run, [run.step([int(digit) for digit in address]) for address in ("",) + addresses]


def counts(run):
    """Nodes, arcs and meetings saved, and arcs made."""
    saved = saved_text(run.track).splitlines()[0]
    return int(saved[4:8], 16), int(saved[8:12], 16), int(saved[12:16], 16), len(run.track.arcs)


class Cases(unittest.TestCase):
    """The worked cases of document 01."""

    def test_case_a(self):
        given = "10010101/1100/" + CASE_A[0] + "1f0005/200000/20000103/20000101/20000102/"
        self.assertEqual(listing(text(given)), text("4000/400200/4000/4000/4102/" + CASE_A_TRACK))

    def test_case_b(self):
        run, answers = played(CASE_A, "3", "2", "1")
        self.assertEqual(answers, [TAU, 0, TAU, TAU])
        self.assertEqual(saved_text(run.track).encode(), text(CASE_A_TRACK))

    def test_case_c(self):
        (one, _), (other, _) = played(CASE_C, "1", "2"), played(CASE_C, "2", "1")
        self.assertEqual(dict(one.track.labels)[2].path, (1, 1))
        self.assertEqual(dict(other.track.labels)[2].path, (2, 1))
        self.assertEqual(saved_text(one.track), saved_text(other.track))
        self.assertEqual(counts(one)[:2], (6, 5))
        self.assertIn("31000200020101", saved_text(one.track))

    def test_case_d(self):
        run, answers = played((SKIP_SKIP,), "1", "2", "4")
        self.assertEqual((answers, status(run.control)), ([TAU, TAU, TAU, TICK], ENDED))
        self.assertEqual(counts(run), (4, 3, 0, 7))

    def test_case_e(self):
        run, answers = played(("1205/" + SKIP_SKIP + "1208/",), "1", "2", "4")
        self.assertEqual((answers, counts(run)[:2]), ([TAU] * 4, (5, 5)))
        for line in ("3100030000", "3200020003", "3200040003"):
            self.assertIn(line, saved_text(run.track).splitlines())

    def test_case_f(self):
        run, answers = played(("1204/1207/" + E0_STOP,), "1")
        self.assertEqual((answers, status(run.control), counts(run)[0]), ([TAU, TICK], ENDED, 3))

    def test_case_g(self):
        run, answers = played(("1204/120101/" + E0_STOP, "120201/1207/"), "1", "2")
        self.assertEqual((answers, counts(run)[:2]), ([TAU, TAU, 0], (5, 4)))

    def test_case_h(self):
        run, answers = played((ON_E0 * 2 + E0_STOP * 3,), "33")
        self.assertEqual((answers, counts(run)[2]), ([TAU, 0], 3))

    def test_case_i(self):
        run = run_of(("120100/",))
        self.assertEqual([run.step([]) for _ in range(4_096)], [TAU] * 4_096)
        self.assertEqual(run.step([]), Refusal(9, 0))
        self.assertEqual(len(saved_text(run.track)), 90_123)

    def test_case_j(self):
        run = run_of(("1205/120100/1207/",))
        self.assertEqual([run.step([]) for _ in range(1_024)], [TAU] * 1_024)
        self.assertEqual(run.step([]), Refusal(8, 0))

    def test_case_k(self):
        for address, answer in (("1", Refusal(7, 0)), ("3", Refusal(7, 0)), ("2", 1)):
            self.assertEqual(played((ON_E0 + E0_STOP + E1_STOP,), address)[1], [TAU, answer])

    def test_case_m(self):
        given = "10010101/1100/" + CASE_A[0] + "1f0005/"
        self.assertEqual(listing(text(given)), text("4100/3001000000000000/3f/"))


class Listing(unittest.TestCase):
    """What the tracking program prints around a run."""

    def test_refused_table_stands_alone(self):
        self.assertEqual(listing(text("10010101/1100/1f0000/200000/")), text("4e040003/"))

    def test_refused_script_line_keeps_the_steps(self):
        given = "10010100/1100/1207/1f0001/200000/20000101/"
        self.assertEqual(
            listing(text(given)),
            text("4000/4100/4e070002/3001000100000000/310000000100/3f/"),
        )

    def test_script_over_its_room(self):
        given = "10010100/1100/1207/1f0001/" + "200000/" * 9_363
        self.assertEqual(listing(text(given)), text("4e060000/"))

    def test_capitals_and_cr_lf(self):
        """Document 02's W1: what is printed has small letters and LF, whatever was read."""
        given = "10010101/1100/" + CASE_A[0] + "1f0005/200000/20000103/20000101/20000102/"
        for spelt in (given.upper(), given.replace("/", "\r/"), given.upper().replace("/", "\r/")):
            self.assertEqual(listing(text(spelt)), listing(text(given)))
            self.assertEqual(play_listing(text(spelt)), play_listing(text(given)))

    def test_a_cr_elsewhere(self):
        for third in ("12\r07/", "1207\r\r/", "\r/1207/"):
            given = "10010100/1100/" + third + "1f0001/200000/"
            self.assertEqual(listing(text(given)), text("4e010003/"), repr(third))
        given = "10010100/1100/1207/1F0001\r/200000\r/200000\r"
        told = "4000/4100/4e010002/3001000100000000/310000000100/3f/"
        self.assertEqual(listing(text(given)), text(told))

    def test_a_script_whose_crs_fill_its_room(self):
        table, script = "10010100/1100/120100/1f0001/", "200000\r/" * 4_096 + "200000/" * 4_681 + "\r"
        self.assertEqual(len(script), SCRIPT_ROOM)
        self.assertEqual(listing(text(table + script)), text("4000/" * 4_096 + "4100/4e091001/4e0c0000/"))
        self.assertEqual(listing(text(table + script + "/")), text("4e060000/"))

    def test_save_over_its_slice(self):
        given = "10010100/1100/120100/1f0001/" + "200000/" * 4_097
        self.assertEqual(listing(text(given)), text("4000/" * 4_096 + "4100/4e091001/4e0c0000/"))

    def test_what_it_comes_to(self):
        endings = {"4100/": "live", "4001/4101/": "ended", "4000/4102/": "stuck", "4000/4100/4e070002/": "refused 7"}
        for steps, word in endings.items():
            self.assertEqual(outcome(text(steps + "3001000000000000/3f/")), word)
        self.assertEqual(outcome(text("4000/4100/4e0c0000/")), "refused 12")
        self.assertEqual(outcome(text("4e060000/")), "text 6")


class PlayListing(unittest.TestCase):
    """What the program play prints, written by hand from the rules."""

    def play(self, body, terms, script):
        return play_listing(text("10010102/1100/" + body + "1f%04x/" % terms + script))

    def test_case_a(self):
        told = self.play(CASE_A[0], 5, "200000/20000103/20000101/20000102/")
        offers_and_counters = "4200000000000000000000/430001000a0003000800090001/"
        nodes = (
            "510000000100/5100010000/51000200020101/510003000101/51000400020102/51000500020201/510006000102/"
            "51000700020202/"
        )
        arcs = (
            "5200000001/5200010002/5200020003/5200030004/5200010005/5200050006/5200060007/5200040008/"
            "5200070009/"
        )
        self.assertEqual(told, text(offers_and_counters + nodes + arcs + "5300020005/"))
        self.assertEqual(play_outcome(told), "resting")

    def test_case_d(self):
        told = self.play(SKIP_SKIP, 3, "200000/20000101/20000102/20000104/")
        offers_and_counters = "4200000000000000000000/43000600070001000400070000/"
        nodes = "510000000100/5100010000/510002000101/510004000102/"
        arcs = "5200000001/5200010002/5200020003/5200010004/5200040005/5200020006/5200040006/"
        self.assertEqual(told, text(offers_and_counters + nodes + arcs))

    def test_case_k_refused(self):
        told = self.play(ON_E0 + E0_STOP + E1_STOP, 5, "200000/20000101/20000102/")
        offers_and_counters = "4200000000000000000002/43000100020001000100010000/"
        self.assertEqual(told, text(offers_and_counters + "510000000100/5200000001/"))
        self.assertEqual(play_outcome(told), "offering")

    def test_offers_of_every_sort(self):
        told = self.play("1204/1204/120201/1208/1207/120100/", 6, "200000/")
        self.assertTrue(told.startswith(b"4201010000000000000002\n430001000200010001"), told)

    def test_no_step(self):
        told = self.play("1207/", 1, "")
        self.assertEqual(told, text("4201000000000000000000/43000000010001000000000000/"))
        self.assertEqual(play_outcome(told), "offering")

    def test_no_run(self):
        self.assertEqual(self.play("1207/", 2, "200000/"), b"")
        self.assertEqual(self.play("1207/", 1, "200000/" * 9_363), b"")
        self.assertEqual(play_outcome(b""), "unplayed")


def operators(control):
    """The digits that an address of the control can have at most."""
    if isinstance(control, Tree):
        return sum(map(operators, control.subterms)) + (len(control.subterms) == 2 and control.term.kind != SEQUENCE)
    if isinstance(control, Sides):
        return 1 + operators(control.left) + operators(control.right)
    return operators(control.left) if isinstance(control, Started) else 0


def leads_to_stop(control, address):
    """Whether an address names the own step of a STOP in the control."""
    control = opened(control)
    if isinstance(control, Started):
        return leads_to_stop(control.left, address)
    if isinstance(control, Sides):
        return address[0] in (1, 2) and leads_to_stop((control.left, control.right)[address[0] - 1], address[1:])
    return isinstance(control, Tree) and control.term.kind == STOP


def tried(run, *addresses):
    """The answers to some addresses and the text that is saved behind them; the run stays as it was."""
    mark, control, reference = run.track.mark(), run.control, run.reference
    answers = [run.step(address) for address in addresses]
    saved = saved_text(run.track)
    run.track.take_back(mark)
    run.control, run.reference = control, reference
    return answers, saved


def accepted_addresses(run):
    """Each address that the run accepts where it stands, with its event, by trying them all."""
    found = {}
    for length in range(operators(run.control) + 1):
        for address in itertools.product((1, 2, 3, 4), repeat=length):
            ((event,), _) = tried(run, address)
            if not isinstance(event, Refusal):
                found[address] = event
    return found


def small_runs(count, steps):
    """Runs of small tables, each told where it stands with what it accepts."""
    for seed in range(count):
        rng = random.Random(seed)
        run = Run(judge_table(tables.text_of(tables.small_table(rng).lines).encode("ascii")))
        for _ in range(steps):
            if operators(run.control) > 4:
                break
            accepted = accepted_addresses(run)
            yield run, accepted
            if not accepted:
                break
            run.step(rng.choice(sorted(accepted)))


class EveryRun(unittest.TestCase):
    """Facts about every run, on many small ones."""

    def test_offers_and_status(self):
        met = set()
        for run, accepted in small_runs(400, 8):
            self.assertEqual(offers(run.control), set(accepted.values()))
            plainly = [address for address in accepted if not leads_to_stop(run.control, address)]
            expected = ENDED if run.control == OMEGA else LIVE if plainly else STUCK
            self.assertEqual(status(run.control), expected)
            met.add((expected, bool(accepted)))
        self.assertEqual(met, {(LIVE, True), (ENDED, False), (STUCK, True), (STUCK, False)})

    def test_stuck_for_good(self):
        stuck = None
        for run, accepted in small_runs(100, 8):
            if run is stuck:
                self.assertEqual(status(run.control), STUCK)
            if status(run.control) == STUCK:
                self.assertLessEqual(set(accepted.values()), {TAU})
                stuck = run

    def test_tracks(self):
        for run, _ in small_runs(400, 8):
            track, labelled = run.track, dict(run.track.labels)
            self.assertEqual(len(labelled), len(track.labels))
            self.assertEqual(len(set(track.arcs)), len(track.arcs))
            self.assertEqual(len(set(map(frozenset, track.meetings))), len(track.meetings))
            self.assertTrue(all(i in labelled and i < j for i, j in track.arcs))
            self.assertEqual({j for _, j in track.arcs}, set(range(1, track.fresh)))
            self.assertEqual(counts(run)[0], len(labelled))
            self.assertTrue(len(labelled) <= len(track.arcs))

    def test_exchanged_steps_save_the_same(self):
        exchanged = 0
        for run, accepted in small_runs(400, 8):
            control = opened(run.control)
            if not isinstance(control, Sides) or control.term.kind != PARALLEL:
                continue
            for first, second in itertools.permutations(accepted, 2):
                if (first[0], second[0]) == (1, 2):
                    events, saved = tried(run, first, second)
                    self.assertEqual(tried(run, second, first), (events[::-1], saved))
                    exchanged += 1
        self.assertTrue(exchanged > 20)
