"""Tests of the independent program's reader of saved tracks: each number of refusal, and each rule broken in turn.

A text is written as document 01 writes its case A: `/` for LF.
"""

import random
import unittest

from tests.checks.test_rules import CASE_A, CASE_A_TRACK, played, text
from tests.generators import tracks
from tests.independent.frames import Refusal, cut_input, judge_table
from tests.independent.rules import saved_text
from tests.independent.saved import Graph, graph_text, has_shape, read_saved, reread_listing, reread_outcome

ON_E0 = "1206" + "00" * 7 + "01/"
TABLE_A = "10010101/1100/" + CASE_A[0] + "1f0005/"


def table(written):
    return judge_table(text(written))


def refusal_of(written, against=TABLE_A):
    """The number and line of a saved text's refusal, or None where it is read."""
    told = read_saved(table(against), text(written))
    return tuple(told) if isinstance(told, Refusal) else None


def with_line(line, instead, written=CASE_A_TRACK):
    assert line in written
    return written.replace(line, instead, 1)


class Reads(unittest.TestCase):
    def test_case_a(self):
        self.assertEqual(reread_listing(text(TABLE_A + CASE_A_TRACK)), text(CASE_A_TRACK))

    def test_no_step(self):
        self.assertIsNone(refusal_of("3001000000000000/3f/"))

    def test_a_saved_run(self):
        run, _ = played(CASE_A, b"\x03", b"\x02", b"\x01")
        saved = saved_text(run.track).encode("ascii")
        self.assertEqual(reread_listing(text(TABLE_A) + saved), saved)

    def test_graphs_that_no_run_makes(self):
        """Cycles, self-arcs, an arc back to the start, and STOP with an arc on are all of the reader's shape."""
        for arcs in (["3200000000"], ["3200000001", "3200010001"], ["3200000001", "3200010000"]):
            nodes = ["310000000100", "3100010000"][: 1 + (len(arcs) > 1)]
            lines = ["3001%04x%04x0000" % (len(nodes), len(arcs))] + nodes + arcs + ["3f"]
            self.assertIsNone(refusal_of("/".join(lines) + "/", "10010101/1100/1208/1f0001/"), lines)


class Lines(unittest.TestCase):
    def test_empty_text(self):
        self.assertEqual(refusal_of(""), (2, 1))

    def test_early_end(self):
        self.assertEqual(refusal_of("3001000000000000/"), (2, 2))
        self.assertEqual(refusal_of(CASE_A_TRACK.replace("3f/", "")), (2, 18))

    def test_no_line(self):
        self.assertEqual(refusal_of(CASE_A_TRACK[:-1]), (1, 18))
        self.assertEqual(refusal_of(with_line("3100010000/", "310001000/")), (1, 3))
        self.assertEqual(refusal_of("3001000000000000/3F/"), (1, 2))

    def test_spellings_that_a_table_may_have(self):
        """Document 02's W1 leaves saved tracks as strict as they were."""
        self.assertEqual(refusal_of(CASE_A_TRACK.replace("/", "\r/")), (1, 1))
        self.assertEqual(refusal_of(CASE_A_TRACK.replace("3f/", "3F/")), (1, 18))
        self.assertEqual(refusal_of(CASE_A_TRACK.replace("3f/", "3f\r/")), (1, 18))
        self.assertEqual(refusal_of(CASE_A_TRACK.replace("3f/", "3f\r")), (1, 18))
        self.assertEqual(refusal_of(with_line("3100010000/", "3100010000\r/")), (1, 3))
        self.assertEqual(refusal_of(with_line("3100010000/", "31\r00010000/")), (1, 3))
        self.assertEqual(refusal_of(with_line("3100010000/", "3100010000\r\r/")), (1, 3))
        self.assertEqual(refusal_of(with_line("3100010000/", "\r/3100010000/")), (1, 3))
        self.assertEqual(refusal_of(CASE_A_TRACK.replace("/", "\r")), (1, 1))

    def test_a_track_behind_a_respelt_table(self):
        for spelt in (TABLE_A.upper(), TABLE_A.replace("/", "\r/"), TABLE_A.upper().replace("/", "\r/")):
            self.assertEqual(reread_listing(text(spelt + CASE_A_TRACK)), text(CASE_A_TRACK))

    def test_behind_the_last_line(self):
        self.assertEqual(refusal_of(CASE_A_TRACK + "3f/"), (2, 19))
        self.assertEqual(refusal_of(CASE_A_TRACK + "/"), (1, 19))

    def test_wrong_frame(self):
        self.assertEqual(refusal_of(with_line("3001000800070001/", "300100080007/")), (2, 1))
        self.assertEqual(refusal_of(with_line("3200000001/", "3300000001/")), (2, 10))
        self.assertEqual(refusal_of(with_line("3001000800070001/", "3001000700070001/")), (2, 9))
        self.assertEqual(refusal_of(with_line("310003000101/", "310003000201/")), (2, 5))

    def test_out_of_range(self):
        self.assertEqual(refusal_of(with_line("3001000800070001/", "3002000800070001/")), (3, 1))
        self.assertEqual(refusal_of("3001100100000000/3f/"), (3, 1))
        self.assertEqual(refusal_of("3001000020010000/3f/"), (3, 1))
        self.assertEqual(refusal_of("3001000000001001/3f/"), (3, 1))
        self.assertEqual(refusal_of(with_line("310003000101/", "310003010101/")), (3, 5))
        self.assertEqual(refusal_of(with_line("3100010000/", "3100010041" + "01" * 65 + "/")), (3, 3))
        self.assertEqual(refusal_of(with_line("3200060007/", "3200060008/")), (3, 16))
        self.assertEqual(refusal_of(with_line("3300020005/", "3300080005/")), (3, 17))
        self.assertEqual(refusal_of("3001000000010000/3200000000/3f/"), (3, 2))

    def test_a_lower_number_later_goes_before_13(self):
        broken = with_line("3100010000/", "310001000109/")
        self.assertEqual(refusal_of(broken), (13, 0))
        self.assertEqual(refusal_of(broken[:-1]), (1, 18))
        self.assertEqual(refusal_of(with_line("3200060007/", "3200060009/", broken)), (3, 16))


class Shape(unittest.TestCase):
    def broken(self, line, instead):
        self.assertEqual(refusal_of(with_line(line, instead)), (13, 0), instead)

    def test_number_order(self):
        self.broken("3100010000/", "3100020000/")
        self.broken("3100010000/", "31ffff0000/")

    def test_places(self):
        self.broken("310000000100/", "3100000000/")
        self.broken("3100010000/", "310001000100/")
        self.broken("310003000101/", "310003000103/")
        self.broken("310003000101/", "31000300020103/")

    def test_order_of_pairs(self):
        self.broken("3200010002/3200010005/", "3200010005/3200010002/")
        self.broken("3200010002/", "3200000001/")
        self.broken("3300020005/", "3300050002/")
        self.broken("3300020005/", "3300020002/")

    def test_arcs_of_a_split(self):
        self.broken("3200010005/", "3200010007/")
        self.broken("3200010005/", "3200010001/")
        self.broken("3200010005/", "3200010003/")

    def test_arcs_of_another_node(self):
        more = with_line("3001000800070001/", "3001000800080001/")
        self.assertEqual(refusal_of(with_line("3200030004/", "3200030004/3200030005/", more)), (13, 0))

    def test_the_walks_numbers(self):
        self.broken("31000200020101/", "31000200020201/")
        self.broken("3200060007/", "3200070007/")

    def test_meetings_of_one_event(self):
        self.broken("3300020005/", "3300020006/")
        self.broken("3300020005/", "3300000005/")
        two_events = "10010102/1100/" + ON_E0 + "120200/1207/120201/1208/1f0005/"
        self.assertEqual(refusal_of(CASE_A_TRACK, two_events), (13, 0))


class Generated(unittest.TestCase):
    def test_tracks_are_of_the_readers_shape(self):
        for index in range(60):
            drawn = tracks.some_track(random.Random(f"shape {index}"))
            self.assertTrue(has_shape(drawn.table, drawn.graph), index)

    def test_read_texts_are_written_again(self):
        read = 0
        for index in range(200):
            given = tracks.FAMILIES.generate(7, index)
            told = reread_listing(given)
            if reread_outcome(told) == "read":
                self.assertEqual(told, cut_input(given)[1], index)
                read += 1
        self.assertGreater(read, 20)

    def test_each_rule_is_spoilt(self):
        for spoil in tracks.SPOILT:
            numbers = set()
            for index in range(20):
                rng = random.Random(f"{spoil.__name__} {index}")
                drawn = tracks.some_nodes(rng)
                graph = spoil(rng, drawn)
                self.assertIsInstance(graph, Graph)
                told = read_saved(drawn.table, graph_text(graph).encode("ascii"))
                numbers.add(told.number if isinstance(told, Refusal) else 0)
            self.assertIn(13, numbers, spoil.__name__)
