"""Tests of the kept cases: their outputs are the independent program's, and say what documents 01 and 02 say of each, or
the report of its own runs.

A text is written as document 01 writes its case A: `/` for LF.
"""

import re
import unittest

from tests.checks import cases
from tests.checks.test_rules import CASE_A_TRACK, text
from tests.independent.frames import SCRIPT_ROOM, TABLE_ROOM, cut_input
from tests.independent.rules import SAVE_ROOM, listing, play_listing
from tools.programs import REPOSITORY


def told(name):
    """The lines of a kept output."""
    return cases.kept(name)[1].decode("ascii").splitlines()


def events_and_status(name):
    """The lines before the refusal and the track, joined."""
    return "/".join(line for line in told(name) if line[:2] in ("40", "41"))


def refusals(name):
    return [line for line in told(name) if line.startswith("4e")]


def track(name):
    return [line for line in told(name) if line.startswith("3")]


def counts(name):
    """The nodes, arcs and meetings that the first line of a saved track tells."""
    opening = track(name)[0]
    return tuple(int(opening[at : at + 4], 16) for at in (4, 8, 12))


def by_references(name):
    """The lines of what the program play has to print for a kept input: nodes, arcs and meetings by references."""
    return play_listing(cases.kept(name)[0]).decode("ascii").splitlines()


class Kept(unittest.TestCase):
    def test_every_case_is_kept(self):
        files = {path.name for path in cases.KEPT.iterdir()}
        self.assertEqual(files, {name + end for name in cases.all_inputs() for end in (".in", ".out")})

    def test_inputs(self):
        for name, given in cases.all_inputs().items():
            self.assertEqual(cases.kept(name)[0], given.encode("ascii"), name)

    def test_outputs(self):
        for name in cases.kept_names():
            given, output = cases.kept(name)
            self.assertEqual(output, listing(given), name)

    def test_pieces(self):
        for name in cases.kept_names():
            given, _ = cases.kept(name)
            self.assertEqual(b"".join(cases.pieces_of(given)), given)
        self.assertEqual([len(piece) for piece in cases.pieces_of(bytes(30))], [1, 2, 3, 5, 7, 11, 1])


class Cases(unittest.TestCase):
    """What document 01 says of its cases."""

    def test_a(self):
        table = "10010101/1100/12060000000000000001/120200/1207/120200/1208/1f0005/"
        self.assertEqual(cases.kept("a")[0], text(table + "200000/20000103/20000101/20000102/"))
        self.assertEqual(cases.kept("a")[1], text("4000/400200/4000/4000/4102/" + CASE_A_TRACK))

    def test_b(self):
        lines = [cases.kept(name)[0].splitlines() for name in "ab"]
        self.assertEqual(lines[1], lines[0][:-2] + lines[0][-1:] + lines[0][-2:-1])
        self.assertEqual(track("b"), track("a"))

    def test_c(self):
        self.assertEqual(track("c-12"), track("c-21"))
        self.assertEqual(counts("c-12"), (6, 5, 0))
        self.assertIn("31000200020101", track("c-12"))
        self.assertEqual(events_and_status("c-12"), "4000/400200/400201/4102")
        self.assertEqual(events_and_status("c-21"), "4000/400201/400200/4102")
        self.assertIn("51000200020101", by_references("c-12"))  # reference 2 is e0's
        self.assertIn("51000200020201", by_references("c-21"))  # and e1's

    def test_d(self):
        self.assertEqual((events_and_status("d"), counts("d")), ("4000/4000/4000/4001/4101", (4, 3, 0)))

    def test_e(self):
        self.assertEqual((events_and_status("e"), counts("e")), ("4000/4000/4000/4000/4102", (5, 5, 0)))
        self.assertLess({"3100030000", "3200020003", "3200040003"}, set(track("e")))

    def test_f(self):
        self.assertEqual((events_and_status("f"), counts("f")[0]), ("4000/4001/4101", 3))

    def test_g(self):
        self.assertEqual((events_and_status("g"), counts("g")), ("4000/4000/400200/4102", (5, 4, 0)))

    def test_h(self):
        self.assertEqual((events_and_status("h"), counts("h")[2]), ("4000/400200/4102", 3))

    def test_i(self):
        self.assertEqual(told("i"), ["4000"] * 4_096 + ["4100", "4e09%04x" % 4_097, "4e0c0000"])

    def test_j(self):
        self.assertEqual(events_and_status("j"), "4000/" * 1_024 + "4100")
        self.assertEqual((refusals("j"), counts("j")), (["4e08%04x" % 1_025], (1_024, 1_023, 0)))

    def test_k(self):
        for name in ("k-1", "k-3"):
            self.assertEqual((events_and_status(name), refusals(name)), ("4000/4100", ["4e070002"]))
        self.assertEqual((events_and_status("k-2"), refusals("k-2")), ("4000/400201/4102", []))

    def test_l(self):
        self.assertEqual(events_and_status("l-64"), "4000/" + "400200/" * 64 + "4001/4101")
        self.assertEqual(told("l-65"), ["4e05%04x" % 67])

    def test_m(self):
        self.assertEqual(told("m"), ["4100", "3001000000000000", "3f"])


class SpeltCases(unittest.TestCase):
    """What document 02's W1 says of capitals and CRs."""

    def test_a_in_other_spellings(self):
        expected = {
            "w1-a": "10010101\r/1100\r/12060000000000000001\r/120200\r/1207\r/120200\r/1208\r/1F0005\r/"
            "200000\r/20000103\r/20000101\r/20000102\r/",
            "w1-capitals": "10010101/1100/12060000000000000001/120200/1207/120200/1208/1F0005/"
            "200000/20000103/20000101/20000102/",
            "w1-cr-lf": "10010101\r/1100\r/12060000000000000001\r/120200\r/1207\r/120200\r/1208\r/1f0005\r/"
            "200000\r/20000103\r/20000101\r/20000102\r/",
            "w1-mixed": "10010101/1100\r/12060000000000000001/120200\r/1207/120200\r/1208/1F0005\r/"
            "200000/20000103\r/20000101/20000102\r/",
        }
        for name, given in expected.items():
            self.assertEqual(cases.kept(name), (text(given), cases.kept("a")[1]), name)

    def test_letters_beyond_the_last_line(self):
        self.assertIn(b"\n12060000000000000C00\n12020a\n1207\n12020A\n", cases.kept("w1-letters")[0])
        self.assertEqual((events_and_status("w1-letters"), refusals("w1-letters")), ("4000/40020a/4100", []))

    def test_crs_elsewhere_in_a_table(self):
        for name in ("w1-cr-in-a-line", "w1-two-crs", "w1-cr-before-a-line", "w1-cr-lf-alone"):
            self.assertEqual(told(name), ["4e010003"], name)
        self.assertEqual(told("w1-crs-alone"), ["4e010001"])
        self.assertEqual(told("w1-table-without-last-lf"), ["4e010004"])

    def test_crs_elsewhere_in_a_script(self):
        for name in ("w1-script-without-last-lf", "w1-script-cr-in-a-line", "w1-script-cr-lf-alone"):
            self.assertEqual((events_and_status(name), refusals(name)), ("4000/4100", ["4e010002"]), name)

    def test_a_last_line_that_is_refused_ends_the_table_too(self):
        self.assertEqual(told("w1-no-good-last-line"), ["4e010004"])
        self.assertEqual(told("w1-short-last-line"), ["4e020004"])

    def test_rooms_count_crs(self):
        for length, refusal in ((TABLE_ROOM, "4e040004"), (TABLE_ROOM + 1, "4e060000")):
            table, _ = cut_input(cases.kept(f"w1-table-{length}")[0])
            self.assertEqual((len(table), told(f"w1-table-{length}")), (length, [refusal]))
            self.assertLess(len(table.replace(b"\r", b"")), TABLE_ROOM)
        for length, crs in ((SCRIPT_ROOM, 20), (SCRIPT_ROOM + 1, 21)):
            _, script = cut_input(cases.kept(f"w1-script-{length}")[0])
            self.assertEqual((len(script), script.count(b"\r\n")), (length, crs))
        full = "w1-script-65536"
        self.assertEqual((events_and_status(full), refusals(full)), ("4000/" * 526 + "4100", []))
        self.assertEqual(told("w1-script-65537"), ["4e060000"])


class StuckCases(unittest.TestCase):
    """What document 02's W2 says of a status."""

    def test_a_cut_after_its_third_line(self):
        self.assertEqual(cases.kept("w2-a")[0], cases.kept("a")[0].removesuffix(text("20000102/")))
        self.assertEqual((events_and_status("w2-a"), counts("w2-a")), ("4000/400200/4000/4102", (7, 6, 1)))

    def test_who_waits(self):
        self.assertEqual(events_and_status("w2-prefix"), "4000/4100")
        self.assertEqual(events_and_status("w2-call"), "4000/4100")
        self.assertEqual(events_and_status("w2-apart"), "4000/4102")

    def test_a_stop_that_steps_leaves_it_stuck(self):
        self.assertEqual(events_and_status("w2-stop"), "4000/4102")
        self.assertEqual(events_and_status("w2-stopped"), "4000/4000/4102")


class Figures(unittest.TestCase):
    """What the report says of its own runs, in its reference numbers; of the pictures we have its sentences alone."""

    def hold(self, name, told_of_it, counted, resting, *lines):
        """A run's events and status, its counts, its reference with the next fresh one, and lines by references."""
        self.assertEqual((events_and_status(name), counts(name), refusals(name)), (told_of_it, counted, []))
        self.assertTrue(any(line.startswith("43" + resting) for line in by_references(name)))
        self.assertLess(set(lines), set(by_references(name)))

    def test_fig_4(self):
        """Example 2: the call of P, b and ✓ of the right side end in (a→STOP) ∥ Ω."""
        nodes = "510002000102", "51000300020201", "510004010101", "5100050100", "510006010102"
        self.hold("fig-4", "4000/4000/400201/4000/4102", (7, 6, 0), "00010008", *nodes, "5200060007")

    def test_fig_5(self):
        """Examples 3 and 6, computed in Fig. 8: nine nodes, and 9 and 10 "prepared .. but never used"."""
        arcs = "5200020003", "5200050006", "5200070008", "5200040009", "520008000a"
        self.hold("fig-5", "4000/400200/4000/4000/4102", (9, 8, 1), "0001000b", *arcs, "5300020006")
        # the walk numbers the nodes as the report does
        self.assertEqual(track("fig-5")[1:10], [line.replace("51", "31", 1) for line in by_references("fig-5")[2:11]])

    def test_fig_6(self):
        """Example 5: two rounds, each with its meeting, and both sides at the call of P again."""
        events = "4000" + "/4000/4000/400200" * 2 + "/4100"
        self.hold("fig-6", events, (14, 13, 2), "00010010", "5300030005", "53000a000b", "52000c000d", "52000e000f")

    def test_fig_9(self):
        """Example 7, computed in Fig. 10: a deadlock, the last references 14 and 15."""
        events = "4000" + "/4000/400200" * 2 + "/4000/4000/4102"
        self.hold("fig-9", events, (14, 13, 2), "00010010", "52000b000e", "52000d000f", "5300040003", "5300060009")


PROVED = REPOSITORY / "crates" / "listing" / "proofs" / "Cases.antt"
TOKEN = re.compile(r'"([^"]*)"|([^\s()"]+)')


def proved_rows():
    """The rows of the table that is proved, each an input and an output as they are typed there."""
    source = re.sub(r"^\s*--.*$", "", PROVED.read_text("utf-8"), flags=re.MULTILINE)
    typed = dict(re.findall(r"^(\S+) : String\n\1 =((?:.|\n)*?)\n\n", source, flags=re.MULTILINE))
    table = re.search(r"^cases =((?:.|\n)*?)∷ \[\]", source, flags=re.MULTILINE)[1]

    def joined(words):
        tokens = [token for token in TOKEN.findall(words) if token[1] != "++"]
        return "".join(string or joined(typed[name]) for string, name in tokens)

    for row in re.split(r"\bcase\b", table)[1:]:
        operands = re.findall(r'\([^()]*\)|"[^"]*"|[^\s()"∷]+', row)
        yield tuple(joined(operand.strip("()")) for operand in operands)


class Proved(unittest.TestCase):
    def test_the_table_that_is_proved_is_kept(self):
        names = ("a", "b", "c-12", "c-21", "d", "e", "f", "g", "h", "k-1", "k-3", "k-2", "m")
        rows = list(proved_rows())
        self.assertEqual(len(rows), len(names))
        for name, (given, expected) in zip(names, rows):
            self.assertEqual(cases.kept(name), (text(given), text(expected)), name)


class Edges(unittest.TestCase):
    def test_texts_that_end_early(self):
        self.assertEqual(told("empty"), ["4e020001"])
        self.assertEqual(told("table-ends-early"), ["4e020008"])
        self.assertEqual(told("table-without-last-lf"), ["4e010008"])
        name = "script-without-last-lf"
        self.assertEqual((events_and_status(name), refusals(name)), ("4000/400200/4000/4102", ["4e010004"]))

    def test_a_refused_table(self):
        self.assertEqual(told("table-refused"), ["4e030008"])

    def test_table_text(self):
        for length, refusal in ((TABLE_ROOM, "4e040004"), (TABLE_ROOM + 1, "4e060000")):
            self.assertEqual(len(cut_input(cases.kept(f"table-{length}")[0])[0]), length)
            self.assertEqual(told(f"table-{length}"), [refusal])

    def test_script_text(self):
        for length in (SCRIPT_ROOM, SCRIPT_ROOM + 1):
            self.assertEqual(len(cut_input(cases.kept(f"script-{length}")[0])[1]), length)
        full = "script-65536"
        self.assertEqual((events_and_status(full), refusals(full)), ("4000/" * 526 + "4100", []))
        self.assertEqual(told("script-65537"), ["4e060000"])

    def test_saved_text(self):
        self.assertEqual(len("/".join(track("saved-65536")) + "/"), SAVE_ROOM)
        self.assertEqual((track("saved-65537"), refusals("saved-65537")), ([], ["4e0c0000"]))
