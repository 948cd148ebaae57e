"""Tests of tools/words.py: the words of each kind of frame and each refusal, names, and what is no listing.

A text is written as document 01 writes its case A: `/` for LF.
"""

import subprocess
import sys
import tempfile
import unittest

from tests.checks.test_rules import CASE_A_TRACK, text
from tests.independent.rules import listing
from tools import desk, words
from tools.programs import REPOSITORY

EMPTY_TRACK = "3001000000000000/3f/"
CASE_A = "4000/400200/4000/4000/4102/" + CASE_A_TRACK
CASE_A_WORDS = """\
step 1: silent step (τ)
step 2: event 0
step 3: silent step (τ)
step 4: silent step (τ)
status: stuck (dead: no cue can come any more; the script may still step a STOP)
track: nodes 8, arcs 7, meetings 1
node 0    left-hand side of definition 0           the start
node 1    definition 0, the whole right-hand side  after 0
node 2    definition 0 at 1.1                      after 1; met 5
node 3    definition 0 at 1                        after 2
node 4    definition 0 at 1.2                      after 3
node 5    definition 0 at 2.1                      after 1; met 2
node 6    definition 0 at 2                        after 5
node 7    definition 0 at 2.2                      after 6
Control came to rest at these nodes, which nothing follows. If a cue was held, look here:
  node 4    definition 0 at 1.2
  node 7    definition 0 at 2.2
A part that never took a step has no node; a choice's side that was given up keeps its nodes.
"""
OF_A_TABLE, OF_A_SCRIPT, OF_A_WHOLE_TEXT = (1, 2, 3, 4, 5), (1, 2, 3, 7, 8, 9, 10, 11), (6, 13)  # refusals


def told(written, names="", skips=()):
    """The lines of a listing's words."""
    return words.words_of(words.read_listing(text(written).decode("ascii")), words.read_names(names), skips)


def fault_of(written):
    """What is wrong with a text that is no listing, or None."""
    try:
        told(written)
    except words.Fault as fault:
        return str(fault)
    return None


def run_words(given, *arguments):
    """What the script prints, what it says of faults, and its exit status."""
    command = [sys.executable, "-B", str(REPOSITORY / "tools" / "words.py"), *arguments]
    ended = subprocess.run(command, input=given, capture_output=True, check=False)
    return ended.stdout.decode("utf-8"), ended.stderr.decode("utf-8"), ended.returncode


class Frames(unittest.TestCase):
    def test_case_a_whole(self):
        self.assertEqual(run_words(text(CASE_A)), (CASE_A_WORDS, "", 0))

    def test_case_a_by_the_independent_program(self):
        given = (REPOSITORY / "examples" / "case-a.txt").read_bytes()
        self.assertEqual(run_words(listing(given))[0], CASE_A_WORDS)

    def test_steps(self):
        steps = told("4000/4001/400200/40023f/4101/" + EMPTY_TRACK)[:4]
        self.assertEqual(steps, [
            "step 1: silent step (τ)", "step 2: successful end (✓)", "step 3: event 0", "step 4: event 63",
        ])

    def test_statuses(self):
        for number, word in enumerate(("live (more", "ended (came", "stuck (dead")):
            lines = told(f"41{number:02x}/" + CASE_A_TRACK)
            self.assertTrue(lines[0].startswith("status: " + word), lines[0])
            self.assertIn(words.REST_WORDS[number], lines)

    def test_a_part_that_has_ended_is_none_to_look_at(self):
        table = text("10010101/1100/12060000000000000001/120200/1207/120200/1208/1f0005/")
        self.assertEqual(desk.skips_in(table), {(0, (1, 2))})
        self.assertEqual(desk.skips_in(table[:-1]), set())
        node, other = "  node 4    definition 0 at 1.2", "  node 7    definition 0 at 2.2"
        for status, apart in ((0, True), (1, False), (2, True)):
            lines = told(f"41{status:02x}/" + CASE_A_TRACK, skips=desk.skips_in(table))
            below = [other, words.SOUND_WORDS, node] if apart else [node, other]
            self.assertEqual(lines[-len(below) - 2 :], [words.REST_WORDS[status], *below, words.REST_NOTE])

    def test_only_parts_that_have_ended(self):
        track = "3001000200010000/310000000100/3100010000/3200000001/3f/"
        lines = told("4100/" + track, skips={(0, ())})
        self.assertEqual(lines[-3:-1], [words.SOUND_WORDS, "  node 1    definition 0, the whole right-hand side"])
        self.assertNotIn(words.REST_WORDS[0], lines)

    def test_a_run_with_no_step(self):
        lines = told("4100/" + EMPTY_TRACK)
        self.assertEqual(lines[1:], ["track: nodes 0, arcs 0, meetings 0", "No step was accepted."])

    def test_places(self):
        nodes = "310000000100/3100010000/310002020401020201/"
        lines = told("4100/3001000300020000/" + nodes + "3200000001/3200010002/3f/")
        self.assertEqual(lines[-2], "  node 2    definition 2 at 1.2.2.1")
        self.assertIn("node 1    definition 0, the whole right-hand side  after 0", lines)

    def test_several_before_and_several_met(self):
        nodes = "310000000100/31000100020101/31000200020201/3100030000/"
        arcs = "3200000001/3200000002/3200010003/3200020003/"
        lines = told("4100/3001000400040003/" + nodes + arcs + "3300000001/3300000002/3300010002/3f/")
        self.assertTrue(lines[3].endswith("after 0; met 0, 2"), lines[3])
        self.assertTrue(lines[5].endswith("after 1, 2"), lines[5])
        self.assertEqual(lines[-2], "  node 3    definition 0, the whole right-hand side")


class Refusals(unittest.TestCase):
    def assert_tells(self, lines, number, where):
        what, to_do = words.REFUSAL_WORDS[number]
        self.assertEqual(lines, [f"refused, number {number}{where}: {what}", "  " + to_do])

    def test_every_number_has_words_of_its_own(self):
        self.assertEqual(sorted(words.REFUSAL_WORDS), list(range(1, 14)))
        self.assertEqual(len({what for what, _ in words.REFUSAL_WORDS.values()}), 13)

    def test_what_is_a_line(self):
        """Capitals and CR LF are no fault of a table or script, and are one of a saved track."""
        of_a_table, of_a_script, of_either = (
            words.refusal_words(bytes((0x4E, 1, 0, 3)), text)[0].partition(": ")[2]
            for text in ("table", "script", "table or of the track")
        )
        self.assertEqual(
            of_a_table, "it is not a line: pairs of the digits 0-9, a-f or A-F, and then LF or CR LF"
        )
        self.assertEqual(of_a_script, of_a_table)
        self.assertEqual(of_either, of_a_table + "; in the track small letters, and LF alone")

    def test_a_table_refused(self):
        for number in OF_A_TABLE:
            self.assert_tells(told(f"4e{number:02x}0102/"), number, ", line 258 of the table")

    def test_a_text_refused_as_a_whole(self):
        for number in OF_A_WHOLE_TEXT:
            self.assert_tells(told(f"4e{number:02x}0000/"), number, "")

    def test_a_script_line_refused(self):
        for number in OF_A_SCRIPT:
            lines = told(f"4000/4100/4e{number:02x}0002/" + CASE_A_TRACK)
            self.assert_tells(lines[2:4], number, ", line 2 of the script")
            self.assertEqual(lines[4], "track: nodes 8, arcs 7, meetings 1")

    def test_a_track_too_long(self):
        self.assert_tells(told("4000/4100/4e0c0000/")[2:], 12, "")
        lines = told("4000/4100/4e090002/4e0c0000/")
        self.assert_tells(lines[2:4], 9, ", line 2 of the script")
        self.assert_tells(lines[4:], 12, "")


class Names(unittest.TestCase):
    NAMES = "definition 0 SHOW\nevent 0 cue 7 go\nevent 11 blackout\n"

    def test_names_for_definitions_and_events(self):
        lines = told(CASE_A, self.NAMES)
        self.assertEqual(lines[1], "step 2: event cue 7 go")
        self.assertEqual(lines[6], "node 0    left-hand side of SHOW           the start")
        self.assertEqual(lines[7], "node 1    SHOW, the whole right-hand side  after 0")
        self.assertEqual(lines[-2], "  node 7    SHOW at 2.2")

    def test_what_has_no_name_is_told_by_its_number(self):
        steps = told("400201/40020b/4100/" + CASE_A_TRACK, self.NAMES)[:2]
        self.assertEqual(steps, ["step 1: event 1", "step 2: event blackout"])

    def test_a_file_of_names(self):
        with tempfile.NamedTemporaryFile("w", suffix=".names", encoding="utf-8") as names:
            names.write(self.NAMES + "definition 1 BÜHNE\n")
            names.flush()
            given = text("400200/4100/3001000100000000/310000010100/3f/")
            lines = run_words(given, names.name)[0].splitlines()
        self.assertEqual(lines[0], "step 1: event cue 7 go")
        self.assertEqual(lines[3], "node 0    left-hand side of BÜHNE  the start")

    def test_blanks_comments_and_numbers(self):
        for line in (
            "event 11 cue 7 go", "event 0xb cue 7 go", "event 0x0B cue 7 go", "event 011 cue 7 go",
            "event 11 cue 7 go\r", "  event\t11   cue 7 go  ", "\ufeffevent 11 cue 7 go",
            "event 11 cue 7 go -- the last", "event 11 cue 7 go --",
            "\n--\n \n-- event 11 no\n\t--event 12 no\n-----\nevent 11 cue 7 go\n\n",
        ):
            self.assertEqual(words.read_names(line), {("event", 11): "cue 7 go"}, line)
        self.assertEqual(words.read_names(""), {})
        self.assertEqual(words.read_names("event 0x3f a--b #7"), {("event", 63): "a--b #7"})
        both = {("event", 0): "go", ("definition", 0): "go"}
        self.assertEqual(words.read_names("event 0 go\ndefinition 0x0 go"), both)

    def test_a_line_that_names_nothing(self):
        number = "expected a number, 0 to 63 or 0x0 to 0x3f, found "
        for line, said in (
            ("place 1 SHOW", "expected `definition` or `event`, found 'place'"),
            ("Event 1 go", "expected `definition` or `event`, found 'Event'"),
            ("# event 1 go", "expected `definition` or `event`, found '#'"),
            ("definition SHOW", number + "'SHOW'"),
            ("definition", number + "''"),
            ("event 64 go", number + "'64'"),
            ("event 0x40 go", number + "'0x40'"),
            ("event " + "9" * 5_000 + " go", number + repr("9" * 5_000)),
            ("event 0x go", number + "'0x'"),
            ("event 3f go", number + "'3f'"),
            ("event -1 go", number + "'-1'"),
            ("event \u0661 go", number + "'\u0661'"),
            ("event 1", "expected a name behind '1'"),
            ("event 1 -- go", "expected a name behind '1'"),
            ("event 0x00 UP", "event 0 has a name already, 'GO'"),
            ("event 0 GO", "event 0 has a name already, 'GO'"),
        ):
            with self.assertRaises(words.Fault) as caught:
                words.read_names("event 0 GO\n\n" + line + "\nnothing\n")
            self.assertEqual(str(caught.exception), "line 3 of the names: " + said)

    def test_the_names_that_the_desk_writes(self):
        events = [f"e{number}" for number in range(64)]
        definitions = [f"P{number}" for number in range(64)]
        show = f"channel {', '.join(events)}\n" + "".join(f"{name} = STOP\n" for name in definitions)
        named = {("definition", number): name for number, name in enumerate(definitions)}
        named.update({("event", number): name for number, name in enumerate(events)})
        self.assertEqual(words.read_names(desk.compiled(show).names), named)

    def test_a_bad_file_of_names(self):
        with tempfile.NamedTemporaryFile("w", suffix=".names", encoding="utf-8") as names:
            names.write("event 64 go\n")
            names.flush()
            said = "words: line 1 of the names: expected a number, 0 to 63 or 0x0 to 0x3f, found '64'\n"
            self.assertEqual(run_words(text(CASE_A), names.name), ("", said, 1))

    def test_no_file_of_names(self):
        printed, said, status = run_words(text(CASE_A), "nowhere.names")
        self.assertEqual((printed, status), ("", 1))
        self.assertIn("nowhere.names", said)


class Faults(unittest.TestCase):
    """Texts that are no listing."""

    NO_FRAMES = (
        "", "4", "40 00", "40FF", "4000\r", "zz", "40", "4002", "400100", "4003", "410", "4103", "4e000001",
        "4e0e0001", "4e0100", "42010000", "3002000000000000", "30010000", "31000000", "3100000001",
        "31000000000000", "320000", "330000", "3f00", "10010101",
    )

    def test_no_frame(self):
        for line in self.NO_FRAMES:
            fault = fault_of("4000/" + line + "/4100/" + EMPTY_TRACK)
            self.assertEqual(fault, f"line 2 is no line of a listing, or not in its place: {line!r}")

    def test_a_frame_out_of_its_order(self):
        for given, line in (
            ("4000/3f/", 2), ("4100/4000/", 2), ("4e010001/4100/", 2), ("4e010001/" + EMPTY_TRACK, 2),
            (EMPTY_TRACK, 1), ("4100/" + EMPTY_TRACK + "3f/", 4), ("4100/3001000100000000/3200000000/", 3),
        ):
            self.assertTrue(str(fault_of(given)).startswith(f"line {line} is no line of"), given)

    def test_a_node_out_of_its_turn_and_an_end_that_is_no_node(self):
        node = "310000000100/"
        for line in ("310000000100", "310002000100", "3200000001", "3300010000"):
            fault = fault_of("4100/3001000200000000/" + node + line + "/3f/")
            self.assertTrue(str(fault).startswith("line 4 is no line of"), line)

    def test_every_listing_cut_short(self):
        lines = CASE_A.split("/")[:-1]
        self.assertIsNone(fault_of("/".join(lines) + "/"))
        for kept in range(len(lines)):
            self.assertIsNotNone(fault_of("".join(line + "/" for line in lines[:kept])), kept)

    def test_every_line_of_a_track_left_out(self):
        lines = CASE_A.split("/")[:-1]
        for gone in range(4, len(lines)):
            kept = lines[:gone] + lines[gone + 1 :]
            self.assertIsNotNone(fault_of("".join(line + "/" for line in kept)), gone)

    def test_a_bad_line_ends_the_script_with_status_1(self):
        self.assertEqual(
            run_words(text("4000/4003/4100/" + EMPTY_TRACK)),
            ("", "words: line 2 is no line of a listing, or not in its place: '4003'\n", 1),
        )
