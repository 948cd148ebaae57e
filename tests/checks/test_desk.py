"""Tests of tools/desk.py and tools/csp.py: the notation, every fault with its place, the files, and both directions.

How operators group is compared with Python's own, which have as many levels; tables with the independent check.
"""

import ast
import pathlib
import random
import re
import subprocess
import sys
import tempfile
import unittest

from tests.generators import tables
from tests.generators.tables import (
    CALL, EXTERNAL_CHOICE, INTERNAL_CHOICE, PARALLEL, PREFIX, SEQUENCE, SKIP, STOP, assemble, term_line, text_of,
)
from tests.independent import frames
from tools import csp, desk
from tools.programs import REPOSITORY

EXAMPLES = REPOSITORY / "examples"
SHOWS = ("casino", "held", "ends-well", "case-a")
OTHERS = "\nP = STOP\nQ = STOP\nR = STOP"  # definitions 1 to 3


def terms_of(process):
    """The lines of a process's terms. P, Q and R are definitions 1, 2 and 3 in it, and a, b and c events 0, 1 and 2."""
    lines = desk.compiled(f"channel a, b, c SHOW = {process}{OTHERS}").table.split("\n")
    return " ".join(lines[2 : lines.index("1101")])


def fault_of(text):
    """The line, the column and the words of a text's fault."""
    try:
        desk.compiled(text)
    except csp.Fault as fault:
        return (*fault.spot, fault.what)
    return None


def refusal_of(given):
    """The number and the line that a table is refused with, or None."""
    try:
        desk.read_table(given)
    except desk.Refused as refused:
        return refused.number, refused.line
    return None


def run_desk(*arguments, given=b"", folder=None):
    """What the command prints, what it says of faults, and its exit status."""
    command = [sys.executable, "-B", str(REPOSITORY / "tools" / "desk.py"), *arguments]
    ended = subprocess.run(command, input=given, capture_output=True, cwd=folder, check=False)
    return ended.stdout.decode("utf-8"), ended.stderr.decode("utf-8"), ended.returncode


# ---- the notation


class Notation(unittest.TestCase):
    def test_each_term(self):
        for process, lines in (
            ("SKIP", "1207"),
            ("STOP", "1208"),
            ("R", "120103"),
            ("SHOW", "120100"),
            ("b -> STOP", "120201 1208"),
            ("a -> b -> P", "120200 120201 120101"),
            ("P |~| Q", "1203 120101 120102"),
            ("P [] Q", "1204 120101 120102"),
            ("P ; Q", "1205 120101 120102"),
            ("P [| {a, c} |] Q", "12060000000000000005 120101 120102"),
            ("P [| {} |] Q", "12060000000000000000 120101 120102"),
            ("P ||| Q", "12060000000000000000 120101 120102"),
            ("((R))", "120103"),
        ):
            self.assertEqual(terms_of(process), lines, process)

    def test_whole_tables(self):
        source = desk.compiled("SHOW = go -> P [| {go, x'} |] STOP P = SHOW")
        self.assertEqual(source.table, text_of([
            "10010202", "1100", "12060000000000000003", "120200", "120101", "1208", "1101", "120100", "1f0005",
        ]))
        self.assertEqual(source.names, "definition 0 SHOW\ndefinition 1 P\nevent 0 go\nevent 1 x'\n")

    def test_what_binds_more(self):
        tightest_first = ("a -> Q", "P ; Q", "P [] Q", "P |~| Q", "P [| {b} |] Q", "P ||| Q")
        for count, inner in enumerate(tightest_first):
            for outer in tightest_first[count + 1 :]:
                sign = outer[2:-2]
                self.assertEqual(terms_of(f"{inner} {sign} R"), terms_of(f"({inner}) {sign} R"), (inner, outer))
                self.assertEqual(terms_of(f"R {sign} {inner}"), terms_of(f"R {sign} ({inner})"), (inner, outer))

    def test_to_which_side(self):
        self.assertEqual(terms_of("a -> b -> c -> P"), terms_of("a -> (b -> (c -> P))"))
        for sign in (";", "[]", "|~|", "[| {b} |]", "|||"):
            self.assertEqual(terms_of(f"P {sign} Q {sign} R"), terms_of(f"(P {sign} Q) {sign} R"))
            self.assertNotEqual(terms_of(f"P {sign} Q {sign} R"), terms_of(f"P {sign} (Q {sign} R)"))
        self.assertEqual(terms_of("P [| {a} |] Q [| {b} |] R"), terms_of("(P [| {a} |] Q) [| {b} |] R"))

    def test_blanks_are_not_needed(self):
        self.assertEqual(terms_of("a->b->P[]Q;R[|{a,b}|]P|~|(SKIP|||STOP)"),
                         terms_of("a -> b -> P [] Q ; R [| { a , b } |] P |~| ( SKIP ||| STOP )"))

    def test_lines_and_comments(self):
        for process in (
            "a ->\n\n\tP\n[]\n  Q",
            "a -> -- Q = STOP\n P [] Q -- the end",
            "a -> {- Q = STOP -} P {--} [] {- {- -} {-- \n-} -- -} Q",
            "a -> P [] --Q\r\n Q",
        ):
            self.assertEqual(terms_of(process), terms_of("a -> P [] Q"), process)

    def test_where_a_definition_ends(self):
        self.assertEqual(terms_of("P\nchannel d\nS = d -> P"), terms_of("P\nS = d -> P"))
        self.assertEqual(desk.compiled("A = B B = A").table, desk.compiled("A =\nB\nB\n= A").table)

    def test_sets(self):
        self.assertEqual(terms_of("P [| {c, a, c} |] Q"), terms_of("P [| {a, c} |] Q"))
        every = ", ".join(f"x{number}" for number in range(64))
        self.assertIn("\n1206ffffffffffffffff\n", desk.compiled(f"S = STOP [| {{{every}}} |] STOP").table)

    def test_the_order_of_events(self):
        for text, events in (
            ("S = x -> y -> x -> STOP", ["x", "y"]),
            ("S = STOP [| {y, x} |] x -> z -> STOP", ["y", "x", "z"]),
            ("channel z, x S = y -> x -> STOP", ["z", "x", "y"]),
            ("S = y -> x -> STOP channel x\nchannel z", ["x", "z", "y"]),
            ("S = x -> T T = y -> STOP [| {z} |] w -> STOP", ["x", "y", "z", "w"]),
            ("S = STOP", []),
        ):
            self.assertEqual(desk.compiled(text).show.events, events, text)

    def test_the_order_of_definitions(self):
        show = desk.compiled("B = C\nnever = A\nA = STOP\nC = A").show
        self.assertEqual(show.definitions, ["B", "never", "A", "C"])
        self.assertEqual([terms[0].payload for terms in show.bodies], [3, 2, 0, 2])

    def test_names(self):
        for name in ("a", "_", "x1", "Rack_2", "don't", "P''", "STOPPED", "skip", "SKIP'", "channels", "Bühne", "'"):
            self.assertEqual(desk.compiled(f"{name} = {name}").show.definitions, [name])
            self.assertEqual(desk.compiled(f"S = {name} -> S").show.events, [name])
            self.assertTrue(csp.is_name(name))
        for name in ("", "1a", "a b", "a-b", "SKIP", "STOP", "channel", "a.1", "a\n"):
            self.assertFalse(csp.is_name(name))

    def test_the_texts_of_the_help_and_of_the_readme(self):
        for told in (csp.__doc__, (REPOSITORY / "README.md").read_text("utf-8")):
            text = re.search(r"^    channel(?:.*\n    )+.*", told, re.MULTILINE)[0]
            self.assertEqual(desk.compiled(text).show.definitions, ["SHOW", "FRONT", "BACK"])


# ---- faults


A_PROCESS = "expected the name of a definition, or `->` behind that of an event"
OR_THE_END = "a definition `NAME = ..` or the end"


class Faults(unittest.TestCase):
    def assert_faults(self, *rows):
        for text, line, column, what in rows:
            self.assertEqual(fault_of(text), (line, column, what), text)

    def test_names(self):
        self.assert_faults(
            ("S = a -> T", 1, 10, f"unknown process name `T`: {A_PROCESS}"),
            ("S = a ->\n  (b -> S [] a)", 2, 14, f"event `a` used as a process: {A_PROCESS}"),
            ("channel a\nS = a", 2, 5, f"event `a` used as a process: {A_PROCESS}"),
            ("S = STOP\nT = S\n S = T", 3, 2, "definition `S` given twice, first in line 1: expected another name"),
            ("S = T -> STOP\nT = S", 1, 5, "`T` is a definition: expected the name of an event"),
            ("S = STOP [| {a, S} |] STOP", 1, 17, "`S` is a definition: expected the name of an event"),
            ("channel S\nS = STOP", 1, 9, "`S` is a definition: expected the name of an event"),
            ("channel a, b\nchannel a\nS = STOP", 2, 9, "event `a` declared twice: expected another name"),
        )

    def test_what_is_not_closed(self):
        self.assert_faults(
            ("S = (a -> S", 1, 5, "unclosed `(`: expected `)` before the end"),
            ("S = (a -> (S)\nT = S", 1, 5, "unclosed `(`: expected `)` before the definition of `T`"),
            ("S = (S\nchannel a", 1, 5, "unclosed `(`: expected `)` before `channel`"),
            ("S = (S T)", 1, 8, "expected an operator or `)`, found `T`"),
            ("S = S [| {a |] S", 1, 13, "expected `,` or `}`, found `|]`"),
            ("S = S [| {a\nT = S", 1, 10, "unclosed `{`: expected `}` before the definition of `T`"),
            ("S = S [| {a} S", 1, 14, "expected `|]`, found `S`"),
            ("S = S [| {}", 1, 7, "unclosed `[|`: expected `|]` before the end"),
            ("S = S -- ok\n {- {- -} never", 2, 2, "unclosed comment: expected `-}`"),
        )

    def test_what_is_missing_or_too_many(self):
        self.assert_faults(
            ("S = a ->\n", 1, 9, "expected a process, found the end"),
            ("S =\nT = S", 2, 1, "expected a process, found the definition of `T`"),
            ("S = S [] [] S", 1, 10, "expected a process, found `[]`"),
            ("S = ()", 1, 6, "expected a process, found `)`"),
            ("S = a -> S)", 1, 11, f"expected an operator, {OR_THE_END}, found `)`"),
            ("S = a -> S T", 1, 12, f"expected an operator, {OR_THE_END}, found `T`"),
            ("S = STOP -> S", 1, 10, f"expected an operator, {OR_THE_END}, found `->`"),
            ("S(x) = STOP", 1, 1, "expected a definition `NAME = ..` or `channel`, found `S`"),
            ("SKIP = STOP", 1, 1, "expected a definition `NAME = ..` or `channel`, found `SKIP`"),
            ("S = S [| a |] S", 1, 10, "expected `{`, found `a`"),
            ("S = S [| {a,} |] S", 1, 13, "expected the name of an event, found `}`"),
            ("S = S [| {STOP} |] S", 1, 11, "expected the name of an event, found `STOP`"),
            ("channel\nS = S", 2, 1, "expected the name of an event, found the definition of `S`"),
            ("channel a b\nS = S", 1, 11, f"expected `,`, {OR_THE_END}, found `b`"),
        )

    def test_stray_characters(self):
        self.assert_faults(
            ("S = a.1 -> S", 1, 6, f"expected an operator, {OR_THE_END}, found the stray character `.`"),
            ("S = 1 -> S", 1, 5, "expected a process, found the stray character `1`"),
            ("\n\tS = a - S", 2, 8, f"expected an operator, {OR_THE_END}, found the stray character `-`"),
            ("S = S | S % T", 1, 7, f"expected an operator, {OR_THE_END}, found the stray character `|`"),
            ("10010101\n", 1, 1, "expected a definition `NAME = ..` or `channel`, found the stray character `1`"),
        )

    def test_texts_without_a_definition(self):
        what = "the text has no definition: expected `NAME = ..`"
        self.assert_faults(
            ("", 1, 1, what), ("\n\n", 1, 1, what), ("-- a show\n", 1, 1, what), ("channel a\n\n", 1, 10, what),
        )


class Rooms(unittest.TestCase):
    def test_definitions(self):
        text = "".join(f"P{number} = STOP\n" for number in range(64))
        self.assertEqual(len(desk.compiled(text).show.definitions), 64)
        self.assertEqual(fault_of(text + " Q = STOP"), (65, 2, "definition 65: expected at most 64"))

    def test_events(self):
        declared = "channel " + ", ".join(f"e{number}" for number in range(64))
        self.assertEqual(len(desk.compiled(declared + "\nS = e0 -> S").show.events), 64)
        self.assertEqual(fault_of(declared + "\nS = e0 -> x -> S"), (2, 11, "event 65: expected at most 64"))

    def test_terms(self):
        text = "".join(f"P{number} = {'a -> ' * 15}STOP\n" for number in range(64))
        self.assertEqual(desk.compiled(text).terms, 1_024)
        fault = fault_of(text.replace("P0 = ", "P0 = b -> "))
        self.assertEqual(fault, (64, 82, "term 1,025: expected at most 1,024"))

    def test_paths(self):
        what = "nested too deep: expected paths of at most 64 digits; a definition of its own begins anew"
        self.assertEqual(desk.compiled("S = " + "a -> " * 64 + "SKIP").terms, 65)
        self.assertEqual(fault_of("S = " + "a -> " * 65 + "SKIP"), (1, 5 + 5 * 64 + 2, what))
        for operator in ("[]", "[| {a} |]"):
            self.assertEqual(desk.compiled("S = " + f"S {operator} " * 64 + "S").terms, 129)
            self.assertEqual(fault_of("S = " + f"S {operator} " * 65 + "S"), (1, 5, what))
        self.assertEqual(fault_of(f"S = {'S ; (' * 65}S{')' * 65}"), (1, 5 + 5 * 64, what))
        self.assertIsNone(fault_of(f"S = {'S ; (' * 64}S{')' * 64}"))

    def test_nesting(self):
        what = "expected at most 100 brackets in each other"
        inside = "S ||| S [| {a} |] S |~| S [] S ; a -> "
        self.assertEqual(desk.compiled(f"S = {'(' * 100}S{')' * 100}").terms, 1)
        self.assertEqual(fault_of(f"S = {'(' * 101}S{')' * 101}"), (1, 105, what))
        self.assertEqual(fault_of("S =\n" + "(" * 10_000), (2, 101, what))
        self.assertEqual(fault_of("S = " + (inside + "(") * 10_000)[2], what)

    def test_texts_that_are_long(self):
        for text in ("S [] " * 20_000 + "S", "a -> " * 20_000 + "S", "S ; a -> " * 20_000 + "S"):
            self.assertTrue(fault_of("S = " + text)[2].startswith("nested too deep"))
        self.assertEqual(fault_of("{- " * 20_000), (1, 1, "unclosed comment: expected `-}`"))
        self.assertIsNone(fault_of("S = S" + "\n-- a comment" * 20_000))


# ---- places


class Places(unittest.TestCase):
    TEXT = "-- a show\nSHOW = (a -> SKIP ; RACK)\n  [| {a} |] STOP\nRACK =\n  b ->\n  RACK\n"

    def test_each_place(self):
        self.assertEqual(desk.compiled(self.TEXT).places, {
            (0, (0,)): (2, 1), (0, ()): (3, 3), (0, (1,)): (2, 19), (0, (1, 1)): (2, 11), (0, (1, 1, 1)): (2, 9),
            (0, (1, 1, 2)): (2, 14), (0, (1, 2)): (2, 21), (0, (2,)): (3, 13),
            (1, (0,)): (4, 1), (1, ()): (5, 5), (1, (1,)): (5, 3), (1, (2,)): (6, 3),
        })

    def test_the_places_of_the_table_and_what_stands_there(self):
        signs = {CALL: "P", PREFIX: "->", SKIP: "SKIP", STOP: "STOP", INTERNAL_CHOICE: "|~|", EXTERNAL_CHOICE: "[]"}
        signs.update({SEQUENCE: ";", PARALLEL: ("[|", "|||")})
        for given, table in good_tables(40):
            text = desk.told(given, {})
            lines, places = text.split("\n"), desk.compiled(text).places
            wanted = {frames.left_hand_side(number): f"P{number} =" for number in range(table.definitions)}
            for term in table.terms:
                wanted[term.place] = signs[term.kind]
                if term.kind == PREFIX:
                    wanted[frames.event_place(term)] = f"e{term.payload} ->"
            self.assertEqual(set(places), set(wanted))
            for place, (line, column) in places.items():
                self.assertTrue(lines[line - 1].startswith(wanted[place], column - 1), (place, text))


# ---- the command and its files


class Files(unittest.TestCase):
    TEXT = "SHOW = go -> SHOW\n"
    TABLE = "10010101\n1100\n120200\n120100\n1f0002\n"
    NAMES = "definition 0 SHOW\nevent 0 go\n"

    def setUp(self):
        kept = tempfile.TemporaryDirectory()
        self.addCleanup(kept.cleanup)
        self.folder = pathlib.Path(kept.name)

    def put(self, name, text):
        (self.folder / name).write_bytes(text if isinstance(text, bytes) else text.encode("utf-8"))

    def there(self):
        """The files that are there, but for the source."""
        files = [file for file in self.folder.iterdir() if file.suffix != ".csp"]
        return {file.name: file.read_bytes().decode("utf-8") for file in files}

    def desk(self, *arguments, given=""):
        return run_desk(*arguments, given=given.encode("utf-8"), folder=self.folder)

    def test_a_table_and_names_beside_the_text(self):
        self.put("show.csp", self.TEXT)
        said = "show.table: 2 terms in 1 definition, 1 event; show.names\n"
        for _ in range(2):  # the second time in their place
            self.assertEqual(self.desk("show.csp"), (said, "", 0))
            self.assertEqual(self.there(), {"show.table": self.TABLE, "show.names": self.NAMES})

    def test_another_table_is_replaced(self):
        self.put("show.csp", self.TEXT)
        table = frames.cut_input((EXAMPLES / "casino.txt").read_bytes())[0]
        for text in (table + b"1f0000", table.upper().replace(b"\n", b"\r\n")):
            self.put("show.table", text)
            self.put("show.names", (EXAMPLES / "casino.names").read_bytes())
            self.assertEqual(self.desk("show.csp")[2], 0)
            self.assertEqual(self.there(), {"show.table": self.TABLE, "show.names": self.NAMES})

    def test_names_with_comments_are_replaced(self):
        self.put("show.csp", self.TEXT)
        for names in ("\n", "-- mine\n", "event 0x0 up -- the first cue\n\n"):
            self.put("show.names", names)
            self.assertEqual(self.desk("show.csp")[2], 0)
            self.assertEqual(self.there()["show.names"], self.NAMES)

    def test_another_file_is_not_replaced(self):
        self.put("show.csp", self.TEXT)
        for name, text in (
            ("show.table", "a table\n"), ("show.table", self.TABLE + "200000\n"), ("show.table", "1209\n"),
            ("show.table", "1100\n\n"), ("show.table", "1100\r\r\n"), ("show.names", "definition 0 SHOW\nmine\n"),
            ("show.names", "event 0 up\nevent 0 go\n"), ("show.names", "event 64 up\n"),
        ):
            self.put(name, text)
            printed, said, status = self.desk("show.csp")
            words = f"desk: {name} is there and has other lines than a {name[5:]} file: it is left as it is\n"
            self.assertEqual((printed, said, status), ("", words, 2))
            self.assertEqual(self.there(), {name: text})
            (self.folder / name).unlink()

    def test_a_text_of_such_a_name_is_not_replaced(self):
        for name in ("show.table", "show.names"):
            self.put(name, self.TEXT)
            self.assertEqual(self.desk(name)[2], 2)
            self.assertEqual(self.there(), {name: self.TEXT})
            (self.folder / name).unlink()

    def test_a_pipe(self):
        self.assertEqual(self.desk(given=self.TEXT), (self.TABLE, "", 0))
        self.assertEqual(self.desk("-", given=self.TEXT), (self.TABLE, "", 0))
        self.assertEqual(self.desk("--names", given=self.TEXT), (self.NAMES, "", 0))
        self.assertEqual(self.desk("--tell", given=self.TABLE), ("channel e0\nP0 = e0 -> P0\n", "", 0))
        self.put("show.csp", self.TEXT)
        self.assertEqual(self.desk("--names", "show.csp"), (self.NAMES, "", 0))
        self.assertEqual(self.there(), {})

    def test_a_fault_is_shown_under_its_line(self):
        self.put("show.csp", "SHOW = go\n\t-> RACK\r\n")
        self.assertEqual(self.desk("show.csp"), ("", (
            f"desk: show.csp, line 2, column 5: unknown process name `RACK`: {A_PROCESS}\n"
            "    \t-> RACK\n"
            "    \t   ^\n"
        ), 2))
        self.assertEqual(self.there(), {})
        said = self.desk(given="SHOW = " + "(" * 10_000)[1].split("\n")
        self.assertTrue(said[0].startswith("desk: standard input, line 1, column 108: expected at most 100 "))
        self.assertEqual((len(said[1]), said[2].index("^")), (104, 53))

    def test_bytes(self):
        self.assertEqual(self.desk(given="\ufeff" + self.TEXT), (self.TABLE, "", 0))
        self.assertEqual(run_desk(given=b"-- B\xfchne\n" + self.TEXT.encode()), (self.TABLE, "", 0))
        self.assertIn("line 1, column 6: expected", run_desk(given=b"S = B\xfchne\n")[1])
        self.assertEqual(self.desk("--names", given="BÜHNE = BÜHNE"), ("definition 0 BÜHNE\n", "", 0))

    def test_files_that_are_not_there_and_options(self):
        for arguments, said in (
            (["nowhere.csp"], "nowhere.csp"), (["--tell", "nowhere.table"], "nowhere.table"), (["."], "'.'"),
            (["--tell", "-", "nowhere.names"], "nowhere.names"), (["a.csp", "b.csp"], "too many files"),
            (["--tell", "a", "b", "c"], "too many files"), (["--names", "--tell"], "not allowed"),
        ):
            ended = self.desk(*arguments)
            self.assertEqual((ended[0], ended[2]), ("", 2))
            self.assertIn(said, ended[1])

    def test_help(self):
        printed, _, status = self.desk("--help")
        self.assertEqual(status, 0)
        self.assertIn(csp.__doc__.strip(), printed)


class Telling(unittest.TestCase):
    TABLE = b"10010201\n1100\n120200\n120101\n1101\n120100\n1f0003\n"

    FOLDED = """\
channel event_0, event_1, event_2, event_3, event_4, event_5, event_6, event_7, event_8, event_9,
        event_10, event_11, event_12, event_13
S = event_0 -> event_1 -> event_2 -> event_3 -> event_4 -> S [] S
    ; (event_5 -> event_6 -> event_7 -> event_8 -> event_9 -> event_10 -> event_11 -> event_12 ->
        event_13 -> S
    |~| S)
    [| {event_0, event_1, event_2, event_3, event_4, event_5, event_6, event_7, event_8, event_9,
        event_10, event_11, event_12, event_13} |] S
"""

    def told(self, *names):
        return desk.told(self.TABLE, {name[:-1]: name[-1] for name in names})

    def test_names(self):
        show, rack, go = ("definition", 0, "SHOW"), ("definition", 1, "RACK"), ("event", 0, "go")
        self.assertEqual(self.told(), "channel e0\nP0 = e0 -> P1\nP1 = P0\n")
        self.assertEqual(self.told(show, rack, go), "channel go\nSHOW = go -> RACK\nRACK = SHOW\n")
        self.assertEqual(self.told(rack, ("event", 7, "no")), "channel e0\nP0 = e0 -> RACK\nRACK = P0\n")

    def test_names_that_cannot_be(self):
        for name in ("cue 7", "7up", "SKIP", "channel", "P0", "x.y", "-- go"):
            self.assertEqual(self.told(("event", 0, name)), self.told())
        self.assertEqual(self.told(("definition", 0, "P1")), "channel e0\nP1 = e0 -> P1'\nP1' = P1\n")

    def test_files_of_names(self):
        with tempfile.TemporaryDirectory() as folder:
            pathlib.Path(folder, "t.table").write_bytes(self.TABLE)
            for name, text in (("t.names", "event 0 go\n"), ("u.names", "event 0 up\n"), ("bad", "go\n")):
                pathlib.Path(folder, name).write_text(text, "utf-8")
            for names, event in (((), "go"), (("u.names",), "up")):
                printed = run_desk("--tell", "t.table", *names, folder=folder)[0]
                self.assertEqual(printed, f"channel {event}\nP0 = {event} -> P1\nP1 = P0\n")
            said = "desk: bad: line 1 of the names: expected `definition` or `event`, found 'go'\n"
            self.assertEqual(run_desk("--tell", "t.table", "bad", folder=folder), ("", said, 2))

    def test_a_refused_table(self):
        for change, said in (
            ((b"1101", b"1102"), "number 3, line 5: not the next definition, or one more than the first line says"),
            ((b"120200", b"120201"), "number 3, line 3: a definition or an event that the first line does not count"),
            ((b"120100\n", b""), "number 3, line 6: not the count of the terms, 2"),
            ((b"1101\n", b""), "number 4, line 5: a term too many for its definition"),
            ((b"1100", b"11OO"), "number 1, line 2: a character that is no digit, 0-9, a-f or A-F"),
            ((b"1100\n", b"1100\r"), "number 1, line 2: a CR with no LF right behind it"),
            ((b"1100", b"1100\r\r"), "number 1, line 2: a CR with no LF right behind it"),
            ((b"1100", b"\r"), "number 1, line 2: an empty line"),
            ((b"1100", b"110"), "number 1, line 2: an odd count of digits"),
            ((b"1f0003\n", b"1F0003\r"), "number 1, line 7: a line without LF at its end"),
            ((b"1f0003\n", b""), "number 2, line 7: the text ends early, before its line 1f"),
            ((b"1f0003\n", b"3f" * 20_000), "number 6: the text is longer than 32,768 bytes"),
        ):
            printed, told, status = run_desk("--tell", given=self.TABLE.replace(*change))
            self.assertEqual((printed, told, status), ("", f"desk: standard input: refused, {said}\n", 2))

    def test_capitals_and_crs_change_nothing(self):
        events = "a, b, c, d, e, f, g, h, i, j, k, l"
        table = desk.compiled(f"channel {events} S = l -> S [| {{k, l}} |] k -> SKIP").table.encode("ascii")
        self.assertEqual(set(re.findall("[a-f]", table.decode("ascii"))), set("abcf"))
        for spelt in (table.upper(), table.replace(b"\n", b"\r\n"), table.upper().replace(b"\n", b"\r\n", 3)):
            for script in (b"", b"200000\r\n"):
                self.assertEqual(desk.told(spelt + script, {}), desk.told(table, {}))
                self.assertEqual(desk.skips_in(spelt + script), desk.skips_in(table))

    def test_long_lines_are_folded(self):
        self.assertEqual(csp.written(desk.compiled(self.FOLDED).show), self.FOLDED)


# ---- the shows under examples


class Examples(unittest.TestCase):
    def test_tables(self):
        for show in SHOWS:
            table, _ = frames.cut_input((EXAMPLES / f"{show}.txt").read_bytes())
            self.assertEqual(desk.compiled((EXAMPLES / f"{show}.csp").read_text("utf-8")).table.encode(), table, show)

    def test_names(self):
        self.assertEqual({file.stem for file in EXAMPLES.glob("*.csp")}, set(SHOWS))
        for names in EXAMPLES.glob("*.names"):
            source = desk.compiled(names.with_suffix(".csp").read_text("utf-8"))
            self.assertEqual(source.names, names.read_text("utf-8"), names)

    def test_told_again(self):
        for show in SHOWS:
            told, said, status = run_desk("--tell", str(EXAMPLES / f"{show}.txt"))
            self.assertEqual((said, status), ("", 0))
            source = desk.compiled((EXAMPLES / f"{show}.csp").read_text("utf-8"))
            self.assertEqual(desk.compiled(told).table, source.table, show)
            self.assertEqual(desk.compiled(told).names == source.names, show != "case-a", show)

    def test_a_told_text_whole(self):
        self.assertEqual(run_desk("--tell", str(EXAMPLES / "ends-well.txt"))[0], (
            "channel GO, frontfade, backfade, houseup\n"
            "SHOW = (FRONT [| {GO} |] BACK) ; houseup -> SKIP\n"
            "FRONT = GO -> frontfade -> SKIP\n"
            "BACK = GO -> backfade -> SKIP\n"
        ))


# ---- both directions on generated tables and texts


def good_tables(count):
    """Tables that the independent check takes, of every size: their texts and what it makes of them."""
    for number in range(count):
        rng = random.Random(f"desk {number}")
        draft = (
            tables.good_table(rng), tables.small_table(rng), tables.deep_table(rng, rng.choice((62, 63, 64)))[0],
            tables.full_table(rng, rng.choice((1_023, 1_024)) if number % 40 == 3 else 100),
        )[number % 4]
        text = text_of(draft.lines).encode("ascii")
        judged = frames.judge_table(text)
        if isinstance(judged, frames.Table):
            yield text, judged


class Tables(unittest.TestCase):
    def test_a_table_that_is_told_is_made_again(self):
        count = 0
        for text, table in good_tables(400):
            source = desk.compiled(desk.told(text, {}))
            self.assertEqual(source.table.encode("ascii"), text)
            self.assertEqual((source.terms, len(source.show.events)), (len(table.terms), table.events))
            count += 1
        self.assertGreater(count, 300)

    def test_no_brackets_that_are_not_needed(self):
        for number in range(150):
            table = text_of(tables.small_table(random.Random(f"brackets {number}")).lines)
            told = desk.told(table.encode("ascii"), {})
            for opening, closing in bracket_pairs(told):
                without = told[:opening] + told[opening + 1 : closing] + told[closing + 1 :]
                self.assertNotEqual(desk.compiled(without).table, table, told)

    def test_refusals_are_those_of_the_independent_check(self):
        numbers = set()
        for index in range(400):
            given = tables.FAMILIES.generate(7, index)
            judged = frames.judge_table(frames.cut_input(given)[0])
            refused = None if isinstance(judged, frames.Table) else tuple(judged)
            self.assertEqual(refusal_of(given), refused, index)
            numbers.add(refused and refused[0])
        self.assertEqual(numbers, {None, 1, 2, 3, 4, 5, 6})


def bracket_pairs(text):
    """The offsets of each opening bracket and of its closing one."""
    opened = []
    for offset, character in enumerate(text):
        if character == "(":
            opened.append(offset)
        if character == ")":
            yield opened.pop(), offset


SIGNS = {  # the operators of Python that group as ours do, by their own names
    "->": ("**", ast.Pow), ";": ("*", ast.Mult), "[]": ("+", ast.Add), "|~|": ("<<", ast.LShift),
    "[| {a, c} |]": ("&", ast.BitAnd), "|||": ("^", ast.BitXor),
}
LINES = {  # and the lines of their terms
    ast.Mult: term_line(SEQUENCE), ast.Add: term_line(EXTERNAL_CHOICE), ast.LShift: term_line(INTERNAL_CHOICE),
    ast.BitAnd: term_line(PARALLEL, 0b101), ast.BitXor: term_line(PARALLEL),
}
LEAVES = {name: term_line(CALL, number) for number, name in enumerate("STUV")}
LEAVES.update({"SKIP": term_line(SKIP), "STOP": term_line(STOP)})


def some_process(rng, depth=0):
    """The words of a process: operands with operators between them, some in brackets."""
    words = []
    for _ in range(rng.choice((1, 1, 2, 3, 5))):
        for _ in range(rng.choice((0, 0, 1, 2))):
            words += [rng.choice("abc"), "->"]
        inner = depth < 4 and rng.random() < 0.3
        words += ["(", *some_process(rng, depth + 1), ")"] if inner else [rng.choice(list(LEAVES))]
        words.append(rng.choice(list(SIGNS)[1:]))
    return words[:-1]


def grouped_by_python(words):
    """The lines of the terms of a process, as Python groups its words."""

    def lines(node):
        if isinstance(node, ast.Name):
            return [LEAVES[node.id]]
        if isinstance(node.op, ast.Pow):
            return [term_line(PREFIX, "abc".index(node.left.id)), *lines(node.right)]
        return [LINES[type(node.op)], *lines(node.left), *lines(node.right)]

    return lines(ast.parse(" ".join(SIGNS.get(word, (word,))[0] for word in words), mode="eval").body)


def spread(rng, words):
    """The words as a text, with blanks, ends of lines and comments between them."""
    between = (" ", " ", " ", "\n", "\t ", " -- S = (\n", " {- ) {-\n-} -} ")
    return "".join(word + rng.choice(between) for word in words)


class Texts(unittest.TestCase):
    def test_operators_group_as_those_of_python_do(self):
        for number in range(300):
            rng = random.Random(f"text {number}")
            bodies = [some_process(rng) for _ in range(4)]
            definitions = [f"{name} = {spread(rng, body)}\n" for name, body in zip("STUV", bodies)]
            text = "channel a, b, c\n" + "".join(definitions)
            table = text_of(assemble(4, 3, list(map(grouped_by_python, bodies))).lines)
            self.assertEqual(desk.compiled(text).table, table, text)
            self.assertIsInstance(frames.judge_table(table.encode("ascii")), frames.Table)
