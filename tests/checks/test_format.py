"""Tests of docs/FORMAT.md: every example of the page is run, by the independent program, the desk and the words.

A block of the page has a kind, and most have a name, behind the opening fence. In a block of frames each line begins
with a frame. In tables and sentences `/` stands for LF and `\\r` for CR.
"""

import re
import unittest

from tests.checks.cases import KEPT
from tests.independent import frames, rules, saved
from tests.independent.frames import (
    CALL, EXTERNAL_CHOICE, INTERNAL_CHOICE, KINDS, PARALLEL, PREFIX, SEQUENCE, SKIP, STOP, Refusal,
)
from tests.independent.rules import BOTTOM, OMEGA, TAU, TICK, Tree, text_of
from tools import desk, words
from tools.programs import REPOSITORY

PAGE = (REPOSITORY / "docs" / "FORMAT.md").read_text("utf-8")
FENCED = re.compile(r"^```(\w+) ?(\S*)\n(.*?)^```$", re.MULTILINE | re.DOTALL)
BLOCKS = {(kind, name): body.splitlines() for kind, name, body in FENCED.findall(PAGE)}
HELD = {  # the blocks that the tests look at
    *((kind, "cue") for kind in ("csp", "table", "places")), ("steps", ""), ("statuses", ""), ("track", "case-a"),
    *((kind, "racks") for kind in ("csp", "table", "names", "run", "words")),
}
SCRIPT, LISTING = ("run", "racks", 0), ("run", "racks", 10)  # beside each other
CASE_A = re.search(r"Case A is `(.*?)`: the table `(.*?)`,\s+and the script `(.*?)`", PAGE).groups()
TABLE_T, SHOW_T = re.search(r"^T is `(.*?)`, the table of `(.*?)`", PAGE, re.MULTILINE).groups()


# ---- reading the page


def rows(heading):
    """The rows, cell by cell, of every table whose first heading is this."""
    found = re.findall(rf"^\| {re.escape(heading)} \|.*\n\|[-|]+\n((?:\|.*\n)+)", PAGE, re.MULTILINE)
    lines = [line for body in found for line in body.splitlines()]
    return [[cell.strip().replace(r"\|", "|") for cell in re.split(r"(?<!\\)\|", line)[1:-1]] for line in lines]


def in_code(cell):
    """What a cell has between its signs of code."""
    return re.fullmatch("`(.*)`", cell)[1]


def with_feeds(written):
    return written.replace("/", "\n").replace(r"\r", "\r").encode("ascii")


def line_in(written):
    """The bytes of a line whose end is told by its signs."""
    return written.encode("ascii").decode("unicode_escape").encode("ascii")


def block_text(kind, name):
    return text_of(BLOCKS[kind, name])


def frames_of(kind, name, start=0):
    """The frames of a block that begin at this place of a line."""
    begun = [re.match("[0-9a-f]+", line[start:]) for line in BLOCKS[kind, name]]
    return [found[0] for found in begun if found]


def frames_text(kind, name, start=0):
    return text_of(frames_of(kind, name, start)).encode("ascii")


class Page(unittest.TestCase):
    def test_every_block_is_held(self):
        self.assertEqual(set(BLOCKS), HELD)
        self.assertEqual(PAGE.count("```"), 2 * len(BLOCKS))


# ---- lines, tables, places


def form_pattern(form):
    """The expression for a form: its first byte and digits are themselves, letters a number, two points any bytes."""
    first, *fields = form.split()
    kinds = (field if field.isdigit() else "(..)*" if field == ".." else "." * len(field) for field in fields)
    return first + "".join(kinds)


def literals_of(table, show):
    """Each place of a table's only definition with its literal, the left-hand side first, then by path."""
    found = {}
    for term in table.terms:
        signs = {CALL: show.definitions, EXTERNAL_CHOICE: ["[]"], SKIP: ["SKIP"], STOP: ["STOP"]}
        if term.kind == PREFIX:
            found[term.place], found[frames.event_place(term)] = "->", show.events[term.payload]
        else:
            found[term.place] = signs[term.kind][term.payload]
    return [(frames.left_hand_side(0), show.definitions[0]), *sorted(found.items())]


class Frames(unittest.TestCase):
    def hold_lines(self, heading, frame_of):
        """Gives the lines below a heading, those that are lines and those that are none."""
        taken, refused = [], []
        for characters, told in rows(heading):
            line, same = line_in(in_code(characters)), re.search("the same as `(.*?)`", told)
            frame = frame_of(line)
            self.assertEqual(frame is None, told.startswith("no line: "), characters)
            self.assertEqual(frame, frame_of(line_in(same[1])) if same else frame, characters)
            (refused if frame is None else taken).append(line)
        return taken, refused

    def test_lines_of_tables_and_scripts(self):
        taken, refused = self.hold_lines("in a table or script", frames.liberal_frame_of)
        self.assertEqual((len(taken), len(refused)), (5, 8))
        self.assertEqual([desk.line_fault(line) for line in taken], [None] * 5)
        self.assertNotIn(None, map(desk.line_fault, refused))

    def test_lines_of_saved_tracks(self):
        taken, refused = self.hold_lines("in a saved track", frames.strict_frame_of)
        self.assertEqual((len(taken), len(refused)), (1, 6))
        self.assertTrue(any(frames.liberal_frame_of(line) for line in refused))

    def test_forms(self):
        shown = [in_code(row[3]) for row in rows("no.")]
        for place in (("table", "cue"), ("table", "racks"), ("track", "case-a"), SCRIPT, LISTING):
            shown += frames_of(*place)
        forms, used = [in_code(form) for form, _ in rows("form")], set()
        for frame in shown:
            fitting = [form for form in forms if re.fullmatch(form_pattern(form), frame)]
            self.assertEqual(len(fitting), 1, frame)
            used.update(fitting)
        self.assertEqual(used, set(forms))

    def test_kinds(self):
        told = {}
        for number, name, sample, payload, subterms in rows("kk"):
            show = desk.compiled(f"channel a SHOW = {in_code(sample)} P = STOP Q = STOP").show
            self.assertEqual(show.bodies[0][0].kind, int(number, 16), name)
            told[int(number, 16)] = int(payload.split(",")[0]), int(subterms)
        self.assertEqual(told, KINDS)

    def test_sets(self):
        self.assertEqual(len(rows("events in the set")), 3)
        for events, written in rows("events in the set"):
            members = map(int, events.split(" and "))
            self.assertEqual(sum(1 << event for event in members), int(in_code(written), 16), events)

    def test_tables(self):
        for name in ("cue", "racks"):
            table = frames_text("table", name)
            self.assertEqual(desk.compiled(block_text("csp", name)).table.encode("ascii"), table)
            self.assertIsInstance(frames.judge_table(table), frames.Table)

    def test_places(self):
        source = desk.compiled(block_text("csp", "cue"))
        literals = literals_of(frames.judge_table(frames_text("table", "cue")), source.show)
        lines = BLOCKS["places", "cue"]
        self.assertEqual(len(lines), len(literals))
        for line, (place, literal) in zip(lines, literals):
            told = re.split(" {2,}", line.lstrip(" │├└─"))
            path = ".".join(map(str, place.path)) or "empty"
            self.assertEqual(told[:3], [literal, path, rules.node_bytes(0, place)[4:]])
            self.assertEqual(line.index(literal), 0 if path == "0" else 3 * len(place.path) + 3, "the drawing")
        self.assertEqual(set(source.places), {place for place, _ in literals})


# ---- scripts


SIGNS = {INTERNAL_CHOICE: "|~|", EXTERNAL_CHOICE: "[]", SEQUENCE: ";", PARALLEL: "[| {a} |]"}
LEAVES = {CALL: "P", SKIP: "SKIP", STOP: "STOP"}
ENDS = {OMEGA: "Ω", BOTTOM: "⊥"}
SHOWN = {TAU: "τ", TICK: "✓", 0: "a", 1: "b"}


def control_text(control, bracketed=False):
    """A control as the page tells it; an operator inside another term is bracketed."""
    if control in (OMEGA, BOTTOM):
        return ENDS[control]
    term = control.term
    parts = control.subterms if isinstance(control, Tree) else (control.left, control.right)
    if term.kind in LEAVES:
        return LEAVES[term.kind]
    told = [control_text(part, True) for part in parts]
    if term.kind == PREFIX:
        return f"{SHOWN[term.payload]} -> {told[0]}"
    text = f"{told[0]} {SIGNS[term.kind]} {told[1]}"
    return f"({text})" if bracketed else text


def started(process):
    """A run of a process, its start made, and the kinds of its terms."""
    table = frames.judge_table(desk.compiled(f"channel a, b SHOW = {process} P = b -> P").table.encode("ascii"))
    run = rules.Run(table)
    run.step(())
    return run, {term.kind for term in table.terms}


class Scripts(unittest.TestCase):
    def test_steps(self):
        heading, *lines = [re.split(" {2,}", line) for line in BLOCKS["steps", ""]]
        self.assertEqual(heading, ["control", "line", "shows", "control after it"])
        kinds, digits, run = set(), set(), None
        for before, line, shows, after in lines:
            if before:
                run, those = started(before)
                self.assertEqual(control_text(run.control), before)
                kinds |= those
            address = frames.judge_script_line(f"{line}\n".encode("ascii"), 1)
            self.assertIsInstance(address, bytes, line)
            answer = run.step(address)
            told = str(answer.number) if isinstance(answer, Refusal) else SHOWN[answer]
            self.assertEqual((told, control_text(run.control)), (shows, after), (before, line))
            digits |= set(address)
        self.assertEqual((kinds, digits), (set(KINDS), {1, 2, 3, 4}))


# ---- listings and saved tracks


def order_of(listing):
    """The frames of a listing in order, as the page tells them: steps once, a track once."""
    order = []
    for line in listing.decode("ascii").split():
        told = "30 to 3f" if line[0] == "3" else line if line == "4e0c0000" else line[:2]
        if told == "4e" or order[-1:] != [told]:
            order.append(told)
    return order


class Listings(unittest.TestCase):
    def test_what_is_written_is_strict(self):
        table, script = map(with_feeds, CASE_A[1:])
        spelt = (table + script).upper().replace(b"\n", b"\r\n")
        self.assertEqual(rules.listing(spelt), rules.listing(table + script))
        self.assertNotIn(None, map(frames.strict_frame_of, frames.split_lines(rules.listing(spelt))))

    def test_where_a_table_ends(self):
        starts = re.search("The table ends behind the first line of the input that begins with `(..)` or `(..)`", PAGE)
        for start in starts.groups():
            given = with_feeds(f"10010100/{start}x/200000/")
            self.assertEqual(frames.cut_input(given)[1], b"200000\n")
            self.assertEqual(rules.listing(given), b"4e010002\n")

    def test_which_frames_stand_when(self):
        self.assertEqual(len(rows("input")), 7)
        for where, told, case in rows("input"):
            order = re.sub(" for each( before it)?", "", told).split(", ")
            self.assertEqual(order_of(rules.listing((KEPT / in_code(case)).read_bytes())), order, where)

    def test_status_behind_a_line(self):
        heading, *lines = [re.split(" {2,}", line) for line in BLOCKS["statuses", ""]]
        self.assertEqual(heading, ["control", "line", "status", "control after it"])
        run, met = None, set()
        for before, line, status, after in lines:
            run = started(before)[0] if before else run
            self.assertNotIsInstance(run.step(frames.judge_script_line(f"{line}\n".encode("ascii"), 1)), Refusal)
            told = "41%02x" % rules.status(run.control)
            self.assertEqual((told, control_text(run.control)), (status, after), (before, line))
            met.add((told, bool(rules.offers(run.control))))
        self.assertEqual(met, {("4100", True), ("4101", False), ("4102", True), ("4102", False)})

    def test_statuses(self):
        told = dict(re.findall("(0[0-2]) (live|ended|stuck)", dict(rows("form"))["`41 ss`"]))
        self.assertEqual(told, {f"{rules.LIVE:02}": "live", f"{rules.ENDED:02}": "ended", f"{rules.STUCK:02}": "stuck"})

    def test_case_a(self):
        process, *written = CASE_A
        table, script = map(with_feeds, written)
        track = frames_text("track", "case-a")
        self.assertEqual(desk.compiled("channel a " + process).table.encode("ascii"), table)
        self.assertEqual((REPOSITORY / "examples" / "case-a.txt").read_bytes(), table + script)
        self.assertTrue(rules.listing(table + script).endswith(b"\n4102\n" + track))
        self.assertEqual(saved.reread_listing(table + track), track)


# ---- rooms and refusals


ROOMS = {
    "a table's text": frames.TABLE_ROOM, "a script's text": frames.SCRIPT_ROOM, "definitions": frames.MOST_DEFINITIONS,
    "events": frames.MOST_EVENTS, "terms": frames.TERM_ROOM, "the path of a literal": frames.PATH_ROOM,
    "an address": frames.ADDRESS_ROOM, "control": rules.CELL_ROOM, "nodes with a place": rules.NODE_ROOM,
    "arcs made": rules.ARC_ROOM, "meetings": rules.MEETING_ROOM, "a track's text, in a listing": rules.SAVE_ROOM,
    "an input of `./run --reread`": saved.REREAD_ROOM,
}
PIECE = re.compile("(?:([0-9,]+) × )?`(.*?)`")


def whole_input(cell):
    """The input that a cell tells in pieces."""
    pieces = PIECE.findall(cell.replace("T + ", f"`{TABLE_T}` + "))
    return with_feeds("".join(int(count.replace(",", "") or "1") * piece for count, piece in pieces))


def without_line(given, number):
    """An input whose script ends before the line of this number."""
    table, script = frames.cut_input(given)
    return table + b"".join(frames.split_lines(script)[: number - 1])


class Refusals(unittest.TestCase):
    def test_rooms(self):
        told = {room: int(re.match("[0-9,]+", most)[0].replace(",", "")) for room, most, _ in rows("room of")}
        self.assertEqual(told, ROOMS)

    def test_table_t(self):
        self.assertEqual(desk.compiled(SHOW_T).table.encode("ascii"), with_feeds(TABLE_T))

    def test_every_number(self):
        self.assertEqual({int(number) for number, *_ in rows("no.")}, set(range(1, 14)))

    def test_what_is_told_and_what_stays(self):
        for number, what, cell, told, stays in rows("no."):
            given, told = whole_input(cell), in_code(told)
            listed = (saved.reread_listing if stays == "outputs" else rules.listing)(given).decode("ascii").split()
            self.assertEqual(f"4e{int(number):02x}", told[:4])
            self.assertEqual([line for line in listed if line.startswith("4e")][0], told, what)
            if stays in ("all", "outputs"):
                self.assertEqual(listed, [told], what)
            elif stays == "the run":
                shorter = rules.listing(without_line(given, int(told[4:], 16))).decode("ascii").split()
                listed.remove(told)
                self.assertEqual(listed, shorter, what)
            else:
                self.assertEqual((stays, listed[-2:]), ("the slice", ["4100", told]))


# ---- one show, and names


class Show(unittest.TestCase):
    def test_names(self):
        self.assertEqual(desk.compiled(block_text("csp", "racks")).names, block_text("names", "racks"))

    def test_listing_and_words(self):
        listed = frames_text(*LISTING)
        self.assertEqual(rules.listing(frames_text("table", "racks") + frames_text(*SCRIPT)), listed)
        names = words.read_names(block_text("names", "racks"))
        told = words.words_of(words.read_listing(listed.decode("ascii")), names)
        parts = block_text("words", "racks").split("..\n")
        self.assertRegex(text_of(told), "^" + "(.*\n)+".join(map(re.escape, parts)) + "$")

    def test_lines_of_names(self):
        above = block_text("names", "racks")
        self.assertEqual(len(rows("line behind those of section 8")), 8)
        for line, told in rows("line behind those of section 8"):
            called = re.match("event ([0-9]+) is called `(.*?)`:", told)
            try:
                added = dict(words.read_names(above + in_code(line)).items() - words.read_names(above).items())
            except words.Fault as fault:
                self.assertEqual(str(fault), told)
            else:
                self.assertEqual(added, {("event", int(called[1])): called[2]} if called else {}, line)
                self.assertTrue(called or told.startswith("nothing"), line)
