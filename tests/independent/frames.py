"""The independent program's frames: lines, tables with their places, and script lines.

It is written from document 01 and document 02's W1, and shares nothing with the crates. `listing` gives what the
program judge has to print for an input:

    python3 tests/independent/frames.py < input

Every number of refusal is tested by a function of its own, in ascending order, so that the lowest wins.
"""

import re
import sys
from typing import NamedTuple

TABLE_ROOM = 32_768  # bytes of text
SCRIPT_ROOM = 65_536  # bytes of text
TERM_ROOM = 1_024
PATH_ROOM = 64  # digits in the path of any literal
ADDRESS_ROOM = 1_024  # digits in a script line
MOST_DEFINITIONS = 64
MOST_EVENTS = 64

EDITION = 0x01
TABLE_HEAD, DEFINITION, TERM, TABLE_END = 0x10, 0x11, 0x12, 0x1F
STEP = 0x20

CALL, PREFIX, INTERNAL_CHOICE, EXTERNAL_CHOICE, SEQUENCE, PARALLEL, SKIP, STOP = range(1, 9)


class Kind(NamedTuple):
    payload_bytes: int
    subterms: int


KINDS = {
    CALL: Kind(1, 0),
    PREFIX: Kind(1, 1),
    INTERNAL_CHOICE: Kind(0, 2),
    EXTERNAL_CHOICE: Kind(0, 2),
    SEQUENCE: Kind(0, 2),
    PARALLEL: Kind(8, 2),
    SKIP: Kind(0, 0),
    STOP: Kind(0, 0),
}


class Refusal(NamedTuple):
    number: int
    line: int


class Place(NamedTuple):
    definition: int
    path: tuple


class Term(NamedTuple):
    kind: int
    payload: int  # a call's definition, a prefix's event, a parallel's set; else 0
    place: Place  # a prefix's place is its arrow's


class Table(NamedTuple):
    definitions: int
    events: int
    terms: list  # in preorder, definition after definition


# ---- lines


def split_lines(text):
    """The text in pieces, each through its LF; what stands behind the last LF is a piece without one."""
    return re.findall(rb"[^\n]*\n|[^\n]+", text)


def strict_frame_of(line):
    """The bytes that a line of a saved track spells, or None where it is not one: small letters, and LF alone."""
    if not re.fullmatch(rb"(?:[0-9a-f][0-9a-f])+\n", line):
        return None
    return bytes.fromhex(line[:-1].decode("ascii"))


def liberal_frame_of(line):
    """The bytes that a line of a table or script spells, or None: small letters or capitals, and LF or CR LF."""
    found = re.fullmatch(rb"((?:[0-9a-fA-F][0-9a-fA-F])+)(?:\n|\r\n)", line)
    return bytes.fromhex(found[1].decode("ascii")) if found else None


def number_of(some_bytes):
    """A number of several bytes, high byte first."""
    return int.from_bytes(some_bytes, "big")


# ---- places


def left_hand_side(definition):
    return Place(definition, (0,))


def right_hand_side(definition):
    return Place(definition, ())


def below(place, digit):
    return Place(place.definition, place.path + (digit,))


def event_place(prefix):
    """Where a prefix's event stands; its arrow stands at the prefix's own place."""
    return below(prefix.place, 1)


def subterm_places(kind, place):
    """The places of a term's subterms, in preorder. A prefix's only subterm is its continuation, at w.2."""
    if kind == PREFIX:
        return [below(place, 2)]
    return [below(place, digit) for digit in range(1, KINDS[kind].subterms + 1)]


def after_subtrees(terms):
    """For each term the number of the term that follows its whole subtree in preorder."""
    after = [0] * len(terms)
    for number in reversed(range(len(terms))):
        following = number + 1
        for _ in range(KINDS[terms[number].kind].subterms):
            following = after[following]
        after[number] = following
    return after


# ---- tables


class TableSoFar:
    """What the accepted lines of a table have told."""

    def __init__(self):
        self.begun = False  # by its first line
        self.ended = False  # by its last line
        self.definitions = 0
        self.events = 0
        self.definitions_begun = 0
        self.terms = []
        self.awaited = []  # places the current definition still needs a term for, the next one last

    def take(self, frame):
        """Adds an accepted line's frame."""
        tag = frame[0]
        if tag == TABLE_HEAD:
            self.begun = True
            self.definitions, self.events = frame[2], frame[3]
        elif tag == DEFINITION:
            self.awaited = [right_hand_side(self.definitions_begun)]
            self.definitions_begun += 1
        elif tag == TERM:
            kind, place = frame[1], self.awaited.pop()
            self.terms.append(Term(kind, number_of(frame[2:]), place))
            self.awaited.extend(reversed(subterm_places(kind, place)))
        else:
            self.ended = True


def is_wrong_frame(table, frame):
    """Number 2: wrong frame, length or place in the order."""
    tag, length = frame[0], len(frame)
    if table.ended:
        return True
    if not table.begun:
        return tag != TABLE_HEAD or length != 4
    if tag == DEFINITION:
        return length != 2
    if tag == TERM:
        known = length >= 2 and frame[1] in KINDS
        return table.definitions_begun == 0 or not known or length != 2 + KINDS[frame[1]].payload_bytes
    if tag == TABLE_END:
        return length != 3
    return True


def is_out_of_range(table, frame):
    """Number 3: a number outside its range, or tttt not the term count."""
    tag = frame[0]
    if tag == TABLE_HEAD:
        edition, definitions, events = frame[1:]
        return edition != EDITION or not 1 <= definitions <= MOST_DEFINITIONS or events > MOST_EVENTS
    if tag == DEFINITION:
        return frame[1] != table.definitions_begun or frame[1] >= table.definitions
    if tag == TERM:
        kind, payload = frame[1], number_of(frame[2:])
        limits = {CALL: table.definitions, PREFIX: table.events, PARALLEL: 1 << table.events}
        return kind in limits and payload >= limits[kind]
    return number_of(frame[1:]) != len(table.terms)


def is_incomplete_or_too_many(table, frame):
    """Number 4: a definition incomplete or not begun, or a term too many."""
    tag = frame[0]
    if tag == DEFINITION:
        return table.awaited != []
    if tag == TERM:
        return table.awaited == []
    if tag == TABLE_END:
        return table.awaited != [] or table.definitions_begun < table.definitions
    return False


def is_over_room(table, frame):
    """Number 5: term 1,025, or a path over 64, a prefix's event too."""
    if frame[0] != TERM:
        return False
    digits = len(table.awaited[-1].path)
    if frame[1] == PREFIX:
        digits += 1
    return len(table.terms) >= TERM_ROOM or digits > PATH_ROOM


TABLE_FAULTS = ((2, is_wrong_frame), (3, is_out_of_range), (4, is_incomplete_or_too_many), (5, is_over_room))


def table_line_fault(table, frame):
    """The lowest number that holds of the next line, or None."""
    if frame is None:
        return 1
    for number, holds in TABLE_FAULTS:
        if holds(table, frame):
            return number
    return None


def judge_table(text):
    """The Table that a text is, or its Refusal."""
    if len(text) > TABLE_ROOM:
        return Refusal(6, 0)
    table = TableSoFar()
    lines = split_lines(text)
    for line_number, line in enumerate(lines, 1):
        frame = liberal_frame_of(line)
        fault = table_line_fault(table, frame)
        if fault is not None:
            return Refusal(fault, line_number)
        table.take(frame)
    if not table.ended:
        return Refusal(2, len(lines) + 1)
    return Table(table.definitions, table.events, table.terms)


# ---- scripts


def script_line_fault(frame):
    """The lowest number that holds of a script line, or None."""
    if frame is None:
        return 1
    if frame[0] != STEP or len(frame) < 3 or number_of(frame[1:3]) != len(frame) - 3:
        return 2
    digits = frame[3:]
    if len(digits) > ADDRESS_ROOM or any(not 1 <= digit <= 4 for digit in digits):
        return 3
    return None


def judge_script_line(line, line_number):
    """The address, a byte a digit, that a script line names, or its Refusal."""
    frame = liberal_frame_of(line)
    fault = script_line_fault(frame)
    return frame[3:] if fault is None else Refusal(fault, line_number)


# ---- the listing of the program judge


def cut_input(given):
    """The table's text, through the first line that begins with `1f` or `1F` or to the end, and the script's."""
    end = 0
    for line in split_lines(given):
        end += len(line)
        if line.startswith((b"1f", b"1F")):
            break
    return given[:end], given[end:]


def digits_of(path):
    return "".join(str(digit) for digit in path) or "-"


def place_words(place):
    return f"{place.definition} {digits_of(place.path)}"


def term_line(number, term, after):
    words = f"term {number} kind {term.kind} payload {term.payload:x} after {after}"
    words += f" at {place_words(term.place)}"
    if term.kind == PREFIX:
        words += f" event {place_words(event_place(term))}"
    return words


def table_listing(table):
    """The lines that tell an accepted table."""
    lines = [f"table accepted {table.definitions} {table.events} {len(table.terms)}"]
    for definition in range(table.definitions):
        lines.append(f"left {definition} at {place_words(left_hand_side(definition))}")
    after = after_subtrees(table.terms)
    for number, term in enumerate(table.terms):
        lines.append(term_line(number, term, after[number]))
    return lines


def script_listing(text):
    """The lines that tell a script, through its first refused line."""
    if len(text) > SCRIPT_ROOM:
        return ["script refused 6 at line 0"]
    lines = []
    for line_number, line in enumerate(split_lines(text), 1):
        address = judge_script_line(line, line_number)
        if isinstance(address, Refusal):
            lines.append(f"script refused {address.number} at line {address.line}")
            break
        lines.append(f"step {line_number} {digits_of(address)}")
    return lines


def listing(given):
    """What the program judge prints for an input."""
    table_text, script_text = cut_input(given)
    table = judge_table(table_text)
    if isinstance(table, Refusal):
        lines = [f"table refused {table.number} at line {table.line}"]
    else:
        lines = table_listing(table) + script_listing(script_text)
    return "".join(line + "\n" for line in lines).encode("ascii")


def outcome(told):
    """In two words what a listing comes to: `table R`, `script R` for a refusal's number R, or `accepted`."""
    last = told.decode("ascii").splitlines()[-1].split()
    return f"{last[0]} {last[2]}" if last[1] == "refused" else "accepted"


if __name__ == "__main__":
    sys.stdout.buffer.write(listing(sys.stdin.buffer.read()))
