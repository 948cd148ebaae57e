"""The desk: a table and its names from CSP text, and CSP text from a table.

    python3 tools/desk.py SHOW.csp                 writes SHOW.table and SHOW.names beside it, and says how much
    python3 tools/desk.py                          reads CSP text from standard input and prints the table
    python3 tools/desk.py --names [SHOW.csp]       prints the names and writes no file
    python3 tools/desk.py --tell [TABLE [NAMES]]   prints CSP text that makes this table again

The file - is standard input. A table may have a script behind it, and capitals and CR LF in its lines; one that is
written has small letters and LF. Where NAMES is not given, SHOW.names beside
SHOW.table or SHOW.txt is taken if it is there; what has no name, or one that the notation cannot have, is told by its
number. A file that is there already is replaced only if each of its lines is one of a table, or of names; of names,
comments and blank lines too, which are lost with it.

What is wrong with a text is told with its line and column, one fault at a time, and what is wrong with a table with
the number of its refusal; status 2. Nothing here is proved: the table check judges every table, and so these too.
"""

import argparse
import pathlib
import re
import sys
from typing import NamedTuple

if __name__ == "__main__":  # as a command, too, packages are found from the repository
    sys.path[0] = str(pathlib.Path(__file__).resolve().parents[1])

from tools import csp, words
from tools.csp import CALL, KINDS, MOST_DEFINITIONS, MOST_EVENTS, PARALLEL, PATH_ROOM, PREFIX, SKIP, TERM_ROOM, Show, Term

TABLE_ROOM = 32_768  # bytes of text
EDITION = 0x01
HEAD, DEFINITION, TERM, END = 0x10, 0x11, 0x12, 0x1F
FRAME_OF_A_TABLE = rb"10[0-9a-f]{6}|11[0-9a-f]{2}|120[1-8]([0-9a-f]{2}){0,8}|1f[0-9a-f]{4}"
TABLE_LINE = re.compile(rb"(%b)(\r?\n)?" % FRAME_OF_A_TABLE, re.IGNORECASE)  # or the last, without its end
BY_NUMBER = {"definition": "P", "event": "e"}  # how a name begins that has a number
WINDOW = 100  # characters that are shown of a line


class Trouble(Exception):
    """What keeps the command from its work."""


class Refused(Exception):
    """What a table is refused for, by its number and line."""

    def __init__(self, number, line, what):
        super().__init__(f"refused, number {number}{f', line {line}' if line else ''}: {what}")
        self.number, self.line = number, line


# ---- from CSP text


class Source(NamedTuple):
    """What a CSP text comes to: its show, and by definition and path the line and column of each place."""

    show: Show
    places: dict

    @property
    def terms(self):
        """How many terms the show has."""
        return sum(map(len, self.show.bodies))

    @property
    def table(self):
        """The text of the table."""
        lines = [bytes((HEAD, EDITION, len(self.show.definitions), len(self.show.events))).hex()]
        for number, terms in enumerate(self.show.bodies):
            lines += [bytes((DEFINITION, number)).hex(), *map(term_line, terms)]
        lines.append(f"{END:02x}{self.terms:04x}")
        return "".join(line + "\n" for line in lines)

    @property
    def names(self):
        """The text of the file of names, as tools/words.py reads it."""
        named = (("definition", self.show.definitions), ("event", self.show.events))
        return "".join(f"{what} {number} {name}\n" for what, names in named for number, name in enumerate(names))


def term_line(term):
    return bytes((TERM, term.kind, *term.payload.to_bytes(KINDS[term.kind][0], "big"))).hex()


def compiled(text):
    """The Source that a CSP text is."""
    return Source(*csp.read(text))


# ---- from a table


def lines_of(given):
    """The bytes in pieces, each through its LF; what stands behind the last LF is a piece without one."""
    return re.findall(rb"[^\n]*\n|[^\n]+", given)


def line_fault(line):
    """What keeps a piece from being a line, in words, or None: pairs of digits, small or capital, then LF or CR LF."""
    characters = line.removesuffix(b"\n").removesuffix(b"\r")
    if not line.endswith(b"\n"):
        return "a line without LF at its end"
    if not characters:
        return "an empty line"
    if b"\r" in characters:
        return "a CR with no LF right behind it"
    if re.search(rb"[^0-9a-fA-F]", characters):
        return "a character that is no digit, 0-9, a-f or A-F"
    return "an odd count of digits" if len(characters) % 2 else None


class TableReader:
    """What the lines of a table have told so far. In a line the tests stand in the order of their numbers."""

    def __init__(self):
        self.definitions = self.events = self.terms = self.line = 0
        self.bodies = []
        self.awaited = []  # of each term that the last definition still needs, the digits of its path
        self.ended = False

    def test(self, holds, number, what):
        if not holds:
            raise Refused(number, self.line, what)

    def take(self, line):
        """The next line."""
        self.line += 1
        fault = line_fault(line)
        self.test(fault is None, 1, fault)
        frame = bytes.fromhex(line.decode("ascii"))
        takers = {DEFINITION: self.take_definition, TERM: self.take_term, END: self.take_end}
        takers = takers if self.definitions else {HEAD: self.take_head}
        self.test(frame[0] in takers, 2, "not a line that can stand here")
        takers[frame[0]](frame)

    def take_head(self, frame):
        self.test(len(frame) == 4, 2, "expected 10 and three bytes: edition, definitions, events")
        edition, definitions, events = frame[1:]
        in_range = edition == EDITION and 1 <= definitions <= MOST_DEFINITIONS and events <= MOST_EVENTS
        self.test(in_range, 3, "expected edition 01, 1 to 64 definitions and at most 64 events")
        self.definitions, self.events = definitions, events

    def take_definition(self, frame):
        self.test(len(frame) == 2, 2, "expected 11 and one byte, the number of the definition")
        in_turn = frame[1] == len(self.bodies) < self.definitions
        self.test(in_turn, 3, "not the next definition, or one more than the first line says")
        self.test(not self.awaited, 4, "the definition before this line is not complete")
        self.bodies.append([])
        self.awaited = [0]

    def take_term(self, frame):
        kind, payload = int.from_bytes(frame[1:2], "big"), int.from_bytes(frame[2:], "big")
        self.test(self.bodies, 2, "a term before any definition")
        self.test(kind in KINDS, 2, "a term of no kind that there is")
        payload_bytes, subterms = KINDS[kind]
        self.test(len(frame) == 2 + payload_bytes, 2, f"expected {payload_bytes} bytes behind this kind of term")
        limits = {CALL: self.definitions, PREFIX: self.events, PARALLEL: 1 << self.events}
        self.test(payload < limits.get(kind, 1), 3, "a definition or an event that the first line does not count")
        self.test(self.awaited, 4, "a term too many for its definition")
        self.test(self.terms < TERM_ROOM, 5, f"more than {TERM_ROOM:,} terms")
        digits = self.awaited.pop() + 1
        self.test(digits - (kind != PREFIX) <= PATH_ROOM, 5, f"a path of more than {PATH_ROOM} digits")
        self.terms += 1
        self.bodies[-1].append(Term(kind, payload))
        self.awaited += [digits] * subterms

    def take_end(self, frame):
        self.test(len(frame) == 3, 2, "expected 1f and two bytes, the count of the terms")
        self.test(int.from_bytes(frame[1:], "big") == self.terms, 3, f"not the count of the terms, {self.terms}")
        complete = not self.awaited and len(self.bodies) == self.definitions
        self.test(complete, 4, "the last definition is not complete, or there are fewer than the first line says")
        self.ended = True


def read_table(given):
    """What the table at the front of some bytes tells. It goes through the first line that begins with 1f or 1F."""
    lines = lines_of(given)
    last = next((count for count, line in enumerate(lines, 1) if line.startswith((b"1f", b"1F"))), len(lines))
    reader = TableReader()
    reader.test(len(b"".join(lines[:last])) <= TABLE_ROOM, 6, f"the text is longer than {TABLE_ROOM:,} bytes")
    for line in lines[:last]:
        reader.take(line)
    reader.line += 1
    reader.test(reader.ended, 2, "the text ends early, before its line 1f")
    return reader


def with_paths(terms):
    """A definition's terms in preorder, each with its path."""
    waiting = [()]
    for term in terms:
        path = waiting.pop()
        yield path, term
        first = 2 if term.kind == PREFIX else 1  # at 1 of a prefix is its event
        waiting += [(*path, first + part) for part in reversed(range(KINDS[term.kind][1]))]


def skips_in(given):
    """The places of the SKIPs of the table at the front of some bytes, by definition and path; none of a refused one."""
    try:
        bodies = read_table(given).bodies
    except Refused:
        return set()
    placed = ((number, path, term) for number, terms in enumerate(bodies) for path, term in with_paths(terms))
    return {(number, path) for number, path, term in placed if term.kind == SKIP}


def chosen_names(what, count, given, taken):
    """A name for each: the given one, if the notation can have it and it is not taken yet, else one by its number."""
    for number in range(count):
        name = given.get((what, number), "")
        if not csp.is_name(name) or name in taken:
            name = f"{BY_NUMBER[what]}{number}"
        while name in taken:
            name += "'"
        taken.add(name)
        yield name


def told(given, names):
    """The CSP text of the table at the front of some bytes, by the names that there are."""
    table, taken = read_table(given), set()
    definitions = list(chosen_names("definition", table.definitions, names, taken))
    events = list(chosen_names("event", table.events, names, taken))
    return csp.written(Show(definitions, events, table.bodies))


# ---- files


def bytes_of(file):
    return sys.stdin.buffer.read() if file == "-" else pathlib.Path(file).read_bytes()


def title(file):
    return "standard input" if file == "-" else file


def names_in(file):
    """The names of a file."""
    try:
        return words.read_names(pathlib.Path(file).read_text("utf-8"))
    except (words.Fault, UnicodeDecodeError) as fault:
        raise Trouble(f"{file}: {fault}") from fault


def names_beside(file):
    """The names that stand beside a table, where there are any."""
    names = pathlib.Path(file).with_suffix(".names")
    return names_in(names) if file != "-" and names.is_file() else {}


def is_table(file):
    return all(map(TABLE_LINE.fullmatch, lines_of(file.read_bytes())))


def is_names(file):
    try:
        names_in(file)
    except Trouble:
        return False
    return True


def write_beside(file, source):
    """Writes the table and the names of a text beside it, and says how much."""
    table, names = (pathlib.Path(file).with_suffix(suffix) for suffix in (".table", ".names"))
    for path, is_ours in ((table, is_table), (names, is_names)):
        if path.exists() and not is_ours(path):
            raise Trouble(f"{path} is there and has other lines than a {path.suffix[1:]} file: it is left as it is")
    table.write_bytes(source.table.encode("ascii"))
    names.write_bytes(source.names.encode("utf-8"))
    counts = (source.terms, "term"), (len(source.show.definitions), "definition"), (len(source.show.events), "event")
    terms, definitions, events = (f"{count} {word}{'s' * (count != 1)}" for count, word in counts)
    return f"{table}: {terms} in {definitions}, {events}; {names}\n"


# ---- the command


def fault_words(fault, text):
    """A fault with its line and a caret under the place."""
    line, column = fault.spot
    start = column - WINDOW // 2 if column > WINDOW else 0
    around = text.split("\n")[line - 1].rstrip("\r")[start : start + WINDOW]
    below = re.sub(r"[^\t]", " ", around[: column - 1 - start])
    return f"line {line}, column {column}: {fault.what}\n    {around}\n    {below}^"


def compile_file(file, only_names):
    """What the command prints for CSP text."""
    text = bytes_of(file).decode("utf-8-sig", "backslashreplace")
    try:
        source = compiled(text)
    except csp.Fault as fault:
        raise Trouble(f"{title(file)}, {fault_words(fault, text)}") from fault
    if only_names:
        return source.names
    return source.table if file == "-" else write_beside(file, source)


def tell_file(file, *names):
    """What the command prints for a table."""
    try:
        return told(bytes_of(file), names_in(*names) if names else names_beside(file))
    except Refused as refused:
        raise Trouble(f"{title(file)}: {refused}") from refused


def main():
    about = f"{__doc__}\n{csp.__doc__}"
    parser = argparse.ArgumentParser(description=about, formatter_class=argparse.RawDescriptionHelpFormatter)
    ways = parser.add_mutually_exclusive_group()
    ways.add_argument("--names", action="store_true", help="print the names and write no file")
    ways.add_argument("--tell", action="store_true", help="print CSP text for a table")
    parser.add_argument("files", nargs="*", default=["-"], metavar="FILE")
    chosen = parser.parse_args()
    if len(chosen.files) > 1 + chosen.tell:
        parser.error("too many files")
    try:
        printed = tell_file(*chosen.files) if chosen.tell else compile_file(*chosen.files, chosen.names)
        sys.stdout.buffer.write(printed.encode("utf-8"))
    except (Trouble, OSError) as trouble:
        print(f"desk: {trouble}", file=sys.stderr)
        sys.exit(2)


if __name__ == "__main__":
    main()
