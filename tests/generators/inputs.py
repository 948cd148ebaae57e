"""Inputs for the tracking program: a table and a script, good, cut short, damaged, made up, and by every room.

Runs come from runs.py and tables from tables.py, whose words are used here; families.py says how an input
follows from a seed and an index. What is added is damage to whole inputs, and texts of an exact length: the
table's, the script's, both together, and the saved track's.

    python3 tests/generators/inputs.py [--seed S] [--index I] [--count N]
"""

import pathlib
import sys
from typing import NamedTuple

if __name__ == "__main__":  # as a command, too, packages are found from the repository
    sys.path[0] = str(pathlib.Path(__file__).resolve().parents[2])

from tests.generators import runs, tables
from tests.generators.families import Families, command
from tests.generators.runs import (
    E0, E0_STOP, NO_EVENT, SKIP_SKIP, SKIPS, STOPS, Script, call, finished, nest_of, parallel, parallel_on, prefixes,
    sequence, some_shape, table_of,
)
from tests.generators.spelling import damage_by_returns, respelt
from tests.generators.tables import (
    assemble, damage_by_foreign, damage_line, part_damaged, script_of_length, small_table, step_line, term_line,
    text_of,
)
from tests.independent import rules
from tests.independent.frames import ADDRESS_ROOM, PARALLEL, SCRIPT_ROOM, TABLE_ROOM, cut_input
from tests.independent.rules import SAVE_ROOM, saved_text

INPUT_ROOM = TABLE_ROOM + SCRIPT_ROOM
FAR_OVER = 200_000  # bytes


def some_strict_run(rng):
    """A case of document 01, or a run of a few steps."""
    if rng.random() < 0.2:
        return runs.of_a_case(rng)
    manner = rng.choice((runs.OF_ALL_KINDS, runs.THAT_ENDS, runs.THAT_MEETS))
    return runs.run_of_a_manner(rng, manner, rng.randint(0, 12))


def some_run(rng):
    """The same, one in eight with capitals, CR LF or both."""
    text = some_strict_run(rng)
    return respelt(rng, text) if rng.random() < 0.125 else text


def texts_of(text):
    """The table's and the script's part of an input."""
    return [part.decode("latin-1") for part in cut_input(text.encode("latin-1"))]


# ---- families: cut short and damaged


def cut_short(rng):
    """A run's input that ends at any byte of its table or script, or a few bytes before the end of either."""
    text = some_run(rng)
    end, whole = len(texts_of(text)[0]), len(text)
    return text[: rng.randint(*rng.choice(((0, end), (end - 12, end), (end, whole), (whole - 12, whole))))]


def damaged(rng, damage):
    """A run's input with its table or its script damaged."""
    table, script = texts_of(some_run(rng))
    return "".join(part_damaged(rng, table, script, damage))


def some_places(rng, text):
    """A few places in a text, none in an empty one."""
    return [rng.randrange(len(text)) for _ in range(rng.choice((1, 1, 1, 2, 5)))] if text else []


def flip_bits(rng, text):
    for where in some_places(rng, text):
        text = text[:where] + chr(ord(text[where]) ^ 1 << rng.randrange(8)) + text[where + 1 :]
    return text


def insert_bytes(rng, text):
    for where in some_places(rng, text):
        digit, byte = rng.choice("0123456789abcdef"), chr(rng.randrange(256))
        text = text[:where] + rng.choice((digit, "00", "01", "04", "\n", byte)) + text[where:]
    return text


def remove_bytes(rng, text):
    for where in some_places(rng, text):
        text = text[:where] + text[where + rng.choice((1, 1, 2, 20)) :]
    return text


def with_bits_flipped(rng):
    return damaged(rng, flip_bits)


def with_bytes_inserted(rng):
    return damaged(rng, insert_bytes)


def with_bytes_removed(rng):
    return damaged(rng, remove_bytes)


def with_foreign_characters(rng):
    return damaged(rng, damage_by_foreign)


def with_returns_out_of_place(rng):
    return damaged(rng, damage_by_returns)


def with_lines_damaged(rng):
    """Lines dropped, repeated, exchanged or moved, in the table, in the script or across."""
    lines = some_run(rng).split("\n")
    for _ in range(rng.choice((1, 1, 2, 5))):
        lines = damage_line(rng, lines)
    return "\n".join(lines)


def without_a_line_feed(rng):
    """The LF at the end of the table, of the script or of any line is missing."""
    text = some_run(rng)
    ends = [where for where, character in enumerate(text) if character == "\n"]
    where = rng.choice((len(texts_of(text)[0]) - 1, ends[-1], rng.choice(ends)))
    return text[:where] + text[where + 1 :]


END_LINES = (
    *("1f", "1f", "1f0", "1f00", "1f000", "1f0001", "1f0001", "1f000100", "1fx", "1f\r", "1f\0"),
    *("1F", "1F0", "1F0001", "1F0001\r", "1F0001\r\r", "1f0001\r", "1Fx", "1F\r00"),
)
NO_END_LINES = (" 1f0001", "\r1f0001", "1\rf0001", "01f0001", "1", "f1", "F1", "1e0001", "1E0001", "")


def with_end_lines_in_odd_places(rng):
    """A line that begins with `1f` or `1F`, or nearly so: anywhere, beside the table's end, or last, without its LF."""
    lines = some_run(rng).split("\n")
    end = next(number for number, line in enumerate(lines) if line.startswith(("1f", "1F")))
    where = rng.choice((0, end, end + 1, len(lines) - 1, rng.randrange(len(lines))))
    odd = lines[:where] + [rng.choice(rng.choice((END_LINES, END_LINES, NO_END_LINES)))]
    return "\n".join(odd if rng.random() < 0.3 else odd + lines[where + rng.randint(0, 1) :])


# ---- families: made up


BYTES = "".join(map(chr, range(256)))
ALPHABETS = (BYTES, "0123456789abcdef\n", "0123456789abcdef", "01f2\n", "1f\n", "1fF\r\n", "\n\r\0 ")


def empty(_):
    return ""


def some_start(rng):
    """Nothing, some lines of a table, or a whole one."""
    lines = small_table(rng).lines
    return text_of(rng.choice(([], lines[:1], lines[:2], lines)))


def made_up_bytes(rng):
    length = rng.choice((1, 2, rng.randint(1, 20), rng.randint(1, 300), rng.randint(1, 5_000)))
    return some_start(rng) + "".join(rng.choices(rng.choice(ALPHABETS), k=length))


def made_up_lines(rng):
    """Lines of hexadecimal drawn by lot, some of them with a frame's first byte."""
    start, lines = some_start(rng), []
    for _ in range(rng.choice((1, 3, 30))):
        tag = rng.choice((b"", b"", b"\x20\0", b"\x10\x01", b"\x11", b"\x12", b"\x1f", b"\x20"))
        lines.append((tag + rng.randbytes(rng.choice((1, 2, 3, 4, rng.randint(1, 300))))).hex())
    return start + text_of(lines)


# ---- families: the rooms for text


def by_an_edge(rng, room):
    """A length that fits by a byte, exactly, or not by a byte."""
    return room + rng.choice((-1, 0, 1))


def padded_table(rng, length):
    """A table's text of exactly so many bytes, through its `1f` or `1F` line."""
    _, *ended = tables.some_paddings(rng)
    return tables.padded(tables.start_of_a_table(rng), rng.choice(ended), length)


def endless_table(rng, length):
    """A text of exactly so many bytes without a `1f` or `1F` line."""
    endless, *_ = tables.some_paddings(rng)
    return tables.padded(tables.start_of_a_table(rng), endless, length)


def some_script(rng):
    return text_of(tables.good_script(rng))


def by_the_room_for_table_text(rng):
    """What fits is refused for one of its lines: the longest good table is that of `longest_table`."""
    return padded_table(rng, by_an_edge(rng, TABLE_ROOM)) + some_script(rng)


def without_an_end_line(rng):
    return endless_table(rng, by_an_edge(rng, TABLE_ROOM))


def with_an_end_line_across_the_room(rng):
    """A `1f` or `1F` line that begins by the edge of a table's room, and may not end there, or not at all."""
    before = endless_table(rng, TABLE_ROOM - rng.choice((0, 1, 2, 3, 4, 7, 8)))
    end = rng.choice(("1", "1f", "1F", "1f0", "1f0000", "1F0000", "1f" + "00" * rng.randint(1, 40_000)))
    return before + end + rng.choice(("", "\n", "\r\n", "\n" + some_script(rng), "\r\n" + some_script(rng)))


def by_the_rooms_for_both_texts(rng):
    """A table's and a script's text each at its edge: together about 98,304 bytes."""
    script = script_of_length(rng, by_an_edge(rng, SCRIPT_ROOM))
    return padded_table(rng, by_an_edge(rng, TABLE_ROOM)) + text_of(script)


def by_the_room_for_an_input(rng):
    """A good table, with a script so far over its room that both have as many bytes as both rooms together."""
    table = text_of(small_table(rng).lines)
    return table + text_of(script_of_length(rng, by_an_edge(rng, INPUT_ROOM) - len(table)))


def far_over_the_room_for_table_text(rng):
    return rng.choice((padded_table, endless_table))(rng, FAR_OVER)


def far_over_the_room_for_script_text(rng):
    """A table, good or refused, with a script far over its room behind it."""
    draft = small_table(rng)
    table = rng.choice((draft.lines, tables.wrong_count_or_number(rng, draft)))
    return text_of(table + script_of_length(rng, FAR_OVER))


def with_a_long_line(rng):
    """A line of thousands of bytes in the table, or a script line of more digits than an address has."""
    table, digits = small_table(rng).lines, rng.choice((ADDRESS_ROOM + 1, rng.randint(2_000, 16_000)))
    if rng.random() < 0.5:
        where = rng.randrange(len(table))
        return text_of(table[:where] + [table[where] + "00" * digits] + table[where + 1 :]) + some_script(rng)
    digits = rng.choice((digits, (SCRIPT_ROOM - len("20llll\n")) // 2))
    line = step_line(rng.choices((1, 2, 3, 4), k=digits), rng.choice((None, ADDRESS_ROOM, 65_535)))
    return text_of(table + rng.choice(([], [step_line(())])) + [line]) + rng.choice(("", some_script(rng)))


# With d definitions and p parallels between calls a table has 2p + d terms and 16 + 12d + 28p bytes; prefixes give
# less for their share of the 1,024 terms. So the longest good table has two definitions and 511 parallels, 14,348
# bytes, and the room for a table's text is filled by refused ones only.
PARALLELS_OF_THE_LONGEST_TABLE = 511


def longest_table(rng):
    first = rng.randint(0, PARALLELS_OF_THE_LONGEST_TABLE)
    bodies = []
    for parallels in (first, PARALLELS_OF_THE_LONGEST_TABLE - first):
        calls = [call(rng.choice((0, 1))) for _ in range(parallels + 1)]
        bodies.append(nest_of(rng, "even", lambda: term_line(PARALLEL, rng.getrandbits(64)), calls).term)
    return assemble(2, 64, bodies)


def of_the_longest_table(rng):
    script = Script(longest_table(rng))
    runs.walk(rng, script, rng.randint(0, 8))
    return finished(rng, script)


# ---- families: the room for the saved text


# A node of k digits has 11 + 2k bytes, an arc and a meeting 11, and the first and last line 20. A step of N = N
# adds a node with its arc, 22 bytes, and one of N = N;SKIP 24. A meeting, or a second arc to one node, makes the
# length even.
MEETING, MEET = parallel(E0, E0_STOP, E0_STOP), [(3,)]
JOIN, JOINED = sequence(SKIP_SKIP, STOPS), [(1,), (2,), (4,)]
SIDES = [call(1), call(2), call(3), MEETING, JOIN]


def round_bytes(digits):
    """What a round of so many prefixes and a call adds to a saved text."""
    return sum(46 + 4 * above for above in range(digits)) + 22 + 2 * digits


def steps_for(length, sides):
    """Steps of the last two sides that make a saved text's length odd or even, two ways."""
    met = [sides.parts[3] + address for address in MEET]
    joined = [sides.parts[4] + address for address in JOINED]
    return ([], met + joined) if length % 2 else (met, joined)


class Filled(NamedTuple):
    """A run whose saved text has an exact length: its table, its first steps, and further ones in any order."""

    table: tables.Draft
    first: list
    further: list

    def text(self):
        return text_of(self.table.lines + [step_line(address) for address in self.first + self.further])


def filled(sides, digits, length, steps):
    """Fills a saved text by whole rounds of so many prefixes, then by loops of 22 and 24 bytes a step."""
    bodies = [call(1), sequence(call(2), SKIPS), prefixes((0,) * digits, call(3))]
    table = table_of(sides.term, *bodies)
    loop, growing, rounds, *_ = sides.parts
    first = [(), loop, growing, rounds] + steps
    script = Script(table)
    script.add_all(first)
    left = length - len(saved_text(script.run.track))
    count, left = divmod(left - 10 * 24, round_bytes(digits))
    halves = (left + 10 * 24) // 2
    grown = halves % 11
    further = [loop] * ((halves - 12 * grown) // 11) + [growing] * grown + [rounds] * count * (digits + 1)
    return Filled(table, first, further)


def some_filled(rng, digits, length):
    """An input whose saved text has exactly so many bytes, most of its steps in an order drawn by lot."""
    sides = nest_of(rng, some_shape(rng, len(SIDES)), parallel_on(NO_EVENT), SIDES)
    run = filled(sides, digits, length, rng.choice(steps_for(length, sides)))
    rng.shuffle(run.further)
    return run.text()


def by_the_room_for_saved_text(rng):
    return some_filled(rng, rng.choice((0, 1, 5, 20, 60)), by_an_edge(rng, SAVE_ROOM))


def far_over_the_room_for_saved_text(rng):
    """Number 12, alone or behind the number of a refused line."""
    digits, most = rng.choice(((0, 85_000), (5, 100_000), (20, 160_000), (60, 320_000)))
    refused = rng.choice(("", "", step_line((4,)) + "\n", "20\n", "2"))
    return some_filled(rng, digits, rng.randint(SAVE_ROOM + 2, most)) + refused


# ---- every input


# how many of a thousand inputs are of each family
SHARES = {
    # runs
    runs.of_all_kinds: 75,
    runs.that_ends: 55,
    runs.that_meets: 60,
    runs.of_any_table: 40,
    runs.of_a_case: 20,
    runs.in_many_sides: 25,
    runs.in_deep_sequences: 30,
    runs.to_a_dead_end: 30,
    runs.of_many_events: 30,
    runs.by_a_long_address: 20,
    runs.of_another_spelling: 40,
    of_the_longest_table: 10,
    # tables
    runs.as_judged: 110,
    # cut short, damaged and made up
    cut_short: 50,
    with_bits_flipped: 40,
    with_bytes_inserted: 30,
    with_bytes_removed: 30,
    with_lines_damaged: 40,
    with_foreign_characters: 30,
    with_returns_out_of_place: 30,
    without_a_line_feed: 20,
    with_end_lines_in_odd_places: 30,
    made_up_bytes: 15,
    made_up_lines: 15,
    empty: 2,
    # the rooms of a run
    runs.by_the_room_for_cells: 3,
    runs.by_the_room_for_nodes: 5,
    runs.by_the_room_for_arcs: 4,
    runs.by_the_room_for_meetings: 10,
    runs.at_several_rooms: 5,
    runs.of_many_references: 3,
    # the rooms for text
    runs.by_the_room_for_script_text: 8,
    by_the_room_for_table_text: 10,
    without_an_end_line: 10,
    with_an_end_line_across_the_room: 10,
    by_the_rooms_for_both_texts: 10,
    by_the_room_for_an_input: 5,
    far_over_the_room_for_table_text: 5,
    far_over_the_room_for_script_text: 5,
    with_a_long_line: 10,
    by_the_room_for_saved_text: 12,
    far_over_the_room_for_saved_text: 8,
}
FAMILIES = Families("input ", SHARES)


def outcome(given):
    return rules.outcome(rules.listing(given))


if __name__ == "__main__":
    command("inputs for the tracking program", FAMILIES, outcome)
