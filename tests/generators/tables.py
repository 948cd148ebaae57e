"""Inputs for the program judge: a table and then a script, good, cut short, damaged and made up.

The families stand at the end of this file; families.py says how an input follows from a seed and an index. Here
a text is a str of Latin-1 characters, a byte each, and a line is one without its LF.

    python3 tests/generators/tables.py [--seed S] [--index I] [--count N]
"""

import pathlib
import sys
from typing import NamedTuple

if __name__ == "__main__":  # as a command, too, packages are found from the repository
    sys.path[0] = str(pathlib.Path(__file__).resolve().parents[2])

from tests.generators.families import Families, command
from tests.generators.spelling import damage_by_returns, respelt, with_returns
from tests.independent import frames
from tests.independent.frames import (
    ADDRESS_ROOM, CALL, EXTERNAL_CHOICE, INTERNAL_CHOICE, KINDS, MOST_DEFINITIONS, PARALLEL, PATH_ROOM, PREFIX,
    SCRIPT_ROOM, SEQUENCE, SKIP, STOP, TABLE_ROOM, TERM_ROOM,
)

LEAVES = (CALL, SKIP, STOP)
OPERATORS = (INTERNAL_CHOICE, EXTERNAL_CHOICE, SEQUENCE, PARALLEL)
SHAPES = ("even", "left", "right", "any")
DEPTH_FOR_EVEN_SPLITS = 12  # digits that a term of up to 2,048 terms needs when it is split evenly


class Draft(NamedTuple):
    """A table being made: what its first line tells, and all its lines."""

    definitions: int
    events: int
    lines: list


# ---- frames


def frame(*numbers):
    return bytes(numbers).hex()


def head_line(definitions, events, edition=1):
    return frame(0x10, edition, definitions, events)


def definition_line(number):
    return frame(0x11, number)


def term_line(kind, payload=0):
    return frame(0x12, kind) + payload.to_bytes(KINDS[kind].payload_bytes, "big").hex()


def end_line(terms):
    return f"1f{terms:04x}"


def step_line(digits, length=None):
    return f"20{len(digits) if length is None else length:04x}" + bytes(digits).hex()


def is_term(line):
    return line.startswith("12")


def text_of(lines):
    return "".join(line + "\n" for line in lines)


# ---- good tables


def within(rng, limit):
    """A number below the limit, the edges favoured."""
    return rng.choice((0, limit - 1, rng.randrange(limit)))


def payload_limit(kind, definitions, events):
    """The payloads of a kind are the numbers below this."""
    return {CALL: definitions, PREFIX: events, PARALLEL: 1 << events}.get(kind, 1)


def good_term(rng, kind, definitions, events):
    return term_line(kind, within(rng, payload_limit(kind, definitions, events)))


def split_terms(rng, terms, shape, parity_matters):
    """How many of the terms below an operator stand on its left."""
    if shape == "even":
        return terms // 2 if terms // 2 % 2 else terms // 2 - 1
    left = {"left": terms - 1, "right": 1, "any": rng.randint(1, terms - 1)}[shape]
    return left - 1 if parity_matters and left % 2 == 0 else left


def tree(rng, terms, digits_left, shape, definitions, events):
    """The lines of a term with so many terms in it, an odd number where there is no event."""

    def part(share):
        return tree(rng, share, digits_left - 1, shape, definitions, events)

    if terms == 1:
        return [good_term(rng, rng.choice(LEAVES), definitions, events)]
    tight = digits_left <= DEPTH_FOR_EVEN_SPLITS
    if terms == 2 or tight and terms % 2 == 0 or events and not tight and rng.random() < 0.3:
        return [good_term(rng, PREFIX, definitions, events)] + part(terms - 1)
    left = split_terms(rng, terms - 1, "even" if tight else shape, tight or events == 0)
    operator = good_term(rng, rng.choice(OPERATORS), definitions, events)
    return [operator] + part(left) + part(terms - 1 - left)


def shares(rng, terms, definitions, odd):
    """The terms dealt out to the definitions, at least one each; made odd where asked."""
    cuts = sorted(rng.sample(range(1, terms), definitions - 1))
    dealt = [end - start for start, end in zip([0] + cuts, cuts + [terms])]
    return [share - 1 if odd and share % 2 == 0 else share for share in dealt]


def assemble(definitions, events, bodies):
    lines = [head_line(definitions, events)]
    for number, body in enumerate(bodies):
        lines += [definition_line(number)] + body
    return Draft(definitions, events, lines + [end_line(sum(map(len, bodies)))])


def some_definitions(rng):
    return rng.choice((1, 1, 2, 3, rng.randint(1, 64), 64))


def some_events(rng):
    return rng.choice((0, 1, 2, 8, rng.randint(0, 64), 63, 64))


def table_with(rng, terms, definitions, events):
    """A table with so many terms; where there is no event it may have fewer."""
    bodies = []
    for share in shares(rng, terms, definitions, events == 0):
        bodies.append(tree(rng, share, PATH_ROOM, rng.choice(SHAPES), definitions, events))
    return assemble(definitions, events, bodies)


def good_table(rng):
    definitions = some_definitions(rng)
    more = rng.choice((0, rng.randint(0, 8), rng.randint(0, 8), rng.randint(0, 40), rng.randint(0, 400)))
    return table_with(rng, definitions + more, definitions, some_events(rng))


def small_table(rng):
    definitions = rng.randint(1, 3)
    return table_with(rng, definitions + rng.randint(0, 8), definitions, rng.choice((0, 1, 2, 64)))


def full_table(rng, terms):
    """A table with exactly so many terms, by the room for them."""
    return table_with(rng, terms, some_definitions(rng), rng.choice((1, 2, 64)))


def spine(rng, digits, bottom, definitions, events):
    """A term that goes down by so many digits to the lines `bottom`, and the number of the first of those."""
    ways = rng.choice((("prefix",), ("left",), ("right",), ("prefix", "left", "right")))
    above, behind = [], []
    for _ in range(digits):
        way = rng.choice(ways)
        if way == "prefix" and events:
            above.append(good_term(rng, PREFIX, definitions, events))
            continue
        above.append(good_term(rng, rng.choice(OPERATORS), definitions, events))
        sibling = good_term(rng, rng.choice(LEAVES), definitions, events)
        if way == "right":
            above.append(sibling)
        else:
            behind.insert(0, sibling)
    return above + bottom + behind, len(above)


def deep_table(rng, digits):
    """A table one of whose terms has a path of so many digits, and the number of that term's line."""
    definitions, events = rng.choice((1, 1, 2, 5, 64)), rng.choice((0, 1, 1, 64))
    kinds = LEAVES + OPERATORS + (PREFIX,) * (3 if events else 0)
    kind = rng.choice(kinds)
    bottom = [good_term(rng, kind, definitions, events)]
    bottom += [good_term(rng, rng.choice(LEAVES), definitions, events) for _ in range(KINDS[kind].subterms)]
    deep, above = spine(rng, digits, bottom, definitions, events)
    where = within(rng, definitions)
    leaf = [good_term(rng, rng.choice(LEAVES), definitions, events)]
    bodies = [leaf] * where + [deep] + [leaf] * (definitions - where - 1)
    return assemble(definitions, events, bodies), 1 + 2 * where + 1 + above


# ---- good scripts


def some_address(rng):
    length = rng.choice((0, 1, 1, 2, 3, rng.randint(0, 12)))
    if rng.random() < 0.02:
        length = rng.choice((255, 256, 257, ADDRESS_ROOM - 1, ADDRESS_ROOM))
    return rng.choices((1, 2, 3, 4), k=length)


def good_script(rng):
    count = rng.choice((0, 1, rng.randint(1, 6), rng.randint(1, 30)))
    return [step_line(some_address(rng)) for _ in range(count)]


def script_of_length(rng, length):
    """A good script of exactly so many bytes, at least 2,000."""
    lines = []
    while length > 2_000:
        lines.append(step_line(rng.choices((1, 2, 3, 4), k=rng.choice((0, 0, 1, 3, rng.randint(0, 900))))))
        length -= len(lines[-1]) + 1
    if length % 2 == 0:  # a line's length is odd
        lines.append(step_line([]))
        length -= len(lines[-1]) + 1
    return lines + [step_line(rng.choices((1, 2, 3, 4), k=(length - 7) // 2))]


# ---- damage


def put(lines, where, line):
    return lines[:where] + [line] + lines[where + 1 :]


def some_place(rng, length):
    """A place below the length, the first and the last few favoured."""
    few = rng.randrange(min(length, 3))
    return rng.choice((rng.randrange(length), few, length - 1 - few))


def some_term(rng, lines):
    return rng.choice([where for where, line in enumerate(lines) if is_term(line)])


def count_again(rng, lines):
    """Half the time the last line is made to tell the number of `12` lines."""
    if rng.random() < 0.5 or not lines or not lines[-1].startswith("1f"):
        return lines
    return lines[:-1] + [end_line(sum(map(is_term, lines)))]


def damage_character(rng, text):
    """One character changed, deleted or doubled."""
    if not text:
        return text
    where = rng.randrange(len(text))
    old = text[where]
    hexadecimal = rng.choice("0123456789abcdef")
    instead = rng.choice((hexadecimal, hexadecimal, hexadecimal, chr(rng.randrange(256)), "", old + old))
    return text[:where] + instead + text[where + 1 :]


def damage_by_foreign(rng, text):
    """Characters that no line has, as blanks and NUL; an empty line; capitals and CR, which not every text may have."""
    ends = [where for where, character in enumerate(text) if character == "\n"]
    if not ends:
        return rng.choice(("\n", "\r\n", " ", "\0", "A"))
    end = rng.choice(ends)
    where = rng.randrange(len(text))
    foreign = rng.choice(("\0", " ", "\t", "\r", "A", "F", "G", "\x7f", "\x80", "\xff"))
    neighbour = rng.choice("/:`g")  # beside the digits 0-9 and a-f
    return rng.choice(
        (
            text[:end] + "\r" + text[end:],
            text[:end] + rng.choice((" ", "\t", "\0")) + text[end:],
            text[: end + 1] + "\n" + text[end + 1 :],
            "\n" + text,
            text.replace("\n", "\r\n"),
            text.replace("\n", "\r"),
            text[:where] + foreign + text[where:],
            text[:where] + foreign + text[where + 1 :],
            text[:where] + neighbour + text[where + 1 :],
            text[:where] + neighbour + text[where + 1 :],
            text[:where] + neighbour + text[where + 1 :],
            text[:end] + foreign + text[end + 1 :],
            text[:where] + text[where:].upper(),
        )
    )


def misspelt(rng, line):
    """Something near a line that is not one, whether LF follows or CR LF."""
    return rng.choice((line[:-1], line + "0", line + " ", line + "\r\r", "\r" + line, " " + line, "G" + line[1:], ""))


def damage_line(rng, lines):
    """A line dropped, doubled, exchanged with another or moved."""
    if not lines:
        return lines
    one, other = some_place(rng, len(lines)), some_place(rng, len(lines))
    rest = lines[:one] + lines[one + 1 :]
    damaged = rng.choice(
        (
            rest,
            lines[:one] + [lines[one]] + lines[one:],
            put(put(lines, one, lines[other]), other, lines[one]),
            rest[:other] + [lines[one]] + rest[other:],
        )
    )
    return count_again(rng, damaged)


def wrong_number_near(rng, right, width=1):
    """A number of so many bytes that is not the right one, mostly beside it or at an edge."""
    top = 256**width
    near = (right - 1, right + 1, right + 256, 0, 63, 64, 65, 255, top - 1, rng.randrange(top))
    return rng.choice([number % top for number in near if number % top != right])


def wrong_head(rng, draft):
    which = rng.choice(("edition", "definitions", "events"))
    if which == "edition":
        return head_line(draft.definitions, draft.events, rng.choice((0, 2, 0x10, 0xFF)))
    if which == "definitions":
        return head_line(wrong_number_near(rng, draft.definitions), draft.events)
    return head_line(draft.definitions, wrong_number_near(rng, draft.events))


def wrong_count_or_number(rng, draft):
    """A wrong number in a `10`, `11` or `1f` line."""
    lines = draft.lines
    which = rng.choice(("10", "11", "1f"))
    where = rng.choice([where for where, line in enumerate(lines) if line.startswith(which)])
    if which == "10":
        return put(lines, where, wrong_head(rng, draft))
    right = int(lines[where][2:], 16)
    if which == "11":
        return put(lines, where, definition_line(wrong_number_near(rng, right)))
    return put(lines, where, end_line(wrong_number_near(rng, right, 2)))


def payload_out_of_range(rng, kind, definitions, events):
    """A payload over its range, the edge favoured; None where the kind has none."""
    limit = payload_limit(kind, definitions, events)
    top = 256 ** KINDS[kind].payload_bytes
    if limit >= top:
        return None
    if kind == PARALLEL:
        bit = 1 << rng.choice((events, events, 63, rng.randint(events, 63)))
        return rng.choice((bit, bit | within(rng, limit), top - 1))
    return rng.choice((limit, limit, top - 1, rng.randrange(limit, top)))


def any_term(rng, kind, definitions, events, chance):
    """A term line of the kind, its payload out of range by this chance, and always where none is in range."""
    outside = payload_out_of_range(rng, kind, definitions, events)
    right = payload_limit(kind, definitions, events) > 0 and rng.random() >= chance
    if outside is None or right:
        return good_term(rng, kind, definitions, events)
    return term_line(kind, outside)


def wrong_term(rng, line, draft):
    """A term line with a wrong kind, payload length or payload."""
    kind = int(line[2:4], 16)
    wrong = rng.choice(("kind", "unknown kind", "short", "long", "range", "range", "range"))
    if wrong == "kind":
        return f"12{rng.choice(list(KINDS)):02x}" + line[4:]
    if wrong == "unknown kind":
        return f"12{rng.choice((0x00, 0x09, 0x0A, 0x10, 0x81, 0xFF)):02x}" + line[4:]
    if wrong == "short":
        return line[:-2]
    if wrong == "long":
        return line + rng.choice(("00", "01", "ff"))
    kind = kind if rng.random() < 0.3 else rng.choice((CALL, PREFIX, PARALLEL))
    return any_term(rng, kind, draft.definitions, draft.events, 1)


def wrong_order(rng, draft):
    """A definition or a term missing, too many or too early."""
    lines, end = draft.lines, len(draft.lines) - 1
    term = good_term(rng, rng.choice(LEAVES), draft.definitions, draft.events)
    where = some_term(rng, lines)
    last = max(number for number, line in enumerate(lines) if line.startswith("11"))
    damaged = rng.choice(
        (
            lines[:1] + [term] + lines[1:],  # a term before any definition
            lines[:1] + lines[2:],  # the first `11` missing
            lines[:last] + lines[end:],  # the last definition missing
            lines[:last] + lines[last + 1 :],  # its `11` missing
            lines[: last + 1] + lines[end:],  # its terms missing
            lines[:1] + lines[end:],  # all missing
            lines[end:],
            lines[:end] + [definition_line(draft.definitions), term] + lines[end:],  # one too many
            lines[:end] + [definition_line(draft.definitions)] + lines[end:],
            lines[:end] + [term] + lines[end:],  # a term too many
            lines[:where] + [term] + lines[where:],
            lines[:where] + lines[where + 1 :],  # a term missing
            lines[:where] + lines[end:],
            lines[:where] + lines[:1] + lines[where:],  # a second head
        )
    )
    return count_again(rng, damaged)


# ---- families: good inputs


def good(rng):
    return text_of(good_table(rng).lines + good_script(rng))


def by_the_room_for_terms(rng):
    terms = TERM_ROOM + rng.choice((-1, 0, 0, 1, 1, 40))
    return text_of(full_table(rng, terms).lines + good_script(rng))


def by_the_room_for_paths(rng):
    draft, _ = deep_table(rng, PATH_ROOM + rng.choice((-2, -1, 0, 0, 1)))
    return text_of(draft.lines + good_script(rng))


def good_and_respelt(rng):
    return respelt(rng, good(rng))


# ---- families: cut short and damaged


def cut_short(rng):
    """A good input that ends early, in the table or the script: anywhere, before an LF or after a line."""
    table, script = text_of(small_table(rng).lines), text_of(good_script(rng))
    text = rng.choice((table, table + script))
    end = rng.choice([where for where, character in enumerate(text) if character == "\n"])
    return text[: rng.choice((rng.randrange(len(text)), end, end + 1))]


def part_damaged(rng, table, script, damage):
    """The table's or the script's part of an input damaged."""
    if rng.random() < 0.6:
        return damage(rng, table), script
    return table, damage(rng, script)


def damaged_character(rng):
    table, script = text_of(small_table(rng).lines), text_of(good_script(rng))
    return "".join(part_damaged(rng, table, script, damage_character))


def damaged_by_foreign(rng):
    table, script = text_of(small_table(rng).lines), text_of(good_script(rng))
    return "".join(part_damaged(rng, table, script, damage_by_foreign))


def damaged_by_returns(rng):
    """CRs out of place, in lines spelt in one way or in several."""
    table, script = text_of(small_table(rng).lines), text_of(good_script(rng))
    texts = rng.choice(((table, script), (respelt(rng, table), respelt(rng, script))))
    return "".join(part_damaged(rng, *texts, damage_by_returns))


def damaged_line(rng):
    table, script = part_damaged(rng, good_table(rng).lines, good_script(rng), damage_line)
    return text_of(table + script)


def damaged_first_line(rng):
    """A first line whose numbers stand by the edges of their ranges, its length right or wrong."""
    draft = small_table(rng)
    edition = rng.choice((1, 1, 1, 1, 0, 2))
    definitions = rng.choice((draft.definitions, draft.definitions, 0, 64, 65))
    events = rng.choice((draft.events, draft.events, 64, 65, 66))
    line = head_line(definitions, events, edition)
    line = rng.choice((line, line, line, line, line[:-2], line + rng.choice(("00", "01", "ff")), "10"))
    return text_of([line] + draft.lines[1:] + good_script(rng))


def damaged_number(rng):
    draft = good_table(rng)
    return text_of(wrong_count_or_number(rng, draft) + good_script(rng))


def damaged_term(rng):
    draft = good_table(rng)
    where = some_term(rng, draft.lines)
    lines = put(draft.lines, where, wrong_term(rng, draft.lines[where], draft))
    return text_of(lines + good_script(rng))


def damaged_order(rng):
    return text_of(wrong_order(rng, good_table(rng)) + good_script(rng))


# ---- families: several numbers in one line


def full_and_open(rng):
    """All the lines but the end of a table with 1,025 terms, and where the last of these stands."""
    draft = full_table(rng, TERM_ROOM + 1)
    where = max(number for number, line in enumerate(draft.lines) if is_term(line))
    return draft, where


def full_and_closed(rng):
    """A table with 1,024 terms, its definitions complete; its first line may promise one more."""
    draft = full_table(rng, TERM_ROOM)
    if draft.definitions < MOST_DEFINITIONS and rng.random() < 0.5:
        promised = draft.definitions + 1
        draft = Draft(promised, draft.events, put(draft.lines, 0, head_line(promised, draft.events)))
    return draft, len(draft.lines) - 1


def small_and_anywhere(rng):
    draft = small_table(rng)
    return draft, rng.randrange(len(draft.lines) + 1)


def small_and_closed(rng):
    """A small table, at a line that is to follow a complete definition."""
    draft = small_table(rng)
    ends = [where for where, line in enumerate(draft.lines) if line[:2] in ("11", "1f")]
    return draft, rng.choice(ends[1:])


def deep_and_open(rng):
    """A table at the line of a term whose path has 64 or 65 digits."""
    return deep_table(rng, rng.choice((PATH_ROOM, PATH_ROOM, PATH_ROOM + 1)))


def any_frame(rng, draft, where):
    """A frame of any sort for the line at `where`, its numbers right or wrong."""
    terms = sum(map(is_term, draft.lines[:where]))
    begun = sum(line.startswith("11") for line in draft.lines[:where])
    sort = rng.choice(("12", "12", "12", "12", "12", "11", "11", "1f", "1f", "10", "other"))
    if sort == "12":
        kind = rng.choice(list(KINDS) + [CALL, PREFIX, PREFIX, PARALLEL])
        line = any_term(rng, kind, draft.definitions, draft.events, 0.5)
        return line if rng.random() < 0.9 else f"12{rng.choice((0x00, 0x09, 0xFF)):02x}" + line[4:]
    if sort == "11":
        return definition_line(rng.choice((begun, begun, wrong_number_near(rng, begun))))
    if sort == "1f":
        return end_line(rng.choice((terms, terms, wrong_number_near(rng, terms, 2))))
    if sort == "10":
        return rng.choice((head_line(draft.definitions, draft.events), wrong_head(rng, draft)))
    return rng.choice(("00", "13", "14", "1e", "20", "200000", "30", "3f", "ff"))


def any_table_line(rng, draft, where):
    """A frame of any sort, mostly with its own length and mostly a line."""
    line = any_frame(rng, draft, where)
    fault = rng.random()
    if fault < 0.12:
        return line[:-2] or "12"
    if fault < 0.24:
        return line + rng.choice(("00", "ff", "0102"))
    if fault < 0.32:
        return misspelt(rng, line)
    return line


def several_numbers(rng):
    """A line of any sort where a table can hold several numbers against it."""
    where_made = rng.choice(
        (small_and_anywhere, small_and_closed, full_and_open, full_and_closed, deep_and_open, deep_and_open)
    )
    draft, where = where_made(rng)
    text = text_of(draft.lines[:where]) + any_table_line(rng, draft, where)
    if rng.random() < 0.1:
        return text
    return text + "\n" + text_of(draft.lines[where + rng.randint(0, 1) :] + good_script(rng))


# ---- families: scripts


def any_script_line(rng):
    """A script line of any sort: digits, their count and the line's characters right or wrong."""
    digits = some_address(rng)
    if rng.random() < 0.25:
        count = rng.choice((ADDRESS_ROOM, ADDRESS_ROOM + 1, ADDRESS_ROOM + 1, ADDRESS_ROOM + 2, 2_000))
        digits = rng.choices((1, 2, 3, 4), k=count)
    if digits and rng.random() < 0.4:
        digits[some_place(rng, len(digits))] = rng.choice((0, 0, 5, 5, 0x10, 0x14, 0x81, 0xFF))
    length = len(digits) if rng.random() < 0.7 else wrong_number_near(rng, len(digits), 2)
    length = ADDRESS_ROOM + 1 if rng.random() < 0.05 else length
    line = step_line(digits, length)
    fault = rng.random()
    if fault < 0.1:
        return rng.choice(("00", "10", "12", "1f", "21", "2f", "30", "02")) + line[2:]
    if fault < 0.2:
        return line[: 2 * rng.randint(1, 3)]
    if fault < 0.3:
        return misspelt(rng, line)
    return line


def script_lines(rng):
    """A good table and a script with lines of any sort."""
    script = good_script(rng)
    for _ in range(rng.randint(1, 2)):
        script.insert(some_place(rng, len(script) + 1), any_script_line(rng))
    text = text_of(small_table(rng).lines + script)
    return text[:-1] if rng.random() < 0.1 else text


def behind_the_end(rng):
    """Lines of a table or of no script behind the line `1f`."""
    draft = small_table(rng)
    behind = rng.choice((draft.lines, draft.lines[-1:], draft.lines[:1], ["3f"], [""], ["1f"], ["2000"]))
    return text_of(draft.lines + good_script(rng) + behind + good_script(rng))


# ---- families: where the table is cut off


def ended_by_the_characters(rng):
    """A line that begins with `1f`, `1F` or nearly so, at the table's end or earlier, with its LF or not.

    Where the table ends decides between 6 and another number if what follows is longer than a table's room.
    """
    draft = small_table(rng)
    right = draft.lines[-1]
    ending = rng.choice((right, right, "1f", "1f0", "1f00", right[:-1], right + "0", right + "00", "1fx"))
    ending = rng.choice((ending, ending, "1F" + ending[2:], "1F" + ending[2:], ending + "\r"))
    near = rng.choice(("1\r" + right[1:], " " + right, "0" + right, "\0" + right, "\r" + right, "1", "F1", "1E0001"))
    where = rng.choice((len(draft.lines) - 1, rng.randrange(len(draft.lines))))
    before = draft.lines[:where]
    long_script = script_of_length(rng, TABLE_ROOM + rng.randint(0, 100))
    script = rng.choice((good_script(rng), long_script, long_script))
    return rng.choice(
        (
            text_of(before) + ending,
            text_of(before + [ending] + script),
            text_of(before + [near] + draft.lines[where:] + script),
            text_of(before + [near] + long_script),
            text_of(draft.lines[:-1] + script),
        )
    )


# ---- families: made up


def random_bytes(rng):
    alphabets = (bytes(range(256)), b"0123456789abcdef\n", b"01f2\n", b"1f\n", b"1fF\r\n", b"\n\r\0 ")
    alphabet = rng.choice(alphabets)
    return bytes(rng.choices(alphabet, k=rng.choice((0, 1, 2, 3, rng.randint(0, 200))))).decode("latin-1")


def random_lines(rng):
    lines = []
    for _ in range(rng.randint(0, 8)):
        lines.append(rng.randbytes(rng.choice((1, 2, 3, 4, rng.randint(1, 20)))).hex())
    start = rng.choice(([], [head_line(1, 1)], [head_line(1, 1), definition_line(0)], small_table(rng).lines))
    return text_of(start + lines)


def random_frames(rng):
    """Frames of a table in an order drawn by lot."""
    definitions, events = rng.randint(1, 2), rng.randint(0, 2)
    lines, begun = [head_line(definitions, events)], 0
    for _ in range(rng.randint(0, 10)):
        if begun < definitions and rng.random() < 0.4:
            lines.append(definition_line(begun))
            begun += 1
        else:
            lines.append(any_term(rng, rng.choice(list(KINDS)), definitions, events, 0.05))
    terms = sum(map(is_term, lines))
    lines.append(end_line(rng.choice((terms, terms, terms, rng.randint(0, 10)))))
    return text_of(lines + good_script(rng))


# ---- families: the rooms for text


PADDING_UNITS = ("0", "12", "1207\n", "200000\n", "\n", "1207\r\n", "\r\n")


def some_length(rng, room):
    return rng.choice((room - 1, room, room, room + 1, room + 1, room + rng.randint(2, 100), 3 * room))


def start_of_a_table(rng):
    """Lines of a table before its end, none of them one that ends it."""
    return rng.choice(
        (
            small_table(rng).lines[: rng.randrange(4)],
            small_table(rng).lines[:-1],
            full_table(rng, TERM_ROOM + rng.choice((0, 1, 70))).lines[:-1],
            [rng.choice(("", "100101", "10020101", "1100", "10 ", "1"))],
        )
    )


class Padding(NamedTuple):
    """What a text is padded with: how that begins, what it repeats, and what stands behind it."""

    begin: str
    unit: str
    end: str


def some_paddings(rng):
    """Three ways to pad a table's text: without a `1f` or `1F` line, before one, and as one."""
    last = rng.choice(("1f", end_line(0), end_line(TERM_ROOM), "1F0400\r"))
    return (
        Padding("", rng.choice(PADDING_UNITS), ""),
        Padding("", rng.choice(PADDING_UNITS), last + "\n"),
        Padding(rng.choice(("1f", "1F")), "0", ""),
    )


def padded(start, padding, length):
    """A text of exactly so many bytes that begins with some lines."""
    text = text_of(start) + padding.begin
    pad = length - len(text) - len(padding.end) - 1
    return text + (padding.unit * pad)[:pad] + "\n" + padding.end


def by_the_room_for_table_text(rng):
    """A table's text padded to its room; no good table is that long, so what fits gets another number."""
    length, start = some_length(rng, TABLE_ROOM), start_of_a_table(rng)
    padding = rng.choice(some_paddings(rng))
    text = padded(start, padding, length)
    return text + text_of(good_script(rng)) if padding.begin or padding.end else text


def by_the_room_for_script_text(rng):
    """A script of good lines, or with a bad one, by its room, which CRs may help to fill; or a refused table."""
    draft = small_table(rng)
    table = draft.lines
    if rng.random() < 0.1:
        table = wrong_count_or_number(rng, draft)
    returns = rng.choice((0, 0, 1, 20))
    script = script_of_length(rng, some_length(rng, SCRIPT_ROOM) - returns)
    fault = rng.random()
    if fault < 0.15:
        where = some_place(rng, len(script))
        script = put(script, where, rng.choice("g0") + script[where][1:])
    text = text_of(table) + with_returns(rng, script, returns)
    if 0.15 <= fault < 0.25:
        text = text[:-1] + rng.choice("0\r")
    return text


# ---- every input


def any_and_respelt(rng):
    """An input of any family with capitals, CR LF or both."""
    return respelt(rng, rng.choice(list(SHARES))(rng))


# how many of twenty-eight inputs are of each family: the more there is to find, the more
SHARES = {
    good: 1,
    good_and_respelt: 1,
    by_the_room_for_terms: 1,
    by_the_room_for_paths: 1,
    cut_short: 1,
    damaged_character: 1,
    damaged_by_foreign: 1,
    damaged_by_returns: 1,
    damaged_line: 1,
    damaged_first_line: 1,
    damaged_number: 1,
    damaged_term: 2,
    damaged_order: 1,
    several_numbers: 4,
    script_lines: 2,
    behind_the_end: 1,
    ended_by_the_characters: 1,
    random_bytes: 1,
    random_lines: 1,
    random_frames: 1,
    by_the_room_for_table_text: 1,
    by_the_room_for_script_text: 1,
    any_and_respelt: 1,
}
FAMILIES = Families("", SHARES)


def outcome(given):
    return frames.outcome(frames.listing(given))


if __name__ == "__main__":
    command("inputs for the program judge", FAMILIES, outcome)
