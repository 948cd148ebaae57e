"""Inputs for the program reread, by families: a table with a saved track behind it.

A track is the saved text of a run, or a graph of the reader's shape that no run makes; then nothing, one rule of
shape, one number, some characters or the spelling of it are spoilt. families.py says how an input follows from a
seed and an index.

    python3 tests/generators/tracks.py [--seed S] [--index I] [--count N]
"""

import pathlib
import sys
from typing import NamedTuple

if __name__ == "__main__":  # as a command, too, packages are found from the repository
    sys.path[0] = str(pathlib.Path(__file__).resolve().parents[2])

from tests.generators import runs, tables
from tests.generators.families import Families, command
from tests.generators.spelling import damage_by_returns, respelt
from tests.generators.tables import damage_by_foreign, damage_character, damage_line
from tests.independent.frames import (
    EXTERNAL_CHOICE, PARALLEL, PREFIX, Place, Refusal, Table, cut_input, event_place, judge_table, left_hand_side,
)
from tests.independent.rules import ARC_ROOM, MEETING_ROOM, NODE_ROOM, Run, run_listing, saved_text
from tests.independent.saved import (
    Graph, graph_text, is_under, literals, order_of, read_lines, reread_listing, reread_outcome,
)


class Drawn(NamedTuple):
    """A table's text, what it says, and a graph of the reader's shape against it."""

    text: str
    table: Table
    graph: Graph


# ---- graphs of the reader's shape


def of_a_run(rng, families=None):
    """The saved graph of a run."""
    family = rng.choice(families or (runs.of_all_kinds, runs.that_ends, runs.that_meets, runs.of_a_case))
    while True:
        table_text, script = cut_input(family(rng).encode("latin-1"))
        table = judge_table(table_text)
        if not isinstance(table, Refusal):
            run = Run(table)
            run_listing(run, script)
            text = saved_text(run.track).encode("ascii")
            return Drawn(table_text.decode("latin-1"), table, read_lines(table, text))


def some_targets(rng, place, places, there):
    """Where a node's arcs may lead, cycles included."""
    term, is_event = there.get(place, (None, True))
    if not is_event and term.kind in (EXTERNAL_CHOICE, PARALLEL):
        sides = [[j for j, other in enumerate(places) if is_under(other, place, digit)] for digit in (1, 2)]
        return [rng.choice(side) for side in sides if side and rng.random() < 0.9]
    return [rng.randrange(len(places))] if rng.random() < 0.95 else []


def by_its_walk(places, targets, met):
    """The graph of what the walk reaches, by its numbers."""
    order = order_of(places, targets)
    numbers = {reached: number for number, reached in enumerate(order)}
    arcs = sorted((numbers[i], numbers[j]) for i in order for j in targets[i])
    meetings = sorted({tuple(sorted((numbers[i], numbers[j]))) for i, j in met if i in numbers and j in numbers})
    return Graph([(number, places[reached]) for number, reached in enumerate(order)], arcs, meetings)


def some_meetings(rng, places, there, chance):
    by_event = {}
    for number, place in enumerate(places):
        term, is_event = there.get(place, (None, False))
        if is_event:
            by_event.setdefault(term.payload, []).append(number)
    return [
        (i, j) for group in by_event.values() for at, i in enumerate(group) for j in group[at + 1 :] if rng.random() < chance
    ]


def made_up(rng, nodes=None):
    """A graph that no run makes: any places, arcs to anywhere, meetings in any number."""
    text = tables.text_of(runs.some_table(rng, rng.choice((runs.OF_ALL_KINDS, runs.THAT_ENDS, runs.THAT_MEETS))).lines)
    table = judge_table(text.encode("latin-1"))
    there = literals(table)
    some = list(there)
    count = nodes or rng.choice((1, 2, 5, 20, 60))
    splits = [place for place, (term, is_event) in there.items() if not is_event and term.kind in (EXTERNAL_CHOICE, PARALLEL)]
    events = [place for place, (_, is_event) in there.items() if is_event]
    favoured = [group for group in (some, some, splits, events) if group]
    places = [left_hand_side(0)] + [rng.choice(rng.choice(favoured)) for _ in range(count - 1)]
    targets = [some_targets(rng, place, places, there) for place in places]
    return Drawn(text, table, by_its_walk(places, targets, some_meetings(rng, places, there, rng.choice((0, 0.1, 1)))))


def some_track(rng):
    return rng.choice((of_a_run, made_up))(rng)


def behind_table(drawn, graph):
    return drawn.text + graph_text(graph)


# ---- one rule of shape spoilt


def node_at(graph, number, node):
    return graph._replace(nodes=graph.nodes[:number] + [node] + graph.nodes[number + 1 :])


def placed_at(graph, number, place):
    return node_at(graph, number, (graph.nodes[number][0], place))


def another_number(rng, drawn):
    graph = drawn.graph
    number = rng.randrange(len(graph.nodes))
    return node_at(graph, number, (rng.choice((0, number + 1, number - 1, 65_535)) % 65_536, graph.nodes[number][1]))


def nodes_exchanged(rng, drawn):
    nodes = list(drawn.graph.nodes)
    one, other = rng.randrange(len(nodes)), rng.randrange(len(nodes))
    nodes[one], nodes[other] = nodes[other], nodes[one]
    return drawn.graph._replace(nodes=nodes)


def no_place(rng, drawn):
    """A node at a path that no literal has."""
    number = rng.randrange(len(drawn.graph.nodes))
    place = drawn.graph.nodes[number][1]
    digit = rng.choice((0, 1, 2, 3, 255))
    paths = (place.path + (digit,), place.path[:-1] + (digit,), (digit,) + place.path, ())
    return placed_at(drawn.graph, number, Place(place.definition, rng.choice(paths)[:64]))


def start_elsewhere(rng, drawn):
    """Node 0 at a right-hand side's place, or another node at a left-hand side's."""
    definition = rng.randrange(drawn.table.definitions)
    if rng.random() < 0.5:
        return placed_at(drawn.graph, 0, rng.choice((Place(definition, ()), left_hand_side(definition))))
    return placed_at(drawn.graph, rng.randrange(len(drawn.graph.nodes)), left_hand_side(definition))


def another_place(rng, drawn):
    number = rng.randrange(len(drawn.graph.nodes))
    return placed_at(drawn.graph, number, rng.choice(list(literals(drawn.table))))


def arc_more(rng, drawn):
    nodes = len(drawn.graph.nodes)
    arc = rng.randrange(nodes), rng.randrange(nodes)
    return drawn.graph._replace(arcs=sorted(set(drawn.graph.arcs) | {arc}))


def arc_less(rng, drawn):
    arcs = list(drawn.graph.arcs)
    if arcs:
        del arcs[rng.randrange(len(arcs))]
    return drawn.graph._replace(arcs=arcs)


def arc_elsewhere(rng, drawn):
    return arc_more(rng, drawn._replace(graph=arc_less(rng, drawn)))


def renumbered(rng, drawn):
    """Two nodes' numbers exchanged throughout, so that the numbering is not the walk's."""
    graph = drawn.graph
    one, other = rng.randrange(len(graph.nodes)), rng.randrange(len(graph.nodes))
    exchanged = {one: other, other: one}
    pairs = [sorted((exchanged.get(i, i), exchanged.get(j, j)) for i, j in some) for some in (graph.arcs, graph.meetings)]
    nodes = [(number, graph.nodes[exchanged.get(number, number)][1]) for number in range(len(graph.nodes))]
    return Graph(nodes, pairs[0], sorted(tuple(sorted(pair)) for pair in pairs[1]))


def node_unreached(rng, drawn):
    graph = drawn.graph
    place = rng.choice(list(literals(drawn.table)))
    return graph._replace(nodes=graph.nodes + [(len(graph.nodes), place)])


def pairs_spoilt(rng, pairs):
    """Out of order, repeated, or turned round."""
    if not pairs:
        return pairs
    one, other = rng.randrange(len(pairs)), rng.randrange(len(pairs))
    exchanged = list(pairs)
    exchanged[one], exchanged[other] = exchanged[other], exchanged[one]
    turned = pairs[:one] + [pairs[one][::-1]] + pairs[one + 1 :]
    return rng.choice((exchanged, pairs[:one] + [pairs[one]] + pairs[one:], turned, sorted(turned)))


def arcs_spoilt(rng, drawn):
    return drawn.graph._replace(arcs=pairs_spoilt(rng, drawn.graph.arcs))


def meetings_spoilt(rng, drawn):
    return drawn.graph._replace(meetings=pairs_spoilt(rng, drawn.graph.meetings))


def meeting_more(rng, drawn):
    """A meeting of any two nodes, a node with itself included."""
    nodes = len(drawn.graph.nodes)
    meeting = tuple(sorted((rng.randrange(nodes), rng.randrange(nodes))))
    return drawn.graph._replace(meetings=sorted(set(drawn.graph.meetings) | {meeting}))


SPOILT = (
    another_number, nodes_exchanged, no_place, start_elsewhere, another_place, arc_more, arc_less, arc_elsewhere,
    renumbered, node_unreached, arcs_spoilt, meetings_spoilt, meeting_more,
)


def some_nodes(rng):
    while True:
        drawn = some_track(rng)
        if drawn.graph.nodes:
            return drawn


def with_a_rule_spoilt(rng):
    drawn = some_nodes(rng)
    return behind_table(drawn, rng.choice(SPOILT)(rng, drawn))


def with_rules_spoilt(rng):
    drawn = some_nodes(rng)
    for _ in range(rng.choice((2, 3))):
        drawn = drawn._replace(graph=rng.choice(SPOILT)(rng, drawn))
    return behind_table(drawn, drawn.graph)


# ---- lines and characters spoilt


def lines_of(drawn):
    return graph_text(drawn.graph).splitlines()


def as_it_is(rng):
    drawn = some_track(rng)
    return behind_table(drawn, drawn.graph)


def with_a_line_spoilt(rng):
    drawn = some_track(rng)
    return drawn.text + tables.text_of(damage_line(rng, lines_of(drawn)))


def with_text_spoilt(rng, damage):
    """A track whose text is spoilt, behind its table."""
    drawn = some_track(rng)
    return drawn.text + damage(rng, graph_text(drawn.graph))


def with_a_character_spoilt(rng):
    return with_text_spoilt(rng, damage_character)


def with_foreign_characters(rng):
    return with_text_spoilt(rng, damage_by_foreign)


def of_another_spelling(rng):
    """A track with capitals, CR LF or both, which no saved track has."""
    return with_text_spoilt(rng, respelt)


def with_returns_out_of_place(rng):
    return with_text_spoilt(rng, damage_by_returns)


def of_a_respelt_table(rng):
    """A track as it is behind a table with capitals, CR LF or both."""
    drawn = some_track(rng)
    return respelt(rng, drawn.text) + graph_text(drawn.graph)


def cut_short(rng):
    drawn = some_track(rng)
    text = graph_text(drawn.graph)
    return drawn.text + text[: rng.choice((rng.randrange(len(text) + 1), len(text) - 1, 0))]


def with_more_behind(rng):
    drawn = some_track(rng)
    more = rng.choice(("3f\n", "3001000000000000\n3f\n", "x", "\n", "3f", "00\n"))
    return behind_table(drawn, drawn.graph) + more


def with_a_count_spoilt(rng):
    drawn = some_track(rng)
    lines = lines_of(drawn)
    counts = [len(drawn.graph.nodes), len(drawn.graph.arcs), len(drawn.graph.meetings)]
    which = rng.randrange(3)
    room = (NODE_ROOM, ARC_ROOM, MEETING_ROOM)[which]
    counts[which] = rng.choice((counts[which] + 1, max(counts[which] - 1, 0), 0, room, room + 1, 65_535))
    edition = rng.choice((1, 1, 1, 0, 2))
    return drawn.text + tables.text_of(["30%02x%04x%04x%04x" % (edition, *counts)] + lines[1:])


def with_a_number_out_of_range(rng):
    """A path over 64, a definition that the table lacks, an end not below the node count, a length not its line's."""
    drawn = some_nodes(rng)
    lines = lines_of(drawn)
    at = rng.randrange(1, len(lines))
    line = bytearray.fromhex(lines[at])
    if line[0] == 0x31:
        long = line[:4] + bytes((rng.choice((64, 65, 255)),))
        long += bytes(rng.choice((1, 2)) for _ in range(long[4]))
        definition = line[:3] + bytes((rng.choice((drawn.table.definitions, 64, 255)),)) + line[4:]
        miscounted = line[:4] + bytes(((line[4] + rng.choice((1, 255))) % 256,)) + line[5:]
        line = rng.choice((long, definition, miscounted))
    elif line[0] in (0x32, 0x33):
        end = rng.choice((len(drawn.graph.nodes), 65_535)).to_bytes(2, "big")
        line = rng.choice((line[:1] + end + line[3:], line[:3] + end, line + b"\0", line[:-1]))
    else:
        line = line + b"\0"
    return drawn.text + tables.text_of(lines[:at] + [line.hex()] + lines[at + 1 :])


# ---- at the rooms


def chain(rng, nodes):
    """A track of so many nodes in a row, over a table of one call."""
    text = tables.text_of(runs.table_of(runs.call(0), events=0).lines)
    table = judge_table(text.encode("latin-1"))
    places = [left_hand_side(0)] + [Place(0, ())] * (nodes - 1)
    targets = [[number + 1] for number in range(nodes - 1)] + [rng.choice(([], [0], [nodes - 1]))]
    return Drawn(text, table, by_its_walk(places, targets, []))


def at_the_room_for_nodes(rng):
    drawn = chain(rng, rng.choice((NODE_ROOM - 1, NODE_ROOM, NODE_ROOM + 1)))
    return behind_table(drawn, drawn.graph)


def at_the_room_for_meetings(rng):
    """Event nodes of one event, each of which meets as many others as there is room for."""
    text = tables.text_of(runs.table_of(runs.prefixes((0,), runs.STOPS), events=1).lines)
    table = judge_table(text.encode("latin-1"))
    event = next(event_place(term) for term in table.terms if term.kind == PREFIX)
    places = [left_hand_side(0)] + [event] * 100
    targets = [[number + 1] for number in range(100)] + [[]]
    graph = by_its_walk(places, targets, [])
    every = [(i, j) for i in range(1, 101) for j in range(i + 1, 101)]
    count = rng.choice((MEETING_ROOM, MEETING_ROOM, MEETING_ROOM + 1))
    return behind_table(Drawn(text, table, graph), graph._replace(meetings=sorted(rng.sample(every, count))))


def of_a_refused_table(rng):
    drawn = some_track(rng)
    return damage_character(rng, drawn.text) + graph_text(drawn.graph)


def of_another_table(rng):
    """A saved track against a table that it is not of."""
    return some_track(rng).text + graph_text(some_track(rng).graph)


# ---- every input


# how many of a hundred inputs are of each family
SHARES = {
    as_it_is: 12,
    with_a_rule_spoilt: 29,
    with_rules_spoilt: 6,
    with_a_line_spoilt: 7,
    with_a_character_spoilt: 8,
    with_foreign_characters: 5,
    of_another_spelling: 4,
    with_returns_out_of_place: 2,
    of_a_respelt_table: 2,
    cut_short: 6,
    with_more_behind: 3,
    with_a_count_spoilt: 5,
    with_a_number_out_of_range: 6,
    of_a_refused_table: 2,
    of_another_table: 1,
    at_the_room_for_nodes: 1,
    at_the_room_for_meetings: 1,
}
FAMILIES = Families("track ", SHARES)


def outcome(given):
    return reread_outcome(reread_listing(given))


if __name__ == "__main__":
    command("inputs for the program reread", FAMILIES, outcome)
