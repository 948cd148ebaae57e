"""The independent program's reader of saved tracks: document 01's lines, refusals and rules of shape.

It is written from document 01, and shares nothing with the crates. Its lines are strict: what document 02's W1 lets
tables and scripts have, capitals and CR LF, a saved track may not have. `reread_listing` gives what the program reread
prints for a table and a saved track behind it:

    python3 tests/independent/saved.py < input
"""

import pathlib
import sys
from typing import NamedTuple

if __name__ == "__main__":  # as a command, too, packages are found from the repository
    sys.path[0] = str(pathlib.Path(__file__).resolve().parents[2])

from tests.independent.frames import (
    EXTERNAL_CHOICE, PARALLEL, PREFIX, Place, Refusal, cut_input, event_place, judge_table, left_hand_side, number_of,
    split_lines, strict_frame_of,
)
from tests.independent.rules import ARC_ROOM, MEETING_ROOM, NODE_ROOM, node_bytes, refusal_line, text_of

PATH_ROOM = 64
REREAD_ROOM = 262_144  # bytes of input that the program reread takes

NODE, ARC, MEETING, LAST = 0x31, 0x32, 0x33, 0x3F


class Graph(NamedTuple):
    """A numbered graph as its lines say it, whether or not it has the shape of a track."""

    nodes: list  # (number, place)
    arcs: list
    meetings: list


# ---- lines


def opening_fault(frame):
    if frame is None:
        return 1
    if len(frame) != 8 or frame[0] != 0x30:
        return 2
    counts = (number_of(frame[2:4]), NODE_ROOM), (number_of(frame[4:6]), ARC_ROOM), (number_of(frame[6:]), MEETING_ROOM)
    return 3 if frame[1] != 1 or any(count > room for count, room in counts) else None


def line_fault(frame, due, nodes, definitions):
    """The lowest number that a line meets where a frame is due, or None."""
    if frame is None:
        return 1
    if due is None or frame[0] != due:
        return 2
    if due == NODE:
        if len(frame) < 5 or frame[4] != len(frame) - 5:
            return 2
        return 3 if frame[4] > PATH_ROOM or frame[3] >= definitions else None
    if due == LAST:
        return None if len(frame) == 1 else 2
    if len(frame) != 5:
        return 2
    return 3 if max(number_of(frame[1:3]), number_of(frame[3:])) >= nodes else None


def take(graph, frame):
    if frame[0] == NODE:
        graph.nodes.append((number_of(frame[1:3]), Place(frame[3], tuple(frame[5:]))))
    elif frame[0] != LAST:
        pairs = graph.arcs if frame[0] == ARC else graph.meetings
        pairs.append((number_of(frame[1:3]), number_of(frame[3:])))


def read_lines(table, text):
    """The graph that a text says, or the Refusal of its first failing line."""
    lines = split_lines(text)
    opening = strict_frame_of(lines[0]) if lines else b""
    fault = opening_fault(opening)
    if fault is not None:
        return Refusal(fault, 1)
    nodes, arcs, meetings = (number_of(opening[at : at + 2]) for at in (2, 4, 6))
    due = [NODE] * nodes + [ARC] * arcs + [MEETING] * meetings + [LAST]
    graph = Graph([], [], [])
    for index, line in enumerate(lines[1:]):
        frame = strict_frame_of(line)
        fault = line_fault(frame, due[index] if index < len(due) else None, nodes, table.definitions)
        if fault is not None:
            return Refusal(fault, index + 2)
        take(graph, frame)
    return graph if len(lines) > len(due) else Refusal(2, len(lines) + 1)


# ---- shape


def literals(table):
    """The term of each place in a right-hand side, and whether the place is a prefix's event."""
    found = {term.place: (term, False) for term in table.terms}
    found.update({event_place(term): (term, True) for term in table.terms if term.kind == PREFIX})
    return found


def is_under(place, above, digit):
    path = above.path + (digit,)
    return place.definition == above.definition and place.path[: len(path)] == path


def ascend(pairs):
    return all(one < other for one, other in zip(pairs, pairs[1:]))


def places_fit(places, there):
    return all(
        place == left_hand_side(0) if number == 0 else place in there for number, place in enumerate(places)
    )


def branches_fit(place, targets, there):
    term, is_event = there.get(place, (None, True))
    if is_event or term.kind not in (EXTERNAL_CHOICE, PARALLEL):
        return len(targets) <= 1
    sides = [[target for target in targets if is_under(target, place, digit)] for digit in (1, 2)]
    return len(sides[0]) <= 1 and len(sides[1]) <= 1 and len(targets) == len(sides[0]) + len(sides[1])


def order_of(places, targets):
    """The numbers in the order of document 01's walk from number 0."""
    order, seen, pending = [], set(), [0] if places else []
    while pending:
        number = pending.pop()
        if number in seen:
            continue
        seen.add(number)
        order.append(number)
        first = [j for j in targets[number] if is_under(places[j], places[number], 1)]
        pending += [j for j in targets[number] if j not in first] + first
    return order


def events_meet(places, there, i, j):
    (one, one_is_event), (other, other_is_event) = there.get(places[i], (None, False)), there.get(places[j], (None, False))
    return one_is_event and other_is_event and one.payload == other.payload


def has_shape(table, graph):
    there = literals(table)
    places = [place for _, place in graph.nodes]
    if [number for number, _ in graph.nodes] != list(range(len(places))) or not places_fit(places, there):
        return False
    if not ascend(graph.arcs) or not ascend(graph.meetings):
        return False
    targets = [[] for _ in places]
    for i, j in graph.arcs:
        targets[i].append(j)
    if not all(branches_fit(place, [places[j] for j in targets[i]], there) for i, place in enumerate(places)):
        return False
    if order_of(places, targets) != list(range(len(places))):
        return False
    return all(i < j and events_meet(places, there, i, j) for i, j in graph.meetings)


def read_saved(table, text):
    """The graph of a saved text, or its Refusal: 13 with line 0 only where no line has a lower number."""
    graph = read_lines(table, text)
    if isinstance(graph, Refusal):
        return graph
    return graph if has_shape(table, graph) else Refusal(13, 0)


# ---- writing, and the listing of the program reread


def graph_text(graph):
    lines = ["3001%04x%04x%04x" % (len(graph.nodes), len(graph.arcs), len(graph.meetings))]
    lines += ["31" + node_bytes(number, place) for number, place in graph.nodes]
    lines += ["32%04x%04x" % arc for arc in graph.arcs]
    lines += ["33%04x%04x" % meeting for meeting in graph.meetings]
    return text_of(lines + ["3f"])


def reread_listing(given):
    """The refusal of the table or of the saved text behind it, or the text of the graph that was read."""
    if len(given) > REREAD_ROOM:
        return text_of([refusal_line(Refusal(6, 0))]).encode("ascii")
    table_text, saved = cut_input(given)
    table = judge_table(table_text)
    graph = table if isinstance(table, Refusal) else read_saved(table, saved)
    told = text_of([refusal_line(graph)]) if isinstance(graph, Refusal) else graph_text(graph)
    return told.encode("ascii")


def reread_outcome(told):
    """In a word or two what reread's listing comes to: `read`, or the number of the refusal."""
    line = told.split(b"\n", 1)[0].decode("ascii")
    if not line.startswith("4e"):
        return "read"
    return f"refused {int(line[2:4], 16)}"


if __name__ == "__main__":
    sys.stdout.buffer.write(reread_listing(sys.stdin.buffer.read()))
