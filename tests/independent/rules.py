"""The independent program's rules: document 01's steps, offers and rooms, its saved track, and document 02's status.

It is written from these documents and the report's Fig. 3 and 7, and shares nothing with the crates. A step changes one
track in place and takes back what it added where it is refused. `listing` gives what document 01's tracking
program prints for an input, and `play_listing` what the program play prints, which is the inside of the run:

    python3 tests/independent/rules.py < input
    python3 tests/independent/rules.py play < input
"""

import pathlib
import sys
from typing import Any, NamedTuple, Optional

if __name__ == "__main__":  # as a command, too, packages are found from the repository
    sys.path[0] = str(pathlib.Path(__file__).resolve().parents[2])

from tests.independent.frames import (
    CALL, EXTERNAL_CHOICE, INTERNAL_CHOICE, KINDS, MOST_EVENTS, PARALLEL, PREFIX, SCRIPT_ROOM, SEQUENCE, SKIP, STOP,
    Refusal, Term, cut_input, event_place, judge_script_line, judge_table, left_hand_side, split_lines,
)

CELL_ROOM, NODE_ROOM, ARC_ROOM, MEETING_ROOM = 1_024, 4_096, 8_192, 4_096
SAVE_ROOM = 65_536  # bytes of the program's slice

TAU, TICK = "tau", "tick"  # any other event is its number
LIVE, ENDED, STUCK = range(3)

sys.setrecursionlimit(20_000)  # a control is at most 1,024 cells deep, and a term 65


class NoDerivation(Exception):
    """No derivation has the address."""


# ---- terms as trees, and control


class Tree(NamedTuple):
    """A term with its subterms. As a part of control: a term that no step has touched."""

    term: Term
    subterms: tuple


class Sides(NamedTuple):
    """An external choice or parallel that a step has entered."""

    term: Term
    left: Any
    right: Any
    left_reference: Optional[int]  # None until the side first steps
    right_reference: Optional[int]


class Started(NamedTuple):
    """A sequence that a step has entered."""

    term: Term
    left: Any
    right: Tree


OMEGA, BOTTOM = "omega", "bottom"

MAIN = Tree(Term(CALL, 0, left_hand_side(0)), ())


def definition_trees(table):
    """The tree of each definition, in order."""

    def tree(terms):
        term = next(terms)
        return Tree(term, tuple(tree(terms) for _ in range(KINDS[term.kind].subterms)))

    terms = iter(table.terms)
    return [tree(terms) for _ in range(table.definitions)]


def opened(control):
    """A choice, parallel or sequence not yet entered, told as one that is; any other control as it is."""
    if not isinstance(control, Tree):
        return control
    if control.term.kind in (EXTERNAL_CHOICE, PARALLEL):
        return Sides(control.term, *control.subterms, None, None)
    if control.term.kind == SEQUENCE:
        return Started(control.term, *control.subterms)
    return control


def cells(control):
    if isinstance(control, Sides):
        return 1 + cells(control.left) + cells(control.right)
    if isinstance(control, Started):
        return 1 + cells(control.left)
    return 1


def in_set(event, parallel):
    return event not in (TAU, TICK) and parallel.payload >> event & 1 == 1


# ---- the track


class Track:
    """References with their places, arcs and meetings, in the order made."""

    def __init__(self):
        self.fresh = 1
        self.labels = []  # (reference, place)
        self.arcs = []
        self.meetings = []

    def label(self, reference, place):
        self.labels.append((reference, place))

    def draw(self, *parents):
        """A fresh reference, with an arc from each of the parents."""
        drawn = self.fresh
        self.fresh += 1
        self.arcs.extend((parent, drawn) for parent in parents)
        return drawn

    def label_and_draw(self, reference, place):
        self.label(reference, place)
        return self.draw(reference)

    def parents_of(self, *references):
        return [i for i, j in self.arcs if j in references]

    def mark(self):
        return self.fresh, len(self.labels), len(self.arcs), len(self.meetings)

    def take_back(self, mark):
        """Leaves the track as it was at a mark."""
        self.fresh, labels, arcs, meetings = mark
        del self.labels[labels:], self.arcs[arcs:], self.meetings[meetings:]


# ---- steps


class Result(NamedTuple):
    event: Any
    control: Any
    reference: int
    event_nodes: list


class Derivation:
    """One step of control by an address, its premises run from the outside inward."""

    def __init__(self, trees, track, address):
        self.trees = trees
        self.track = track
        self.digits = iter(address)

    def digit(self, among):
        digit = next(self.digits, None)
        if digit not in among:
            raise NoDerivation
        return digit

    def whole(self, control, reference):
        result = self.step(control, reference)
        if next(self.digits, None) is not None:
            raise NoDerivation
        return result

    def step(self, control, reference):
        control = opened(control)
        if isinstance(control, Started):
            return self.in_sequence(control, reference)
        if isinstance(control, Sides):
            digit = self.digit((1, 2) if control.term.kind == EXTERNAL_CHOICE else (1, 2, 3, 4))
            rule = {1: self.in_left, 2: self.in_right, 3: self.in_both, 4: self.at_the_end}[digit]
            return rule(control, reference)
        if control in (OMEGA, BOTTOM):
            raise NoDerivation
        return self.of_term(control, reference)

    def of_term(self, tree, reference):
        """Call, prefix, SKIP, STOP and internal choice."""
        term = tree.term
        if term.kind == PREFIX:
            arrow = self.track.label_and_draw(reference, event_place(term))
            after = self.track.label_and_draw(arrow, term.place)
            return Result(term.payload, tree.subterms[0], after, [reference])
        if term.kind == INTERNAL_CHOICE:
            event, control = TAU, tree.subterms[self.digit((1, 2)) - 1]
        elif term.kind == CALL:
            event, control = TAU, self.trees[term.payload]
        else:
            event, control = {SKIP: (TICK, OMEGA), STOP: (TAU, BOTTOM)}[term.kind]
        return Result(event, control, self.track.label_and_draw(reference, term.place), [])

    def in_sequence(self, control, reference):
        left = self.step(control.left, reference)
        if left.event != TICK:
            entered = Started(control.term, left.control, control.right)
            return Result(left.event, entered, left.reference, left.event_nodes)
        after = self.track.label_and_draw(left.reference, control.term.place)
        return Result(TAU, control.right, after, [])

    def enter(self, term, reference, own, other):
        """A side's reference; the first time that it steps, an arc to a fresh one."""
        if own is not None:
            return own
        if other is None:
            self.track.label(reference, term.place)
        return self.track.draw(reference)

    def in_left(self, sides, reference):
        own = self.enter(sides.term, reference, sides.left_reference, sides.right_reference)
        side = self.step(sides.left, own)
        entered = Sides(sides.term, side.control, sides.right, side.reference, sides.right_reference)
        return self.by_one_side(entered, reference, side)

    def in_right(self, sides, reference):
        own = self.enter(sides.term, reference, sides.right_reference, sides.left_reference)
        side = self.step(sides.right, own)
        entered = Sides(sides.term, sides.left, side.control, sides.left_reference, side.reference)
        return self.by_one_side(entered, reference, side)

    def by_one_side(self, sides, reference, side):
        """What the operator, with the side put back, makes of a step of that side."""
        if sides.term.kind == EXTERNAL_CHOICE:
            return Result(TAU, sides, reference, []) if side.event == TAU else side
        if in_set(side.event, sides.term):
            raise NoDerivation
        event = TAU if side.event in (TAU, TICK) else side.event
        return Result(event, sides, reference, side.event_nodes)

    def in_both(self, sides, reference):
        own = self.enter(sides.term, reference, sides.left_reference, sides.right_reference)
        left = self.step(sides.left, own)
        own = self.enter(sides.term, reference, sides.right_reference, left.reference)
        right = self.step(sides.right, own)
        if left.event != right.event or not in_set(left.event, sides.term):
            raise NoDerivation
        self.track.meetings.extend((i, j) for i in left.event_nodes for j in right.event_nodes)
        control = Sides(sides.term, left.control, right.control, left.reference, right.reference)
        return Result(left.event, control, reference, left.event_nodes + right.event_nodes)

    def at_the_end(self, sides, reference):
        if sides.left != OMEGA or sides.right != OMEGA:
            raise NoDerivation
        parents = self.track.parents_of(sides.left_reference, sides.right_reference)
        return Result(TICK, OMEGA, self.track.draw(*parents), [])


# ---- offers and status


def offers(control):
    """The events that a control has derivations for."""
    control = opened(control)
    if isinstance(control, Started):
        return {TAU if event == TICK else event for event in offers(control.left)}
    if isinstance(control, Sides):
        left, right = offers(control.left), offers(control.right)
        if control.term.kind == EXTERNAL_CHOICE:
            return left | right
        shown = {event for event in left | right if not in_set(event, control.term)}
        met = {event for event in left & right if in_set(event, control.term)}
        ends = {TICK} if control.left == OMEGA and control.right == OMEGA else set()
        return {TAU if event == TICK else event for event in shown} | met | ends
    if control in (OMEGA, BOTTOM):
        return set()
    return {{PREFIX: control.term.payload, SKIP: TICK}.get(control.term.kind, TAU)}


def plain_step(control, event):
    """Whether Fig. 3 has a step by the event from the control, stripped: references and places apart, bottom a STOP."""
    control = opened(control)
    if isinstance(control, Started):
        hidden = event == TAU and plain_step(control.left, TICK)
        return hidden or event != TICK and plain_step(control.left, event)
    if isinstance(control, Sides):
        sides = (control.left, control.right)
        if control.term.kind == EXTERNAL_CHOICE:
            return any(plain_step(side, event) for side in sides)
        if event == TICK:
            return sides == (OMEGA, OMEGA)
        if in_set(event, control.term):
            return all(plain_step(side, event) for side in sides)
        by = (TAU, TICK) if event == TAU else (event,)
        return any(plain_step(side, shown) for side in sides for shown in by)
    if control in (OMEGA, BOTTOM) or control.term.kind == STOP:
        return False
    return event == {PREFIX: control.term.payload, SKIP: TICK}.get(control.term.kind, TAU)


def status(control):
    if control == OMEGA:
        return ENDED
    return LIVE if any(plain_step(control, event) for event in (TAU, TICK, *range(MOST_EVENTS))) else STUCK


# ---- a run


class Run:
    """Control, its current reference and the track, as the accepted steps made them."""

    def __init__(self, table):
        self.trees = definition_trees(table)
        self.control = MAIN
        self.reference = 0
        self.track = Track()

    def step(self, address):
        """The event of an accepted step, or the Refusal of one that changes nothing."""
        mark = self.track.mark()
        try:
            result = Derivation(self.trees, self.track, address).whole(self.control, self.reference)
            fault = self.room_fault(result.control)
        except NoDerivation:
            fault = 7
        if fault is not None:
            self.track.take_back(mark)
            return Refusal(fault, 0)
        self.control, self.reference = result.control, result.reference
        return result.event

    def room_fault(self, control):
        """The lowest number of the rooms that a step has passed, or None."""
        counts = (
            (8, cells(control), CELL_ROOM),
            (9, len(self.track.labels), NODE_ROOM),
            (10, len(self.track.arcs), ARC_ROOM),
            (11, len(self.track.meetings), MEETING_ROOM),
        )
        return next((number for number, count, room in counts if count > room), None)


# ---- saving


def text_of(lines):
    return "".join(line + "\n" for line in lines)


def node_bytes(number, place):
    """A node's number and place, as a node's line tells them behind its first byte."""
    return "%04x%02x%02x%s" % (number, place.definition, len(place.path), bytes(place.path).hex())


def walk(labels, arcs_from):
    """The labelled references in the order of document 01's walk."""
    numbers, pending = {}, [0] if labels else []
    while pending:
        reference = pending.pop()
        if reference in numbers:
            continue
        numbers[reference] = len(numbers)
        first_side = labels[reference].path + (1,)
        targets = arcs_from.get(reference, [])
        pending.extend(j for j in targets if labels[j].path[: len(first_side)] != first_side)
        pending.extend(j for j in targets if labels[j].path[: len(first_side)] == first_side)
    return numbers


def saved_text(track):
    labels = dict(track.labels)
    arcs = [(i, j) for i, j in track.arcs if i in labels and j in labels]
    arcs_from = {}
    for i, j in arcs:
        arcs_from.setdefault(i, []).append(j)
    numbers = walk(labels, arcs_from)
    meetings = [sorted((numbers[i], numbers[j])) for i, j in track.meetings]
    lines = ["3001%04x%04x%04x" % (len(numbers), len(arcs), len(meetings))]
    for reference, number in numbers.items():
        lines.append("31" + node_bytes(number, labels[reference]))
    lines += ["32%04x%04x" % arc for arc in sorted((numbers[i], numbers[j]) for i, j in arcs)]
    lines += ["33%04x%04x" % tuple(meeting) for meeting in sorted(meetings)]
    return text_of(lines + ["3f"])


# ---- the listings of the tracking program and of the program play


def event_line(event):
    return {TAU: "4000", TICK: "4001"}.get(event) or "4002%02x" % event


def refusal_line(refusal):
    return "4e%02x%04x" % refusal


def script_step(run, line, line_number):
    """The event of a script line's step, or its Refusal with the line."""
    address = judge_script_line(line, line_number)
    if isinstance(address, Refusal):
        return address
    event = run.step(address)
    return event._replace(line=line_number) if isinstance(event, Refusal) else event


def play_script(run, script_text):
    """Steps the run by a script, up to the first line that is refused; gives the events, and the Refusal or None."""
    events = []
    for line_number, line in enumerate(split_lines(script_text), 1):
        event = script_step(run, line, line_number)
        if isinstance(event, Refusal):
            return events, event
        events.append(event)
    return events, None


def run_listing(run, script_text):
    """Steps the run by a script, and tells each step, the status, and the refusal where there is one."""
    events, refusal = play_script(run, script_text)
    lines = [event_line(event) for event in events] + ["41%02x" % status(run.control)]
    return lines + ([refusal_line(refusal)] if refusal else [])


def run_and_script(given):
    """An input's run at its start, and its script; or the Refusal of the table or of the script as a whole."""
    table_text, script_text = cut_input(given)
    table = judge_table(table_text)
    if isinstance(table, Refusal):
        return table
    if len(script_text) > SCRIPT_ROOM:
        return Refusal(6, 0)
    return Run(table), script_text


def saved_in_its_room(run):
    text = saved_text(run.track)
    return text if len(text) <= SAVE_ROOM else "4e0c0000\n"


def listing(given):
    """What the tracking program prints for an input."""
    begun = run_and_script(given)
    if isinstance(begun, Refusal):
        return text_of([refusal_line(begun)]).encode("ascii")
    run, script_text = begun
    told = text_of(run_listing(run, script_text))
    return (told + saved_in_its_room(run)).encode("ascii")


def offers_line(control):
    offered = offers(control)
    visible = sum(1 << event for event in offered - {TAU, TICK})
    return "42%02x%02x%016x" % (TAU in offered, TICK in offered, visible)


def counters_line(run):
    track = run.track
    made = len(track.labels), len(track.arcs), len(track.meetings)
    return "43" + "%04x" * 6 % (run.reference, track.fresh, cells(run.control), *made)


def inside_of(run):
    """What is offered, the counters, and the track by its references, arcs and meetings in the order made."""
    lines = [offers_line(run.control), counters_line(run)]
    lines += ["51" + node_bytes(*label) for label in sorted(run.track.labels)]
    lines += ["52%04x%04x" % arc for arc in run.track.arcs]
    lines += ["53%04x%04x" % meeting for meeting in run.track.meetings]
    return text_of(lines)


def play_listing(given):
    """What the program play prints for an input: nothing where the table or the script as a whole is refused."""
    begun = run_and_script(given)
    if isinstance(begun, Refusal):
        return b""
    run, script_text = begun
    play_script(run, script_text)
    return inside_of(run).encode("ascii")


def outcome(told):
    """In a word or two what a tracking listing comes to: its status, or the number of the refusal behind that.

    `text R` is a refusal that stands alone, of a table or of a script over its room.
    """
    lines = told.decode("ascii").splitlines()
    if lines[0].startswith("4e"):
        return f"text {int(lines[0][2:4], 16)}"
    behind = next(number for number, line in enumerate(lines) if line.startswith("41"))
    if lines[behind + 1].startswith("4e"):
        return f"refused {int(lines[behind + 1][2:4], 16)}"
    return {LIVE: "live", ENDED: "ended", STUCK: "stuck"}[int(lines[behind][2:], 16)]


def play_outcome(told):
    """In a word what play's listing comes to: `unplayed` where it is empty, or whether the run offers anything."""
    if not told:
        return "unplayed"
    offered = told.split(b"\n", 1)[0].removeprefix(b"42")
    return "offering" if offered.strip(b"0") else "resting"


if __name__ == "__main__":
    tell = play_listing if sys.argv[1:] == ["play"] else listing
    sys.stdout.buffer.write(tell(sys.stdin.buffer.read()))
