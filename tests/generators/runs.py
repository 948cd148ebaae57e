"""Inputs for the program play: a table, and a script whose steps are mostly accepted.

The words of tables.py are used here, and families.py says how an input follows from a seed and an index. A
script is made by playing it with the independent rules: the next address is drawn from those that the control
has derivations for. Refusals come in on purpose, at a run's end or where a run passes one of its rooms.

    python3 tests/generators/runs.py [--seed S] [--index I] [--count N]
"""

import itertools
import pathlib
import sys
from typing import NamedTuple

if __name__ == "__main__":  # as a command, too, packages are found from the repository
    sys.path[0] = str(pathlib.Path(__file__).resolve().parents[2])

from tests.generators import tables
from tests.generators.families import Families, command
from tests.generators.spelling import respelt, with_returns
from tests.generators.tables import any_script_line, assemble, some_place, step_line, term_line, text_of, within
from tests.independent import rules
from tests.independent.frames import (
    ADDRESS_ROOM, CALL, EXTERNAL_CHOICE, INTERNAL_CHOICE, KINDS, PARALLEL, PREFIX, SCRIPT_ROOM, SEQUENCE, SKIP, STOP,
    Refusal, judge_table,
)
from tests.independent.rules import (
    ARC_ROOM, BOTTOM, CELL_ROOM, LIVE, MEETING_ROOM, NODE_ROOM, OMEGA, TAU, TICK, Run, Sides, Started, cells, in_set,
    opened,
)

SKEWED = ("left", "right")
LONGEST_NEST = 60  # digits that leave room in a path for what stands below


# ---- terms: a term is the list of its lines


SKIPS, STOPS = [term_line(SKIP)], [term_line(STOP)]
NO_EVENT, E0, E1 = 0, 1, 2  # sets


def call(definition):
    return [term_line(CALL, definition)]


def prefixes(events, term):
    return [term_line(PREFIX, event) for event in events] + term


def choice(left, right):
    return [term_line(EXTERNAL_CHOICE)] + left + right


def sequence(left, right):
    return [term_line(SEQUENCE)] + left + right


def parallel(events, left, right):
    return [term_line(PARALLEL, events)] + left + right


def sequences_around(term, count):
    """So many sequences, each the left part of the one before, with SKIP on their right."""
    return [term_line(SEQUENCE)] * count + term + SKIPS * count


class Part(NamedTuple):
    """A term, and the address of a step of it."""

    term: list
    address: tuple


class Nest(NamedTuple):
    """Parts under operators: the term, where its parts and operators stand, and its parts' joint step."""

    term: list
    parts: list  # the digits that lead to each
    operators: list
    joint: tuple


def nest(rng, shape, operator, parts):
    """The parts in their order, under operators that `operator` gives."""
    if len(parts) == 1:
        return Nest(parts[0].term, [()], [], parts[0].address)
    cuts = {"even": len(parts) // 2, "left": len(parts) - 1, "right": 1, "any": rng.randint(1, len(parts) - 1)}
    left = nest(rng, shape, operator, parts[: cuts[shape]])
    right = nest(rng, shape, operator, parts[cuts[shape] :])
    return Nest(
        [operator()] + left.term + right.term,
        [(1,) + digits for digits in left.parts] + [(2,) + digits for digits in right.parts],
        [()] + [(1,) + digits for digits in left.operators] + [(2,) + digits for digits in right.operators],
        (3,) + left.joint + right.joint,
    )


def nest_of(rng, shape, operator, terms):
    return nest(rng, shape, operator, [Part(term, ()) for term in terms])


def parallel_on(events):
    return lambda: term_line(PARALLEL, events)


def some_shape(rng, parts):
    return rng.choice(tables.SHAPES) if parts <= LONGEST_NEST else "even"


# ---- tables


class Alphabet(NamedTuple):
    """A table's events, and those few of them that its prefixes do."""

    events: int
    used: list


def some_alphabet(rng):
    events = rng.choice((1, 2, 3, 64, 64, rng.randint(1, 64)))
    return Alphabet(events, sorted({within(rng, events) for _ in range(rng.choice((1, 2, 3, 8)))}))


def set_of(events):
    return sum(1 << event for event in events)


def some_set(rng, alphabet):
    some = set_of(event for event in alphabet.used if rng.random() < 0.5)
    every = (1 << alphabet.events) - 1
    return rng.choice((NO_EVENT, some, some, set_of(alphabet.used), rng.getrandbits(alphabet.events), every))


class Manner(NamedTuple):
    """How often a term drawn by lot has each kind, at its leaves and above them."""

    leaves: dict
    above: dict


OF_ALL_KINDS = Manner(
    {CALL: 3, SKIP: 2, STOP: 1},
    {PREFIX: 3, INTERNAL_CHOICE: 1, EXTERNAL_CHOICE: 2, SEQUENCE: 3, PARALLEL: 3},
)
THAT_ENDS = Manner(
    {SKIP: 12, CALL: 1},
    {PREFIX: 1, INTERNAL_CHOICE: 1, EXTERNAL_CHOICE: 4, SEQUENCE: 5, PARALLEL: 5},
)
THAT_MEETS = Manner(
    {CALL: 4, SKIP: 1},
    {PREFIX: 6, EXTERNAL_CHOICE: 1, SEQUENCE: 1, PARALLEL: 4},
)


def drawn(rng, weights):
    return rng.choices(list(weights), list(weights.values()))[0]


def some_term(rng, manner, definitions, alphabet, depth):
    """A term at most so deep; the sides of a parallel are now and then the same term twice."""
    kind = drawn(rng, manner.leaves if depth == 0 or rng.random() < 0.2 else manner.above)
    parts = [some_term(rng, manner, definitions, alphabet, depth - 1) for _ in range(KINDS[kind].subterms)]
    if kind == PARALLEL and rng.random() < 0.4:
        parts = [parts[0], parts[0]]
    payload = 0
    if kind == CALL:
        payload = rng.randrange(definitions)
    elif kind == PREFIX:
        payload = rng.choice(alphabet.used)
    elif kind == PARALLEL:
        payload = some_set(rng, alphabet)
    return [term_line(kind, payload)] + sum(parts, [])


def some_table(rng, manner):
    """A table in a manner, its first definition the longest of several drawn; its terms fit their room."""
    definitions = rng.choice((1, 2, 3, 4, 5, rng.randint(6, 64)))
    depths = (2, 3, 4, 6) if definitions < 6 else (0, 1, 2, 3)
    alphabet = some_alphabet(rng)

    def some_body():
        return some_term(rng, manner, definitions, alphabet, rng.choice(depths))

    first = max((some_body() for _ in range(4)), key=len)
    return assemble(definitions, alphabet.events, [first] + [some_body() for _ in range(definitions - 1)])


def table_of(*bodies, events=2):
    return assemble(len(bodies), events, list(bodies))


# ---- addresses that have derivations


class Ways(NamedTuple):
    """How many derivations a control has for an event, and the address of one of them."""

    count: int
    address: tuple


def either(rng, *some_ways):
    """The ways of several that show as one event, each derivation as likely as any other."""
    count = sum(ways.count for ways in some_ways)
    lot = rng.randrange(count)
    for ways in some_ways:
        if lot < ways.count:
            return Ways(count, ways.address)
        lot -= ways.count


def united(rng, *some_offered):
    """Several dictionaries from events to ways as one."""
    by_event = {}
    for offered in some_offered:
        for event, ways in offered.items():
            by_event.setdefault(event, []).append(ways)
    return {event: ways[0] if len(ways) == 1 else either(rng, *ways) for event, ways in by_event.items()}


def tick_as_tau(rng, offered):
    if TICK not in offered:
        return offered
    rest = {event: ways for event, ways in offered.items() if event != TICK}
    return united(rng, rest, {TAU: offered[TICK]})


def behind(digit, offered):
    return {event: Ways(ways.count, (digit,) + ways.address) for event, ways in offered.items()}


def ways_of_parallel(rng, term, left, right):
    """The ways of a parallel whose sides are not both Ω, by those of its sides."""
    alone = united(rng, tick_as_tau(rng, behind(1, left)), tick_as_tau(rng, behind(2, right)))
    offered = {event: ways for event, ways in alone.items() if not in_set(event, term)}
    for event in left:
        if in_set(event, term) and event in right:
            one, other = left[event], right[event]
            offered[event] = Ways(one.count * other.count, (3,) + one.address + other.address)
    return offered


def ways_of(rng, control):
    """For each event that a control offers the ways to it."""
    control = opened(control)
    if isinstance(control, Started):
        return tick_as_tau(rng, ways_of(rng, control.left))
    if isinstance(control, Sides):
        if control.left is OMEGA and control.right is OMEGA:
            return {TICK: Ways(1, (4,))}
        left, right = ways_of(rng, control.left), ways_of(rng, control.right)
        if control.term.kind == EXTERNAL_CHOICE:
            return united(rng, behind(1, left), behind(2, right))
        return ways_of_parallel(rng, control.term, left, right)
    if control in (OMEGA, BOTTOM):
        return {}
    if control.term.kind == INTERNAL_CHOICE:
        return {TAU: Ways(2, (rng.choice((1, 2)),))}
    return {{PREFIX: control.term.payload, SKIP: TICK}.get(control.term.kind, TAU): Ways(1, ())}


# ---- addresses that may have none


def blind_address(rng, control):
    """An address of the control's shape, whatever its events: sides may disagree, and 4 may come too early."""
    control = opened(control)
    if isinstance(control, Started):
        return blind_address(rng, control.left)
    if isinstance(control, Sides):
        digit = rng.choice((1, 2) if control.term.kind == EXTERNAL_CHOICE else (1, 2, 3, 3, 4))
        left = blind_address(rng, control.left) if digit in (1, 3) else ()
        right = blind_address(rng, control.right) if digit in (2, 3) else ()
        return (digit,) + left + right
    if control in (OMEGA, BOTTOM) or control.term.kind != INTERNAL_CHOICE:
        return ()
    return (rng.choice((1, 2)),)


def spoilt(rng, address):
    """An address with a digit too many or too few, or another digit instead of one."""
    where = rng.randrange(len(address) + 1)
    digit = (rng.choice((1, 2, 3, 4)),)
    return rng.choice(
        (
            address + digit,
            address[:where] + digit + address[where:],
            address[:-1],
            address[:where] + address[where + 1 :],
            address[:where] + digit + address[where + 1 :],
        )
    )


def doubtful_address(rng, control):
    """An address that mostly has no derivation."""
    ways = list(ways_of(rng, control).values())
    if not ways or rng.random() < 0.4:
        return blind_address(rng, control)
    return spoilt(rng, rng.choice(ways).address)


# ---- scripts


class Script:
    """A script being made, and the run that its steps make."""

    def __init__(self, draft):
        self.table = draft.lines
        self.lines = []
        self.bytes_left = SCRIPT_ROOM
        self.run = Run(judge_table(text_of(draft.lines).encode("ascii")))

    def add(self, address):
        """Adds a step where the text has room for it; tells whether the step is accepted."""
        line = step_line(address)
        if len(line) + 1 > self.bytes_left:
            return False
        self.bytes_left -= len(line) + 1
        self.lines.append(line)
        return len(address) <= ADDRESS_ROOM and not isinstance(self.run.step(address), Refusal)

    def add_all(self, addresses):
        """Adds steps through the first that is not accepted; tells whether all are."""
        return all(self.add(address) for address in addresses)

    def nodes(self):
        return len(self.run.track.labels)

    def arcs(self):
        return len(self.run.track.arcs)

    def meetings(self):
        return len(self.run.track.meetings)

    def cells(self):
        return cells(self.run.control)


def any_event(rng, ways):
    return rng.choice(list(ways))


def any_derivation(rng, ways):
    """An event as likely as it has derivations."""
    lot = rng.randrange(sum(some.count for some in ways.values()))
    for event, some in ways.items():
        lot -= some.count
        if lot < 0:
            return event


def visible_first(rng, ways):
    return rng.choice([event for event in ways if event not in (TAU, TICK)] or list(ways))


def visible_last(rng, ways):
    return rng.choice([event for event in ways if event in (TAU, TICK)] or list(ways))


CHOOSERS = (any_event, any_event, any_derivation, visible_first, visible_last)


def walk(rng, script, steps):
    """Adds so many accepted steps drawn by lot, or fewer where none is offered or one is refused."""
    chooser = rng.choice(CHOOSERS)
    for _ in range(steps):
        ways = ways_of(rng, script.run.control)
        if not ways or not script.add(ways[chooser(rng, ways)].address):
            return


def finished(rng, script):
    """The input: the script as it stands, or with a doubtful step behind it, a bad line in it, or cut short."""
    lines, end = script.lines, rng.random()
    if end < 0.3:
        lines = lines + [step_line(doubtful_address(rng, script.run.control))]
        lines += [step_line([]) for _ in range(rng.choice((0, 0, 1, 2)))]
    elif end < 0.4:
        where = some_place(rng, len(lines) + 1)
        lines = lines[:where] + [any_script_line(rng)] + lines[where:]
    text = text_of(lines)
    if 0.4 <= end < 0.45:
        text = text[: -rng.choice((1, 1, 2, rng.randint(1, 20)))]
    return text_of(script.table) + text


def by_the_edge(rng, script):
    """The input of a script whose last step is refused: with that step, without it, or with one less."""
    dropped = rng.choice((0, 0, 0, 1, 1, 2))
    return text_of(script.table + script.lines[: len(script.lines) - dropped])


# ---- families: tables drawn by lot


def some_steps(rng):
    return rng.choice((rng.randint(0, 6), 30, 30, 120))


def run_of_a_manner(rng, manner, steps):
    script = Script(some_table(rng, manner))
    walk(rng, script, steps)
    return finished(rng, script)


def of_all_kinds(rng):
    return run_of_a_manner(rng, OF_ALL_KINDS, some_steps(rng))


def that_ends(rng):
    """Choices dropped by ✓ in sequences, and parallels ended in sequences in parallels."""
    return run_of_a_manner(rng, THAT_ENDS, rng.choice((20, 200)))


def that_meets(rng):
    return run_of_a_manner(rng, THAT_MEETS, some_steps(rng))


def of_any_table(rng):
    """A run of a table that judge is given too: of any size and shape, by the room for paths or for terms."""
    deep, _ = tables.deep_table(rng, rng.choice((20, 62, 63)))
    full = tables.full_table(rng, tables.TERM_ROOM)
    script = Script(rng.choice((tables.good_table(rng), tables.good_table(rng), deep, full)))
    walk(rng, script, some_steps(rng))
    return finished(rng, script)


def as_judged(rng):
    """An input for judge: its table is mostly refused, and its script drawn without regard to the table."""
    return rng.choice(tables.FAMILIES.round)(rng)


# ---- families: document 01's cases, and the report's examples


def case(*bodies, by=("",), events=2):
    """A table, and the addresses of a case behind the empty one."""
    return table_of(*bodies, events=events), [()] + [tuple(map(int, address)) for address in by]


E0_SKIP, E0_STOP = prefixes((0,), SKIPS), prefixes((0,), STOPS)
E1_SKIP, E1_STOP = prefixes((1,), SKIPS), prefixes((1,), STOPS)
SKIP_SKIP = parallel(NO_EVENT, SKIPS, SKIPS)
CASE_A = parallel(E0, E0_SKIP, E0_STOP)
CASE_C = parallel(NO_EVENT, E0_STOP, E1_STOP)
CASE_K = parallel(E0, E0_STOP, E1_STOP)

CASES = {
    "a": case(CASE_A, by=("3", "1", "2")),
    "b": case(CASE_A, by=("3", "2", "1")),
    "c-12": case(CASE_C, by=("1", "2")),
    "c-21": case(CASE_C, by=("2", "1")),
    "d": case(SKIP_SKIP, by=("1", "2", "4"), events=0),
    "e": case(sequence(SKIP_SKIP, STOPS), by=("1", "2", "4"), events=0),
    "f": case(choice(SKIPS, E0_STOP), by=("1",), events=1),
    "g": case(choice(call(1), E0_STOP), E1_SKIP, by=("1", "2")),
    "h": case(parallel(E0, parallel(E0, E0_STOP, E0_STOP), E0_STOP), by=("33",), events=1),
    "i": case(call(0)),
    "j": case(sequence(call(0), SKIPS)),
    "k-1": case(CASE_K, by=("1",)),
    "k-3": case(CASE_K, by=("3",)),
    "k-2": case(CASE_K, by=("2",)),
    "l-64": case(prefixes((0,) * 64, SKIPS), by=("",) * 65),
    "l-65": case(prefixes((0,) * 65, SKIPS)),  # refused
}

# document 02's W2: which runs are stuck
WAITS_FOR_STOP = parallel(E0, E0_STOP, STOPS)
STUCK_CASES = {
    "w2-a": case(CASE_A, by=("3", "1"), events=1),  # a STOP stands, and has not stepped
    "w2-prefix": case(E0_STOP, by=(), events=1),  # waits alone
    "w2-apart": case(parallel(E0 | E1, E0_STOP, E1_STOP), by=()),  # each side waits for the other in vain
    "w2-stop": case(WAITS_FOR_STOP, by=(), events=1),
    "w2-stopped": case(WAITS_FOR_STOP, by=("2",), events=1),
    "w2-call": case(call(0), by=(), events=0),
}

# the report's examples: a is event 00 and b event 01, MAIN definition 00 and P definition 01
A_P = prefixes((0,), call(1))
EXAMPLE_2 = parallel(E0, E0_STOP, choice(call(1), E0_STOP)), E1_SKIP  # Examples 3 and 6, too
EXAMPLE_5 = parallel(E0, call(1), call(1)), A_P
EXAMPLE_7 = parallel(E0, prefixes((0, 0), STOPS), call(1)), A_P

# their runs, by the figure of the track, or of the computation where it has no track
FIGURES = {
    "fig-4": case(*EXAMPLE_2, by=("21", "21", "2")),
    "fig-5": case(*EXAMPLE_2, by=("32", "1", "2")),  # computed in Fig. 8
    "fig-6": case(*EXAMPLE_5, by=("1", "2", "3") * 2, events=1),  # two rounds of an endless run
    "fig-9": case(*EXAMPLE_7, by=("2", "3", "2", "3", "1", "2"), events=1),  # computed in Fig. 10
}


def of_a_case(rng):
    """A case or a figure's run as it stands, cut to its first steps (M has none), or with a step more."""
    draft, addresses = rng.choice(list((CASES | STUCK_CASES | FIGURES).values()))
    lines = [step_line(address) for address in addresses]
    lines = rng.choice((lines, lines, lines[: rng.randint(0, len(lines))], lines + [step_line([])]))
    return text_of(draft.lines + lines)


# ---- families: wide, deep and long


def in_many_sides(rng):
    """A long run in 2 to 64 sides that each go round a loop; on some events all of them wait for each other."""
    sides = rng.choice((2, 3, 8, 20, 64, rng.randint(2, 64)))
    loops = (
        lambda own: prefixes((0, 1), call(own)),
        lambda own: prefixes((1, 0), call(own)),
        lambda own: choice(prefixes((0,), call(own)), prefixes((1, 0), SKIPS)),
        lambda own: sequence(choice(E0_SKIP, E1_SKIP), call(own)),
        lambda own: sequence(parallel(E0, E0_SKIP, E0_SKIP), call(own)),
        lambda own: [term_line(INTERNAL_CHOICE)] + prefixes((0,), call(own)) + prefixes((0, 1, 1), call(own)),
    )
    definitions = rng.randint(1, 3)
    bodies = [rng.choice(loops)(1 + number) for number in range(definitions)]
    wait = parallel_on(rng.choice((NO_EVENT, E0, E0, E1, E0 | E1)))
    now_and_then = parallel_on(NO_EVENT)
    operator = wait if rng.random() < 0.6 else lambda: rng.choice((wait, wait, now_and_then))()
    terms = [call(rng.randint(1, definitions)) for _ in range(sides)]
    script = Script(table_of(nest_of(rng, some_shape(rng, sides), operator, terms).term, *bodies))
    walk(rng, script, rng.choice((20, 60, 150)))
    return finished(rng, script)


def in_deep_sequences(rng):
    """Sequences of up to 60 parts, each the left or the right part of another, most parts with an end."""
    parts = (
        SKIPS,
        SKIPS,
        E0_SKIP,
        SKIP_SKIP,
        choice(SKIPS, E0_STOP),
        choice(sequence(SKIPS, SKIPS), SKIP_SKIP),
        parallel(E0, E0_SKIP, sequence(E0_SKIP, SKIPS)),
        call(1),
    )
    count = rng.choice((2, 5, 20, LONGEST_NEST))
    sequences = nest_of(rng, some_shape(rng, count), lambda: term_line(SEQUENCE), rng.choices(parts, k=count))
    called = (SKIPS, SKIPS, SKIPS, STOPS, sequence(SKIP_SKIP, SKIPS), call(0), sequence(call(0), SKIPS))
    script = Script(table_of(sequences.term, rng.choice(called)))
    walk(rng, script, rng.choice((20, 100, 200)))
    return finished(rng, script)


def until_dead(rng):
    """A script of sides that stop, or wait for each other in vain, run until the plain rules have no step."""
    parts = (
        STOPS,
        E0_STOP,
        E1_STOP,
        SKIPS,
        E1_SKIP,
        call(1),
        sequence(E0_SKIP, STOPS),
        choice(STOPS, E1_STOP),
        choice(STOPS, STOPS),
        [term_line(INTERNAL_CHOICE)] + STOPS + E0_STOP,
    )
    count = rng.randint(2, 8)
    waits = lambda: term_line(PARALLEL, rng.choice((NO_EVENT, E0, E1, E0 | E1)))
    wide = nest_of(rng, some_shape(rng, count), waits, rng.choices(parts, k=count))
    script = Script(table_of(wide.term, rng.choice((STOPS, E0_STOP, sequence(SKIPS, STOPS)))))
    while rules.status(script.run.control) == LIVE:
        walk(rng, script, 1)
    return script


def to_a_dead_end(rng):
    """A run that is stuck, and behind that steps of some STOPs that are left."""
    script = until_dead(rng)
    walk(rng, script, rng.choice((0, 0, 1, 2, 8)))
    return finished(rng, script)


def of_many_events(rng):
    """Choices between prefixes of many events, under parallels whose sets are of 64 events."""
    alphabet = Alphabet(64, sorted({0, 63, *rng.sample(range(64), rng.choice((2, 10, 62)))}))

    def some_choice():
        events = rng.choices(alphabet.used, k=rng.choice((1, 5, 40)))
        terms = [prefixes((event,), rng.choice((SKIPS, STOPS, call(0), call(1)))) for event in events]
        return nest_of(rng, "even", lambda: term_line(EXTERNAL_CHOICE), terms).term

    def some_parallel():
        return term_line(PARALLEL, some_set(rng, alphabet))

    wide = nest_of(rng, "any", some_parallel, [some_choice() for _ in range(rng.choice((1, 2, 2, 3, 6)))])
    script = Script(table_of(wide.term, some_choice(), events=64))
    walk(rng, script, rng.randint(0, 12))
    return finished(rng, script)


def choices_above(rng, digits, term):
    """A term so many choices deep beside leaves, and its address."""
    address = tuple(rng.choices((1, 2), k=digits))
    for digit in reversed(address):
        leaf = rng.choice((SKIPS, STOPS, call(0)))
        term = choice(term, leaf) if digit == 1 else choice(leaf, term)
    return Part(term, address)


def by_a_long_address(rng):
    """A joint step of up to 1,024 digits or some more; its event drops all the choices of each side."""
    digits = rng.choice((rng.randrange(ADDRESS_ROOM), ADDRESS_ROOM + rng.choice((-1, 0, 0, 1))))
    sides = min(rng.randint(20, 40), digits + 1)
    each, over = divmod(digits - (sides - 1), sides)
    ends = prefixes((0,), rng.choice((SKIPS, STOPS, E0_SKIP)))
    one, other = choices_above(rng, each, ends), choices_above(rng, each + 1, ends)
    called = [Part(call(2), other.address)] * over + [Part(call(1), one.address)] * (sides - over)
    rng.shuffle(called)
    wide = nest(rng, some_shape(rng, sides), parallel_on(E0), called)
    script = Script(table_of(wide.term, one.term, other.term))
    joint = wide.joint if rng.random() < 0.8 else spoilt(rng, wide.joint)
    if script.add_all([()] + wide.parts + [joint]):
        walk(rng, script, 3)
    return finished(rng, script)


# ---- families: the rooms


def nodes_in_loops(rng):
    """Loops of a call and some prefixes, alone or side by side, until no node fits."""
    loop = prefixes((0,) * rng.choice((0, 1, 20, LONGEST_NEST)), call(1))
    sides = nest_of(rng, "even", parallel_on(NO_EVENT), [call(1)] * rng.choice((1, 1, 2, 5)))
    script = Script(table_of(sides.term, loop))
    if script.add(()):
        while script.add(rng.choice(sides.parts)):
            pass
    return script


def by_the_room_for_nodes(rng):
    return by_the_edge(rng, nodes_in_loops(rng))


def cells_of_case_j(_):
    """N = N;SKIP, the one cell at a time of document 01's case J."""
    script = Script(table_of(sequences_around(call(0), 1)))
    while script.add(()):
        pass
    return script


def cells_in_sequences(rng):
    """A definition that calls itself in up to 60 sequences, and one beside it that fills what is left."""
    each = rng.randint(2, LONGEST_NEST)
    growing, filling = sequences_around(call(1), each), sequences_around(call(2), 1)
    script = Script(table_of(parallel(NO_EVENT, call(1), call(2)), growing, filling))
    filled = CELL_ROOM - rng.choice((0, each, each))
    going = script.add(())
    while going and script.cells() <= filled:
        going = script.add((1,))
    while going:
        going = script.add((2,))
    return script


def cells_in_sides(rng):
    """A definition that calls itself deep in choices and parallels; a sequence around it makes cells even."""
    each = rng.randint(8, LONGEST_NEST)
    lines = [term_line(PARALLEL, NO_EVENT), term_line(EXTERNAL_CHOICE)]
    operators = rng.choice((lines[:1], lines[1:], lines))
    shape = rng.choice(SKEWED)
    terms = [rng.choice((STOPS, SKIPS, E0_STOP)) for _ in range(each)]
    terms.insert(0 if shape == "left" else each, call(1))
    sides = nest_of(rng, shape, lambda: rng.choice(operators), terms)
    script = Script(table_of(rng.choice((call(1), sequence(call(1), SKIPS))), sides.term))
    address = ()
    if script.add_all([(), ()]):
        digits = sides.parts[0 if shape == "left" else each]
        while script.add(address := address + digits):
            pass
    return script


def cells_everywhere(rng):
    """A definition of many sides that each call it, its steps drawn by lot."""
    count = rng.randint(12, 40)
    operators = [term_line(PARALLEL, NO_EVENT), term_line(PARALLEL, NO_EVENT), term_line(EXTERNAL_CHOICE)]
    sides = nest_of(rng, "any", lambda: rng.choice(operators), [call(0)] * count)
    script = Script(table_of(rng.choice((sides.term, sequence(sides.term, SKIPS)))))
    walk(rng, script, 2 * CELL_ROOM)
    return script


def by_the_room_for_cells(rng):
    often = (cells_in_sequences, cells_in_sides)
    return by_the_edge(rng, rng.choice(often + often + (cells_of_case_j, cells_everywhere))(rng))


def ending_parts(rng, count):
    """Parts that reach Ω by one step each."""
    plain, left, right = Part(SKIPS, ()), Part(choice(SKIPS, STOPS), (1,)), Part(choice(E0_STOP, SKIPS), (2,))
    return rng.choices((plain, plain, left, right), k=count)


def round_of_ends(rng, parts, sides):
    """A call, then the ends of the parts in an order drawn by lot, then of the parallels, innermost first."""
    ends = [digits + part.address for digits, part in zip(sides.parts, parts)]
    rng.shuffle(ends)
    return [()] + ends + [digits + (4,) for digits in sorted(sides.operators, key=len, reverse=True)]


def arcs_of_ends(rng):
    """Ends of parallels of many sides, over and over, and a loop beside them that fills what is left."""
    parts = ending_parts(rng, rng.randint(30, LONGEST_NEST))
    sides = nest(rng, rng.choice(SKEWED), parallel_on(NO_EVENT), parts)
    script = Script(table_of(parallel(NO_EVENT, call(1), call(2)), sequence(sides.term, call(1)), call(2)))
    heavy = itertools.cycle(round_of_ends(rng, parts, sides))
    filled = ARC_ROOM - rng.choice((0, 0, rng.randint(1, 100)))
    going = script.add(())
    while going and script.arcs() < filled:
        going = script.add((1,) + next(heavy))
    while going:
        going = script.add((2,))
    return script


def by_the_room_for_arcs(rng):
    return by_the_edge(rng, arcs_of_ends(rng))


def meetings_of(sides):
    """How many meetings a joint step of so many sides makes."""
    return sides * (sides - 1) // 2


def group_sizes(rng, meetings):
    """Sizes of groups that together make so many meetings, the first drawn by lot."""
    sizes = []
    while meetings > 0:
        most = max(sides for sides in range(2, 93) if meetings_of(sides) <= meetings)
        sizes.append(rng.randint(most // 2 + 1, most) if len(sizes) < 2 else most)
        meetings -= meetings_of(sizes[-1])
    return sizes


def group(rng, sides, event, times):
    """Sides that meet in an event so many times."""
    met = parallel_on(1 << event)
    term = prefixes((event,) * times, rng.choice((STOPS, SKIPS, call(0))))
    return nest_of(rng, some_shape(rng, sides + times), met, [term] * sides)


def group_that_fills(rng, sides):
    """A group that can meet once more than there is room for."""
    return group(rng, sides, 0, MEETING_ROOM // meetings_of(sides) + 1)


def meetings_of_groups(rng):
    """Groups side by side, each with one joint step; together they make as many meetings as fit, or nearly."""
    sizes = group_sizes(rng, MEETING_ROOM + rng.choice((-1, 0, 0, 0, 1, 40))) + [rng.choice((2, 2, 9))]
    groups = [group(rng, sides, rng.choice((0, 1)), 1) for sides in sizes]
    wide = nest_of(rng, "even", parallel_on(NO_EVENT), [each.term for each in groups])
    script = Script(table_of(wide.term))
    script.add_all([()] + [digits + each.joint for digits, each in zip(wide.parts, groups)])
    return script


def meetings_of_one_group(rng):
    """One group of 14 to 92 sides that meets again and again."""
    wide = group_that_fills(rng, rng.randint(14, 92))
    script = Script(table_of(wide.term))
    if script.add(()):
        while script.add(wide.joint):
            pass
    return script


def by_the_room_for_meetings(rng):
    return by_the_edge(rng, rng.choice((meetings_of_groups, meetings_of_groups, meetings_of_one_group))(rng))


def of_many_references(rng):
    """Choices both of whose sides have stepped, dropped by an event, over and over, until no node fits."""
    count = rng.choice((8, 32, 64))
    sides = nest_of(rng, "even", lambda: term_line(EXTERNAL_CHOICE), [call(1)] * count)
    script = Script(table_of(sides.term, prefixes((0,), call(0))))
    going = True
    while going:
        going = script.add_all([()] + rng.sample(sides.parts, count) + [rng.choice(sides.parts)])
    return by_the_edge(rng, script)


# ---- families: several rooms at once


class Edges:
    """A run whose last step, a joint one of many sides, adds to every count at once.

    Beside these sides stand a loop that fills nodes, sequences for cells, ends of parallels for arcs, and a
    group for meetings, so that any of the four counts can be brought to where the last step passes its room.
    """

    def __init__(self, rng):
        self.sides = rng.randint(20, 40)
        self.each_cells = rng.randint(8, 30)
        ends = ending_parts(rng, LONGEST_NEST - 2)
        ending = nest(rng, rng.choice(SKEWED), parallel_on(NO_EVENT), ends)
        meeting = group_that_fills(rng, rng.randint(20, self.sides))
        last = group(rng, self.sides, 0, 1)
        growing = sequences_around(call(2), self.each_cells)
        terms = [call(1), call(2), call(3), meeting.term, last.term]
        wide = nest_of(rng, "even", parallel_on(NO_EVENT), terms)
        self.fill, self.grow, end, meet, joint = wide.parts
        self.ends = [end + address for address in round_of_ends(rng, ends, ending)]
        self.meet, self.joint = meet + meeting.joint, joint + last.joint
        self.each_meetings = meetings_of(len(meeting.parts))
        loop = prefixes((1,) * 40, call(1))
        self.script = Script(table_of(wide.term, loop, growing, sequence(ending.term, call(3))))
        self.script.add(())

    def nodes_added(self):
        return 3 * self.sides - 1

    def arcs_added(self):
        return 4 * self.sides - 2

    def fill_nodes(self, nodes):
        while self.script.nodes() + 2 <= nodes and self.script.add(self.fill):
            pass

    def end_until(self, holds):
        for address in itertools.cycle(self.ends):
            if holds() or not self.script.add(address):
                return

    def bring_meetings(self):
        while self.script.meetings() + self.each_meetings <= MEETING_ROOM and self.script.add(self.meet):
            pass

    def bring_arcs(self, nodes_too, steps_to_come):
        """Leaves room for fewer arcs than the last step adds, counting what is filled before it."""
        script, added = self.script, self.arcs_added() // 2
        if nodes_too:
            self.end_until(lambda: script.arcs() - script.nodes() >= ARC_ROOM - NODE_ROOM - added // 2)
        else:
            self.end_until(lambda: script.arcs() + steps_to_come >= ARC_ROOM - added - LONGEST_NEST // 2)

    def bring_cells(self):
        while self.script.cells() + self.each_cells <= CELL_ROOM and self.script.add(self.grow):
            pass


def edges_brought(rng):
    """Edges at which the last step is to pass one to four rooms."""
    edges = Edges(rng)
    passed = rng.sample((8, 9, 10, 11), rng.choice((1, 2, 2, 2, 3, 4)))
    growth = CELL_ROOM // edges.each_cells if 8 in passed else 0  # steps, each of one node and one arc
    if 11 in passed:
        edges.bring_meetings()
    if 10 in passed:
        edges.bring_arcs(9 in passed, growth)
    if 9 in passed:
        edges.fill_nodes(NODE_ROOM - growth - edges.nodes_added() // 2)
    if 8 in passed:
        edges.bring_cells()
    if 9 in passed:
        edges.fill_nodes(NODE_ROOM - edges.nodes_added() // 2)
    return edges


def at_several_rooms(rng):
    """A joint step that passes several rooms at once; the lowest number counts."""
    edges = edges_brought(rng)
    edges.script.add(edges.joint)
    return by_the_edge(rng, edges.script)


# ---- families: the room for script text


def lines_of_length(rng, length, longest):
    """Digit counts from 1 to `longest` of lines that together are of exactly so many bytes, at least 1,000."""
    counts = []

    def take(digits):
        counts.append(digits)
        return length - len(step_line((1,) * digits)) - 1

    while length > 4 * longest:
        length = take(rng.randint(1, longest))
    if length % 2:
        length = take(1 + longest // 4)
    length = take(length // 4 - 4)
    return counts + [(length - len(step_line(())) - 1) // 2]


def by_the_room_for_script_text(rng):
    """Accepted steps only, in a script of as many bytes as fit, one less or one more, of which some may be CRs."""
    sides = nest_of(rng, "right", parallel_on(NO_EVENT), [call(1)] * LONGEST_NEST)
    draft = table_of(sides.term, rng.choice((call(1), prefixes((0, 1), call(1)))))
    length, returns = SCRIPT_ROOM + rng.choice((-1, 0, 0, 1)), rng.choice((0, 1, 300))
    first = step_line(())
    counts = lines_of_length(rng, length - returns - len(first) - 1, LONGEST_NEST - 1)
    lines = [first] + [step_line(sides.parts[count - 1]) for count in counts]
    return text_of(draft.lines) + with_returns(rng, lines, returns)


# ---- families: spelt otherwise


def of_another_spelling(rng):
    """A run with capitals, CR LF or both, in its table, its script or both."""
    return respelt(rng, rng.choice((of_all_kinds, that_ends, that_meets, of_a_case, of_many_events))(rng))


# ---- every input


# how many of a hundred inputs are of each family
SHARES = {
    of_all_kinds: 14,
    that_ends: 11,
    that_meets: 9,
    of_any_table: 8,
    as_judged: 5,
    of_a_case: 6,
    in_many_sides: 6,
    in_deep_sequences: 6,
    to_a_dead_end: 6,
    of_many_events: 6,
    by_a_long_address: 4,
    by_the_room_for_meetings: 4,
    by_the_room_for_cells: 2,
    by_the_room_for_arcs: 2,
    at_several_rooms: 3,
    by_the_room_for_nodes: 2,
    of_many_references: 1,
    by_the_room_for_script_text: 1,
    of_another_spelling: 4,
}
FAMILIES = Families("run ", SHARES)


def outcome(given):
    return rules.outcome(rules.listing(given))


if __name__ == "__main__":
    command("inputs for the program play", FAMILIES, outcome)
