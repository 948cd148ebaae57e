"""CSP text in the notation of FDR and ProB, read and written.

    channel go, up                  -- events, in the order of their numbers; more follow in the order of first use
    SHOW  = FRONT [| {go} |] BACK   {- the first definition is the show -}
    FRONT = go -> SKIP
    BACK  = go -> (up -> BACK [] STOP)

What binds most comes first:

    sign               several beside each other     sense
    a -> P             to the right: a -> (b -> P)   prefix
    P ; Q              to the left: (P ; Q) ; R      sequence
    P [] Q             to the left                   external choice
    P |~| Q            to the left                   internal choice
    P [| {a, b} |] Q   to the left                   parallel, the events of the set done together
    P ||| Q            to the left                   parallel with the empty set, as [| {} |]

So a -> P ; Q [] R is ((a -> P) ; Q) [] R. Brackets settle every doubt. SKIP, STOP and the names of definitions are
processes. A name has letters, digits, _ and ', does not begin with a digit, and is a definition's or an event's, not
both. A definition goes on to the next `NAME =`, `channel` or the end of the text. A comment goes from -- to the end
of its line, or from {- to -} with comments in it.
"""

import bisect
import re
import textwrap
from typing import NamedTuple

MOST_DEFINITIONS, MOST_EVENTS, TERM_ROOM, PATH_ROOM = 64, 64, 1_024, 64  # of a table
NESTING_ROOM = 100  # brackets in each other: more than a path has digits, and few enough for recursion
WIDTH = 100  # of a written line, where that can be

CALL, PREFIX, INTERNAL_CHOICE, EXTERNAL_CHOICE, SEQUENCE, PARALLEL, SKIP, STOP = range(1, 9)
KINDS = {  # of terms: the bytes behind the kind in a table, and the subterms
    CALL: (1, 0), PREFIX: (1, 1), INTERNAL_CHOICE: (0, 2), EXTERNAL_CHOICE: (0, 2), SEQUENCE: (0, 2), PARALLEL: (8, 2),
    SKIP: (0, 0), STOP: (0, 0),
}
LEAVES = {"SKIP": SKIP, "STOP": STOP}
OPERATORS = {  # by their first sign; what binds most comes first
    ";": SEQUENCE, "[]": EXTERNAL_CHOICE, "|~|": INTERNAL_CHOICE, "[|": PARALLEL, "|||": PARALLEL,
}
WORDS = ("channel", *LEAVES)
NAME = r"(?!\d)[\w']+"
TOKEN = re.compile(
    r"(?P<blank>\s+|--[^\n]*)|(?P<comment>\{-)"
    rf"|(?P<own>(?:{'|'.join(WORDS)})(?![\w'])|->|\[\]|\[\||\|\]|\|\|\||\|~\||[(){{}},;=])"
    rf"|(?P<name>{NAME})|(?P<character>.)"
)
HEAD, END = "head", "end"  # kinds of token: a name with `=` behind it, and the end of the text
BEHIND_A_DEFINITION = (HEAD, "channel", END)
A_PROCESS = "the name of a definition, or `->` behind that of an event"


class Spot(NamedTuple):
    """Where something stands in a text; both count from 1."""

    line: int
    column: int


class Fault(Exception):
    """What is wrong with a text, and where."""

    def __init__(self, spot, what):
        super().__init__(what)
        self.spot, self.what = spot, what


class Term(NamedTuple):
    kind: int
    payload: int = 0  # a call's definition, a prefix's event, a parallel's set; else 0


class Show(NamedTuple):
    """Definitions and events by their names, in the order of their numbers; each definition's terms in preorder."""

    definitions: list
    events: list
    bodies: list


# ---- tokens


class Token(NamedTuple):
    kind: str  # `name`, HEAD, END, `character` or `comment`; a sign or a word is its own kind
    text: str
    spot: Spot


def spots_of(text):
    """The function that tells where an offset into the text stands."""
    starts = [0, *(found.end() for found in re.finditer("\n", text))]

    def spot(offset):
        line = bisect.bisect_right(starts, offset)
        return Spot(line, offset - starts[line - 1] + 1)

    return spot


def comment_end(text, start):
    """The offset behind the comment that begins at an offset; None where it has no end."""
    depth = 0
    for edge in re.compile(r"\{-|-\}").finditer(text, start):
        depth += 1 if edge[0] == "{-" else -1
        if depth == 0:
            return edge.end()
    return None


def tokens_of(text):
    """The tokens of a text, through the first unclosed comment, and the END right behind the last of them."""
    spot, tokens, at, end = spots_of(text), [], 0, 0
    while at is not None and at < len(text):
        found = TOKEN.match(text, at)
        group = found.lastgroup
        at = comment_end(text, found.start()) if group == "comment" else found.end()
        if group == "blank" or group == "comment" and at is not None:
            continue
        if found[0] == "=" and tokens and tokens[-1].kind == "name":
            tokens[-1] = tokens[-1]._replace(kind=HEAD)
        tokens.append(Token(found[0] if group == "own" else group, found[0], spot(found.start())))
        end = found.end()
    return [*tokens, Token(END, "", spot(end))]


def words_for(token):
    """A token as a fault tells it."""
    kinds = {HEAD: "the definition of ", END: "the end", "character": "the stray character "}
    return kinds.get(token.kind, "") + (f"`{token.text}`" if token.text else "")


# ---- reading: from tokens to trees


class Tree(NamedTuple):
    """A term of the text. Its own token is its name, its arrow or its operator's first sign."""

    kind: int
    token: Token
    events: tuple = ()  # the tokens of a prefix's event or of a parallel's set
    parts: tuple = ()


class Reader:
    """The definitions of a text as trees, and its names in the order in which they stand there."""

    def __init__(self, text):
        self.tokens, self.at = tokens_of(text), 0
        self.heads, self.trees = {}, []  # the definitions' tokens by name, and their right-hand sides
        self.declared, self.used, self.called = [], [], []  # events by `channel` and by use; calls
        while self.next.kind != END:
            self.item()
        if not self.trees:
            raise Fault(self.next.spot, "the text has no definition: expected `NAME = ..`")

    @property
    def next(self):
        return self.tokens[self.at]

    def unexpected(self, expected):
        """The fault that the next token is."""
        if self.next.kind == "comment":
            return Fault(self.next.spot, "unclosed comment: expected `-}`")
        return Fault(self.next.spot, f"expected {expected}, found {words_for(self.next)}")

    def take(self, kind, expected):
        """The next token, which has to be of this kind."""
        if self.next.kind != kind:
            raise self.unexpected(expected)
        self.at += 1
        return self.tokens[self.at - 1]

    def close(self, opening, sign, more=""):
        """Takes the sign that closes another one. Where the definition ends instead, the other is at fault."""
        if self.next.kind in BEHIND_A_DEFINITION:
            what = f"unclosed `{opening.text}`: expected `{sign}` before {words_for(self.next)}"
            raise Fault(opening.spot, what)
        self.take(sign, f"{more}`{sign}`")

    def item(self):
        """A definition, or `channel` with its events."""
        if self.next.kind == "channel":
            self.at += 1
            self.declared += self.events()
            more = "`,`"
        else:
            self.definition()
            more = "an operator"
        if self.next.kind not in BEHIND_A_DEFINITION:
            raise self.unexpected(f"{more}, a definition `NAME = ..` or the end")

    def events(self):
        """Events with commas between them."""
        events = [self.take("name", "the name of an event")]
        while self.next.kind == ",":
            self.at += 1
            events.append(self.take("name", "the name of an event"))
        return events

    def definition(self):
        head = self.take(HEAD, "a definition `NAME = ..` or `channel`")
        if head.text in self.heads:
            first = self.heads[head.text].spot.line
            what = f"definition `{head.text}` given twice, first in line {first}: expected another name"
            raise Fault(head.spot, what)
        if len(self.heads) == MOST_DEFINITIONS:
            raise Fault(head.spot, f"definition {MOST_DEFINITIONS + 1}: expected at most {MOST_DEFINITIONS}")
        self.heads[head.text] = head
        self.take("=", "`=`")
        self.trees.append(self.process(0))

    def process(self, depth):
        """Operands with operators between them, so many brackets deep."""
        operands, operators = [self.operand(depth)], []
        while self.next.kind in OPERATORS:
            operators.append(self.operator())
            operands.append(self.operand(depth))
        return grouped(operands, operators)

    def operator(self):
        """An operator, its parts still to come."""
        sign = self.take(self.next.kind, "an operator")
        return Tree(OPERATORS[sign.kind], sign, self.event_set(sign) if sign.kind == "[|" else ())

    def event_set(self, sign):
        """The events of a parallel, behind its first sign."""
        opening = self.take("{", "`{`")
        events = [] if self.next.kind == "}" else self.events()
        self.close(opening, "}", "`,` or ")
        self.close(sign, "|]")
        self.used += events
        return tuple(events)

    def operand(self, depth):
        """What stands between operators: a leaf or a process in brackets, behind any number of events with arrows."""
        prefixes = []
        while self.next.kind == "name" and self.tokens[self.at + 1].kind == "->":
            event, arrow = self.tokens[self.at : self.at + 2]
            prefixes.append(Tree(PREFIX, arrow, (event,)))
            self.used.append(event)
            self.at += 2
        tree = self.bracketed(depth) if self.next.kind == "(" else self.leaf()
        for prefix in reversed(prefixes):
            tree = prefix._replace(parts=(tree,))
        return tree

    def bracketed(self, depth):
        opening = self.take("(", "`(`")
        if depth == NESTING_ROOM:
            raise Fault(opening.spot, f"expected at most {NESTING_ROOM} brackets in each other")
        tree = self.process(depth + 1)
        self.close(opening, ")", "an operator or ")
        return tree

    def leaf(self):
        if self.next.kind in LEAVES:
            token = self.take(self.next.kind, "a process")
            return Tree(LEAVES[token.kind], token)
        token = self.take("name", "a process")
        self.called.append(token)
        return Tree(CALL, token)


def grouped(operands, operators):
    """One tree: sign by sign, from what binds most, and from the left, an operator takes the operands beside it."""
    for sign in OPERATORS:
        left, others = operands[:1], []
        for operator, operand in zip(operators, operands[1:]):
            if operator.token.kind == sign:
                left[-1] = operator._replace(parts=(left[-1], operand))
            else:
                others.append(operator)
                left.append(operand)
        operands, operators = left, others
    return operands[0]


# ---- reading: names, terms and places


def numbered_events(reader):
    """The number of each event by its name: the declared ones first."""
    numbers = {}
    for count, event in enumerate(reader.declared + reader.used):
        if event.text in reader.heads:
            raise Fault(event.spot, f"`{event.text}` is a definition: expected the name of an event")
        if event.text in numbers and count < len(reader.declared):
            raise Fault(event.spot, f"event `{event.text}` declared twice: expected another name")
        if event.text not in numbers and len(numbers) == MOST_EVENTS:
            raise Fault(event.spot, f"event {MOST_EVENTS + 1}: expected at most {MOST_EVENTS}")
        numbers.setdefault(event.text, len(numbers))
    return numbers


def check_calls(reader, events):
    """That each call is one of a definition."""
    for call in reader.called:
        if call.text in events:
            raise Fault(call.spot, f"event `{call.text}` used as a process: expected {A_PROCESS}")
        if call.text not in reader.heads:
            raise Fault(call.spot, f"unknown process name `{call.text}`: expected {A_PROCESS}")


def check_room(tree, path, terms):
    """That there is room for a term at a path behind so many terms."""
    if terms == TERM_ROOM:
        raise Fault(tree.token.spot, f"term {TERM_ROOM + 1:,}: expected at most {TERM_ROOM:,}")
    if len(path) + (tree.kind == PREFIX) > PATH_ROOM:
        what = f"nested too deep: expected paths of at most {PATH_ROOM} digits; a definition of its own begins anew"
        raise Fault(tree.token.spot, what)


def payload_of(tree, definitions, events):
    """What stands behind the kind in a term's line."""
    if tree.kind == CALL:
        return definitions[tree.token.text]
    if tree.kind == PREFIX:
        return events[tree.events[0].text]
    return sum(1 << events[name] for name in {event.text for event in tree.events})


def literals(root):
    """The trees of a right-hand side in preorder, each with its path."""
    waiting = [(root, ())]
    while waiting:
        tree, path = waiting.pop()
        yield tree, path
        first = 2 if tree.kind == PREFIX else 1  # at 1 of a prefix is its event
        waiting += reversed([(part, (*path, digit)) for digit, part in enumerate(tree.parts, first)])


def read(text):
    """The show of a text, and by definition and path the spot of each of its places.

    A left-hand side, path (0,), stands at its name, an operator at its first sign, a prefix at its arrow.
    """
    reader = Reader(text)
    definitions = {name: number for number, name in enumerate(reader.heads)}
    events = numbered_events(reader)
    check_calls(reader, events)
    show, places, terms = Show(list(definitions), list(events), []), {}, 0
    for number, (head, root) in enumerate(zip(reader.heads.values(), reader.trees)):
        places[number, (0,)] = head.spot
        show.bodies.append([])
        for tree, path in literals(root):
            check_room(tree, path, terms)
            terms += 1
            show.bodies[number].append(Term(tree.kind, payload_of(tree, definitions, events)))
            places[number, path] = tree.token.spot
            if tree.kind == PREFIX:
                places[number, (*path, 1)] = tree.events[0].spot
    return show, places


# ---- writing


def is_name(text):
    """Whether a definition or an event can have this name."""
    return bool(re.fullmatch(NAME, text)) and text not in WORDS


def operator_text(term, events):
    """How much an operator binds, by its turn in OPERATORS, and its sign."""
    signs = [sign for sign, kind in OPERATORS.items() if kind == term.kind]
    sign = signs[0] if term.payload else signs[-1]  # of a parallel the last is that of the empty set
    members = ", ".join(name for number, name in enumerate(events) if term.payload >> number & 1)
    return list(OPERATORS).index(sign), f"[| {{{members}}} |]" if members else sign


def process_text(terms, show, least):
    """The next term with its subterms; an operator of a later turn than `least` binds less, and is put in brackets."""
    term = next(terms)
    if term.kind == CALL:
        return show.definitions[term.payload]
    if term.kind in LEAVES.values():
        return next(word for word, kind in LEAVES.items() if kind == term.kind)
    if term.kind == PREFIX:
        return f"{show.events[term.payload]} -> {process_text(terms, show, -1)}"
    turn, sign = operator_text(term, show.events)
    text = f"{process_text(terms, show, turn)} {sign} {process_text(terms, show, turn - 1)}"
    return text if turn <= least else f"({text})"


def folded(line):
    """A line as lines of the width: broken before operators, and behind arrows and commas where that is not enough."""
    first, *rest = re.split(r" (?=;|\[|\|[|~])", line)
    lines = [first]
    for part in rest:
        if len(lines[-1]) + 1 + len(part) > WIDTH:
            lines.append("   ")
        lines[-1] += f" {part}"
    wrapper = textwrap.TextWrapper(WIDTH, subsequent_indent=" " * 8, break_long_words=False, break_on_hyphens=False)
    wrapped = [short for long in lines for short in wrapper.wrap(long.replace(" ->", "\0->"))]
    return [short.replace("\0", " ") for short in wrapped]


def written(show):
    """The text of a show, which is read as that show: a line for its events and one for each definition, folded."""
    lines = ["channel " + ", ".join(show.events)] if show.events else []
    for name, terms in zip(show.definitions, show.bodies):
        lines.append(f"{name} = {process_text(iter(terms), show, len(OPERATORS))}")
    return "".join(short + "\n" for line in lines for short in folded(line))
