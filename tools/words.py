"""A listing of the tracking program, told in words.

    ./run FILE | python3 tools/words.py [NAMES]

reads the listing and nothing else, so it cannot tell a part that has ended from one that waits; `./run --words`, which has
the table at hand, can. What has no name in the file NAMES is told by its number. There each line is one of

    definition N NAME
    event N NAME

or blank. N is 0 to 63, or 0x0 to 0x3f, and is named once. NAME goes to the end of its line and may have blanks in it.
A comment goes from -- to the end of its line, and begins the line or has a blank before it. A line that is none of a
listing's, or none of names, is an error, told with its number; status 1.
"""

import pathlib
import re
import sys

STEP, STATUS, REFUSAL, COUNTS, NODE, ARC, MEETING, LAST = 0x40, 0x41, 0x4E, 0x30, 0x31, 0x32, 0x33, 0x3F

FRAMES = {  # how each is written, and which may stand behind it
    STEP: ("4000|4001|4002..", (STEP, STATUS)),
    STATUS: ("410[0-2]", (REFUSAL, COUNTS)),
    REFUSAL: ("4e0[1-9a-d]....", (REFUSAL, COUNTS)),
    COUNTS: ("3001(....){3}", (NODE, LAST)),
    NODE: ("31....(..){2,}", (NODE, ARC, MEETING, LAST)),
    ARC: ("32(....){2}", (ARC, MEETING, LAST)),
    MEETING: ("33(....){2}", (MEETING, LAST)),
    LAST: ("3f", ()),
}

NAMED, MOST_NUMBER = ("definition", "event"), 63  # what has names, and its highest number

ENDED = 1
STATUSES = (
    "live (more can happen)",
    "ended (came to its successful end)",
    "stuck (dead: no cue can come any more; the script may still step a STOP)",
)
REST_WORDS = (
    "Control has come as far as these nodes, which nothing follows yet. If a cue was held, look here:",
    "Control came to its end at these nodes, which nothing follows:",
    "Control came to rest at these nodes, which nothing follows. If a cue was held, look here:",
)
SOUND_WORDS = "These have come to their own end, at SKIP, and are sound:"
REST_NOTE = "A part that never took a step has no node; a choice's side that was given up keeps its nodes."
EXPORT_AGAIN = "Export the text from the desk again, copy the whole of it, and do not edit it by hand."
MEND = "Have the programmer mend or shorten the definition that stands before this line."
RUN_IN_PARTS = "The steps above stand. Run the rehearsal in shorter parts."
NO_LINE = 1
STRICTER = "; in the track small letters, and LF alone"  # what is said of number 1 where it may be of a saved track
REFUSAL_WORDS = {  # what is wrong, and what to do
    NO_LINE: ("it is not a line: pairs of the digits 0-9, a-f or A-F, and then LF or CR LF", EXPORT_AGAIN),
    2: ("it is not a line that can stand there, or the text ends too early", EXPORT_AGAIN),
    3: ("a number in it is outside its range, or the number of terms is not the one counted", EXPORT_AGAIN),
    4: ("a definition is not complete there, or has a term too many", MEND),
    5: ("the description has more than 1,024 terms, or is nested more than 64 deep", MEND),
    6: ("the table is longer than 32,768 bytes, or the script is longer than 65,536",
        "Have the programmer shorten the description, or run the rehearsal in shorter parts."),
    7: ("nothing in the show could take the step that it asks for",
        "The steps above stand. The nodes at the end tell how far each part of the show had come."),
    8: ("after its step more than 1,024 parts of the show would be under way",
        "The steps above stand. Look for a process that starts itself again before it has ended."),
    9: ("after its step the track would have more than 4,096 nodes", RUN_IN_PARTS),
    10: ("after its step the track would have more than 8,192 arcs", RUN_IN_PARTS),
    11: ("after its step the track would have more than 4,096 meetings", RUN_IN_PARTS),
    12: ("the track is longer than 65,536 bytes, so it is not told", RUN_IN_PARTS),
    13: ("the saved track does not fit the table", "Take the table of its show, or another copy of it."),
}


class Fault(Exception):
    """What is wrong with a listing or with a file of names."""


# ---- reading


def frame_of(line):
    """The bytes of a frame's line, or None where it is no frame of a listing."""
    if not re.fullmatch("([0-9a-f]{2})+", line):
        return None
    frame = bytes.fromhex(line)
    well_written = frame[0] in FRAMES and re.fullmatch(FRAMES[frame[0]][0], line)
    return frame if well_written and (frame[0] != NODE or frame[4] == len(frame) - 5) else None


def numbers_of(some_bytes):
    """Numbers of two bytes each, high byte first."""
    return [int.from_bytes(some_bytes[at : at + 2], "big") for at in range(0, len(some_bytes), 2)]


def of_kind(kind, frames):
    """The frames of one kind, in order."""
    return [frame for frame in frames if frame[0] == kind]


def knows_its_nodes(frame, nodes):
    """Whether a node comes in its turn behind so many, and an arc or meeting joins two of them."""
    if frame[0] == NODE:
        return numbers_of(frame[1:3]) == [nodes]
    return frame[0] not in (ARC, MEETING) or max(numbers_of(frame[1:])) < nodes


def is_whole(frames):
    """Whether a listing may end so: with its track as counted, number 12 in its stead, or a refusal alone."""
    if frames[-1][0] == LAST:
        counts = [len(of_kind(kind, frames)) for kind in (NODE, ARC, MEETING)]
        return numbers_of(of_kind(COUNTS, frames)[0][2:]) == counts
    return frames[-1][0] == REFUSAL and (len(frames) == 1 or frames[-1][1] == 12)


def read_listing(text):
    """The frames of a listing, in order."""
    frames, awaited, nodes = [], (STEP, STATUS, REFUSAL), 0
    for number, line in enumerate(text.removesuffix("\n").split("\n"), 1):
        frame = frame_of(line)
        if frame is None or frame[0] not in awaited or not knows_its_nodes(frame, nodes):
            raise Fault(f"line {number} is no line of a listing, or not in its place: {line!r}")
        frames.append(frame)
        awaited = () if frames[0][0] == REFUSAL else FRAMES[frame[0]][1]
        nodes += frame[0] == NODE
    if not is_whole(frames):
        raise Fault(f"line {len(frames)} cannot be a listing's last: there are lines missing")
    return frames


def number_in(word):
    """The number that a word is, decimal or hexadecimal, or None where it is none that can have a name."""
    found = re.fullmatch("0*([0-9]{1,2})|0x0*([0-9a-fA-F]{1,2})", word)
    if not found:
        return None
    number = int(found[1]) if found[1] else int(found[2], 16)
    return number if number <= MOST_NUMBER else None


def take_name(names, what, word="", name=""):
    """Adds the name that the parts of a line give."""
    number = number_in(word)
    if what not in NAMED:
        raise Fault(f"expected `definition` or `event`, found {what!r}")
    if number is None:
        raise Fault(f"expected a number, 0 to {MOST_NUMBER} or 0x0 to {MOST_NUMBER:#x}, found {word!r}")
    if not name:
        raise Fault(f"expected a name behind {word!r}")
    if (what, number) in names:
        raise Fault(f"{what} {number} has a name already, {names[what, number]!r}")
    names[what, number] = name


def read_names(text):
    """The names, by what they name: ("definition", N) or ("event", N)."""
    names = {}
    for count, line in enumerate(text.removeprefix("\ufeff").split("\n"), 1):
        parts = re.sub(r"(^|\s)--.*", "", line).strip().split(maxsplit=2)
        try:
            if parts:
                take_name(names, *parts)
        except Fault as fault:
            raise Fault(f"line {count} of the names: {fault}") from fault
    return names


# ---- telling


def event_words(step, names):
    """The event of a step."""
    name = names.get(("event", step[-1]), step[-1])
    return ("silent step (τ)", "successful end (✓)", f"event {name}")[step[1]]


def refusal_words(refusal, text):
    """What a refusal means and what to do; `text` is the one that its line is counted in."""
    what, to_do = REFUSAL_WORDS[refusal[1]]
    line = numbers_of(refusal[2:])[0]
    where = f", line {line} of the {text}" if line else ""
    more = STRICTER if refusal[1] == NO_LINE and "track" in text else ""
    return [f"refused, number {refusal[1]}{where}: {what}{more}", f"  {to_do}"]


def place_words(node, names):
    """The place of a node."""
    definition = names.get(("definition", node[3]), f"definition {node[3]}")
    path = ".".join(map(str, node[5:]))
    if path == "0":
        return f"left-hand side of {definition}"
    return f"{definition} at {path}" if path else f"{definition}, the whole right-hand side"


def grouped(pairs):
    """For each second end its first ends, in words."""
    ends = {}
    for i, j in pairs:
        ends[j] = f"{ends[j]}, {i}" if j in ends else str(i)
    return ends


def node_lines(places, arcs, meetings):
    """Each node with its place, what came before it and whom it met."""
    wide = max(map(len, places), default=0)
    before, met = grouped(arcs), grouped(sorted(meetings + [[j, i] for i, j in meetings]))
    for number, place in enumerate(places):
        links = f"after {before[number]}" if number in before else "the start"
        yield f"node {number:<4} {place:<{wide}}  {links}" + (f"; met {met[number]}" if number in met else "")


def listed(heading, numbers, places):
    """Nodes below a heading, which stands only where there are some."""
    return [heading, *(f"  node {number:<4} {places[number]}" for number in numbers)] if numbers else []


def rest_lines(places, arcs, status, at_skip):
    """The nodes that nothing follows: where to look, and apart from these the SKIPs of parts that have ended."""
    followed = {i for i, _ in arcs}
    at_rest = [number for number in range(len(places)) if number not in followed]
    sound = [] if status == ENDED else [number for number in at_rest if number in at_skip]
    to_look_at = [number for number in at_rest if number not in sound]
    return [*listed(REST_WORDS[status], to_look_at, places), *listed(SOUND_WORDS, sound, places), REST_NOTE]


def words_of(frames, names, skips=()):
    """A listing in words: its steps, its status, its refusals and its track, as far as it has them.

    `skips` are the places of the table's SKIPs, by definition and path, where the table is at hand.
    """
    steps = enumerate(of_kind(STEP, frames), 1)
    lines = [f"step {number}: {event_words(step, names)}" for number, step in steps]
    statuses = [frame[1] for frame in of_kind(STATUS, frames)]
    lines += [f"status: {STATUSES[status]}" for status in statuses]
    for refusal in of_kind(REFUSAL, frames):
        lines += refusal_words(refusal, "script" if statuses else "table")
    if of_kind(COUNTS, frames):
        nodes = of_kind(NODE, frames)
        places = [place_words(node, names) for node in nodes]
        at_skip = {number for number, node in enumerate(nodes) if (node[3], tuple(node[5:])) in skips}
        arcs, meetings = ([numbers_of(pair[1:]) for pair in of_kind(kind, frames)] for kind in (ARC, MEETING))
        lines.append(f"track: nodes {len(places)}, arcs {len(arcs)}, meetings {len(meetings)}")
        lines += node_lines(places, arcs, meetings)
        lines += rest_lines(places, arcs, statuses[0], at_skip) if places else ["No step was accepted."]
    return lines


def text_in_words(listing, names, skips=()):
    """The text of a listing, bytes, in words, bytes too."""
    lines = words_of(read_listing(listing.decode("latin-1")), names, skips)
    return "".join(line + "\n" for line in lines).encode("utf-8")


def main():
    try:
        names = read_names(pathlib.Path(sys.argv[1]).read_text("utf-8")) if sys.argv[1:] else {}
        text = text_in_words(sys.stdin.buffer.read(), names)
    except (Fault, OSError, UnicodeDecodeError) as fault:
        sys.exit(f"words: {fault}")
    sys.stdout.buffer.write(text)


if __name__ == "__main__":
    main()
