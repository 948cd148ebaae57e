"""How much stack each door takes at most, read off its code.

    python3 tools/stack.py [PROGRAM..]

makes an archive that exports every door which docs/DOORS.md names, outside the repository, and prints a line `BYTES DOOR`
for each: the most that is in use below the door's caller, its return address included, whatever the door is lent. With
the names of programs, as `track`, it tells of these instead, as rt has built them. Code is for x86-64; what
the C library's memcpy, memset and memmove take for themselves is not counted. It needs rt and, to read the code, an
objdump that knows x86-64: that of binutils for such a machine, or llvm-objdump.

A function that calls itself does so by a count that falls, and its first caller starts the count at a constant of the
sources, which is named here; a function that calls itself and is not named here ends the run with status 1.
"""

import pathlib
import re
import shutil
import subprocess
import sys
import tempfile
from collections import namedtuple

if __name__ == "__main__":  # as a command, too, packages are found from the repository
    sys.path[0] = str(pathlib.Path(__file__).resolve().parents[1])

from tools import exported, sources
from tools.building import MADE_BY_RT
from tools.programs import REPOSITORY, place_of

CRATE = "exported_doors"
DISASSEMBLERS = ("objdump", "x86_64-linux-gnu-objdump", "llvm-objdump")
DOOR = re.compile(r"`(?:(\w+)::)?(\w+)`")
COUNTS = {  # of a function that calls itself: the crate and the constant of the count that falls
    "weighing::weigh_at": ("runs", "CONTROL_LEVELS"),
    "weighing::weigh_term": ("weighing", "WEIGH_LEVELS"),
    "stepping::take": ("runs", "STEP_LEVELS"),
    "offers::offers_at": ("rules", "CELL_ROOM"),
    "offers::offers_of_term": ("offers", "OFFER_LEVELS"),
}
WORD = 8  # bytes of a register, and of a return address
FUNCTION = re.compile(r"^[0-9a-f]+ <(.+)>:$", re.MULTILINE)
INSTRUCTION = re.compile(r"^\s+([0-9a-f]+):\s+([a-z]\S*)\s*(.*?)\s*(?:#.*)?$")
RELOCATION = re.compile(r"^\s+[0-9a-f]+:\s+R_X86_64_(?:PLT32|PC32)\s+(?:\.text\.)?(.+?)(?:[-+]0x[0-9a-f]+)?$")
TARGET = re.compile(r"^(?:0x)?([0-9a-f]+) <(.+?)(\+0x[0-9a-f]+)?>$")
NUMBER_TO = re.compile(r"^\$(-?(?:0x)?[0-9a-f]+),\s*(%\w+)$")
INTO_STACK_POINTER = re.compile(r",\s*%rsp$")
STACK_POINTER_MOVED = re.compile(r"^(-?(?:0x)?[0-9a-f]+)\(%rsp\),\s*%rsp$")
BELOW_STACK_POINTER = re.compile(r"-(0x[0-9a-f]+|\d+)\(%rsp")
PADDING = re.compile(r"(nop[wl]?|data16|cs|int3)\s|xchg %ax,\s*%ax")
PROBES = ("mov", "sub", "sub", "mov", "cmp", "jne")  # of a large frame, which is taken a page after the other

Instruction = namedtuple("Instruction", "place operation operands other")  # other: what a relocation names
Code = namedtuple("Code", "most calls")  # the most bytes in use by a function itself; pairs of a depth and a callee


class Unknown(Exception):
    """What the code does with the stack is not known."""


# ---- code, as objdump prints it


def functions_of(listing):
    """The instructions of each function, those of the C library apart, to which a program has a link.

    An operation is called as by binutils, without the letter of its width.
    """
    found, current = {}, []
    for line in listing.splitlines():
        if head := FUNCTION.match(line):
            current = []
            if not head[1].endswith("@plt"):
                found[head[1]] = current
        elif (other := RELOCATION.match(line)) and current:
            current[-1] = current[-1]._replace(other=other[1])
        elif one := INSTRUCTION.match(line):
            current.append(Instruction(int(one[1], 16), re.sub(r"(?<=[a-z]{3})q$", "", one[2]), one[3], None))
    return found


def number_to(one, register):
    """The number that an instruction adds to, or takes from, a register; None where it does neither."""
    found = NUMBER_TO.match(one.operands)
    if not found or found[2] != register:
        return None
    number = int(found[1], 0)
    return number - 2**64 if number >= 2**63 else number


def without_probes(instructions):
    """The same with large frames taken at once, where the code takes them page by page."""
    found, number = [], 0
    while number < len(instructions):
        some = instructions[number : number + len(PROBES)]
        if tuple(one.operation for one in some) == PROBES and some[0].operands.replace(" ", "") == "%rsp,%r11":
            found.append(some[0]._replace(operation="sub", operands=f"${number_to(some[1], '%r11')}, %rsp"))
            number += len(PROBES)
        else:
            found.append(instructions[number])
            number += 1
    return found


def lowered(one):
    """By how many bytes an instruction makes the stack deeper."""
    if one.operation in ("push", "pop"):
        return WORD if one.operation == "push" else -WORD
    number = number_to(one, "%rsp")
    if number is not None and one.operation in ("sub", "add"):
        return number if one.operation == "sub" else -number
    moved = STACK_POINTER_MOVED.match(one.operands)
    if moved and one.operation == "lea":
        return -int(moved[1], 0)
    if INTO_STACK_POINTER.search(one.operands) and one.operation not in ("cmp", "test"):
        raise Unknown(f"{one.operation} {one.operands}")
    return 0


def target_of(one):
    """The place that a call or a jump goes to, None where a relocation tells it, and the function that is there."""
    target = TARGET.match(one.operands)
    if one.other:
        return None, one.other
    if not target:
        raise Unknown(f"{one.operation} {one.operands}")
    return int(target[1], 16), target[2]


def is_by_table(one):
    return one.operation == "jmp" and one.operands.startswith("*")


def next_of(number, instructions, by_place):
    """The instructions of the same function that may come after one, by their numbers; after a jump by a table none."""
    one = instructions[number]
    if one.operation.startswith("j") and not is_by_table(one):
        place, _ = target_of(one)
        if place in by_place:
            yield by_place[place]
    if one.operation not in ("jmp", "ret", "ud2"):
        if number + 1 == len(instructions):
            raise Unknown(f"no end behind {one.place:x}")
        yield number + 1


def depths_of(instructions):
    """How deep the stack is before each instruction, by following the code from its first one.

    Where a jump goes by a table, whatever nothing else leads to is taken to be led to from there; but for what fills
    the space up to a round place.
    """
    by_place = {one.place: number for number, one in enumerate(instructions)}
    work = {n for n, one in enumerate(instructions) if not PADDING.match(f"{one.operation} {one.operands}")}
    depths, todo, by_table = {}, [(0, 0)], None
    while todo or (by_table is not None and work - depths.keys()):
        if not todo:
            todo.append((min(work - depths.keys()), by_table))
        number, depth = todo.pop()
        if number in depths:
            if depths[number] != depth:
                raise Unknown(f"two depths at {instructions[number].place:x}")
            continue
        depths[number] = depth
        one = instructions[number]
        if is_by_table(one):
            by_table = depth
        todo += [(after, depth + lowered(one)) for after in next_of(number, instructions, by_place)]
    return depths


def below_pointer(one):
    """How many bytes, in whole words, an instruction uses below the stack pointer, as it may where no call follows."""
    most = max((int(number, 0) for number in BELOW_STACK_POINTER.findall(one.operands)), default=0)
    return -(-most // WORD) * WORD


def code_of(instructions):
    """What a function takes itself, and how deep it is where it calls another, or jumps to it as its last act."""
    instructions = without_probes(instructions)
    places = {one.place for one in instructions}
    depths, calls = depths_of(instructions), set()
    for number, depth in depths.items():
        one = instructions[number]
        if one.operation == "call":
            calls.add((depth + WORD, target_of(one)[1]))
        elif one.operation == "jmp" and not is_by_table(one) and target_of(one)[0] not in places:
            calls.add((depth, target_of(one)[1]))
    return Code(max(depth + below_pointer(instructions[number]) for number, depth in depths.items()), calls)


# ---- the deepest way


def deepest(name, functions, counts, above=()):
    """The most bytes in use below a function's return address; of one that is not among the functions, none.

    A function that calls itself by a count k is under way k + 1 times at most.
    """
    if name not in functions:
        return 0
    if name in above:
        raise Unknown(f"{' and '.join(above[above.index(name):])} call each other")
    code = code_of(functions[name])
    again = max((depth for depth, callee in code.calls if callee == name), default=0)
    if again and name not in counts:
        raise Unknown(f"{name} calls itself, by no count that is named")
    others = [(depth, callee) for depth, callee in code.calls if callee != name]
    below = [depth + deepest(callee, functions, counts, (*above, name)) for depth, callee in others]
    return max([code.most, *below]) + again * counts.get(name, 0)


def counts_of(root):
    """The counts that fall, as the sources start them."""
    found = {}
    for function, (crate, constant) in COUNTS.items():
        text = "".join(sources.text_of(root, file) for file in sources.files(root, f"{crate}/src/**/*.rt"))
        found[function] = int(re.search(rf"^(?:pub )?const {constant}: usize = (\d+);", text, re.MULTILINE)[1])
    return found


def function_of(crate, name, functions):
    """A door's function in an archive: its own, or, where that is part of the one that exports it, that one."""
    own = re.compile(rf"{crate}::(\w+::)*{name}")
    return next(filter(own.fullmatch, functions), exported.symbol_of(crate, name))


# ---- the run


def doors_named(text):
    """The doors of the first table of docs/DOORS.md, pairs of a crate and a function."""
    table = [line for line in text.partition("\n## ")[0].splitlines() if line.startswith("| `")]
    found, crate = [], None
    for row in table:
        for of, name in DOOR.findall(row.split("|")[1]):
            crate = of or crate
            found.append((crate, name))
    return found


def functions_in(file):
    """The instructions of each function of an archive or a program."""
    for tool in filter(shutil.which, DISASSEMBLERS):
        command = [tool, "-dr", "--no-show-raw-insn", str(file)]
        ended = subprocess.run(command, capture_output=True, encoding="utf-8", check=False)
        if ended.returncode == 0 and FUNCTION.search(ended.stdout):
            return functions_of(ended.stdout)
    raise Unknown(f"needs one that knows x86-64 of {', '.join(DISASSEMBLERS)}")


def archive_of(doors, folder):
    """Proves and builds the archive that exports the doors, in a folder."""
    shutil.copytree(REPOSITORY / "crates", folder / "crates", ignore=shutil.ignore_patterns(MADE_BY_RT))
    text, below = exported.text_of(REPOSITORY, doors)
    source = folder / "crates" / CRATE / "src" / "lib.rt"
    source.parent.mkdir(parents=True)
    source.write_text(text, "utf-8")
    listed = (REPOSITORY / "crates.txt").read_text("utf-8")
    (folder / "crates.txt").write_text(f"{listed}\n{CRATE} staticlib: {' '.join(below)}\n", "utf-8")
    crate = folder / "crates" / CRATE
    ended = subprocess.run(["rt", "lib"], cwd=crate, stdout=sys.stderr, check=False)
    if ended.returncode != 0:
        raise Unknown(f"rt lib in crates/{CRATE}: status {ended.returncode}")
    return crate / MADE_BY_RT / f"lib{CRATE}.a"


def stack_of_doors():
    """Pairs of a door and the bytes that it takes."""
    doors = doors_named((REPOSITORY / "docs" / "DOORS.md").read_text("utf-8"))
    with tempfile.TemporaryDirectory() as folder:
        functions = functions_in(archive_of(doors, pathlib.Path(folder)))
    counts = counts_of(REPOSITORY)
    for crate, name in doors:
        yield f"{crate}::{name}", WORD + deepest(function_of(crate, name, functions), functions, counts)


def stack_of_programs(names):
    """Pairs of a program and the bytes that it takes."""
    for name in names:
        if not place_of(name).is_file():
            raise Unknown(f"there is no crates/{name}/out/{name}; `rt run` in crates/{name} makes it")
        yield name, WORD + deepest("main", functions_in(place_of(name)), counts_of(REPOSITORY))


def main(names):
    try:
        for name, taken in stack_of_programs(names) if names else stack_of_doors():
            print(f"{taken:9} {name}")
    except (Unknown, OSError) as trouble:
        sys.exit(f"stack: {trouble}")


if __name__ == "__main__":
    main(sys.argv[1:])
