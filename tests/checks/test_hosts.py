"""Tests of the host side that need no compiler: the header and the Rust crate say what the crates and their definitions
say, and the same as each other; and the pure parts of the commands.
"""

import functools
import re
import unittest

from tests.checks import cases, hosts
from tests.checks.test_house import ROOT, number_in
from tests.independent.saved import reread_listing
from tools import packaging, sources

HEADER = (packaging.HOSTS / "c" / "peashuttle.h").read_text("utf-8")
CRATE = (packaging.HOSTS / "rust" / "src" / "lib.rs").read_text("utf-8")
PROVED = (packaging.HOSTS / "rust" / "src" / "proved.rs").read_text("utf-8")
PAGE = (packaging.HOSTS / "README.md").read_text("utf-8")

FROM_SOURCES = {  # what the header and the crate call a constant, and what the sources call it
    "TABLE_ROOM": "TABLE_TEXT_ROOM", "SCRIPT_ROOM": "SCRIPT_TEXT_ROOM", "SAVED_ROOM": "SAVE_ROOM",
    "DEFINITIONS": "DEFINITION_ROOM", "EVENTS": "EVENT_ROOM", "TERMS": "TERM_ROOM", "DIGITS": "DIGIT_ROOM",
    "CELLS": "CELL_ROOM", "NODES": "NODE_ROOM", "ARCS": "ARC_ROOM", "MEETINGS": "MEETING_ROOM", "COLUMN_WORDS": "REFERENCES",
    "NO_LINE": "NOT_A_LINE",
}
LENGTHS = {"HEAD_WORDS": "Head", "COUNTER_WORDS": "Counters"}  # of arrays that the sources give by a number
OWN = {"ALIGNMENT", "STACK", "NO_BLOCK", "H"}  # of the header and the crate alone
ANSWERS = {  # what the header calls a number, and the definition's equation for it
    "TAU": "of_event τ = 0", "TICK": "of_event ✓ = 1", "EVENT": "of_event (visible e) = 2 + e",
    "LIVE": "of_status live = 0", "ENDED": "of_status ended = 1", "STUCK": "of_status stuck = 2",
    "OFFERS_TAU": "of_offers true false = 1", "OFFERS_TICK": "of_offers false true = 2",
    "REFUSED": "of_refusal n = 0x10000 + n",
}
DEFINED = ("DONE", "END", "NO_TABLE", "NO_RUN", "NO_TRACK", "TABLE_STAMP", "RUN_STAMP", "TRACK_STAMP")
IN_C = {"u8": "uint8_t", "u16": "uint16_t", "u32": "uint32_t", "u64": "uint64_t", "usize": "size_t", None: "void"}
WIDTHS = {"uint8_t": 1, "uint16_t": 2, "uint64_t": 8, "size_t": 8}
IN_HEADER = {("Graph", "track"): "graph"}  # what a field of a struct is called in a block
GIVEN = {"cursor": "at", "track": "found"}  # what the functions to call have another name for
CONSTANT = r"^(?:pub )?const (\w+): \w+ = (\w+);"


# ---- what the texts say


def in_header():
    """The constants of the header, without their first word."""
    found = re.findall(r"^#define PEASHUTTLE_(\w+)[ \t]+(?:\(\(size_t\))?(0x[0-9a-f]+|\d+)u?\)?", HEADER, re.MULTILINE)
    return {name: int(value, 0) for name, value in found}


def constants_in(text):
    """The constants of a text in Rattle or in Rust: pairs of a name and a value."""
    return [(name, number_in(value)) for name, value in re.findall(CONSTANT, text, re.MULTILINE)]


def refusals_in(text):
    """The variants of the enum of refusals, by names like those of constants, which count up from the first."""
    body = re.search(r"^pub enum Refusal \{\n(    \w+ = 1,\n.*?)^\}", text, re.MULTILINE | re.DOTALL)
    names = re.findall(r"^    (\w+)(?: = 1)?,$", body[1], re.MULTILINE) if body else []
    return [(re.sub(r"(?<!^)(?=[A-Z])", "_", name).upper(), number) for number, name in enumerate(names, 1)]


@functools.cache
def texts_of(pattern):
    return [sources.text_of(ROOT, file) for file in sources.files(ROOT, pattern)]


@functools.cache
def in_sources(name):
    """The value of a constant of the crates."""
    wanted = FROM_SOURCES.get(name, name)
    texts = texts_of("*/src/**/*.rt")
    (value,) = {value for text in texts for found, value in constants_in(text) + refusals_in(text) if found == wanted}
    return value


def in_definitions(name):
    """The value of a definition that is a number, under the name that definitions have for a constant."""
    line = re.compile(rf"^{name.lower()} = (0x[0-9a-f]+|\d+)$", re.MULTILINE)
    (value,) = {int(value, 0) for text in texts_of("*/specs/**/*.antt") for value in line.findall(text)}
    return value


@functools.cache
def arrays():
    """Of the names for arrays in the sources: what each is made of, and how many."""
    found = {}
    for text in texts_of("*/src/**/*.rt"):
        for name, of, count in re.findall(r"^pub type (\w+) = \[(\w+); (\w+)\];", text, re.MULTILINE):
            found[name] = (of, in_sources(count) if count[0].isalpha() else int(count))
    return found


@functools.cache
def exported():
    """The functions that the sources export: what each takes, pairs of a name and a type, and what it answers."""
    function = re.compile(r'^pub extern "C" fn (\w+)\(([^)]*)\)(?: -> (\w+))?', re.MULTILINE)
    found = {}
    for text in texts_of("*/src/**/*.rt"):
        for name, takes, answers in function.findall(text):
            found[name] = (re.findall(r"(\w+): ([^,\n]+)", takes), answers or None)
    return found


def words_of(text):
    """A list of parameters or arguments between commas, each on one line."""
    return [" ".join(word.split()) for word in text.split(",") if word.strip()]


# ---- how an exported function is declared, and what is handed on to it


def c_parameters(name, kind):
    """A parameter of an exported function in C: of a slice, two."""
    const, of = "" if "mut " in kind else "const ", kind.replace("&", "").replace("mut ", "")
    if of == "[u8]":
        return [f"{const}uint8_t *{name}", f"size_t {name}_length"]
    kind_in_c = f"peashuttle_{of.removesuffix('Block').lower()}" if of.endswith("Block") else IN_C[of]
    return [f"{const}{kind_in_c} *{name}"]


def rust_parameters(name, kind):
    """The same in Rust."""
    if kind in ("&[u8]", "&mut [u8]"):
        return [f"{name}: *{'mut' if 'mut' in kind else 'const'} u8", f"{name}_length: usize"]
    return [f"{name}: {kind.removesuffix('Block')}"]


def names_taken(takes):
    """The names of what an exported function takes: of a slice, two."""
    return [word for name, kind in takes for word in ([name, f"{name}_length"] if "[u8]" in kind else [name])]


def declared_in_c():
    found = re.findall(r"^(\w+) (peashuttle_\w+)\(([^)]*)\);", HEADER, re.MULTILINE)
    return {name: (words_of(takes), answers) for answers, name, takes in found}


def declared_in_rust():
    found = re.findall(r"^    pub fn (\w+)\(([^)]*)\)(?: -> (\w+))?;", PROVED, re.MULTILINE)
    return {name: (words_of(takes), answers or None) for name, takes, answers in found}


def functions_in_c():
    """The functions of the header: the name and the body of each."""
    return re.findall(r"^static inline \w+ (\w+)\([^)]*\)\n\{\n(.*?)^\}", HEADER, re.MULTILINE | re.DOTALL)


def functions_in_rust():
    """The functions of the Rust crate: the block, none where it is of none, the name and the body of each."""
    function = r"^{0}pub fn (\w+)\([^{{]*\{{\n(.*?)^{0}\}}"
    found = [("", *one) for one in re.findall(function.format(""), CRATE, re.MULTILINE | re.DOTALL)]
    for block, body in re.findall(r"^impl (Table|Run|Track) \{\n(.*?)^\}", CRATE, re.MULTILINE | re.DOTALL):
        found += [(block, *one) for one in re.findall(function.format("    "), body, re.MULTILINE | re.DOTALL)]
    return found


def handed_on_in_c():
    """By exported function: which one the header's function of that name calls, and the names of what it hands on."""
    unless_null, found = re.compile(r"(\w+) != NULL \? \1 : (?:peashuttle_nowhere\(\)|&unasked)"), {}
    for name, body in functions_in_c():
        for called, arguments in re.findall(r"(peashuttle_proved_\w+)\((.*?)\);\n", body, re.DOTALL):
            words = [unless_null.sub(r"\1", word) for word in words_of(arguments)]
            found[hosts.exported_by(name)] = (called, [GIVEN.get(word, word) for word in words])
    return found


def handed_on_in_rust():
    """The same of the Rust crate."""
    found = {}
    for block, name, body in functions_in_rust():
        for called, arguments in re.findall(r"proved::(\w+)\((.*)\) \}", body):
            words = [word.removeprefix("&mut ").replace("self", block.lower()) for word in words_of(arguments)]
            words = [re.sub(r"\.as_(mut_)?ptr\(\)$", "", word).replace(".len()", "_length") for word in words]
            found[f"peashuttle_proved_{name}"] = (called, [GIVEN.get(word, word) for word in words])
    return found


# ---- blocks


def fields_in(text, struct, field):
    """The fields of each block, in their order: a name, what it is made of in C, and how many; none where it is no array."""
    found = {}
    for block, body in re.findall(struct + r" \{\n(.*?)^\}", text, re.MULTILINE | re.DOTALL):
        found[block.lower()] = [
            (one["name"], IN_C.get(one["of"], one["of"]), one["count"] and in_header()[one["count"]])
            for one in re.finditer(field, body, re.MULTILINE)
        ]
    return found


def fields_in_c():
    field = r"^    (?P<of>\w+) (?P<name>\w+)(?:\[PEASHUTTLE_(?P<count>\w+)\])?;"
    return fields_in(HEADER, r"^typedef struct peashuttle_(\w+)", field)


def fields_in_rust():
    field = r"^    (?P<name>\w+): \[?(?P<of>\w+)(?:; (?P<count>\w+)\])?,"
    return fields_in(CRATE, r"^#\[repr\(C\)\]\npub struct (\w+)", field)


@functools.cache
def structs():
    """The structs of the sources that are laid out as C does: pairs of a field and its type, by the struct's name."""
    struct = re.compile(r"^#\[repr\(C\)\]\n(?:#[^\n]*\n)*pub struct (\w+) \{\n(.*?)^\}", re.MULTILINE | re.DOTALL)
    found = struct.findall("\n".join(texts_of("*/src/**/*.rt")))
    return {name: re.findall(r"^    pub (\w+): (\w+),", body, re.MULTILINE) for name, body in found}


def laid_out(struct):
    """The fields of a struct, and in the place of each that is a struct itself that one's: C lays out both alike."""
    for name, kind in structs()[struct]:
        if kind in structs():
            yield from laid_out(kind)
        else:
            of, count = arrays().get(kind, (kind, None))
            yield IN_HEADER.get((struct, name), name), IN_C[of], count


def fields_in_sources():
    blocks = {name.removesuffix("Block").lower(): name for name in structs() if name.endswith("Block")}
    blocks |= dict(re.findall(r"^pub type (\w+)Block = (\w+);", "\n".join(texts_of("peashuttle/src/**/*.rt")), re.MULTILINE))
    return {block.lower(): list(laid_out(struct)) for block, struct in blocks.items()}


def size_of(fields):
    """The bytes of a block, each field behind the one before, at a place that its width divides."""
    end, widest = 0, 1
    for _, of, count in fields:
        width = WIDTHS[of]
        end, widest = -(-end // width) * width + width * (1 if count is None else count), max(widest, width)
    return -(-end // widest) * widest


class Numbers(unittest.TestCase):
    def test_the_header_has_the_constants_of_the_sources(self):
        for name, value in in_header().items():
            if name in LENGTHS:
                self.assertEqual(value, arrays()[LENGTHS[name]][1], name)
            elif name not in OWN and name not in ANSWERS:
                self.assertEqual(value, in_sources(name), name)

    def test_the_header_has_every_refusal(self):
        refusals = HEADER[HEADER.index("numbers of refusal. */") : HEADER.index("/* Whether a number is a refusal. */")]
        self.assertEqual([int(number) for number in re.findall(r" (\d+)u$", refusals, re.MULTILINE)], list(range(1, 14)))

    def test_the_header_has_the_numbers_of_the_definitions(self):
        equations = set("\n".join(texts_of("*/specs/**/*.antt")).splitlines())
        for name, equation in ANSWERS.items():
            self.assertIn(equation, equations)
            self.assertEqual(in_header()[name], int(re.search(r"= (\w+)", equation)[1], 0), name)
        for name in DEFINED:
            self.assertEqual(in_header()[name], in_definitions(name), name)

    def test_the_header_has_the_numbers_of_the_answers(self):
        (answers,) = texts_of("answers/src/lib.rt")
        told = dict(constants_in(answers))
        for name in ("REFUSED", *DEFINED):
            self.assertEqual(in_header()[name], told[name], name)

    def test_the_crate_has_the_constants_of_the_header(self):
        self.assertGreater(len(constants_in(CRATE)), 25)
        for name, value in constants_in(CRATE):
            self.assertEqual(value, in_header()[name], name)

    def test_what_refusals_mean(self):
        meanings = re.findall(r'^ +return "(.*)";', HEADER, re.MULTILINE)
        self.assertEqual(meanings[:-1], re.findall(r'^ +\d+ => "(.*)",', CRATE, re.MULTILINE))
        self.assertEqual(len(meanings), 14)
        for number, meaning in enumerate(meanings[:7], 1):
            self.assertIn(f"| {number} | {meaning} |", PAGE)

    def test_how_much_stack(self):
        told = {name.removeprefix("peashuttle_"): most for name, most in hosts.stack_told(HEADER).items()}
        self.assertEqual({hosts.exported_by(f"peashuttle_{name}") for name in told}, set(exported()))
        rows = re.findall(r"^//! \| (\[.*?) \| ([\d,]+) \|$", CRATE, re.MULTILINE)
        of_crate = {name: int(most.replace(",", "")) for row, most in rows for name in re.findall(r"(\w+)`", row)}
        self.assertEqual(of_crate, told)
        for name in ("list", "play", "step", "offers", "check"):
            self.assertIn(f"{told[name]:,}", PAGE)


class Functions(unittest.TestCase):
    def test_every_function_is_declared(self):
        self.assertEqual(len(exported()), 10)
        in_c, in_rust = {}, {}
        for name, (takes, answers) in exported().items():
            in_c[name] = ([word for one in takes for word in c_parameters(*one)], IN_C[answers])
            in_rust[name] = ([word for one in takes for word in rust_parameters(*one)], answers)
        self.assertEqual(declared_in_c(), in_c)
        self.assertEqual(declared_in_rust(), in_rust)

    def test_every_function_hands_on_what_it_is_given(self):
        wanted = {name: (name, names_taken(takes)) for name, (takes, _) in exported().items()}
        self.assertEqual(handed_on_in_c(), wanted)
        self.assertEqual(handed_on_in_rust(), wanted)


class Blocks(unittest.TestCase):
    def test_the_fields_of_the_sources(self):
        self.assertEqual(sorted(fields_in_sources()), ["run", "table", "track", "work"])
        self.assertEqual(fields_in_c(), fields_in_sources())
        self.assertEqual(fields_in_rust(), fields_in_sources())

    def test_a_struct_within_a_block_has_no_room_to_spare(self):
        within = {kind for fields in structs().values() for _, kind in fields if kind in structs()}
        self.assertEqual(within, {"Show", "Table", "Run", "Words", "Graph"})
        for struct in within:
            fields = list(laid_out(struct))
            self.assertEqual(size_of(fields), sum(WIDTHS[of] * count for _, of, count in fields), struct)

    def test_sizes_that_the_page_tells(self):
        for block, fields in fields_in_sources().items():
            self.assertIn(f"| {block} | {size_of(fields):,} |", PAGE)

    def test_how_large_a_block_is(self):
        fields = [("a", "uint8_t", 3), ("b", "uint16_t", None), ("c", "size_t", 1), ("d", "uint8_t", 1)]
        self.assertEqual(size_of(fields), 24)


class Commands(unittest.TestCase):
    def test_other_machines_and_missing_tools(self):
        self.assertEqual(hosts.reason_to_skip("x86_64"), "")
        self.assertIn("aarch64", hosts.reason_to_skip("aarch64"))
        self.assertEqual(hosts.missing_tools(lambda tool: f"/bin/{tool}"), "")
        self.assertIn("there is no gcc and no cargo", hosts.missing_tools(lambda tool: tool == "rt"))

    def test_damaged_inputs(self):
        self.assertEqual(hosts.prefixes(b"1f"), [b"", b"1"])
        self.assertEqual(hosts.changed(b"1f"), [b"0f", b"1g", b"qf", b"1&"])

    def test_kept_tracks_are_written_again(self):
        (given,) = hosts.kept_track("a")
        self.assertEqual(reread_listing(given), given[len(cases.TABLE_A) :])
        self.assertEqual(hosts.kept_track("i"), [])

    def test_the_package(self):
        self.assertEqual(packaging.version_text("v1-2-g3", "abc"), "Peashuttle, v1-2-g3\ncommit abc\n")
        self.assertEqual(packaging.version_text("The newest", ""), "Peashuttle, The newest\n")
        self.assertEqual(packaging.folder_name("W1: capitals, CR LF"), "peashuttle-W1-capitals-CR-LF")
        packed = {source for source in packaging.CONTENTS.values() if source.is_relative_to(packaging.HOSTS)}
        for folder in ("c", "rust/src", "rust/examples"):
            for file in (packaging.HOSTS / folder).glob("*.*"):
                self.assertTrue(file in packed or file.name == "tests.c", file)
