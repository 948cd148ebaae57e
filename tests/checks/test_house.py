"""Rules of the house that no prover holds: where definitions stand and what they import, what crates.txt says,
constants, doors, front pages.

A rule is a function of a root folder that tells what breaks it, a line each. Each is tried on small made-up trees,
and then holds the repository. The tools that read the sources, unused.py and closure.py, are tried here too.
"""

import pathlib
import re
import tempfile
import unittest
from collections import defaultdict

ROOT = next(path for path in pathlib.Path(__file__).resolve().parents if (path / "crates.txt").is_file())

from tools import closure, sources, unused

HEADINGS = ["frames", "rules", "saving", "programs"]
HANDED_ABOUT = {"play": {"offering", "rules"}}  # an event in what a script's line comes to, and what is offered
LOGIC_LIBRARIES = ("Prim.", "mathlib.", "lib.", "Rattle.std.specs.", "Rattle.std.proofs.")
FRONT_PAGES = {"Lib.antt": "", "words.antt": "words/", "code.antt": "code/"}  # of specs/, and what each is of
KINDS = {"": "meaning", "words": "words", "code": "code"}  # of definitions, by their folder below specs/


# ---- where definitions stand, and what they import


def place_in_specs(file):
    """The folder and the name of a file of specs/, below it."""
    folder, _, name = file.split("/specs/")[1].rpartition("/")
    return folder, name


def is_front_page(file):
    folder, name = place_in_specs(file)
    return not folder and name in FRONT_PAGES


def misplaced_definitions(root):
    """Files of specs/ that are of no kind or named like a front page, and definitions that stand on one."""
    for file in sources.files(root, "*/specs/**/*.antt"):
        folder, name = place_in_specs(file)
        if folder not in KINDS:
            yield f"{file} stands in none of specs/, specs/words/ and specs/code/"
        elif not folder and name not in FRONT_PAGES and name.lower() in FRONT_PAGES:
            yield f"{file} is spelled as a front page is"
        elif is_front_page(file):
            code = sources.antt_code(sources.text_of(root, file))
            for line in filter(None, map(str.strip, code.splitlines())):
                if not re.fullmatch(r"pub mod \S+", line):
                    yield f"{file} has a line other than comments and `pub mod`: {line}"


def misled_imports(root):
    """Imports of a file of specs/ that its kind does not allow."""
    for file in sources.files(root, "*/specs/**/*.antt"):
        kind = KINDS.get(place_in_specs(file)[0])
        for module in sorted(sources.modules_of(sources.text_of(root, file))):
            if kind == "meaning" and not is_meaning(module):
                yield f"{file} is meaning and imports {module}"


def is_meaning(module):
    """Whether a module is a file of meaning, a declared type, or the logic's own, which std passes on."""
    if module.startswith(LOGIC_LIBRARIES):
        return True
    below = re.fullmatch(r"Rattle\.\w+\.specs\.(.+)", module)
    return bool(below) and (below[1].startswith("declared.") or not re.search(r"\.|^(words|code)$", below[1]))


# ---- crates.txt


def listed_crates(root):
    """The lines of crates.txt that name crates: heading, crate and what it stands on."""
    heading = None
    for line in sources.text_of(root, "crates.txt").splitlines():
        if line.startswith("#"):
            heading = line[1:].strip() if line[1:].strip() in HEADINGS else heading
        elif line.strip():
            name, _, dependencies = line.partition(":")
            yield heading, name.split()[0], set(dependencies.split())


def misheaded_crates(root):
    """Headings that are missing or out of order, crates under none, and crates that are listed or there alone."""
    lines = sources.text_of(root, "crates.txt").splitlines()
    headings = [line[1:].strip() for line in lines if line.startswith("#") and line[1:].strip() in HEADINGS]
    if headings != HEADINGS:
        yield f"crates.txt has the headings {', '.join(headings) or 'none'}, not {', '.join(HEADINGS)}"
    listed, there = list(listed_crates(root)), sources.crates(root)
    names = [name for _, name, _ in listed]
    yield from (f"crates.txt has {name} under no heading" for heading, name, _ in listed if heading is None)
    yield from (f"crates.txt does not list {name}" for name in there if name not in names)
    yield from (f"crates.txt lists {name}, which is no folder" for name in names if name not in there)


def used_crates(root, crate):
    """The crates and libraries of the kit that a crate's files name, each with one of the files."""
    known = {*sources.crates(root), *sources.KIT_LIBRARIES} - {crate}
    used = {}
    for file in sources.files(root, f"{crate}/**/*.antt"):
        for name in crates_in_modules(sources.modules_of(sources.text_of(root, file))):
            used.setdefault(name, file)
    for file in sources.files(root, f"{crate}/src/**/*.rt"):
        rattle = sources.RattleFile(sources.text_of(root, file))
        for name in crates_in_modules(rattle.ghost_modules) | crates_in_paths(rattle):
            used.setdefault(name, file)
    return {name: file for name, file in used.items() if name in known}


def crates_in_modules(modules):
    """The crates that modules are of, but for a crate's own."""
    return set(re.findall(r"^Rattle\.(\w+)\.", "\n".join(modules), re.MULTILINE))


def crates_in_paths(rattle):
    """What the paths of a Rattle file begin with, but for its own modules and what `use` lines bring in."""
    brought = {use.local for use in rattle.uses}
    cited = rattle.cited_elsewhere.union(*(item.cited for item in rattle.items.values()))
    paths = {use.path for use in rattle.uses} | {path for path in cited if path[0] not in brought}
    return {path[0] for path in paths if len(path) > 1} - set(rattle.modules)


def misnamed_dependencies(root):
    """What crates.txt names of a crate that it does not use, and what it uses and crates.txt does not name."""
    for _, crate, named in listed_crates(root):
        used = used_crates(root, crate)
        unused_names = named - set(used) - HANDED_ABOUT.get(crate, set())
        if unused_names:
            yield f"{crate} names {' '.join(sorted(unused_names))}, and uses none of it directly"
        for name in sorted(set(used) - named):
            yield f"{crate} does not name {name}, and uses it in {used[name]}"


# ---- what nothing uses


def needless(root):
    """What unused.py finds, but for what is only wider than needed."""
    for finding in unused.findings(root):
        if finding.kind != "wider":
            yield f"{finding.file}:{finding.line} {finding.kind} {finding.name}"


# ---- constants


def constants(root):
    """By name, where each constant of src/ is declared, and its value."""
    found = defaultdict(list)
    for file in sources.files(root, "*/src/**/*.rt"):
        for item in sources.RattleFile(sources.text_of(root, file)).items.values():
            if item.kind == "const":
                found[item.name].append((f"{file}:{item.line}", number_in(item.value)))
    return dict(sorted(found.items()))


def number_in(value):
    """A number as such, however it is written; any other value as it is written."""
    digits = re.sub(r"(?<=\d)_?[iu](8|16|32|64|size)$", "", value)
    try:
        return int(digits, 0)
    except ValueError:
        return value


def constants_of_two_values(root):
    for name, declared in constants(root).items():
        if len({value for _, value in declared}) > 1:
            yield f"{name}: " + ", ".join(f"{value} in {place}" for place, value in declared)


def constants_declared_twice(root):
    for name, declared in constants(root).items():
        if len(declared) > 1 and len({value for _, value in declared}) == 1:
            yield f"{name} = {declared[0][1]}: " + ", ".join(place for place, _ in declared)


# ---- doors

OF_A_READER = {"standard_input::read_full"}  # what a reader gives is its own: no law settles it
TAKEN_WITH_A_TYPE = r"Dict|(?:Laws|IsCopy|Ghosts) T(?:\.Denot)?"  # of a contract over a type parameter T
OF_EVERY_TYPE = rf"\(T : RattleType\)\s+(?:\(\w+ : (?:{TAKEN_WITH_A_TYPE})\)\s+)*→ "


def statements(text):
    """The rows of a document's tables, and its sentences."""
    for block in re.split(r"\n\s*\n|\n(?=[-|#])", text):
        if block.startswith("|"):
            yield block
        else:
            yield from re.split(r"(?<=\.)\s+", " ".join(block.split()))


def named_in(statement):
    """What stands in backquotes in a statement."""
    return set(re.findall(r"`([^`]+)`", statement))


def names_crate(names, crate):
    return any(name == crate or name.startswith((f"{crate}::", f"{crate}/", f"crates/{crate}/")) for name in names)


def exported_functions(root):
    """Functions that other crates can call, in order, each with its crate and where it stands."""
    tree = unused.Tree(root)
    for one in sorted(unused.Items(tree).exports()):
        file, name = one.target
        if tree.rattle[file].items[name].kind == "fn":
            yield one


def unnamed_doors(root):
    """Functions that other crates can call and docs/DOORS.md does not name."""
    named = [named_in(statement) for statement in statements(sources.text_of(root, "docs/DOORS.md"))]
    for one in exported_functions(root):
        whole = f"{one.crate}::{one.name}"
        if not any(whole in names or one.name in names and names_crate(names, one.crate) for names in named):
            yield f"{whole} ({one.file}:{one.line})"


def called_with_parts(root, one):
    """Of a function that takes a block, or whose crate none can stand on, the crate and the name of the one that it calls alone."""
    text = sources.text_of(root, one.file)
    blocks = "|".join(re.findall(r"^pub struct (\w+) ", text, re.MULTILINE)) or "(?!)"
    takes = r"[^)]*" if one.crate in static_libraries(root) else rf"[^)]*&(?:mut )?(?:{blocks})\b"
    function = rf'^pub (?:extern "C" )?fn {one.name}\({takes}.*?^\}}'
    found = re.search(function, text, re.MULTILINE | re.DOTALL)
    calls = found and re.search(r"\{\n    ([\w:]+)\([^;{}]*\);?\n\}", found[0])
    if calls:
        head, *below = calls[1].split("::")
        paths = {use.local: use.path for use in sources.uses_of(sources.rattle_code(text))}
        return (*paths.get(head, (head,)), *below)
    return None


def static_libraries(root):
    """The crates that are built for C, on which no crate can stand."""
    listed = sources.text_of(root, "crates.txt") if pathlib.Path(root, "crates.txt").is_file() else ""
    return set(re.findall(r"^(\w+) +staticlib\b", listed, re.MULTILINE))


def settled_by(root, one, exported):
    """The crate and the name of the function whose law says that the promise of one settles the outcome."""
    called = called_with_parts(root, one)
    if called in exported:
        return settled_by(root, exported[called], exported)
    return called or (one.crate, one.name)


def unsettled_functions(root):
    """Functions that other crates can call, and of which no law says that their promise settles the outcome.

    One that takes a block promises what the function over the block's parts does, and the law is of that one.
    One that is exported by a static library promises what the function does that it hands all on to.
    The law of one over a type parameter is of every type: its statement takes that first, with what the contract takes of it,
    and no other premise.
    """
    laws = "\n".join(sources.text_of(root, file) for file in sources.files(root, "outcomes/proofs/*.antt"))
    exported = {(one.crate, one.name): one for one in exported_functions(root)}
    for one in exported.values():
        if f"{one.crate}::{one.name}" in OF_A_READER:
            continue
        crate, name = settled_by(root, one, exported)
        law = f"{crate}_{name}_settled"
        if not re.search(rf"^pub {re.escape(law)} : (?:{OF_EVERY_TYPE})?Settles\s", laws, re.MULTILINE):
            yield f"{one.crate}::{one.name}: no law {law}"


# ---- demands


def demands(text):
    """The theorems that the table of docs/DEMANDS.md names, behind the customer's sentences."""
    table = re.search(r"^\| the customer's sentence \|.*\n\|[-|]+\n((?:\|.*\n)*)", text, re.MULTILINE)
    rows = table[1].splitlines() if table else ()
    return {name for row in rows for name in named_in(row.split("|")[2]) if "::" not in name}


def statements_of(text):
    """By name, the public laws of a file: each as its signature, with the heads of the modules around it."""
    heads, found = [], {}
    for piece in re.split(r"\n(?=\s*\S)", sources.antt_code(text)):
        depth = len(piece) - len(piece.lstrip())
        law = re.match(r"\s*pub ([^\s:({]+) :", piece)
        if heads and heads[-1][0] < depth and not heads[-1][1].rstrip().endswith("where"):
            heads[-1][1] += "\n" + piece
        elif piece.lstrip().startswith("module "):
            heads = [head for head in heads if head[0] < depth] + [[depth, piece]]
        elif law:
            around = [head[1] for head in heads if head[0] < depth]
            name, edge = law[1], depth
            found[name] = "\n".join([*around, piece])
        elif found and depth > edge:
            found[name] += "\n" + piece
        else:
            edge = 1000
    return found


def demands_in_own_words(root):
    """Types in the statement of a demand's theorem that are declared among proofs."""
    wanted = demands(sources.text_of(root, "docs/DEMANDS.md"))
    for file in sources.files(root, "*/proofs/*.antt"):
        text = sources.text_of(root, file)
        read = sources.AnttFile(text)
        own = set(read.declarations) | {one.local for one in read.imports if ".proofs." in one.module}
        for name, statement in statements_of(text).items():
            types = {path for path in sources.cited_paths(statement) if path[0].isupper() and path in own}
            if name in wanted and types:
                yield f"{file}: {name} is stated with {', '.join(sorted(types))}"


# ---- front pages


def pages(root):
    """Each front page, with the files that it is to declare and name."""
    folders = {f"specs/{page}": f"specs/{folder}" for page, folder in FRONT_PAGES.items()}
    folders["proofs/Lib.antt"] = "proofs/"
    for crate in sources.crates(root):
        for page, folder in folders.items():
            below = sources.files(root, f"{crate}/{folder}*.antt")
            yield f"crates/{crate}/{page}", [file for file in below if file != f"crates/{crate}/{page}"]


def missing_on_front_pages(root):
    """Files that their front page does not declare, or does not name in its comment."""
    for page, below in pages(root):
        text = sources.text_of(root, page) if pathlib.Path(root, page).is_file() else ""
        declared = set(re.findall(r"^(?:pub )?mod (\S+)$", text, re.MULTILINE))
        named = named_in(" ".join(re.findall(r"^--(.*)", text, re.MULTILINE)))
        for file in below:
            name = pathlib.PurePosixPath(file).stem
            if name not in declared:
                yield f"{page} does not declare {name}"
            elif name not in named:
                yield f"{page} does not name `{name}` in its comment"


# ---- the rules on made-up trees


class MadeUp(unittest.TestCase):
    """A test with small trees of its own."""

    def tree(self, text):
        """A folder with files, each behind a line `== NAME`, below crates/, or from the root on by a slash."""
        folder = tempfile.TemporaryDirectory()
        self.addCleanup(folder.cleanup)
        for name, lines in re.findall(r"^== (\S+)\n((?:(?!== ).*\n)*)", text, re.MULTILINE):
            path = pathlib.Path(folder.name, name[1:] if name.startswith("/") else f"crates/{name}")
            path.parent.mkdir(parents=True, exist_ok=True)
            path.write_text(lines, "utf-8")
        return pathlib.Path(folder.name)


class Definitions(MadeUp):
    def misled(self, file, line):
        return list(misled_imports(self.tree(f"== {file}\n-- What it says.\n{line}\n")))

    def test_meaning_imports_meaning(self):
        for module in (
            "Rattle.b.specs.Line.{line}",
            "Rattle.a.specs.Line.{line as text}",
            "Rattle.b.specs.Line as L",
            "Rattle.b.specs.declared.Line.TheVariants.{Found}",
            "Prim.Native.Nat.{ℕ, ◌+◌}",
            "mathlib.Core.List.{[]}",
            "lib.Dec.{eqb}",
        ):
            self.assertEqual(self.misled("a/specs/Table.antt", f"use {module}"), [], module)

    def test_meaning_imports_nothing_else(self):
        for module in (
            "Rattle.b.specs.words.Held.{held}",
            "Rattle.a.specs.code.Take as take",
            "Rattle.b.specs.code as c",
            "Rattle.b.specs as b",
            "Rattle.b.specs.{words.Held.held}",
            "Rattle.b.proofs.Laws.{law}",
            "borrow.Author.Needs.{needs}",
        ):
            self.assertEqual(len(self.misled("a/specs/Table.antt", f"use {module}")), 1, module)

    def test_whole_paths_count(self):
        self.assertEqual(
            self.misled("a/specs/Table.antt", "x = Rattle.b.specs.code.Take.take 0"),
            ["crates/a/specs/Table.antt is meaning and imports Rattle.b.specs.code.Take"],
        )

    def test_comments_do_not_count(self):
        self.assertEqual(self.misled("a/specs/Table.antt", "-- use Rattle.b.specs.code.Take.{take}"), [])

    def test_words_and_code_import_all(self):
        self.assertEqual(self.misled("a/specs/words/Held.antt", "use Rattle.b.specs.code.Take.{take}"), [])
        self.assertEqual(self.misled("a/specs/code/Take.antt", "use Rattle.b.specs.code.Put.{put}"), [])

    def test_three_kinds_and_front_pages(self):
        root = self.tree("""\
== a/specs/Lib.antt
-- Tables: `Table`.
pub mod Table
== a/specs/Table.antt
x : ℕ
x = 1
== a/specs/words.antt
-- Words: `Held`.
pub mod Held
use Prim.Native.Nat.{ℕ}
== a/specs/words/Held.antt
== a/specs/Code.antt
== a/specs/more/Other.antt
""")
        self.assertEqual(list(misplaced_definitions(root)), [
            "crates/a/specs/Code.antt is spelled as a front page is",
            "crates/a/specs/more/Other.antt stands in none of specs/, specs/words/ and specs/code/",
            "crates/a/specs/words.antt has a line other than comments and `pub mod`: use Prim.Native.Nat.{ℕ}",
        ])


class Dependencies(MadeUp):
    CRATES = """\
== lines/src/lib.rt
pub fn next() {
}
== sets/src/lib.rt
== tables/src/lib.rt
mod sets;
use lines::next;
use sets::has;
ghost use Rattle.tables.specs.Table.{t};
== tables/src/sets.rt
pub fn has() {
    io::write(1, b"sets::x()");
}
== tables/specs/Table.antt
use Rattle.lines.specs.Line.{line}
-- Rattle.sets.specs.Told
== tables/proofs/check/Proof.antt
use Rattle.tables.proofs.check.Goals as goal
== /crates.txt
"""

    def faults(self, rule, *lines):
        return list(rule(self.tree(self.CRATES + "\n".join(lines) + "\n")))

    def test_direct_dependencies(self):
        self.assertEqual(self.faults(misnamed_dependencies, "lines:", "sets:", "tables: io lines"), [])

    def test_what_std_has_under_the_name_of_a_library(self):
        code = "use std::io;\n\nfn main() -> io::Result<()> {\n    io::write();\n}\n"
        root = self.tree(f"== a/src/main.rt\n{code}== /crates.txt\na:\n")
        self.assertEqual(list(misnamed_dependencies(root)), [])

    def test_too_many_and_too_few(self):
        self.assertEqual(self.faults(misnamed_dependencies, "lines: sets", "sets:", "tables: lines"), [
            "lines names sets, and uses none of it directly",
            "tables does not name io, and uses it in crates/tables/src/sets.rt",
        ])

    def test_headings(self):
        frames = ("# Bottom layer first.", "# frames", "lines:", "sets:", "tables: lines")
        self.assertEqual(self.faults(misheaded_crates, *frames, "# rules", "# saving", "# programs"), [])

    def test_no_headings(self):
        self.assertEqual(self.faults(misheaded_crates, "lines:", "# rules", "# frames", "sets:", "walks:"), [
            "crates.txt has the headings rules, frames, not frames, rules, saving, programs",
            "crates.txt has lines under no heading",
            "crates.txt does not list tables",
            "crates.txt lists walks, which is no folder",
        ])


class Constants(MadeUp):
    def test_values(self):
        root = self.tree("""\
== a/src/lib.rt
pub const ARCS: usize = 8_192;

const LF: u8 = 10;

const TAGS: [u8; 2] = [1, 2];
== b/src/lib.rt
// const LF: u8 = 13;
const LF: u8 = 0x0a;

const ARCS: usize = 4;
""")
        self.assertEqual(
            list(constants_of_two_values(root)), ["ARCS: 8192 in crates/a/src/lib.rt:1, 4 in crates/b/src/lib.rt:4"]
        )
        self.assertEqual(
            list(constants_declared_twice(root)), ["LF = 10: crates/a/src/lib.rt:3, crates/b/src/lib.rt:2"]
        )


class Doors(MadeUp):
    CRATES = """\
== walks/src/lib.rt
mod inner;
pub mod open;
pub use inner::link;

pub fn walk() {
}

fn own() {
}

pub struct Counts {
}
== walks/src/inner.rt
pub fn link() {
}

pub fn hidden() {
}
== walks/src/open.rt
pub fn wide() {
}
== track/src/main.rt
pub fn main() {
}
== /docs/DOORS.md
"""

    def unnamed(self, *lines):
        return [fault.split()[0] for fault in unnamed_doors(self.tree(self.CRATES + "\n".join(lines) + "\n"))]

    def test_none_named(self):
        self.assertEqual(self.unnamed("`link`, `walk` of no crate."), ["walks::link", "walks::walk", "walks::wide"])

    def test_by_crate_row_and_sentence(self):
        rows = ("| `walks::walk` | told |", "| `walks/must-fail`, `link` | told |")
        self.assertEqual(self.unnamed(*rows, "", "In", "`walks` is `wide`."), [])

    def test_the_crate_stands_in_the_same_row_or_sentence(self):
        rows = ("| `walks::walk` | told |", "| `link` | told |")
        self.assertEqual(self.unnamed(*rows, "", "In `walks` too. See `wide`."), ["walks::link", "walks::wide"])

    def test_settled_by_name(self):
        root = self.tree(self.CRATES + """\
== outcomes/proofs/Doors.antt
pub walks_walk_settled : Settles walk.Learnt (λ κ x s. x)
-- pub walks_link_settled : Settles
== outcomes/proofs/Inner.antt
pub walks_wide_settled : Settles
    wide.Learnt (λ κ x s. x)
""")
        self.assertEqual([fault.split(": ")[0] for fault in unsettled_functions(root)], ["walks::link"])

    def test_settled_for_every_type(self):
        root = self.tree(self.CRATES + """\
== outcomes/proofs/Doors.antt
pub walks_walk_settled : (T : RattleType) (l : Laws T) (g : Ghosts T.Denot) (d : Dict)
    → Settles (walk.Learnt T l) (λ κ x s. x)
pub walks_link_settled : (T : RattleType) → Same T
== outcomes/proofs/Inner.antt
pub walks_wide_settled : Settles wide.Learnt (λ κ x s. x)
""")
        self.assertEqual([fault.split(": ")[0] for fault in unsettled_functions(root)], ["walks::link"])

    def test_settled_under_no_premise(self):
        root = self.tree(self.CRATES + """\
== outcomes/proofs/Doors.antt
pub walks_walk_settled : (h : 0 ≡ 1) → Settles walk.Learnt (λ κ x s. x)
pub walks_link_settled : (T : RattleType) (h : 0 ≡ 1)
    → Settles (link.Learnt T) (λ κ x s. x)
== outcomes/proofs/Inner.antt
pub walks_wide_settled : Settles wide.Learnt (λ κ x s. x)
""")
        faults = [fault.split(": ")[0] for fault in unsettled_functions(root)]
        self.assertEqual(faults, ["walks::link", "walks::walk"])

    def test_what_a_reader_gives_is_not_settled(self):
        root = self.tree("""\
== standard_input/src/lib.rt
pub fn read_full<R: Read>(reader: &mut R) -> usize {
    0
}

pub fn read_part<R: Read>(reader: &mut R) -> usize {
    0
}
== uses/src/lib.rt
use standard_input::{read_full, read_part};
""")
        self.assertEqual([fault.split(": ")[0] for fault in unsettled_functions(root)], ["standard_input::read_part"])

    def test_settled_by_what_is_called(self):
        root = self.tree("""\
== blocks/src/lib.rt
use parts::{begin_parts, end_parts};

pub struct Block {
    pub of: usize,
}

pub fn begin(block: &Block) -> u32
    ensures { result ≡ 1 }
{
    begin_parts(block.of)
}

pub fn end(block: &mut Block) {
    end_parts(
        &mut block.of,
    )
}

pub fn other() -> u32 {
    begin_parts(1)
}
== exports/src/lib.rt
use blocks::{Block, begin};

#[unsafe(no_mangle)]
pub extern "C" fn exported_other() -> u32 {
    blocks::other()
}

#[unsafe(no_mangle)]
pub extern "C" fn exported_begin(block: &Block) -> u32
    ensures { result ≡ 1 }
{
    begin(block)
}

#[unsafe(no_mangle)]
pub extern "C" fn exported_twice() -> u32 {
    blocks::other();
    blocks::other()
}
== outcomes/proofs/Hosts.antt
pub parts_begin_parts_settled : Settles
pub blocks_other_settled : Settles
== /crates.txt
blocks: parts
exports staticlib: blocks
""")
        self.assertEqual(list(unsettled_functions(root)), [
            "blocks::end: no law parts_end_parts_settled",
            "exports::exported_twice: no law exports_exported_twice_settled",
        ])


class Demands(MadeUp):
    def test_types_of_a_statement(self):
        root = self.tree("""\
== a/proofs/Laws.antt
use Rattle.a.specs.Run.{Answer}
use Rattle.a.proofs.Other.{Held, held_law}

abbrev pub Kept : ℕ → Type 0
Kept n = Unit {0}

module _ (n : ℕ)
    (h : Held n) where
  pub said : Answer
      → Answer
  said = held_law n

  pub kept_on : Kept n
  kept_on = KeptToo

pub plain : Answer
plain = Kept

pub other : Kept 0
== /docs/DEMANDS.md
| the customer's sentence | theorem | file |
|---|---|---|
| "a" | `said`, `a::door` | `Kept` |
| "b" | `plain`; `kept_on` | |
""")
        self.assertEqual(
            [fault.split(": ")[1] for fault in demands_in_own_words(root)],
            ["said is stated with Held", "kept_on is stated with Held, Kept"],
        )


class FrontPages(MadeUp):
    def test_declared_and_named(self):
        root = self.tree("""\
== a/specs/Lib.antt
-- What is said: `Table`, and `words`.
pub mod Table
pub mod words
pub mod Extra
== a/specs/Table.antt
== a/specs/Extra.antt
== a/specs/words.antt
-- `Held`.
pub mod Held
== a/specs/words/Held.antt
== a/specs/code/Take.antt
== a/proofs/Lib.antt
-- Laws: `Laws`
-- and `Sums`.
pub mod Laws
== a/proofs/Laws.antt
== a/proofs/Sums.antt
== a/proofs/take/Proof.antt
""")
        self.assertEqual(list(missing_on_front_pages(root)), [
            "crates/a/specs/Lib.antt does not name `Extra` in its comment",
            "crates/a/specs/code.antt does not declare Take",
            "crates/a/proofs/Lib.antt does not declare Sums",
        ])


# ---- the tools on made-up trees


class Closure(MadeUp):
    def test_files_and_lines(self):
        root = self.tree("""\
== a/specs/Top.antt
use Rattle.a.specs.Middle.{m}
use Prim.Native.Nat.{ℕ}

t : ℕ
t = m
== a/specs/Middle.antt
use Rattle.b.specs.Low as Low
use Rattle.b.specs.declared.Line.{Line}
== a/specs/Other.antt
== b/specs/Low.antt
-- A file of meaning.
""")
        counts = closure.closure(root, "a", "Top")
        expected = {"crates/a/specs/Middle.antt": 2, "crates/a/specs/Top.antt": 5, "crates/b/specs/Low.antt": 1}
        self.assertEqual(counts, expected)
        self.assertEqual(closure.declared_types(root, counts), ["b::Line"])


class Unused(MadeUp):
    def found(self, text, **options):
        """What is unused in a tree, as KIND NAME."""
        return [f"{one.kind} {one.name}" for one in unused.findings(self.tree(text), **options)]

    def laws(self, *lines, **options):
        return self.found("\n".join(["== a/proofs/Laws.antt", *lines, ""]), **options)

    def test_a_law_is_no_use_of_itself(self):
        self.assertEqual(self.laws("pub one : ℕ", "one = one"), ["law one"])
        self.assertEqual(self.laws("one : ℕ", "one = 1", "two : one ≡ 1", "two = refl"), ["law two"])

    def test_names_are_whole(self):
        self.assertEqual(self.laws("a_b : ℕ", "a_b = 1", "a_b' : ℕ", "a_b' = a + b"), ["law a_b", "law a_b'"])

    def test_projections_labels_comments_and_unfolding_are_no_use(self):
        two = ("two : ℕ", "unfolding one", "two = record { one = 2; two = r.one } -- one")
        self.assertEqual(self.laws("one : ℕ", "one = 1", *two), ["law one", "law two"])

    def test_what_only_the_unused_use(self):
        lines = ("one : ℕ", "one = 1", "two : ℕ", "two = one")
        self.assertEqual(self.laws(*lines), ["law two"])
        self.assertEqual(self.laws(*lines, deep=True), ["law one", "law two"])

    def test_sections_and_local_functions(self):
        self.assertEqual(self.found("""\
== a/proofs/Laws.antt
module _ (s : ℕ)
    (t : ℕ) where
  one : ℕ
  one = go s
    where
      go : ℕ → ℕ
      go n = n

  pub two : ℕ
  two = one
"""), ["law two"])

    def test_documents_and_functions_keep_laws(self):
        self.assertEqual(self.found("""\
== /docs/DEMANDS.md
By `one`.
== a/proofs/Laws.antt
one : ℕ
one = 1
== a/proofs/next_line/Proof.antt
pub next_line_spec : ℕ
next_line_spec = 1

help : ℕ
help = 1
"""), ["law help"])

    def test_what_rattle_asks_for_is_kept(self):
        answers = "pub returns-then-n-lt2 : goal.returns-then-n-lt2\nreturns-then-n-lt2 c = c.if-n-lt2.true\n"
        measure = "abbrev pub decreases-loop-i : goal.decreases-loop-i\ndecreases-loop-i l = l.i\n"
        other = "pub returns : goal.loop-i-init\nreturns c = c\n"
        folder = "== a/proofs/next_line"
        self.assertEqual(self.found(f"{folder}/Answers.antt\n{answers}{folder}/Invariants.antt\n{measure}"), [])
        self.assertEqual(self.found(f"{folder}/Answers.antt\n{other}"), ["law returns"])
        self.assertEqual(self.found(f"== a/proofs/Laws.antt\n{measure}"), ["law decreases-loop-i"])

    def test_laws_of_outcomes_are_kept(self):
        laws = "pub walks_walk_settled : ℕ\nwalks_walk_settled = 1\npub other : ℕ\nother = 1\n"
        self.assertEqual(self.found(f"== outcomes/proofs/Doors.antt\n{laws}"), ["law other"])
        self.assertEqual(self.found(f"== a/proofs/Doors.antt\n{laws}"), ["law walks_walk_settled", "law other"])

    def test_definitions(self):
        self.assertEqual(self.found("""\
== a/specs/Line.antt
pub data Raw : Type 0 where
  full : Raw

pub data Bare : Type 0 where
  none : Bare

pub record Lone : Type 0 where
  pub gone : ℕ

abbrev pub left : ℕ
left = 1

abbrev pub ◌+++◌ : ℕ → ℕ
◌+++◌ a = a

abbrev pub gone : ℕ
gone = 1
== a/src/lib.rt
ghost use Rattle.a.specs.Line.{left, full, ◌+++◌ as ◌also◌};

#[unsafe(no_mangle)]
pub extern "C" fn f()
    ensures { {A = left} full also result }
{
}
"""), ["definition Bare", "definition Lone", "definition gone"])

    def test_modules_by_another_name(self):
        self.assertEqual(self.found("""\
== a/specs/Line.antt
pub one : ℕ
one = 1

pub two : ℕ
two = 2
== b/specs/Table.antt
use Rattle.a.specs.Line as line
pub use Rattle.a.specs.Line.{two}

pub x : ℕ
x = line.one
== b/proofs/Laws.antt
use Rattle.b.specs.Table.{two as also}

pub law : Rattle.b.specs.Table.x ≡ also
law = refl
"""), ["law law"])

    def test_imports(self):
        self.assertEqual(self.found("""\
== a/specs/Line.antt
use Prim.Native.Nat.{
  ℕ,
  ◌+◌,
  ◌*◌,
  suc as next,
}
use mathlib.Core.List as List
use Rattle.b.specs.Table as Table

pub one : ℕ → List.List
one n = n + n
== a/src/lib.rt
use b::gone;
use b::here;
ghost use Rattle.a.specs.Line.{one};
ghost use lib.ListN.{drop};

fn main()
    ensures { one }
{
    here(gone);
}
== b/src/lib.rt
pub fn here() {
}
"""), ["use ◌*◌", "use next", "use Table", "use gone", "use drop"])

    def test_imports_of_several_at_once(self):
        self.assertEqual(self.found("""\
== a/src/main.rt
use b::inner::{self, deep as told};
use b::{
    gone, here,
    inner::{deep, low::lowest as last},
};

fn main() {
    here();
    last();
    told();
    inner::deep();
}
== b/src/lib.rt
pub mod inner;

pub fn here() {
}

pub fn gone() {
}
== b/src/inner.rt
pub mod low;

pub fn deep() {
}
== b/src/low.rt
pub fn other() {
}
== b/src/inner/low.rt
pub fn lowest() {
}
"""), ["function gone", "function other", "use gone", "use deep"])

    def test_items(self):
        self.assertEqual(self.found("""\
== a/src/lib.rt
mod inner;
pub use inner::kept;

const ROOM: usize = 4;

const NONE: usize = 0;

struct Pair {
    of: usize,
}

fn again() {
    again();
}
== a/src/inner.rt
use crate::Pair;
use crate::ROOM;

pub fn kept(p: Pair) -> u8 {
    helped(&a[..ROOM])
}

pub fn helped() {
}
== b/src/main.rt
fn main() {
    // again()
    a::kept(b"NONE");
}
"""), ["constant NONE", "function again", "wider helped"])

    def test_methods_use_what_they_call_and_no_struct(self):
        self.assertEqual(self.found("""\
== a/src/lib.rt
struct Pair<'a> {
    of: &'a [u8],
}

fn main() {
}

impl<'a> Pair<'a> {
    fn first(self) -> u8 {
        taken(self.of)
    }
}

fn taken(of: &[u8]) -> u8 {
    of[0]
}
"""), ["type Pair"])

    def test_exported_for_nobody(self):
        self.assertEqual(self.found("""\
== a/src/lib.rt
pub fn step() -> Answer {
}

pub enum Answer {
    Fine,
}

pub fn play() {
    step();
}
"""), ["function play", "wider step"])

    def test_edits_use_what_they_put(self):
        code = "== a/src/lib.rt\nconst ONE: u8 = 1;\n\nconst TWO: u8 = 2;\n\nfn main() {\n    ONE\n}\n"
        edit = "== a/must-fail/two.edit\n# two\nfile: src/lib.rt\n"
        self.assertEqual(self.found(code), ["constant TWO"])
        self.assertEqual(self.found(code + edit + "old:     ONE\nnew:     TWO\n"), [])
        self.assertEqual(self.found(code + edit + "old: TWO: u8 = 2;\nnew: TWO: u8 = 3;\n"), ["constant TWO"])


# ---- the repository


class House(unittest.TestCase):
    def hold(self, rule, advice):
        faults = list(rule(ROOT))
        if faults:
            self.fail("\n".join([advice, *faults]))

    def test_definitions_stand_by_kind(self):
        self.hold(
            misplaced_definitions,
            "Put meaning into specs/NAME.antt, layouts of words and invariants into specs/words/NAME.antt, mirrors "
            "of code into specs/code/NAME.antt, and only comments and `pub mod` lines on front pages:",
        )

    def test_meaning_rests_on_meaning(self):
        self.hold(
            misled_imports,
            "Let meaning import meaning, declared types, std, Prim, mathlib and lib alone: move the "
            "definition that is imported to the kind that it is, or that which imports it:",
        )

    def test_crates_stand_under_headings(self):
        self.hold(misheaded_crates, f"List each crate in crates.txt, under the headings {', '.join(HEADINGS)}:")

    def test_dependencies_are_direct(self):
        self.hold(misnamed_dependencies, "Name in crates.txt what a crate's own files use, the kit's too, no more:")

    def test_a_constant_has_one_value(self):
        self.hold(constants_of_two_values, "Give each value a name of its own, the document's:")

    def test_a_constant_is_declared_once(self):
        self.hold(constants_declared_twice, "Declare it once, `pub const` in the crate that owns it, and `use` it:")

    def test_doors_are_named(self):
        self.hold(
            unnamed_doors,
            "Name each in docs/DOORS.md as `crate::function`, or as `function` in a row or sentence that names its "
            "crate; or let the crate not export it:",
        )

    def test_demands_are_stated_by_definitions(self):
        self.hold(demands_in_own_words, "Let each of these stand in specs/, where a reader looks for it:")

    def test_outcomes_are_settled(self):
        self.hold(unsettled_functions, "State in crates/outcomes that two outcomes which its promise allows are equal:")

    def test_nothing_is_unused(self):
        self.hold(needless, "Take it away, or name it in docs/ as the door or the theorem that it is:")

    def test_front_pages_are_whole(self):
        self.hold(missing_on_front_pages, "Declare each file on its front page, and tell in its comment what it has:")

