"""The crates' sources as text: their files, what a file brings in by `use`, what it declares, and what it cites.

They are read by the layout that the formatter leaves: a declaration begins at the left edge of its block, and what
stands further in belongs to it. An antt name is whatever stands between spaces, brackets, dots and commas. A
variable is not told from other names: what it is called counts as cited.
"""

import pathlib
import re
from collections import namedtuple

KIT_LIBRARIES = ("io", "libc", "os", "check", "bytes")

NAME = r'(?:«[^»]*»|[^\s(){}.;,@"«»]+)'
MARKS = r"(?:(?:unfoldable|abbrev|axiom|pub)\s+)*"
ANTT_SILENT = re.compile(r'"(?:\\.|[^"\\\n])*"|(?<![^\s(){}.;,])--[^\n]*|\{-[\s\S]*?-\}')
ANTT_USE = re.compile(
    rf"^(?P<ghost>ghost )?(?:unfoldable )?(?P<public>pub )?use\s+(?P<module>[^{{\s;]+?)"
    rf"(?:\.\{{(?P<items>[^}}]*)\}}|\s+as\s+(?P<local>{NAME}))?;?[ ]*$",
    re.MULTILINE,
)
ANTT_PATH = re.compile(rf"(?P<projection>\.)?(?P<path>{NAME}(?:\.{NAME})*)")
LABEL = re.compile(rf"(?<=[{{;])\s*{NAME}(?=\s+=\s)")  # of `{label = ..}` and `record { label = ..; .. }`
SECTION = re.compile(r"module\s|(?:unfoldable |abbrev )*mutual(?:\s|$)")
SILENT_LINE = re.compile(r"(?:pub\s+)?mod\s|infix[lr]?\s")
DATA = re.compile(rf"({MARKS})(data|record)\s+({NAME})")
MEMBER = re.compile(rf"^\s+(?:pub\s+)?({NAME})(?=\s*:(?:\s|$))", re.MULTILINE)  # a constructor or a field
SIGNATURE = re.compile(rf"({MARKS})({NAME})(?:\s*\{{[^}}]*\}})?\s*:(?=\s|$)")
CRATE_MODULE = re.compile(r"Rattle\.(\w+)\.(specs|proofs)((?:\.[^.]+)*)")
DECLARED_MODULE = re.compile(r"Rattle\.(\w+)\.specs\.declared\.(\w+)")

RATTLE_SILENT = re.compile(r'//[^\n]*|b?"(?:\\.|[^"\\])*"|b\'(?:\\.|[^\'\\])\'')
RATTLE_USE = re.compile(r"^(?P<public>pub )?use\s+(?P<tree>[^;]+);", re.MULTILINE)
RATTLE_MOD = re.compile(r"^(?P<public>pub )?mod\s+(?P<name>\w+);", re.MULTILINE)
RATTLE_ITEM = re.compile(
    r"^(?P<public>pub\s+)?(?P<extern>extern\s+)?(?P<kind>fn|const|struct|enum|type|impl)(?:<[^<>]*>)?\s+(?P<name>\w+)",
    re.MULTILINE,
)
RATTLE_PATH = re.compile(r"(?<![\w.])(?P<path>[A-Za-z_]\w*(?:::[A-Za-z_]\w*)*)(?P<call>\()?")
CLAUSE = re.compile(r"\b(?:requires|ensures|ghost)\b\s*\w*\s*\{")
TACTIC = re.compile(r"^\s*#!?\[tactic\((.*?)\)\]$", re.MULTILINE | re.DOTALL)

Import = namedtuple("Import", "line module item local public")  # in antt; the item is None of a module itself
Use = namedtuple("Use", "line path local public")  # in Rattle; a path is a tuple
Item = namedtuple("Item", "kind name line public entry value cited")  # in Rattle; an entry is called from outside


# ---- files


def crates(root):
    """The names of the crates that there are."""
    return sorted(path.name for path in pathlib.Path(root, "crates").iterdir() if path.is_dir())


def files(root, pattern):
    """The files of all crates that a pattern under crates/ finds, from the root on."""
    paths = pathlib.Path(root, "crates").glob(pattern)
    return sorted(path.relative_to(root).as_posix() for path in paths if path.is_file())


def text_of(root, file):
    return pathlib.Path(root, file).read_text("utf-8")


def crate_of(file):
    return file.split("/")[1]


def blank(match):
    """As many spaces and line ends, so that what stands behind keeps its place."""
    return re.sub(r"[^\n]", " ", match.group())


def line_at(text, place):
    return text.count("\n", 0, place) + 1


# ---- antt


def antt_code(text):
    """A text without its comments and quoted texts."""
    return ANTT_SILENT.sub(blank, text)


def file_of(module):
    """The file of a crate's module, by its path in a `use` line; None where it is no crate's, or made of src/."""
    found = CRATE_MODULE.fullmatch(module)
    if not found or found[3].startswith(".declared."):
        return None
    crate, folder, below = found.groups()
    return f"crates/{crate}/{folder}{below.replace('.', '/') or '/Lib'}.antt"


def declared_type(module):
    """The crate and the type of src/ that a module is made of; None where it is no such module."""
    found = DECLARED_MODULE.match(module)
    return found and found.groups()


def imports_of(code, ghost=False):
    """What the `use` lines of an antt file bring in, or the `ghost use` lines of a Rattle file."""
    found = []
    for use in ANTT_USE.finditer(code):
        if bool(use["ghost"]) != ghost:
            continue
        module, public = use["module"], bool(use["public"])
        if use["items"] is None:
            local = use["local"] or module.split(".")[-1]
            found.append(Import(line_at(code, use.start()), module, None, local, public))
            continue
        for leaf in re.finditer(r"[^,\s][^,]*", use["items"]):
            words = leaf.group().split()
            *below, item = words[0].split(".")
            line = line_at(code, use.start("items") + leaf.start())
            found.append(Import(line, ".".join([module, *below]), item, words[-1].split(".")[-1], public))
    return found


def without_imports(code):
    return ANTT_USE.sub(blank, code)


def cited_paths(code):
    """The dotted paths of a piece of antt; a projection, as in `r .field`, and a label are none."""
    return {found["path"] for found in ANTT_PATH.finditer(LABEL.sub(" ", code)) if not found["projection"]}


def modules_cited(imports, paths):
    """The modules that `use` lines name, and those that whole paths do."""
    whole = {path for path in paths if path.startswith("Rattle.")}
    return {one.module for one in imports} | {path.rpartition(".")[0] for path in whole}


def modules_of(text):
    """The modules that an antt file names."""
    code = antt_code(text)
    return modules_cited(imports_of(code), cited_paths(without_imports(code)))


def spellings(name):
    """How a name is written where it is cited: an operator by one of its parts, or whole."""
    parts = [] if name.startswith("«") else [part for part in name.split("◌") if part]
    return {name, *parts}


def chunks(code):
    """Pieces of a text with their lines: what begins at the left edge of its block, with what is further in.

    The head of a `module _ .. where` is a piece of its own, and so is each piece of its body.
    """
    found = []
    for number, line in enumerate(code.split("\n"), 1):
        text = line.strip()
        if not text:
            continue
        depth = len(line) - len(line.lstrip())
        if found and continues(found[-1], depth, text):
            found[-1][2] += "\n" + line
        else:
            found.append([number, depth, line])
    return [(number, piece.strip()) for number, _, piece in found]


def continues(piece, depth, text):
    """Whether a line belongs to the piece before it."""
    _, edge, begun = piece
    begun = begun.strip()
    if SECTION.match(begun):
        return begun.startswith("module") and not re.search(r"\bwhere$", begun)
    return depth > edge or text[0] in ")}]"


class Declaration:
    """A name at the left edge of a block, with what its signature and its clauses cite."""

    def __init__(self, name, line, code):
        self.name, self.line = name, line
        self.cited = cited_paths(code)
        self.constructors = set()


class AnttFile:
    """What an antt file brings in, declares and cites. What it unfolds is told apart from what it cites."""

    def __init__(self, text):
        code = antt_code(text)
        self.imports = imports_of(code)
        self.declarations = {}
        self.cited_elsewhere, self.unfolded = set(), set()
        for line, piece in chunks(without_imports(code)):
            self.take(line, piece)

    def take(self, line, piece):
        words = piece.split(maxsplit=1)
        if SILENT_LINE.match(piece):
            return
        if words[0] == "unfolding":
            self.unfolded |= cited_paths(piece[len("unfolding") :])
        elif words[0] in self.declarations:
            self.declarations[words[0]].cited |= cited_paths(piece[len(words[0]) :])
        elif DATA.match(piece):
            self.declare_data(line, piece, DATA.match(piece))
        elif SIGNATURE.match(piece) and not SECTION.match(piece):
            head = SIGNATURE.match(piece)
            self.declarations[head[2]] = Declaration(head[2], line, piece[head.end() :])
        else:
            self.cited_elsewhere |= cited_paths(piece)

    def declare_data(self, line, piece, head):
        """A data type or a record, whose constructors or fields are no declarations of their own."""
        body = piece[head.end() :]
        declared = self.declarations[head[3]] = Declaration(head[3], line, MEMBER.sub(" ", body))
        if head[2] == "data":
            declared.constructors = {member[1] for member in MEMBER.finditer(body)}

    def owner(self, name):
        """The declaration that a name is of: the one so called, or the data type with a constructor so called."""
        if name in self.declarations:
            return name
        return next((d.name for d in self.declarations.values() if name in d.constructors), None)


# ---- Rattle


def rattle_code(text):
    """A text without its comments and quoted bytes."""
    return RATTLE_SILENT.sub(blank, text)


def clause_spans(code):
    """Where the contracts' clauses stand, which are antt."""
    spans = []
    for head in CLAUSE.finditer(code):
        end, depth = head.end(), 1
        while depth:
            depth += {"{": 1, "}": -1}.get(code[end], 0)
            end += 1
        spans.append((head.end(), end - 1))
    return spans


def without_clauses(code):
    for start, end in clause_spans(code):
        code = code[:start] + re.sub(r"[^\n]", " ", code[start:end]) + code[end:]
    return code


def rattle_paths(code):
    """The paths of a piece of Rattle that may name an item: calls, and what has a capital letter."""
    paths = set()
    for found in RATTLE_PATH.finditer(code.replace("..", "  ")):
        path = tuple(found["path"].split("::"))
        if found["call"] or any(name[0].isupper() for name in path):
            paths.add(path)
    return paths


def uses_of(code):
    """What the `use` lines of a file bring in."""
    for use in RATTLE_USE.finditer(code):
        for place, path, local in leaves_of(use["tree"]):
            yield Use(line_at(code, use.start("tree") + place), path, local, bool(use["public"]))


def branches_of(tree):
    """The pieces of a `use` line between commas that stand in no bracket, each with its place."""
    start = depth = 0
    for place, sign in enumerate(f"{tree},"):
        depth += (sign == "{") - (sign == "}")
        if sign == "," and not depth:
            branch = tree[start:place].strip()
            if branch:
                yield tree.index(branch, start), branch
            start = place + 1


def leaves_of(tree, above=()):
    """What a `use` line brings in, by `a::{b, c as d}` several at once: a place in the line, a path, and the name that it has."""
    for place, branch in branches_of(tree):
        head, bracket, below = branch.partition("{")
        words = head.split()
        path = (*above, *filter(None, words[0].split("::")))
        if bracket:
            for further, *leaf in leaves_of(below.rpartition("}")[0], path):
                yield (place + len(head) + 1 + further, *leaf)
        elif words == ["self"]:
            yield place, above, above[-1]
        else:
            yield place, path, words[-1].split("::")[-1]


def items_of(code):
    """The items of a file, each with what it cites; an `impl` block is one."""
    heads = list(RATTLE_ITEM.finditer(code))
    ends = [head.start() for head in heads[1:]] + [len(code)]
    for head, end in zip(heads, ends):
        body = code[head.end() : end]
        value = re.search(r"=\s*([^;]*);", body)
        yield Item(
            kind=head["kind"],
            name=head["name"],
            line=line_at(code, head.start()),
            public=bool(head["public"]),
            entry=bool(head["extern"]) or head["name"] == "main",
            value=" ".join(value[1].split()) if value and head["kind"] == "const" else None,
            cited=rattle_paths(body),
        )


class RattleFile:
    """What a file of a crate's src/ declares, brings in and cites, in its code and in its contracts."""

    def __init__(self, text):
        code = rattle_code(text)
        clauses = [code[start:end] for start, end in clause_spans(code)]
        items = list(items_of(without_clauses(code)))
        self.uses = list(uses_of(code))
        self.modules = {mod["name"]: bool(mod["public"]) for mod in RATTLE_MOD.finditer(code)}
        self.items = {item.name: item for item in items if item.kind != "impl"}
        self.ghost_imports = imports_of(code, ghost=True)
        self.cited_by_contracts = set().union(*map(cited_paths, clauses + TACTIC.findall(code)))
        self.ghost_modules = modules_cited(self.ghost_imports, self.cited_by_contracts)
        self.cited_elsewhere = set().union(
            *map(rattle_paths, clauses), *(item.cited for item in items if item.kind == "impl")
        )
