"""What nothing uses: laws, definitions, functions, constants, types, and names of `use` lines.

    python3 tools/unused.py [--list] [--deep]

prints a line `KIND FILE:LINE NAME` for each. Status 1 where one is not of the last kind; with --list always 0.

    law          a name of proofs/ that no other declaration, contract or document under docs/ names; but the laws of
                 outcomes, one for every public function, are there for their own sake
    definition   a name of specs/ that no other declaration or contract names; constructors and fields apart
    function, constant, type     an item of src/ without a use outside itself
    use          a name of a `use` line that its file does not need
    wider        a `pub` item that nobody outside its module needs, or an exported one that no other crate needs

To be unfolded is no use, and neither is a `use` line; to be put by a must-fail edit is one. With --deep a law or
definition is told too where only those that are told use it.
"""

import pathlib
import re
import sys
from collections import defaultdict, namedtuple

if __name__ == "__main__":  # as a command, too, packages are found from the repository
    sys.path[0] = str(pathlib.Path(__file__).resolve().parents[1])

from tools import sources

Finding = namedtuple("Finding", "kind file line name")
Export = namedtuple("Export", "crate name file line target")  # the target is the (file, name) of the item

ROOT = pathlib.Path(__file__).resolve().parent.parent
TOLERATED = "wider"
PROOF_FILES = ("/Answers.antt", "/Invariants.antt", "/Proof.antt")
NOTHING = sources.AnttFile("")
KINDS = {"fn": "function", "const": "constant", "struct": "type", "enum": "type", "type": "type"}


class Tree:
    """All files of the crates, read."""

    def __init__(self, root):
        self.antt = {
            file: sources.AnttFile(sources.text_of(root, file))
            for folder in ("specs", "proofs")
            for file in sources.files(root, f"*/{folder}/**/*.antt")
        }
        self.rattle = {
            file: sources.RattleFile(sources.text_of(root, file)) for file in sources.files(root, "*/src/**/*.rt")
        }
        self.edits = edits_of(root)
        self.documented = documented_names(root)


def edits_of(root):
    """By file, the pairs of what a must-fail edit takes away there and what it puts."""
    edits = defaultdict(list)
    for edit in sources.files(root, "*/must-fail/*.edit"):
        for line in sources.text_of(root, edit).splitlines():
            label, _, rest = line.partition(":")
            if label == "file":
                file = f"crates/{sources.crate_of(edit)}/{rest.strip()}"
            elif label == "old":
                old = rest
            elif label == "new":
                edits[file].append((old, rest))
    return edits


def edited_paths(edits, paths_of):
    """What edits cite that was not cited where they stand."""
    return set().union(*(paths_of(new) - paths_of(old) for old, new in edits))


def documented_names(root):
    """What stands in backquotes in the documents."""
    documents = pathlib.Path(root, "docs").glob("*.md")
    return {name for path in documents for name in re.findall(r"`([^`\n]+)`", path.read_text("utf-8"))}


# ---- antt: laws, definitions, and names of `use` lines


class Scope:
    """What the names of a file mean: its own declarations, and what its `use` lines bring in."""

    def __init__(self, imports, declared=()):
        self.own = {spelling: name for name in declared for spelling in sources.spellings(name)}
        self.modules = {one.local: one for one in imports if one.item is None}
        self.items = {
            spelling: one for one in imports if one.item is not None for spelling in sources.spellings(one.local)
        }


class Names:
    """Which declaration each cited path leads to, by which `use` lines, and so who cites what."""

    def __init__(self, tree):
        self.tree = tree
        self.users = defaultdict(set)  # of (file, name), the (file, name) that cite it; a contract has no name
        self.needed = set()  # (file, import) of `use` lines
        for file, antt in tree.antt.items():
            self.read_antt(file, antt)
        for file, rattle in tree.rattle.items():
            self.cite(file, Scope(rattle.ghost_imports), rattle.cited_by_contracts | self.edited(file), None)

    def read_antt(self, file, antt):
        constructors = {name for one in antt.declarations.values() for name in one.constructors}
        scope = Scope(antt.imports, {*antt.declarations, *constructors})
        for one in antt.declarations.values():
            self.cite(file, scope, one.cited, one.name)
        self.cite(file, scope, antt.cited_elsewhere | self.edited(file), None)
        for path in antt.unfolded:
            self.targets(file, scope, path)

    def edited(self, file):
        return edited_paths(self.tree.edits[file], sources.cited_paths)

    def cite(self, file, scope, paths, user):
        for path in paths:
            for target in self.targets(file, scope, path):
                if target != (file, user):
                    self.users[target].add((file, user))

    def targets(self, file, scope, path):
        """The declarations that a path may lead to; the `use` lines on the way are needed."""
        head, *rest = path.split(".")
        head = head.strip("◌") or head
        if head == "Rattle" and len(rest) > 2:
            return self.within(".".join([head, *rest[:2]]), rest[2:])
        found = set()
        if rest and head in scope.modules:
            self.needed.add((file, scope.modules[head]))
            found |= self.within(scope.modules[head].module, rest)
        if head in scope.own:
            found.add((file, self.tree.antt[file].owner(scope.own[head])))
        elif head in scope.items:
            self.needed.add((file, scope.items[head]))
            found |= self.within(scope.items[head].module, [scope.items[head].item])
        return found

    def within(self, module, path):
        """What a path leads to from a module on, through what it passes on and the modules below it."""
        file, name = sources.file_of(module), path[0]
        antt = self.tree.antt.get(file, NOTHING)
        if antt.owner(name):
            return {(file, antt.owner(name))}
        for one in antt.imports:
            if one.public and one.local == name:
                self.needed.add((file, one))
                return self.within(one.module, [one.item])
        return self.within(f"{module}.{name}", path[1:]) if path[1:] else set()

    def kept(self, file, name):
        """Whether a declaration is there for its own sake: a part of a function's proof, the law of its outcome, or a
        law that documents name."""
        if is_answer(file, self.tree.antt[file].declarations[name]):
            return True
        if file.startswith("crates/outcomes/proofs/") and name.endswith("_settled"):
            return True
        return "/proofs/" in file and name in self.tree.documented

    def unused(self, deep):
        declared = {(file, name) for file, antt in self.tree.antt.items() for name in antt.declarations}
        if deep:
            return declared - self.reached(declared)
        return {one for one in declared if not self.users[one] and not self.kept(*one)}

    def reached(self, declared):
        """What is there for its own sake, what contracts cite, and what those cite in turn."""
        cited = defaultdict(set)
        for target, users in self.users.items():
            for user in users:
                cited[user].add(target)
        todo = [one for one in declared if self.kept(*one)] + [user for user in cited if user[1] is None]
        seen = set()
        while todo:
            one = todo.pop()
            if one not in seen:
                seen.add(one)
                todo.extend(cited[one])
        return seen

    def unused_declarations(self, deep):
        for file, name in self.unused(deep):
            kind = "law" if "/proofs/" in file else "definition"
            yield Finding(kind, file, self.tree.antt[file].declarations[name].line, name)

    def unneeded_imports(self):
        imports = {file: antt.imports for file, antt in self.tree.antt.items()}
        imports.update((file, rattle.ghost_imports) for file, rattle in self.tree.rattle.items())
        for file, brought in imports.items():
            for one in brought:
                if (file, one) not in self.needed:
                    yield Finding("use", file, one.line, one.local)


def is_answer(file, declared):
    """Whether a declaration is a part of a function's proof that Rattle asks for: its type has its name, as `goal.returns`."""
    asked = {path.partition(".")[2] for path in declared.cited}
    return file.endswith(PROOF_FILES) and (declared.name in asked or declared.name == f"{file.split('/')[-2]}_spec")


# ---- Rattle: functions, constants, types


class Items:
    """Which item each path of the code leads to, and from which files."""

    def __init__(self, tree):
        self.tree = tree
        self.users = defaultdict(set)  # of (file, name), the (file, name) that cite it
        self.needed = set()  # (file, use) of `use` lines
        for file, rattle in tree.rattle.items():
            for item in rattle.items.values():
                self.cite(file, item.cited, item.name)
            edited = edited_paths(tree.edits[file], sources.rattle_paths)
            self.cite(file, rattle.cited_elsewhere | edited, None)
        self.read_declared_types()

    def cite(self, file, paths, user):
        for path in paths:
            target = self.item_at(file, path)
            if target and target != (file, user):
                self.users[target].add((file, user))

    def read_declared_types(self):
        """A crate's types are known to antt too, as modules below `declared`."""
        for user, antt in self.tree.antt.items():
            for crate, name in filter(None, (sources.declared_type(one.module) for one in antt.imports)):
                for file, rattle in self.tree.rattle.items():
                    if sources.crate_of(file) == crate and name in rattle.items:
                        self.users[file, name].add((user, None))

    def item_at(self, file, path):
        """The item that a path of a file's code leads to; the `use` line on the way is needed."""
        rattle = self.tree.rattle[file]
        if path[0] not in rattle.items and path[0] not in rattle.modules:
            for use in rattle.uses:
                if use.local == path[0]:
                    self.needed.add((file, use))
                    return self.item_from(file, use.path + path[1:])
        return self.item_from(file, path)

    def item_from(self, file, path):
        """What a path leads to that begins with `crate`, in the file's own module, or with a crate's name."""
        crate, module = module_of(file)
        starts = {"crate": (), "self": module, "super": module[:-1]}
        if path[0] in starts:
            return self.below(crate, starts[path[0]], path[1:])
        return self.below(crate, module, path) or self.below(path[0], (), path[1:])

    def below(self, crate, module, path):
        """What a path leads to from a module on."""
        file = self.file_at(crate, module)
        if file is None or not path:
            return None
        rattle = self.tree.rattle[file]
        if path[0] in rattle.items:
            return file, path[0]
        if path[0] in rattle.modules:
            return self.below(crate, module + path[:1], path[1:])
        passed_on = [use for use in rattle.uses if use.public and use.local == path[0]]
        return self.item_from(file, passed_on[0].path + path[1:]) if passed_on else None

    def file_at(self, crate, module):
        names = ["/".join(module)] if module else ["lib", "main"]
        files = (f"crates/{crate}/src/{name}.rt" for name in names)
        return next((file for file in files if file in self.tree.rattle), None)

    def unused_items(self):
        for file, rattle in self.tree.rattle.items():
            for item in rattle.items.values():
                if not self.users[file, item.name] and not item.entry and not self.is_door(file, item.name):
                    yield Finding(KINDS[item.kind], file, item.line, item.name)

    def is_door(self, file, name):
        """Whether documents name a function as its crate's, so that it is there for callers outside."""
        return f"{sources.crate_of(file)}::{name}" in self.tree.documented

    def unneeded_uses(self):
        for file, rattle in self.tree.rattle.items():
            for use in rattle.uses:
                if not use.public and (file, use) not in self.needed:
                    yield Finding("use", file, use.line, use.local)

    def exports(self):
        """What other crates can name, by what each crate's root declares or passes on."""
        for file in self.tree.rattle:
            if file.endswith("/src/lib.rt"):
                yield from self.exports_of(file)

    def exports_of(self, file):
        """The `pub` items of a file, those that it passes on, and those of its `pub` modules."""
        rattle = self.tree.rattle[file]
        crate, module = module_of(file)
        for item in rattle.items.values():
            if item.public:
                yield Export(crate, item.name, file, item.line, (file, item.name))
        for use in rattle.uses:
            target = self.item_from(file, use.path)
            if use.public and target:
                yield Export(crate, use.local, file, use.line, target)
        for name, public in rattle.modules.items():
            if public:
                yield from self.exports_of(self.file_at(crate, (*module, name)))

    def too_wide(self):
        exports = {one.target: (one.file, one.line) for one in self.exports()}
        for file, rattle in self.tree.rattle.items():
            for item in rattle.items.values():
                users = self.users[file, item.name]
                if not item.public or not users:
                    continue
                if (file, item.name) not in exports:
                    if all(user_file == file for user_file, _ in users):
                        yield Finding(TOLERATED, file, item.line, item.name)
                elif not any(needs_export(user, file, item, exports) for user in users):
                    yield Finding(TOLERATED, *exports[file, item.name], item.name)


def needs_export(user, file, item, exports):
    """Whether a user is another crate's, or an exported item of the same crate that shows a type."""
    return sources.crate_of(user[0]) != sources.crate_of(file) or KINDS[item.kind] == "type" and user in exports


def module_of(file):
    """The crate and the module of a file of src/."""
    _, crate, _, *below = file[: -len(".rt")].split("/")
    return crate, () if below in (["lib"], ["main"]) else tuple(below)


# ---- all of it


def findings(root, deep=False):
    """All that nothing uses, sorted."""
    tree = Tree(root)
    names, items = Names(tree), Items(tree)
    return sorted([
        *names.unused_declarations(deep),
        *names.unneeded_imports(),
        *items.unused_items(),
        *items.unneeded_uses(),
        *items.too_wide(),
    ])


def main(arguments):
    unknown = set(arguments) - {"--list", "--deep"}
    if unknown:
        sys.exit(f"unused: no such option: {min(unknown)}")
    found = findings(ROOT, "--deep" in arguments)
    for kind, file, line, name in found:
        print(f"{kind} {file}:{line} {name}")
    return 0 if "--list" in arguments else int(any(one.kind != TOLERATED for one in found))


if __name__ == "__main__":
    sys.exit(main(sys.argv[1:]))
