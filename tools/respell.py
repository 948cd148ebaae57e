"""Spells this repository's own definitions and lemmas as Rattle's library spells its own.

    python3 tools/respell.py [ROOT]

Words in snake case, types in camel case: `path-of` becomes `path_of`, `Line-played` becomes `LinePlayed`. It reads what the
.antt files of crates/ declare and bind, leaves alone what they import from a library and what Rattle makes, and rewrites
.antt files, clauses of .rt files, must-fail edits, and names between back quotes in comments and pages. Names that would
fall together in one file are told, and then nothing is written. It was run once, behind the kit's port.py.
"""

import collections
import pathlib
import re
import sys

ROOT = pathlib.Path(sys.argv[1] if len(sys.argv) > 1 else ".")
TOKEN = re.compile(r"[^\s(){};,.:=→λ←∷⟨⟩\[\]|↦«»`\"']+'*")
MODIFIERS = {"pub", "abbrev", "unfoldable", "data", "record", "module", "open", "use", "let", "in", "unfolding", "private"}
USE = re.compile(r"^\s*(?:pub )?use\s+([^\s{}]+?)(?:\.\{([^}]*)\})?(?:\s+as\s+(\S+))?\s*$", re.M)
OWN = "Rattle."


def crates():
    return {path.name for path in (ROOT / "crates").iterdir() if path.is_dir()}


def antt_files():
    return sorted(p for p in ROOT.glob("crates/*/*/**/*.antt") if "out" not in p.parts)


def without_comments(text):
    return re.sub(r"--[^\n]*", "", text) if "--" in text else text


def is_dashed(name):
    return re.match(r"[A-Za-z]", name) and (
        re.search(r"(?<=\w)[-](?=\w)", name) or (name[0].islower() and re.search(r"[a-z][A-Z]", name))
    )


def imported_elsewhere(text, own):
    """Names that a file imports from what is not this repository."""
    names = set()
    for path, items, _alias in USE.findall(text):
        parts = path.split(".")
        if parts[0] == "Rattle" and len(parts) > 1 and parts[1] in own:
            continue
        for item in (items or "").split(","):
            for word in item.replace(" as ", " ").split():
                names.add(word)
    return names


def goal_names(text):
    """Names of a proof's answers, which Rattle gives."""
    return set(re.findall(r"^(?:abbrev )?(?:pub )?(\S+)\s*:\s*tie\.", text, re.M))


def declared(text):
    """Names with a dash that stand where something is declared or bound."""
    names, types = set(), set()
    for line in text.split("\n"):
        bare = line.strip()
        if bare.startswith(("use ", "pub use ")):
            continue
        head = re.match(r"((?:(?:pub|abbrev|unfoldable|data|record|module)\s+)*)(.*)", bare)
        words = head.group(2)
        front = re.split(r"\s:\s|\s=\s|\s:$|\s=$", words + " ", maxsplit=1)
        if len(front) == 2 or bare.startswith(("pub data", "pub record", "data", "record")):
            first = TOKEN.findall(front[0])
            if first:
                names.update(w for w in first[:1])
                if re.search(r"(→|:)\s*Type [0-9]\s*$|SProp 𝓤\s*$|: Type [0-9]\s+where", bare):
                    types.add(first[0])
                if re.fullmatch(r"[^({]*", front[0]):  # `a b : T`, or the left side of a clause
                    names.update(first)
        for group in re.findall(r"[({]([^(){}:]+?)\s:\s", line):
            names.update(TOKEN.findall(group))
    names.update(re.findall(r"\blet\s+([^\s:=]+)", text))
    names.update(w for g in re.findall(r"λ\s+([^.(]+)\.", text) for w in TOKEN.findall(g))
    return names, types


def lowered(part):
    """A part of a name in small letters, but for what the documents write in capitals, as SKIP."""
    return part[0].lower() + part[1:] if part[:1].isupper() and part[1:].islower() else part


def snake(name):
    name = re.sub(r"(?<=[a-z])(?=[A-Z])", "-", name) if name[:1].islower() else name
    return "_".join(lowered(part) for part in re.split(r"(?<=\w)-(?=\w)", name))


def camel(name):
    return "".join(p[:1].upper() + p[1:] for p in name.split("-"))


def mapping():
    own, names, types, library, goals = crates(), set(), set(), set(), set()
    for path in antt_files():
        text = without_comments(path.read_text())
        library |= imported_elsewhere(text, own)
        mine = goal_names(text)
        goals |= mine
        declares, is_type = declared(text)
        names |= declares - mine
        types |= is_type
    found = {}
    for name in sorted(names):
        if is_dashed(name) and name not in library:
            found[name] = camel(name) if name in types and name[0].isupper() else snake(name)
    spelled = {snake(name) for name in names}
    return found, library, spelled


def respelled(text, names, skip=frozenset()):
    return TOKEN.sub(lambda m: names.get(m.group(), m.group()) if m.group() not in skip else m.group(), text)


def in_back_quotes(text, names):
    return re.sub(r"`[^`\n]*`", lambda m: respelled(m.group(), names), text)


def split_comment(line, mark):
    at = line.find(mark)
    return (line, "") if at < 0 else (line[:at], line[at:])


def with_spelled(line, names, spelled):
    """A line of an edit, which port.py leaves alone: names that it respelled elsewhere are respelled here."""
    return TOKEN.sub(lambda m: snake(m.group()) if is_dashed(m.group()) and snake(m.group()) in spelled else m.group(), line)


def rewritten(path, names, spelled):
    text = path.read_text()
    if path.suffix == ".md":
        return text, in_back_quotes(text, names)
    if path.suffix == ".edit":
        return text, "".join(
            with_spelled(respelled(line, names), names, spelled) if line.startswith(("old:", "new:")) else in_back_quotes(line, names)
            for line in text.splitlines(keepends=True)
        )
    mark = "//" if path.suffix == ".rt" else "--"
    skip = goal_names(text) if path.suffix == ".antt" else frozenset()
    lines = []
    for line in text.splitlines(keepends=True):
        code, comment = split_comment(line, mark)
        lines.append(respelled(code, names, skip) + in_back_quotes(comment, names))
    return text, "".join(lines)


def files():
    yield from antt_files()
    yield from sorted(p for p in ROOT.glob("crates/*/src/**/*.rt"))
    yield from sorted(ROOT.glob("crates/*/must-fail/*.edit"))
    yield from sorted(p for p in [*ROOT.glob("*.md"), *ROOT.glob("docs/*.md")])


def falling_together(names):
    """Files in which two names would become one."""
    told = []
    for path in files():
        # a function of src/ may have the name of the definition that says what it answers
        if path.suffix != ".antt" or re.search(r"/proofs/[^/]+/", str(path)):
            continue
        mark = "--"
        text = "\n".join(split_comment(line, mark)[0] for line in path.read_text().split("\n"))
        tokens = set(TOKEN.findall(text))
        became = collections.defaultdict(set)
        for token in tokens:
            became[names.get(token, token)].add(token)
        told += [f"{path}: {' and '.join(sorted(group))}" for group in became.values() if len(group) > 1]
    return told


def main():
    names, library, spelled = mapping()
    apart = collections.defaultdict(list)
    for old, new in names.items():
        apart[new].append(old)
    told = falling_together(names)
    told += [f"{new}: {' and '.join(old)}" for new, old in apart.items() if len(old) > 1]
    told += [f"{old}: a library has {new}" for old, new in names.items() if new in library]
    if "--list" in sys.argv:
        for old, new in names.items():
            print(old, new)
    if told:
        print("\n".join(told))
        if "--force" not in sys.argv:
            return 1
    for path in files():
        before, after = rewritten(path, names, spelled)
        if before != after:
            path.write_text(after)
    print(f"respelled {len(names)} names")
    return 0


if __name__ == "__main__":
    sys.exit(main())
