"""The text of a crate that exports doors to C, so that their code can be looked at in an archive.

What an exported function may take and return are numbers, slices and arrays that are lent. So an enum or a struct that a
door takes is made here of numbers, and what a door answers is written as numbers into a lent array. The text rests on
what the sources declare, read by the layout that the formatter leaves.
"""

import re
from collections import namedtuple

from tools import sources

NUMBERS = ("u8", "u16", "u32", "u64", "usize", "bool")
TOLD = 16  # so many numbers there is room for in an answer
DECLARATION = re.compile(r"^pub (enum|struct) (\w+) \{\n(.*?)^\}", re.MULTILINE | re.DOTALL)
SIGNATURE = r"^pub fn {}(?:<[^>]*>)?\((?P<takes>[^)]*)\)(?: -> (?P<answers>[^\n{{]*))?"
FIELD = re.compile(r"(?:pub )?(\w+): ((?:[^,\n<]|<(?:[^<>]|<[^<>]*>)*>)+)")
ONE_OF_STD = re.compile(r"(Option|Result)<(.*)>")
VARIANT = re.compile(r"(\w+)(?:\(([^)]*)\)| \{([^}]*)\})?(?:,|$)")

Door = namedtuple("Door", "crate name takes answers")  # takes: pairs of a name and a type; answers: a type or None
Enum = namedtuple("Enum", "crate variants")
Struct = namedtuple("Struct", "crate fields")
Variant = namedtuple("Variant", "name fields named")  # fields: pairs of a name and a type; whether they are named


# ---- what the sources declare


def fields_of(text):
    return [(name, kind.strip()) for name, kind in FIELD.findall(text)]


def variants_of(text):
    """The variants of an enum; fields without a name are called by their place. What number one counts as is passed over."""
    found = []
    for name, unnamed, named in VARIANT.findall(re.sub(r" = \d+", "", " ".join(text.split()))):
        kinds = [kind.strip() for kind in unnamed.split(",") if kind.strip()]
        numbered = [(f"of{place}", kind) for place, kind in enumerate(kinds)]
        found.append(Variant(name, fields_of(named) or numbered, bool(named)))
    return found


def one_of_std(kind):
    """An `Option` or a `Result` as an enum of no crate, by its own types; None where a type is neither."""
    found = ONE_OF_STD.fullmatch(kind)
    if not found:
        return None
    inner, depth, parts = found[2], 0, [""]
    for letter in inner:
        depth += {"<": 1, ">": -1}.get(letter, 0)
        if letter == "," and depth == 0:
            parts.append("")
        else:
            parts[-1] += letter
    names = ("None", "Some") if found[1] == "Option" else ("Ok", "Err")
    kinds = [None, *parts] if found[1] == "Option" else parts
    return Enum(None, [Variant(name, [("of0", one.strip())] if one else [], False) for name, one in zip(names, kinds)])


def types_of(root):
    """The public types that the crates declare, by name: enums, structs, and of a name for an array its crate."""
    found = {}
    for file in sources.files(root, "*/src/**/*.rt"):
        code = sources.rattle_code(sources.text_of(root, file))
        for kind, name, body in DECLARATION.findall(code):
            is_enum = kind == "enum"
            found[name] = (Enum if is_enum else Struct)(
                sources.crate_of(file), variants_of(body) if is_enum else fields_of(body)
            )
        for name in re.findall(r"^pub type (\w+) =", code, re.MULTILINE):
            found[name] = sources.crate_of(file)
    return found


def door_of(root, crate, name):
    """A public function as its crate declares it."""
    for file in sources.files(root, f"{crate}/src/**/*.rt"):
        code = sources.without_clauses(sources.rattle_code(sources.text_of(root, file)))
        found = re.search(SIGNATURE.format(name), code, re.MULTILINE)
        if found:
            answers = (found["answers"] or "").split("\n")[0].strip() or None
            return Door(crate, name, fields_of(found["takes"]), answers)
    raise LookupError(f"no public function {crate}::{name}")


# ---- the text


class Exporting:
    """The functions that export doors, as they are written one by one, and the names that they bring in."""

    def __init__(self, types):
        self.types, self.used, self.functions = types, set(), []

    def use(self, name):
        """A declared type, brought in; an `Option` and a `Result` are std's."""
        declared = one_of_std(name) or self.types[name]
        if isinstance(declared, Enum) and declared.crate is None:
            return declared
        crate = declared if isinstance(declared, str) else declared.crate
        self.used.add(f"{crate}::{name}")
        return declared

    def take(self, name, kind):
        """The parameters that stand for one of a door's, and how it is made of them."""
        if kind.startswith("&"):
            for word in re.findall(r"[A-Z]\w*", kind):
                self.use(word)
            return [(name, kind)], name
        if kind in NUMBERS:
            return [(name, kind)], name
        declared = self.use(kind)
        if isinstance(declared, Struct):
            parts = [(field, *self.take(f"{name}_{field}", inner)) for field, inner in declared.fields]
            made = ", ".join(f"{field}: {value}" for field, _, value in parts)
            return [one for _, params, _ in parts for one in params], f"{kind} {{ {made} }}"
        return self.take_enum(name, kind, declared)

    def take_enum(self, name, kind, declared):
        """An enum is made by a function of its own, by the number of its variant and the fields of all of them."""
        params, lines = [(name, "u8")], []
        for number, variant in enumerate(declared.variants):
            parts = [(field, *self.take(f"{name}_{number}_{field}", inner)) for field, inner in variant.fields]
            params += [one for _, own, _ in parts for one in own]
            made = self.made_variant(kind, variant, [(field, value) for field, _, value in parts])
            last = number + 1 == len(declared.variants)
            lines.append(f"    {made}" if last else f"    if {name} == {number} {{\n        return {made};\n    }}")
        maker = f"{name}_as_{re.sub(r'[^a-z]+', '_', kind.lower()).strip('_')}"
        told = ", ".join(f"{one}: {of}" for one, of in params)
        self.functions.append(f"fn {maker}({told}) -> {kind} {{\n" + "\n".join(lines) + "\n}\n")
        return params, f"{maker}({', '.join(one for one, _ in params)})"

    @staticmethod
    def made_variant(kind, variant, values):
        if ONE_OF_STD.fullmatch(kind):
            return f"{variant.name}({', '.join(value for _, value in values)})" if values else variant.name
        if not values:
            return f"{kind}::{variant.name}"
        if variant.named:
            return f"{kind}::{variant.name} {{ {', '.join(f'{field}: {value}' for field, value in values)} }}"
        return f"{kind}::{variant.name}({', '.join(value for _, value in values)})"

    def tell(self, value, kind, at, depth=1):
        """The lines that write a value as numbers from place `at` of the lent array on, and the place behind them."""
        edge = "    " * depth
        if kind == "()":
            return [], at
        if kind in NUMBERS:
            if kind == "bool":
                return [f"{edge}if {value} {{", f"{edge}    told[{at}] = 1;", f"{edge}}}"], at + 1
            return [f"{edge}told[{at}] = {value}{'' if kind == 'u64' else ' as u64'};"], at + 1
        if kind.startswith("&"):
            return [f"{edge}told[{at}] = {value}.len() as u64;"], at + 1
        declared = self.use(kind)
        if isinstance(declared, Struct):
            lines = []
            for field, inner in declared.fields:
                local = f"{value}_{field}"
                below, at = self.tell(local, inner, at, depth)
                lines += [f"{edge}let {local} = {value}.{field};", *below]
            return lines, at
        return self.tell_enum(value, kind, declared, at, depth)

    def tell_enum(self, value, kind, declared, at, depth):
        edge = "    " * depth
        lines, end = [f"{edge}match {value} {{"], at + 1
        for number, variant in enumerate(declared.variants):
            locals_ = [(field, f"{value}_{number}_{field}") for field, _ in variant.fields]
            lines.append(f"{edge}    {self.made_variant(kind, variant, locals_)} => {{")
            lines.append(f"{edge}        told[{at}] = {number};")
            place = at + 1
            for (_, local), (_, inner) in zip(locals_, variant.fields):
                below, place = self.tell(local, inner, place, depth + 2)
                lines += below
            lines.append(f"{edge}    }}")
            end = max(end, place)
        return [*lines, f"{edge}}}"], end

    def export(self, door):
        """Writes the function that exports a door."""
        made = [self.take(name, kind) for name, kind in door.takes]
        params = [one for own, _ in made for one in own]
        call = f"{door.crate}::{door.name}({', '.join(value for _, value in made)})"
        if door.answers is None:
            lines = [f"    {call};"]
        else:
            params.append(("told", f"&mut [u64; {TOLD}]"))
            lines = [f"    let answer = {call};", *self.tell("answer", door.answers, 0)[0]]
        told = ", ".join(f"{name}: {kind}" for name, kind in params)
        head = f'#[unsafe(no_mangle)]\npub extern "C" fn {symbol_of(door.crate, door.name)}({told}) {{'
        self.functions.append("\n".join([head, *lines, "}\n"]))


def symbol_of(crate, name):
    """What a door is called in the archive."""
    return f"{crate}__{name}"


def text_of(root, names):
    """The text of a crate that exports the doors so named, pairs of a crate and a function, and what it stands on."""
    exporting = Exporting(types_of(root))
    for crate, name in names:
        exporting.export(door_of(root, crate, name))
    uses = "".join(f"use {one};\n" for one in sorted(exporting.used))
    below = {crate for crate, _ in names} | {one.partition("::")[0] for one in exporting.used}
    return "// Doors, exported to C.\n#![tactic(auto)]\n\n" + uses + "\n" + "\n".join(exporting.functions), sorted(below)
