"""The files of meaning that a definition rests on, which are what its reader has to believe.

    python3 tools/closure.py CRATE NAME

prints them for crates/CRATE/specs/NAME.antt, which is one of them, with their counts of lines, and the sum. The
types that they take from src/ by `declared` are told below it.
"""

import pathlib
import sys

if __name__ == "__main__":  # as a command, too, packages are found from the repository
    sys.path[0] = str(pathlib.Path(__file__).resolve().parents[1])

from tools import sources

ROOT = pathlib.Path(__file__).resolve().parent.parent


def spec_file(crate, name):
    return f"crates/{crate}/specs/{name}.antt"


def closure(root, crate, name):
    """The files of the crates that specs/NAME.antt of a crate rests on, each with its count of lines."""
    counts, todo = {}, [spec_file(crate, name)]
    while todo:
        file = todo.pop()
        if file in counts or not pathlib.Path(root, file).is_file():
            continue
        text = sources.text_of(root, file)
        counts[file] = len(text.splitlines())
        todo.extend(filter(None, map(sources.file_of, sources.modules_of(text))))
    return dict(sorted(counts.items()))


def declared_types(root, files):
    """The types of src/ that files take, as `crate::Type`."""
    cited = {module for file in files for module in sources.modules_of(sources.text_of(root, file))}
    return sorted("::".join(one) for one in set(filter(None, map(sources.declared_type, cited))))


def main(arguments):
    if len(arguments) != 2:
        sys.exit("closure: takes a crate and a name, as in: closure.py listing Listing")
    file = spec_file(*arguments)
    if not (ROOT / file).is_file():
        sys.exit(f"closure: no such file: {file}")
    counts = closure(ROOT, *arguments)
    for file, count in counts.items():
        print(f"{count:6} {file}")
    print(f"{sum(counts.values()):6} lines in {len(counts)} files")
    types = declared_types(ROOT, counts)
    if types:
        print(f"and the types {', '.join(types)}")


if __name__ == "__main__":
    main(sys.argv[1:])
