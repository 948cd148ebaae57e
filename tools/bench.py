"""The benchmark: the proved library beside an opponent written to win, in one process, as ratios.

    bench/run [--quick] [--only NAME] [--instructions] [--list] [--as-built]

proves the library where its sources have changed, builds the harness below target/bench, and runs it. That compares the
answers of both libraries on every workload, times them in turn, and tells the least time of each, their ratio, and the
medians; a second table tells how costs grow. What is printed is kept below target/bench/tables.

    bench/run --compare A B

tells of two kept tables the ratios of each workload, and how many times as long it took each library in B as in A.

exit status: 0 told, 1 answers differ or something is missing, 2 no such option
"""

import argparse
import datetime
import math
import os
import pathlib
import platform
import re
import subprocess
import sys
from typing import NamedTuple

if __name__ == "__main__":  # as a command, too, packages are found from the repository
    sys.path[0] = str(pathlib.Path(__file__).resolve().parents[1])

from tools.packaging import ARCHIVE, build_archive
from tools.programs import REPOSITORY, Trouble
from tools.run import version

HARNESS = REPOSITORY / "bench" / "harness"
BUILT = REPOSITORY / "target" / "bench"
TABLES = BUILT / "tables"
ARCHITECTURES = ("x86_64", "AMD64")
FAILURE, INTERRUPTION, NOBODY_READS = 1, 130, 141  # exit statuses


# ---- building and running


def build_harness():
    """Builds the harness with both libraries; gives its path."""
    command = ["cargo", "build", "--offline", "--quiet", "--release", "--manifest-path", str(HARNESS / "Cargo.toml")]
    places = {"CARGO_TARGET_DIR": str(BUILT), "PEASHUTTLE_LIB_DIR": str(ARCHIVE.parent)}
    try:
        ended = subprocess.run(command, env={**os.environ, **places}, stdin=subprocess.DEVNULL, check=False)
    except FileNotFoundError:
        raise Trouble("needs cargo, and there is none on the PATH") from None
    if ended.returncode != 0:
        raise Trouble(f"`{' '.join(command[:2])}` ended with status {ended.returncode}")
    return BUILT / "release" / "harness"


def build(as_built):
    """Builds all that is run; the archive is taken as it stands where that is asked for."""
    if not as_built:
        build_archive()
    elif not ARCHIVE.is_file():
        raise Trouble(f"there is no {ARCHIVE.relative_to(REPOSITORY)}; without --as-built it is made")
    return build_harness()


def cpu_model(text):
    """The processor that /proc/cpuinfo tells."""
    found = re.search(r"^model name\s*: (.*)$", text, re.MULTILINE)
    return found[1].strip() if found else "unknown"


def machine():
    cpuinfo = pathlib.Path("/proc/cpuinfo")
    model = cpu_model(cpuinfo.read_text("utf-8") if cpuinfo.is_file() else "")
    return f"{model}, {os.cpu_count()} processors, load {os.getloadavg()[0]:.2f}"


def head(date, options):
    """The first lines of a table that is kept."""
    told = {
        "date": f"{date:%Y-%m-%d %H:%M:%S} UTC",
        "machine": machine(),
        "commit": version(),
        "options": " ".join(options) or "none",
        "told": "the least of each library, their ratio, and medians; steps are those of runs, whose starts are timed apart",
    }
    return "".join(f"# {name}: {value}\n" for name, value in told.items())


def run_harness(harness, options):
    """Prints what the harness does, and gives it."""
    told = []
    with subprocess.Popen([harness, *options], stdout=subprocess.PIPE, encoding="utf-8") as running:
        for line in running.stdout:
            print(line, end="", flush=True)
            told.append(line)
    if running.returncode != 0:
        raise Trouble(f"the harness ended with status {running.returncode}")
    return "".join(told)


def measure(options, as_built):
    """Builds, measures and keeps the table."""
    harness = build(as_built)
    if "--list" in options:
        run_harness(harness, options)
        return
    date = datetime.datetime.now(datetime.timezone.utc)
    first = head(date, options)
    print(first, end="", flush=True)
    table = run_harness(harness, options)
    TABLES.mkdir(parents=True, exist_ok=True)
    kept = TABLES / f"{date:%Y-%m-%d-%H%M%S}.txt"
    kept.write_text(first + table, "utf-8")
    print(f"# kept as {kept.relative_to(REPOSITORY)}")


# ---- kept tables


class Row(NamedTuple):
    """What a workload took: the least of each library."""

    unit: str
    ours: float
    theirs: float

    @property
    def ratio(self):
        return self.ours / self.theirs


class Kept(NamedTuple):
    """A kept table: what its head tells, and its rows by name."""

    head: dict
    rows: dict


def read_table(text):
    """The table that stands in a text."""
    heading, kept = None, Kept({}, {})
    for line in text.splitlines():
        told = re.fullmatch(r"# (\w+): (.*)", line)
        words = line.split()
        if told:
            kept.head[told[1]] = told[2]
        elif words[:2] == ["name", "unit"]:
            heading = words
        elif words and words[0] != "#":
            kept.rows[words[0]] = row_of(heading, words)
    if not kept.rows:
        raise Trouble("there is no table in it")
    return kept


def row_of(heading, words):
    """The row of a line, by the words of its heading."""
    if heading is None or len(heading) != len(words):
        raise Trouble(f"this is no line of a table: {' '.join(words)}")
    cells = dict(zip(heading, words))
    try:
        return Row(cells["unit"], float(cells["ours"]), float(cells["theirs"]))
    except (KeyError, ValueError):
        raise Trouble(f"this is no line of a table: {' '.join(words)}") from None


def mean(numbers):
    """The geometric mean."""
    return math.exp(sum(map(math.log, numbers)) / len(numbers))


def compared(one, other):
    """Lines that compare two tables."""
    common = [name for name, row in one.rows.items() if name in other.rows and other.rows[name].unit == row.unit]
    if not common:
        raise Trouble("the tables have no workload in common")
    for letter, table in (("A", one), ("B", other)):
        yield f"# {letter}: " + ", ".join(table.head.get(name, "unknown") for name in ("date", "machine", "commit"))
    yield f"{'name':<30} {'unit':>20} {'ratio-A':>9} {'ratio-B':>9} {'ours-B/A':>9} {'theirs-B/A':>10}"
    for name in common:
        a, b = one.rows[name], other.rows[name]
        longer = f"{b.ours / a.ours:>9.2f} {b.theirs / a.theirs:>10.2f}"
        yield f"{name:<30} {a.unit:>20} {a.ratio:>9.2f} {b.ratio:>9.2f} {longer}"
    in_a, in_b = (mean([table.rows[name].ratio for name in common]) for table in (one, other))
    yield f"# {len(common)} workloads: the geometric mean of their ratios is {in_a:.2f} in A and {in_b:.2f} in B"
    alone = sorted((set(one.rows) | set(other.rows)) - set(common))
    if alone:
        yield f"# in one of them alone: {' '.join(alone)}"


def read_kept(name):
    """The kept table of a path, or of a name below the folder of kept tables."""
    paths = [path for path in (pathlib.Path(name), TABLES / name, TABLES / f"{name}.txt") if path.is_file()]
    if not paths:
        raise Trouble(f"there is no table {name}")
    try:
        return read_table(paths[0].read_text("utf-8"))
    except (Trouble, UnicodeDecodeError) as trouble:
        raise Trouble(f"{name}: {trouble}") from None


# ---- the command


def parse(words):
    parser = argparse.ArgumentParser(prog="bench/run", description="the proved library beside its opponent, as ratios")
    parser.add_argument("--quick", action="store_true", help="a few short batches, some seconds in all")
    parser.add_argument("--only", metavar="NAME", help="this workload, or all whose names begin so")
    parser.add_argument("--instructions", action="store_true", help="instructions, by valgrind, for a busy machine; minutes")
    parser.add_argument("--list", action="store_true", help="the names of workloads")
    parser.add_argument("--as-built", action="store_true", help="take the archive as it stands, whatever has changed")
    parser.add_argument("--compare", nargs=2, metavar=("A", "B"), help="compare two kept tables")
    return parser.parse_args(words)


def options_of(asked):
    """The options that the harness has too."""
    flags = [f"--{name}" for name in ("quick", "instructions", "list") if getattr(asked, name)]
    return flags + (["--only", asked.only] if asked.only else [])


def answer(asked):
    if asked.compare:
        for line in compared(*map(read_kept, asked.compare)):
            print(line)
    elif platform.machine() not in ARCHITECTURES:
        print(f"bench: the archive links only into programs for x86-64, and this machine is {platform.machine()}")
    else:
        measure(options_of(asked), asked.as_built)


def main(words=None):
    asked = parse(words)
    try:
        answer(asked)
    except (Trouble, OSError) as trouble:
        if isinstance(trouble, BrokenPipeError):
            os.dup2(os.open(os.devnull, os.O_WRONLY), sys.stdout.fileno())  # nothing is left to be written at the end
            return NOBODY_READS
        print(f"bench: {trouble}", file=sys.stderr)
        return FAILURE
    except KeyboardInterrupt:
        return INTERRUPTION
    return 0


if __name__ == "__main__":
    sys.exit(main())
