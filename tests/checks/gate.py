"""The gate: every test, and last of all the line in which the toolchain tells that all has passed.

    python3 tests/checks/gate.py

It runs the unit tests, as many modules at a time as there are processors; then `rt ci`, once, as it stands: that holds the
layout of the sources, proves every crate, tries every must-fail edit, and builds and runs the programs; an edit that it
could not try, for which it calls it bad, fails the gate too. Then come the kept cases, what C and Rust hosts link, whose archive `rt lib` makes,
the benchmarks' opponent, and the comparisons on what that built. All output is shown as it comes, but for the last line of
`rt ci`, 'N passed, 0 failed': that is held back until everything has passed, and stands last, behind the seconds that each
part took. The first command that fails ends the run with status 1, and the last line tells which it was. An interrupt ends
the command that is under way.
"""

import argparse
import contextlib
import pathlib
import re
import subprocess
import sys
import time
from typing import NamedTuple

if __name__ == "__main__":  # as a command, too, packages are found from the repository
    sys.path[0] = str(pathlib.Path(__file__).resolve().parents[2])

from tools.commands import INTERRUPTION, stop_as_by_an_interrupt, under_way
from tools.programs import REPOSITORY

RT_CI = ("rt", "ci")
ALL_PASSED = re.compile(rb"[1-9][0-9]* passed, 0 failed\n")
BAD_EDITS = re.compile(rb"rt: ok; .*\bmust-fail edits: [^;]*, ([1-9][0-9]*) bad\b")
FAILURE = 1  # an exit status


class Part(NamedTuple):
    """Commands, each the tuple of its words, whose seconds are told together."""

    name: str
    commands: tuple


def comparison(program, count):
    return ("python3", "tests/checks/differential.py", "--program", program, "--count", str(count))


FIRST = Part(
    "unit tests",
    (("python3", "tests/checks/units.py"),),
)
ON_WHAT_WAS_BUILT = (
    Part("cases", (("python3", "tests/checks/cases.py"),)),
    Part("hosts", (("python3", "tests/checks/hosts.py"), ("python3", "tests/checks/opponent.py"))),
    Part(
        "comparisons",
        (
            comparison("track", 5_000),
            comparison("judge", 1_000),
            comparison("play", 1_000),
            comparison("reread", 1_500),
        ),
    ),
)


# ---- commands


class Failed(Exception):
    """Which command failed, and how."""


def show(text):
    sys.stdout.buffer.write(text)
    sys.stdout.buffer.flush()


@contextlib.contextmanager
def started(words, **streams):
    """A command under way, in a process group of its own, which is ended where the block is left by an exception.

    At the block's end it has to have ended well.
    """
    try:
        with under_way(words, cwd=REPOSITORY, **streams) as child:
            yield child
    except OSError as error:
        raise Failed(f"{' '.join(words)}: {error}") from error
    if child.returncode != 0:
        raise Failed(f"{' '.join(words)}: status {child.returncode}")


def run_part(part):
    for words in part.commands:
        with started(words):
            pass


def run_rt_ci():
    """Shows what `rt ci` prints, but for a last line that tells that all has passed; gives that line."""
    held, bad = b"", None
    with started(RT_CI, stdout=subprocess.PIPE, stderr=subprocess.STDOUT) as child:
        for line in child.stdout:
            show(held)
            held = line if ALL_PASSED.fullmatch(line) else b""
            bad = BAD_EDITS.match(line) or bad
            if not held:
                show(line)
    if bad:
        raise Failed(f"{' '.join(RT_CI)}: {int(bad[1])} bad must-fail edits")
    if not held:
        raise Failed(f"{' '.join(RT_CI)}: its last line is not 'N passed, 0 failed'")
    return held


# ---- the run


def told_seconds(seconds):
    rows = [*seconds.items(), ("all", sum(seconds.values()))]
    return "".join(f"{name:<21} {taken:>6.0f} s\n" for name, taken in rows)


@contextlib.contextmanager
def timed(seconds, name):
    """Adds the seconds that the block took."""
    began = time.monotonic()
    yield
    seconds[name] = time.monotonic() - began


def run_all(first, on_what_was_built):
    """Everything in order; gives the last line of `rt ci`, and the seconds by part."""
    seconds = {}
    with timed(seconds, first.name):
        run_part(first)
    with timed(seconds, "rt ci"):
        last_line = run_rt_ci()
    for part in on_what_was_built:
        with timed(seconds, part.name):
            run_part(part)
    return last_line, seconds


def run(first, on_what_was_built):
    """The whole run; gives the exit status."""
    try:
        last_line, seconds = run_all(first, on_what_was_built)
    except Failed as failed:
        show(f"FAILED: {failed}\n".encode())
        return FAILURE
    except KeyboardInterrupt:
        show(b"FAILED: interrupted\n")
        return INTERRUPTION
    show(told_seconds(seconds).encode() + last_line)
    return 0


def main():
    argparse.ArgumentParser(description="every test; ./test calls it").parse_args()
    stop_as_by_an_interrupt()
    return run(FIRST, ON_WHAT_WAS_BUILT)


if __name__ == "__main__":
    sys.exit(main())
