"""The benchmarks' opponent and harness, tested: what is timed beside the proved library gives the right answers.

    python3 tests/checks/opponent.py

It runs the opponent's and the harness's own tests, among them that both libraries give the same answers on every workload,
and compares the opponent with the independent program on generated inputs. It takes the archive that tests/checks/hosts.py
has built, and builds without optimising, so that an overflow stops what it happens in. On a machine that is not x86-64 one line tells that this is left out, with status 0.
"""

import argparse
import os
import pathlib
import platform
import subprocess
import sys

if __name__ == "__main__":  # as a command, too, packages are found from the repository
    sys.path[0] = str(pathlib.Path(__file__).resolve().parents[2])

from tests.checks import hosts
from tools import bench
from tools.packaging import ARCHIVE
from tools.programs import REPOSITORY

COMPARED = 400  # inputs of each subject
SUBJECTS = ("track", "reread")
OPPONENT = REPOSITORY / "bench" / "opponent"
CARGO = ("cargo", "--offline", "--quiet")
PLACES = {"CARGO_TARGET_DIR": str(bench.BUILT), "PEASHUTTLE_LIB_DIR": str(ARCHIVE.parent)}


def commands():
    """The commands, one after the other, each the tuple of its words."""
    for crate in (OPPONENT, bench.HARNESS):
        yield (*CARGO, "test", "--manifest-path", str(crate / "Cargo.toml"))
    yield (*CARGO, "build", "--manifest-path", str(OPPONENT / "Cargo.toml"))
    for subject in SUBJECTS:
        program = str(bench.BUILT / "debug" / "opponent")
        yield ("python3", str(OPPONENT / "compare.py"), program, "--subject", subject, "--count", str(COMPARED))


def main():
    argparse.ArgumentParser(description=__doc__, formatter_class=argparse.RawDescriptionHelpFormatter).parse_args()
    left_out = hosts.reason_to_skip(platform.machine())
    if left_out:
        print(left_out.replace("hosts:", "opponent:", 1))
        return 0
    for words in commands():
        ended = subprocess.run(words, cwd=REPOSITORY, env={**os.environ, **PLACES}, stdin=subprocess.DEVNULL, check=False)
        if ended.returncode != 0:
            print(f"FAILED: {' '.join(words)}: status {ended.returncode}")
            return hosts.FAILURE
    return 0


if __name__ == "__main__":
    sys.exit(main())
