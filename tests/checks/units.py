"""Every unit test, as many of its modules at a time as there are processors.

    python3 tests/checks/units.py

What a module prints is shown once it has ended. Where one fails, or has no test, the status is 1, and the last line names
all such modules.
"""

import argparse
import concurrent.futures
import os
import pathlib
import subprocess
import sys

HERE = pathlib.Path(__file__).resolve().parent
REPOSITORY = HERE.parents[1]
FAILURE = 1  # an exit status


def modules():
    """The modules with tests."""
    return sorted(f"tests.checks.{path.stem}" for path in HERE.glob("test_*.py"))


def passes(module):
    """Whether the tests of a module pass; what they print is shown."""
    command = [sys.executable, "-m", "unittest", module]
    ended = subprocess.run(
        command, cwd=REPOSITORY, stdin=subprocess.DEVNULL, stdout=subprocess.PIPE, stderr=subprocess.STDOUT, check=False
    )
    sys.stdout.buffer.write(module.encode() + b" " + ended.stdout)
    sys.stdout.buffer.flush()
    return ended.returncode == 0


def run(names):
    """Runs the tests of modules by their names; gives the exit status."""
    with concurrent.futures.ThreadPoolExecutor(os.cpu_count()) as pool:
        failed = [name for name, passed in zip(names, pool.map(passes, names)) if not passed]
    if failed:
        print("FAILED:", *failed)
    return FAILURE if failed else 0


if __name__ == "__main__":
    argparse.ArgumentParser(description="every unit test, side by side").parse_args()
    sys.exit(run(modules()))
