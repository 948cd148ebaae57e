"""The host side: what hosts/package makes, taken elsewhere and used from C and from Rust.

    python3 tests/checks/hosts.py [--sanitizers]

It makes the package, copies it, compiles the header by itself as C++, and the tests and the example in C; with --sanitizers
also the tests with gcc's address and undefined-behaviour sanitizers. The Rust crate's tests are run, and its example is
built from the copy. The tests get the kept cases, and inputs that are made here with the independent program's listings:
prefixes of a case, a byte changed at each place, inputs of the generators, and saved tracks with their tables. The examples
get the kept cases. One line tells the counts; the first command that fails, or difference, ends the run with status 1.

The archive is for x86-64: on another machine one line tells that this is left out, with status 0. It needs gcc and
cargo, and where one is missing a line says so, with status 1; where there is a g++, the header is given to it too.
"""

import argparse
import os
import pathlib
import platform
import re
import shutil
import subprocess
import sys
import time

if __name__ == "__main__":  # as a command, too, packages are found from the repository
    sys.path[0] = str(pathlib.Path(__file__).resolve().parents[2])

from tests.checks import cases
from tests.generators import inputs, tracks
from tests.generators.families import DEFAULT_SEED
from tests.independent import rules, saved
from tests.independent.frames import cut_input
from tools import packaging, stack
from tools.programs import REPOSITORY, Trouble

MACHINES = ("x86_64", "AMD64")
TOOLS = ("gcc", "cargo", "rt")
WARNINGS = ("-Wall", "-Wextra", "-Werror")
C = ("gcc", "-std=c99", *WARNINGS)
SANITIZERS = ("-O1", "-g", "-fsanitize=address,undefined", "-fno-sanitize-recover=all")
CARGO = ("cargo", "--offline", "--quiet")
GENERATED = 300  # inputs of each generator
SECONDS = 600  # in which a command has to end
HERE = packaging.MADE / "checks"  # where all is built
FAILURE = 1  # an exit status


class Failed(Exception):
    """Which command failed, or which outputs differ."""


# ---- where it cannot be done


def reason_to_skip(machine):
    """Why there is nothing to do on a machine; none where there is."""
    return "" if machine in MACHINES else f"hosts: left out, since the archive is for x86-64 and this machine is {machine}"


def missing_tools(find):
    """A line that tells which tools are needed and not found; none where all are."""
    missing = [tool for tool in TOOLS if not find(tool)]
    return f"hosts: needs {', '.join(TOOLS)} on the PATH, and there is no {' and no '.join(missing)}" if missing else ""


# ---- inputs


def prefixes(given):
    return [given[:length] for length in range(len(given))]


def changed(given):
    """The input with one byte another, at each place: the lowest bit of it, and the one that makes a digit a letter."""
    return [
        given[:place] + bytes([byte ^ bit]) + given[place + 1 :] for bit in (1, 0x40) for place, byte in enumerate(given)
    ]


def generated(families):
    return [families.generate(DEFAULT_SEED, index) for index in range(GENERATED)]


def kept_track(name):
    """The table of a kept case with the track behind it that its listing tells; none where that tells none."""
    given, output = cases.kept(name)
    found = re.search(rb"^3001", output, re.MULTILINE)
    return [cut_input(given)[0] + output[found.start() :]] if found else []


def listed_inputs():
    """Inputs of the tracking program."""
    given = (cases.TABLE_A + cases.SCRIPT_A).encode("ascii")
    return prefixes(given) + changed(given) + generated(inputs.FAMILIES)


def reread_inputs():
    """Inputs of the rereading program."""
    given = (REPOSITORY / "examples" / "case-a-track.txt").read_bytes()
    tracks_kept = [track for name in cases.kept_names() for track in kept_track(name)]
    return prefixes(given) + changed(given) + tracks_kept + generated(tracks.FAMILIES)


def write_cases(folder, given, listing):
    """Puts inputs with their listings into a folder; gives the folder."""
    folder.mkdir()
    for number, each in enumerate(given):
        (folder / f"{number:04}.in").write_bytes(each)
        (folder / f"{number:04}.out").write_bytes(listing(each))
    return folder


# ---- commands


def run(*words, **options):
    """What a command prints, which has to end well."""
    words = [str(word) for word in words]
    try:
        ended = subprocess.run(
            words,
            stdin=subprocess.DEVNULL,
            stdout=subprocess.PIPE,
            stderr=subprocess.STDOUT,
            timeout=SECONDS,
            check=False,
            **options,
        )
    except (OSError, subprocess.TimeoutExpired) as error:
        raise Failed(f"{' '.join(words)}: {error}") from error
    printed = ended.stdout.decode("utf-8", "replace")
    if ended.returncode != 0:
        raise Failed(f"{printed}{' '.join(words)}: status {ended.returncode}")
    return printed


def compiled(taken, source, program, *flags):
    """A C program that is linked with the archive, from the copy of the package."""
    library = (f"-I{taken}/include", source, f"-L{taken}/lib", "-lpeashuttle", "-lpthread")
    run(*C, *(flags or ("-O2",)), *library, "-o", HERE / program)
    return HERE / program


def check_example(program):
    """Runs an example on every kept case; the listing is the kept one, and the status tells whether something was refused."""
    for name in cases.kept_names():
        expected = cases.kept(name)[1]
        command = [str(program), str(cases.KEPT / f"{name}.in")]
        ended = subprocess.run(command, stdin=subprocess.DEVNULL, capture_output=True, timeout=SECONDS, check=False)
        refused = bool(re.search(rb"^4e", expected, re.MULTILINE))
        if (ended.stdout, ended.returncode) != (expected, int(refused)):
            raise Failed(f"DIFFERENT: {' '.join(command)}, status {ended.returncode}\n{ended.stdout.decode('latin-1')}")


# ---- the parts


def check_c(taken, listings, rereads, sanitizers):
    """The tests and the example in C; gives what the tests tell."""
    if shutil.which("g++"):
        run("g++", "-std=c++11", *WARNINGS, "-fsyntax-only", "-x", "c++", taken / "include" / "peashuttle.h")
    run(*C, "-Wpedantic", "-fsyntax-only", taken / "include" / "peashuttle.h")
    folders = [*listings, "--", rereads]
    tests = packaging.HOSTS / "c" / "tests.c"
    told = run(compiled(taken, tests, "tests"), *folders).strip()
    if sanitizers:
        run(compiled(taken, tests, "tests-sanitized", *SANITIZERS), *folders)
    check_example(compiled(taken, taken / "examples" / "example.c", "example"))
    return told


def in_cargo(folder, **more):
    """What cargo is run in, with warnings as errors, and what it builds in a folder of its own."""
    environment = {name: value for name, value in os.environ.items() if name != "PEASHUTTLE_LIB_DIR"}
    return environment | {"CARGO_TARGET_DIR": str(HERE / folder), "RUSTFLAGS": "-D warnings"} | more


def check_rust(taken, listings, rereads):
    """The tests of the Rust crate, and its example as the package has it; gives how many tests passed."""
    crate = shutil.copytree(packaging.HOSTS / "rust", HERE / "rust")
    environment = in_cargo(
        "cargo",
        PEASHUTTLE_LIB_DIR=str(taken / "lib"),
        PEASHUTTLE_LISTINGS=os.pathsep.join(map(str, listings)),
        PEASHUTTLE_REREADS=str(rereads),
    )
    told = run(*CARGO, "test", "--release", cwd=crate, env=environment)
    run(*CARGO, "build", "--release", "--example", "listing", cwd=taken / "rust", env=in_cargo("cargo-of-package"))
    check_example(HERE / "cargo-of-package" / "release" / "examples" / "listing")
    return sum(map(int, re.findall(r"test result: ok\. (\d+) passed", told)))


def exported_by(name):
    """What the library calls a function of the header."""
    return name.replace("peashuttle_", "peashuttle_proved_")


def stack_told(text):
    """The bytes of stack that the header tells of each function."""
    rows = re.findall(r"^ +(peashuttle_\w+) +([\d,]+)$", text, re.MULTILINE)
    return {name: int(told.replace(",", "")) for name, told in rows}


def check_stack(taken):
    """The code in the archive takes no more stack than the header tells; left out where nothing here can read code."""
    told, counts = stack_told((taken / "include" / "peashuttle.h").read_text("utf-8")), stack.counts_of(REPOSITORY)
    if any(map(shutil.which, stack.DISASSEMBLERS)):
        functions = stack.functions_in(taken / "lib" / "libpeashuttle.a")
        for name, most in told.items():
            exported = exported_by(name)
            if exported not in functions:
                raise Failed(f"the archive has no {exported}")
            taken_up = stack.WORD + stack.deepest(exported, functions, counts)
            if taken_up > most:
                raise Failed(f"{name} takes {taken_up} bytes of stack, and the header tells {most}")


def check_all(sanitizers):
    """Everything; gives the counts in words."""
    package = packaging.make()
    shutil.rmtree(HERE, ignore_errors=True)
    HERE.mkdir()
    taken = shutil.copytree(package, HERE / "taken")
    listings = [cases.KEPT, write_cases(HERE / "listings", listed_inputs(), rules.listing)]
    rereads = write_cases(HERE / "rereads", reread_inputs(), saved.reread_listing)
    check_stack(taken)
    in_c = check_c(taken, listings, rereads, sanitizers)
    in_rust = check_rust(taken, listings, rereads)
    return f"C {in_c}; Rust {in_rust} tests; 2 examples on {len(cases.kept_names())} kept cases"


def main():
    arguments = argparse.ArgumentParser(description="use the library from C and from Rust, as a host does")
    arguments.add_argument("--sanitizers", action="store_true", help="run the tests in C with gcc's sanitizers, too")
    sanitizers, began = arguments.parse_args().sanitizers, time.monotonic()
    skip, missing = reason_to_skip(platform.machine()), missing_tools(shutil.which)
    if skip or missing:
        print(skip or missing)
        return 0 if skip else FAILURE
    try:
        told = check_all(sanitizers)
    except (Failed, Trouble, stack.Unknown) as failed:
        print(f"FAILED: {failed}")
        return FAILURE
    print(f"hosts: {told}; no difference; {time.monotonic() - began:.1f} s")
    return 0


if __name__ == "__main__":
    sys.exit(main())
