"""Proving and building a program, where what it is built of has changed since it was built last.

Of each program that was built two sums are kept, target/built/NAME.sum: one of all that it was built of, which is the
kit's identity, crates.txt and every file of the crates that it stands on but for what rt makes there, and one of the
program itself. Where both are as they were there is nothing to do. Else `rt run` in the program's folder proves what has
changed, builds the program, crates/NAME/out/NAME, and runs it on an empty input; one at a time, under the lock
target/built/lock, since two would write to the same files.
"""

import contextlib
import fcntl
import hashlib
import os
import re
import subprocess
import time

from tools.commands import under_way
from tools.programs import REPOSITORY, Trouble, find_kit, place_of, write_all

BUILT = REPOSITORY / "target" / "built"
MADE_BY_RT = "out"  # a crate's folder
CHECKED = re.compile(r"crate (\w+): modules loaded=\d+ checked=\d+\n")
PROVED = "logic=proved "  # how rt's last line of a crate begins
STANDARD_ERROR = 2


def tell(text):
    """Writes to standard error, where anyone reads it."""
    with contextlib.suppress(OSError):
        write_all(STANDARD_ERROR, text.encode("utf-8", "surrogateescape"))


def say(line):
    tell(f"run: {line}\n")


# ---- what a program is built of


def direct_dependencies():
    """What each crate of the repository stands on directly, by crates.txt."""
    lines = (line.partition("#")[0] for line in (REPOSITORY / "crates.txt").read_text("utf-8").splitlines())
    named = (line.partition(":") for line in lines if line.strip())
    return {name.split()[0]: below.split() for name, _, below in named}  # behind a name may stand what kind it is


def crates_of(name):
    """The repository's crates that a program is built of, itself among them."""
    below, found, todo = direct_dependencies(), set(), [name]
    while todo:
        crate = todo.pop()
        if crate in below and crate not in found:
            found.add(crate)
            todo.extend(below[crate])
    return sorted(found)


def files_below(folder, but=()):
    """The files of a folder and of those in it, but for some of these, in order; a link is none, as for rt."""
    for entry in sorted(os.scandir(folder), key=lambda entry: entry.name):
        if entry.name in but:
            continue
        if entry.is_dir(follow_symlinks=False):
            yield from files_below(entry.path)
        elif entry.is_file(follow_symlinks=False):
            yield entry.path


def sources_of(name):
    """The files of the repository that a program is built of."""
    yield str(REPOSITORY / "crates.txt")
    for crate in crates_of(name):
        yield from files_below(str(REPOSITORY / "crates" / crate), (MADE_BY_RT,))


def kit_identity():
    try:
        return (find_kit() / "KIT-ID").read_bytes()
    except OSError as error:
        raise Trouble(f"needs the kit's identity: {error.filename}: {error.strerror}") from error


# ---- sums


def sum_of_sources(name):
    total, root = hashlib.sha256(kit_identity()), len(str(REPOSITORY))
    for file in sources_of(name):
        with open(file, "rb", buffering=0) as source:
            content = source.read()
        total.update(os.fsencode(f"{file[root:]} {len(content)}\n"))
        total.update(content)
    return total.hexdigest()


def program_of(name):
    """The bytes of a program, none where it is not there."""
    try:
        return place_of(name).read_bytes()
    except FileNotFoundError:
        return b""


def sum_of_program(program):
    return hashlib.sha256(program).hexdigest()


def kept_sums(name):
    """The sums of when a program was built last, none where that is not known."""
    try:
        return (BUILT / f"{name}.sum").read_text("latin-1").split()
    except OSError:
        return []


def keep_sums(name, *sums):
    """Keeps the sums of a program; who reads them meanwhile reads all of them, the old or the new."""
    fresh = BUILT / f"{name}.fresh"
    fresh.write_text("".join(f"{one}\n" for one in sums), "latin-1")
    fresh.replace(BUILT / f"{name}.sum")


# ---- building


@contextlib.contextmanager
def alone():
    """Holds the lock, as soon as nobody else does."""
    try:
        BUILT.mkdir(parents=True, exist_ok=True)
        lock = open(BUILT / "lock", "wb")
    except OSError as error:
        raise Trouble(f"cannot build: {error.filename} cannot be written: {error.strerror}") from error
    with lock:
        try:
            fcntl.flock(lock, fcntl.LOCK_EX | fcntl.LOCK_NB)
        except BlockingIOError:
            say("another run is proving or building; waiting for its end")
            fcntl.flock(lock, fcntl.LOCK_EX)
        yield lock


def told_as_proved(lines, count):
    """Gives the lines that rt prints, and tells of every crate in them that is proved anew, of at most so many."""
    done, crate, began = 0, None, time.monotonic()
    for line in lines:
        checked = CHECKED.fullmatch(line)
        crate = checked[1] if checked else crate
        if crate and line.startswith(PROVED):
            done, now = done + 1, time.monotonic()
            say(f"{done} of {count} at most proved: {crate} {now - began:.0f} s")
            crate, began = None, now
        yield line


def prove(crate, command, lock):
    """Runs a command of rt in a crate's folder, which holds the lock as well, so that it stays alone where this process is killed."""
    crates = len(crates_of(crate))
    say(f"proving and building {crate}, {crates} crates; minutes where nothing is proved yet")
    how = {"stdout": subprocess.PIPE, "stderr": subprocess.STDOUT, "encoding": "utf-8", "errors": "surrogateescape"}
    try:
        with under_way(["rt", command], cwd=REPOSITORY / "crates" / crate, pass_fds=[lock.fileno()], **how) as rt:
            printed = list(told_as_proved(rt.stdout, crates))
    except KeyboardInterrupt:
        say("interrupted; what is proved is kept")
        raise
    if rt.returncode != 0:
        tell("".join(printed))
        raise Trouble(f"{crate} is not proved and built: `rt {command}` in crates/{crate} ended with status {rt.returncode}")


def forget_altered(name, sources):
    """Has rt build a program again that is gone, or is not what was built of the sources: rt goes by its stamp."""
    if not program_of(name) or kept_sums(name)[:1] == [sources]:
        place_of(name).with_name(f"{name}.stamp").unlink(missing_ok=True)


def build(name, lock):
    """The bytes of a program, proved and built now, and once more where anything has changed meanwhile."""
    sources, proved = sum_of_sources(name), None
    forget_altered(name, sources)
    while sources != proved:
        prove(name, "run", lock)
        sources, proved = sum_of_sources(name), sources
    program = program_of(name)
    if not program:
        raise Trouble(f"`rt run` in crates/{name} ended well, and there is no crates/{name}/out/{name}")
    keep_sums(name, sources, sum_of_program(program))
    return program


def as_built(name):
    """The bytes of a program that was built of what is there now; none where it has to be built."""
    program, kept = program_of(name), kept_sums(name)
    unchanged = kept and kept == [sum_of_sources(name), sum_of_program(program)]
    return program if unchanged else b""


def built(name):
    """The bytes of a program that is proved, which is built where it has to be."""
    program = as_built(name)
    if not program:
        with alone() as lock:
            program = as_built(name) or build(name, lock)  # another may have built it meanwhile
    return program
