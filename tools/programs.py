"""Running a program of this repository as the kit's rt runs it."""

import contextlib
import fcntl
import os
import pathlib
import shutil
import subprocess
import sys
import tempfile
import termios
import threading
import time
from collections import namedtuple

REPOSITORY = pathlib.Path(__file__).resolve().parent.parent
SECONDS_FOR_ONE_INPUT = 30
SECONDS_BETWEEN_LOOKS = 0.0005
MOST_LOOKS = 2_000
BYTES_AT_A_TIME = 65_536
NOBODY = 65_534


class Trouble(Exception):
    """What keeps a program from being run, or from answering."""


class Unreadable(Exception):
    """What keeps an input from being read on."""


# ---- starting


Started = namedtuple("Started", "command folder")  # how: the words of the command and the folder it runs in


def find_kit():
    """The kit's folder, found through the rt on the PATH."""
    rt = shutil.which("rt")
    if rt is None:
        raise Trouble("needs the Rattle kit's rt, and there is none on the PATH")
    return pathlib.Path(rt).resolve().parent.parent


def prepare(program, room):
    """Puts a program, its bytes, into the room, outside the repository, and says how to start it there: root as nobody."""
    own, data = room / "own", room / "data"
    own.mkdir()
    data.mkdir()
    copy = own / "program"
    copy.write_bytes(program)
    copy.chmod(0o755)
    command = [str(copy)]
    if os.getuid() == 0:
        drop = ["setpriv", f"--reuid={NOBODY}", f"--regid={NOBODY}", "--clear-groups", "--no-new-privs"]
        command = drop + command
        room.chmod(0o711)
        own.chmod(0o755)
        os.chown(data, NOBODY, NOBODY)
    return Started(command, str(data))


@contextlib.contextmanager
def in_a_room(program):
    """How to start a program, its bytes, as long as the block lasts."""
    with tempfile.TemporaryDirectory() as room:
        yield prepare(program, pathlib.Path(room))


def place_of(name):
    """Where rt puts a program."""
    return REPOSITORY / "crates" / name / "out" / name


@contextlib.contextmanager
def prepared(name):
    """How to start a program that is built, as long as the block lasts; ends with status 2 where it is missing."""
    try:
        if not place_of(name).is_file():
            raise Trouble(f"there is no crates/{name}/out/{name}; `rt run` in crates/{name} makes it")
        with in_a_room(place_of(name).read_bytes()) as started:
            yield started
    except Trouble as trouble:
        print(trouble, file=sys.stderr)
        sys.exit(2)


# ---- answers


Answer = namedtuple("Answer", "output trouble")  # what a program printed, and how it ended where that was not well


def answer_from(started, seconds=SECONDS_FOR_ONE_INPUT, **source):
    """The answer to what `source`, an argument of subprocess.run, has for standard input."""
    try:
        ended = subprocess.run(
            started.command,
            capture_output=True,
            cwd=started.folder,
            timeout=seconds,
            check=False,
            **source,
        )
    except subprocess.TimeoutExpired as expired:
        return Answer(expired.stdout or b"", f"no end after {seconds} seconds")
    if ended.returncode != 0:
        return Answer(ended.stdout, f"status {ended.returncode} {ended.stderr.decode('latin-1')}".strip())
    return Answer(ended.stdout, "")


def answer_of(started, given):
    return answer_from(started, input=given)


# ---- an input that comes as it is read


def write_all(descriptor, some_bytes):
    while some_bytes:
        some_bytes = some_bytes[os.write(descriptor, some_bytes) :]


class Feeding(threading.Thread):
    """Hands files to a pipe, one behind the other, through the last or until nobody reads on.

    Whoever reads from the pipe sees its end also where a file cannot be read: `fault` then has the reason.
    """

    def __init__(self, pipe, files):
        super().__init__(daemon=True)  # a file from which nothing comes holds nobody up
        self.pipe, self.files, self.fault = pipe, files, None
        self.front = b""  # of what was handed over, so many bytes as have room for a table

    def run(self):
        try:
            for file in self.files:
                self.hand_over(file)
        except BrokenPipeError:
            pass
        except OSError as error:
            self.fault = error
        finally:
            os.close(self.pipe)

    def hand_over(self, file):
        while piece := os.read(file.fileno(), BYTES_AT_A_TIME):
            self.front += piece[: BYTES_AT_A_TIME - len(self.front)]
            write_all(self.pipe, piece)


def answer_to_files(started, files):
    """The answer to files, one behind the other, which are read about as far as the program reads; and their front."""
    reading, writing = os.pipe()
    feeding = Feeding(writing, files)
    feeding.start()
    with open(reading, "rb") as source:
        answer = answer_from(started, seconds=None, stdin=source)
    if feeding.fault:
        raise Unreadable(f"cannot read the input: {feeding.fault.strerror}")
    return answer, feeding.front


# ---- an input that comes in pieces


def wait_until_read(pipe):
    """Waits until a pipe is empty; a second at most, since its reader may have ended."""
    nothing = bytes(4)
    for _ in range(MOST_LOOKS):
        if fcntl.ioctl(pipe, termios.FIONREAD, nothing) == nothing:
            return
        time.sleep(SECONDS_BETWEEN_LOOKS)


def write_pieces(pipe, pieces):
    """Writes piece after piece, each when the one before is read, through the last or until nobody reads on."""
    with contextlib.suppress(BrokenPipeError), open(pipe, "wb", buffering=0) as writing:
        for piece in pieces:
            writing.write(piece)
            wait_until_read(writing)


def answer_in_pieces(started, pieces):
    """The answer to an input that comes a piece at a time, so that the program's reads end where pieces do."""
    reading, writing = os.pipe()
    writer = threading.Thread(target=write_pieces, args=(writing, pieces))
    writer.start()
    with open(reading, "rb") as source:
        answer = answer_from(started, stdin=source)
    writer.join()
    return answer
