"""The command ./run: a program on files, proved and built first where its sources have changed. HELP has the rest."""

import contextlib
import os
import pathlib
import re
import subprocess
import sys
from collections import namedtuple

if __name__ == "__main__":  # as a command, too, packages are found from the repository
    if sys.version_info < (3, 9):
        print("run: needs Python 3.9 or later", file=sys.stderr)
        sys.exit(3)
    sys.path.insert(0, str(pathlib.Path(__file__).resolve().parents[1]))

from tools import words
from tools.building import STANDARD_ERROR, built, say
from tools.commands import INTERRUPTION, stop_as_by_an_interrupt
from tools.programs import REPOSITORY, Trouble, Unreadable, answer_to_files, in_a_room, write_all

HELP = """\
usage: run [OPTION] [FILE...]

Checks the table at the front of FILE, plays the script behind it, and prints the listing. Several FILEs are read one
behind the other; without one, and for -, standard input is read. The program is proved and built first where its
sources have changed since it was built.

  --words      the listing in words, by the names in NAME.names beside the first FILE, NAME.txt or NAME.table
  --play       the inside of the run: what is offered, the counters, the track by its references
  --judge      in words what the table holds, where its literals stand and what each line of the script asks for
  --reread     reads a saved track, which stands behind the table in place of a script, and writes it again
  --desk FILE  the desk: makes a table and its names of FILE, a show in CSP; nothing is proved or built for that
  --version    what git tells of this checkout; where it is none, the newest heading of docs/LANDINGS.md
  --help       this text
  --           ends the options: what follows is a FILE

exit status:
  0    listed
  1    refused: what there is to print is printed, and the first refusal is told on standard error
  2    no such option; an input that cannot be read; an output that cannot be written
  3    not proved, or something that is needed is missing
  130  interrupted
  141  nobody reads the output
"""
PROGRAMS = {None: "track", "--words": "track", "--play": "play", "--judge": "judge", "--reread": "reread"}
OTHER_OPTIONS = ("--desk", "--version", "--help")
STANDARD_INPUT, STANDARD_OUTPUT = 0, 1
LISTED, REFUSED, MISUSED, TROUBLED, UNHEARD = 0, 1, 2, 3, 141  # exit statuses


class Misuse(Exception):
    """What is wrong with the command's words, with its input or with where its output goes."""


class Unheard(Exception):
    """Nobody reads the output."""


# ---- what is asked for


Asked = namedtuple("Asked", "option files")  # the option is None where there is none


def asked_for(arguments):
    options, files, rest = set(), [], iter(arguments)
    for word in rest:
        if word == "--":
            files.extend(rest)
        elif word == "-" or not word.startswith("-"):
            files.append(word)
        elif word in PROGRAMS or word in OTHER_OPTIONS:
            options.add(word)
        else:
            raise Misuse(f"no such option: {word}; --help tells those that there are")
    if "--help" in options:
        return Asked("--help", files)
    if len(options) > 1:
        raise Misuse(f"takes one option, not {' and '.join(sorted(options))}")
    return Asked(options.pop() if options else None, files)


# ---- input and output


def fill_closed_streams():
    """Puts something that can neither be read nor written into the place of a standard stream that is closed.

    Else the next file that is opened would stand there.
    """
    useless = {STANDARD_INPUT: os.O_WRONLY, STANDARD_OUTPUT: os.O_RDONLY, STANDARD_ERROR: os.O_RDONLY}
    for stream, turned in useless.items():
        try:
            os.fstat(stream)
        except OSError:
            os.open(os.devnull, turned)  # which takes the lowest number that is free


def opened(file):
    """A file, or standard input for -, that can be read."""
    standard = file == "-"
    try:
        source = open(STANDARD_INPUT if standard else file, "rb", buffering=0, closefd=not standard)
        os.read(source.fileno(), 0)  # no byte, which fails where none could be read
    except OSError as error:
        raise Misuse(f"cannot read {'standard input' if standard else file}: {error.strerror}") from error
    return source


def names_beside(file):
    """The names in NAME.names beside a file, whatever its own ending; none where there is no such file, and for -."""
    if file == "-":
        return {}
    beside = os.path.splitext(file)[0] + ".names"
    try:
        return words.read_names(pathlib.Path(beside).read_text("utf-8"))
    except FileNotFoundError:
        return {}
    except (OSError, UnicodeDecodeError, words.Fault) as fault:
        raise Misuse(f"cannot read {beside}: {fault}") from fault


def put(text):
    """Writes to standard output, all of it."""
    try:
        write_all(STANDARD_OUTPUT, text)
    except BrokenPipeError as error:
        raise Unheard from error
    except OSError as error:
        raise Misuse(f"cannot write to standard output: {error.strerror}") from error


# ---- what a program prints


def output_of(program, sources):
    """What a program prints for files, and the front of these."""
    with in_a_room(built(program)) as started:
        answer, front = answer_to_files(started, sources)
    if answer.trouble:
        raise Trouble(f"the program {program} did not end well: {' '.join(answer.trouble.split())}")
    return answer.output, front


def framed_refusal(output):
    """The first frame of a refusal in a listing, and the text that its line is counted in; or None."""
    found = re.search(b"^4e[0-9a-f]{6}$", output, re.MULTILINE)
    text = "script" if re.search(b"^41", output, re.MULTILINE) else "table"
    return found and (bytes.fromhex(found[0].decode("ascii")), text)


def judged_refusal(output):
    """The same of the refusal that judge tells."""
    found = re.search(b"^(table|script) refused ([0-9]+) at line ([0-9]+)$", output, re.MULTILINE)
    return found and (bytes([words.REFUSAL, int(found[2]), *divmod(int(found[3]), 256)]), found[1].decode("ascii"))


def told_in_words(output, names, front):
    """A listing in words, with the table at the front of the input at hand."""
    from tools.desk import skips_in  # only here, since it takes longer than a run without words

    return words.text_in_words(output, names, skips_in(front))


def first_refusal(program, output):
    """The first refusal that a program prints, in words; none where it prints none."""
    if program == "play":
        return "" if output else "refused; without --play it is told why"
    found = judged_refusal(output) if program == "judge" else framed_refusal(output)
    if not found:
        return ""
    frame, text = found
    return words.refusal_words(frame, "table or of the track" if program == "reread" else text)[0]


# ---- what the options do


def run(option, files):
    """Runs a program on files; gives the exit status."""
    program, sources = PROGRAMS[option], [opened(file) for file in files]
    names = names_beside(files[0]) if option == "--words" else None
    output, front = output_of(program, sources)
    put(output if names is None else told_in_words(output, names, front))
    refusal = first_refusal(program, output)
    if refusal:
        say(refusal)
    return REFUSED if refusal else LISTED


def version():
    """What git tells of the checkout, or else the newest landing."""
    with contextlib.suppress(OSError, subprocess.CalledProcessError):
        if (REPOSITORY / ".git").exists():
            describe = ["git", "-C", REPOSITORY, "describe", "--always", "--tags", "--dirty"]
            return subprocess.run(describe, capture_output=True, check=True, encoding="utf-8").stdout.strip()
    landings = (REPOSITORY / "docs" / "LANDINGS.md").read_text("utf-8")
    return re.findall("^## (.*)", landings, re.MULTILINE)[-1]


def hand_to_the_desk(files):
    """Becomes the desk."""
    if len(files) != 1:
        raise Misuse("--desk takes one FILE")
    os.execv(sys.executable, [sys.executable, "-B", REPOSITORY / "tools" / "desk.py", *files])


def carry_out(asked):
    """Does what is asked for; gives the exit status."""
    if asked.option == "--desk":
        hand_to_the_desk(asked.files)
    if asked.option in PROGRAMS:
        return run(asked.option, asked.files or ["-"])
    put((HELP if asked.option == "--help" else f"Peashuttle, {version()}\n").encode("utf-8"))
    return LISTED


def main(arguments):
    fill_closed_streams()
    stop_as_by_an_interrupt()
    try:
        return carry_out(asked_for(arguments))
    except (Misuse, Unreadable) as misuse:
        say(misuse)
        return MISUSED
    except (Trouble, words.Fault, OSError) as trouble:
        say(trouble)
        return TROUBLED
    except Unheard:
        return UNHEARD
    except KeyboardInterrupt:
        return INTERRUPTION


if __name__ == "__main__":
    sys.exit(main(sys.argv[1:]))
