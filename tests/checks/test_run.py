"""Tests of ./run in a made-up repository, with a made-up kit: what it builds and when, what it tells, and its status.

The kit's `rt` takes a script for a program: what that prints is the front of its input.
"""

import os
import pathlib
import shutil
import signal
import subprocess
import sys
import tempfile
import time
import unittest
from unittest import mock

from tools import programs, words
from tools.programs import NOBODY, REPOSITORY
from tools.run import HELP, OTHER_OPTIONS, PROGRAMS, Asked, Misuse, asked_for, first_refusal

ROOM = 98_305
PROGRAM = f"#!/bin/sh\n{{begun}}\nexec head -c {ROOM}\n"
OTHER_PROGRAM = "#!/bin/sh\necho 4101\n"
RT = """\
#!/bin/sh
name=$(basename "$PWD")
echo "$@ $name" >> "{kit}/calls"
mkdir -p out
. "{kit}/script"
cp "{kit}/program" "out/$name"
"""
CRATES = "# programs\nlow:\nmiddle: low\nbeside:\ntrack: middle low io\nplay: low\njudge: low\nreread: low\n"
LISTING = b"4000\n4100\n3001000000000000\n3f\n"
REFUSED_STEP = b"4000\n4102\n4e070002\n3001000000000000\n3f\n"
REFUSAL = f"run: refused, number 7, line 2 of the script: {words.REFUSAL_WORDS[7][0]}\n"


class House:
    """A folder with a repository, `house`, and a kit, `kit`."""

    def __init__(self, folder):
        self.folder = pathlib.Path(folder)
        self.folder.chmod(0o755)  # root runs programs as nobody
        self.house, self.kit = self.folder / "house", self.folder / "kit"
        self.sign = self.folder / "signs" / "begun"
        self.begun = f"touch {self.sign}"
        shutil.copytree(REPOSITORY / "tools", self.house / "tools", ignore=shutil.ignore_patterns("__pycache__"))
        shutil.copy(REPOSITORY / "run", self.house)
        self.put("house/crates.txt", CRATES)
        for line in CRATES.splitlines()[1:]:
            self.put(f"house/crates/{line.partition(':')[0]}/src/lib.rt", line)
        self.put("kit/KIT-ID", "kit one\n")
        self.put("kit/calls", "")
        self.put("kit/program", PROGRAM.format(begun=self.begun))
        self.put("kit/bin/rt", RT.format(kit=self.kit), 0o755)
        self.let_rt(":")
        for name, mode in (("bin", 0o755), ("signs", 0o777)):
            (self.folder / name).mkdir()
            (self.folder / name).chmod(mode)
        (self.folder / "bin" / "python3").symlink_to(sys.executable)
        self.path = f"{self.kit}/bin:{self.folder}/bin:/usr/bin:/bin"

    def put(self, name, text, mode=0o644):
        """Writes a file; gives its path."""
        file = self.folder / name
        file.parent.mkdir(parents=True, exist_ok=True)
        file.write_text(text, "utf-8")
        file.chmod(mode)
        return str(file)

    def let_rt(self, script):
        """Has rt do this before it takes the program."""
        self.put("kit/script", script.format(kit=self.kit, begun=self.begun) + "\n")

    def calls(self):
        """What rt has been called with, call by call."""
        return (self.kit / "calls").read_text("utf-8").splitlines()

    def wait_for_sign(self):
        """Waits until the rt or the program of what was started last has begun."""
        while not self.sign.exists():
            time.sleep(0.01)

    def start(self, *arguments, command=None, **how):
        self.sign.unlink(missing_ok=True)
        streams = dict.fromkeys(("stdin", "stdout", "stderr"), subprocess.PIPE)
        surroundings = {"cwd": self.folder, "env": {"PATH": self.path}}
        return subprocess.Popen([command or self.house / "run", *arguments], **{**streams, **surroundings, **how})

    def outcome(self, *arguments, given=LISTING, **how):
        """What is printed, what is told on standard error, and the exit status."""
        with self.start(*arguments, **how) as run:
            printed, told = run.communicate(given if run.stdin else None)
        return printed, told.decode("utf-8"), run.returncode

    def outcome_in_shell(self, streams, *arguments):
        """The outcome where a shell sets streams."""
        return self.outcome("-c", f'exec "$@" {streams}', "sh", self.house / "run", *arguments, command="/bin/sh")


class Tested(unittest.TestCase):
    def assert_one_line(self, outcome, status, *parts):
        """That nothing is printed, and one line told, which has these parts."""
        printed, told, ended = outcome
        self.assertEqual((printed, told.count("\n"), ended), (b"", 1, status), told)
        for part in ("run: ", *parts):
            self.assertIn(part, told)


class OwnHouse(Tested):
    """Each test has a house, in which nothing is built."""

    def setUp(self):
        folder = tempfile.TemporaryDirectory()
        self.addCleanup(folder.cleanup)
        self.at = House(folder.name)


class SharedHouse(Tested):
    """All tests have one house, in which nothing is built."""

    @classmethod
    def setUpClass(cls):
        folder = tempfile.TemporaryDirectory()
        cls.addClassCleanup(folder.cleanup)
        cls.at = House(folder.name)


class SharedProgram(SharedHouse):
    """In the house the tracking program is built, and there is a show."""

    @classmethod
    def setUpClass(cls):
        super().setUpClass()
        cls.at.outcome()
        cls.show = cls.at.put("shows/show.table", LISTING.decode("ascii"))


# ---- building


class Building(OwnHouse):
    def assert_builds(self, times, why):
        before = len(self.at.calls())
        self.assertEqual(self.at.outcome()[::2], (LISTING, 0), why)
        self.assertEqual(len(self.at.calls()) - before, times, why)

    def test_nothing_has_changed(self):
        self.assert_builds(1, "nothing is built")
        self.at.put("house/crates/beside/src/lib.rt", "not stood on")
        self.at.put("house/crates/low/out/rlib/stamp", "made by rt")
        (self.at.house / "crates/low/src/lib.rt").touch()
        (self.at.house / "crates/low/src/link.rt").symlink_to("nowhere")
        self.assert_builds(0, "changes that the program is not built of")
        self.at.house = self.at.house.rename(self.at.folder / "moved")
        self.assert_builds(0, "the same in another folder")

    def test_something_has_changed(self):
        self.assert_builds(1, "nothing is built")
        for name, text in (
            ("house/crates/low/src/lib.rt", "pub fn f"),
            ("house/crates/low/specs/More.antt", ""),
            ("house/crates.txt", CRATES.replace("middle: low", "middle: beside")),
            ("house/crates.txt", CRATES.replace("middle: low", "middle: beside") + "# more\n"),
            ("house/crates/beside/src/lib.rt", "stood on now"),
            ("kit/KIT-ID", "kit two\n"),
            ("house/crates/track/out/track", OTHER_PROGRAM),
            ("house/target/built/track.sum", "\u00fc"),
        ):
            self.at.put(name, text)
            self.assert_builds(1, name)
        (self.at.house / "crates/low/specs/More.antt").unlink()
        self.assert_builds(1, "a file is gone")
        self.assert_builds(0, "the same again")

    def test_a_program_that_is_gone_or_altered_though_rt_has_its_stamp(self):
        self.at.let_rt("[ ! -e out/$name.stamp ] || exit 0; touch out/$name.stamp")
        self.at.put("house/crates/track/out/track.stamp", "")
        self.assert_builds(1, "gone")
        self.at.put("house/crates/track/out/track", OTHER_PROGRAM)
        self.assert_builds(1, "altered")

    def test_what_changes_meanwhile_is_proved_too(self):
        self.at.let_rt("[ -e {kit}/once ] || echo more >> ../low/src/lib.rt; touch {kit}/once")
        self.assert_builds(2, "changed while it was proved")
        self.assert_builds(0, "the same again")

    def test_each_program_by_itself(self):
        for option, program in PROGRAMS.items():
            if option != "--words":
                self.assertEqual(self.at.outcome(*filter(None, [option]))[::2], (LISTING, 0))
                self.assertEqual(self.at.calls()[-1], f"run {program}")

    def test_what_is_told_goes_to_no_file(self):
        self.assertEqual(self.at.outcome_in_shell("2>&-")[::2], (LISTING, 0))
        self.assertEqual((self.at.house / "target/built/lock").read_bytes(), b"")

    def test_a_run_under_way_keeps_its_program(self):
        with self.at.start() as run:
            self.at.wait_for_sign()
            self.at.put("kit/program", OTHER_PROGRAM)
            self.at.put("house/crates/low/src/lib.rt", "pub fn f")
            self.assertEqual(self.at.outcome()[0], b"4101\n")
            self.assertEqual(run.communicate(LISTING)[0], LISTING)


class AtOnce(OwnHouse):
    WAITS = "run: another run is proving or building; waiting for its end\n"

    def setUp(self):
        super().setUp()
        self.at.let_rt("mkdir {kit}/proving || exit 8; {begun}; sleep 0.3; rmdir {kit}/proving")

    def test_one_builds_and_the_other_waits(self):
        with self.at.start() as first, self.at.start() as second:
            outcomes = [run.communicate(LISTING) for run in (first, second)]
        self.assertEqual([first.returncode, second.returncode], [0, 0])
        self.assertEqual([printed for printed, _ in outcomes], [LISTING, LISTING])
        self.assertEqual(sorted(told.decode("utf-8") == self.WAITS for _, told in outcomes), [False, True])
        self.assertEqual(len(self.at.calls()), 1)

    def test_rt_goes_on_alone_where_its_run_is_killed(self):
        with self.at.start() as first:
            self.at.wait_for_sign()
            first.kill()
        printed, told, status = self.at.outcome()
        self.assertEqual((printed, told.startswith(self.WAITS), status), (LISTING, True, 0))


class Words(OwnHouse):
    def test_the_table_at_the_front_tells_what_has_ended(self):
        self.at.put("kit/program", "#!/bin/sh\nexec sed '1,/^1[fF]/d'\n")  # prints what stands behind the table
        track = b"4100\n3001000200010000\n310000000100\n3100010000\n3200000001\n3f\n"
        for kind, heading in ((b"1207", words.SOUND_WORDS), (b"1208", words.REST_WORDS[0])):
            table = b"10010100\n1100\n" + kind + b"\n1f0001\n"
            for spelt in (table, table.upper().replace(b"\n", b"\r\n")):
                lines = self.at.outcome("--words", given=spelt + track)[0].decode("utf-8").splitlines()
                self.assertEqual(lines[-3:-1], [heading, "  node 1    definition 0, the whole right-hand side"])


class Proving(OwnHouse):
    def test_crate_by_crate(self):
        proved = "echo crate {name}: modules loaded=0 checked=40; echo logic=proved functions=1"
        go = "until [ -e {kit}/go ]; do sleep 0.01; done"
        self.at.let_rt("; ".join([
            "echo library beside: modules loaded=0 checked=0; echo logic=proved functions=9",
            proved.replace("{name}", "low"), go, "echo fn track::main: proved", proved.replace("{name}", "track"),
        ]))
        with self.at.start() as run:
            run.stdin.close()
            lines = [run.stderr.readline() for _ in range(2)]
            self.at.put("kit/go", "")
            lines += run.stderr.readlines()
        self.assertTrue(lines[0].startswith(b"run: proving and building track, 3 crates"), lines)
        self.assertEqual(lines[1:], [
            b"run: 1 of 3 at most proved: low 0 s\n",
            b"run: 2 of 3 at most proved: track 0 s\n",
        ])

    def test_not_proved(self):
        self.at.let_rt("echo 'logic=not-proved functions=3'; echo 'λ n. ..' >&2; exit 1")
        for _ in range(2):
            printed, told, status = self.at.outcome()
            self.assertEqual((printed, status), (b"", 3))
            self.assertEqual(told.splitlines()[1:], [
                "logic=not-proved functions=3",
                "λ n. ..",
                "run: track is not proved and built: `rt run` in crates/track ended with status 1",
            ])

    def test_proved_and_not_built(self):
        self.at.let_rt("exit 0")
        _, told, status = self.at.outcome()
        told_last = "run: `rt run` in crates/track ended well, and there is no crates/track/out/track"
        self.assertEqual(told.splitlines()[1:], [told_last])
        self.assertEqual(status, 3)

    def test_a_program_that_ends_badly(self):
        self.at.put("kit/program", "#!/bin/sh\necho one >&2; echo two >&2; exit 4\n")
        _, told, status = self.at.outcome()
        self.assertEqual(told.splitlines()[1:], ["run: the program track did not end well: status 4 one two"])
        self.assertEqual(status, 3)

    def test_an_interrupt(self):
        os.mkfifo(self.at.folder / "alive")
        alive = os.open(self.at.folder / "alive", os.O_RDONLY | os.O_NONBLOCK)
        # what a shell runs beside itself ignores an interrupt
        self.at.let_rt(f"(exec 3> '{self.at.folder}/alive'; {{begun}}; sleep 60) & wait")
        with self.at.start() as run, open(alive, "rb", buffering=0) as reading:
            self.at.wait_for_sign()
            run.send_signal(signal.SIGINT)
            told = run.stderr.readlines()
            self.assertEqual((told[-1], run.wait()), (b"run: interrupted; what is proved is kept\n", 130))
            self.assertEqual(reading.read(1), b"", "something holds the pipe open")


class NoWriting(OwnHouse):
    """A checkout that cannot be written, by a user who is not root."""

    def outcome(self):
        self.at.house.chmod(0o555)
        self.addCleanup(self.at.house.chmod, 0o755)
        user = {"user": NOBODY, "group": NOBODY, "extra_groups": []} if os.getuid() == 0 else {}
        return self.at.outcome(**user)

    def test_nothing_is_built(self):
        self.assert_one_line(self.outcome(), 3, f"{self.at.house}/target", "cannot be written: Permission denied")

    def test_all_is_built(self):
        self.at.outcome()
        self.assertEqual(self.outcome(), (LISTING, "", 0))


class NothingToBuild(SharedHouse):
    """What needs no program."""

    def tearDown(self):
        self.assertEqual(self.at.calls(), [])

    def test_a_file_that_cannot_be_read(self):
        self.assert_one_line(self.at.outcome("nofile"), 2, "nofile", "No such file")
        self.assert_one_line(self.at.outcome("kit/calls", "kit"), 2, "kit", "Is a directory")

    def test_no_such_option(self):
        self.assert_one_line(self.at.outcome("--wrods", "kit/calls"), 2, "--wrods")

    def test_help(self):
        self.assertEqual(self.at.outcome("--help"), (HELP.encode("utf-8"), "", 0))

    def test_version(self):
        self.at.put("house/docs/LANDINGS.md", "# Landings\n\n## Old\n\n## The newest\n\nWords.\n")
        self.assertEqual(self.at.outcome("--version"), (b"Peashuttle, The newest\n", "", 0))
        (self.at.house / ".git").mkdir()
        self.at.put("bin/git", '#!/bin/sh\necho "v1-2-g3 of $2 by $3"\n', 0o755)
        told_by_git = f"Peashuttle, v1-2-g3 of {self.at.house} by describe\n".encode("utf-8")
        self.assertEqual(self.at.outcome("--version"), (told_by_git, "", 0))
        self.at.put("bin/git", "#!/bin/sh\necho no >&2; exit 128\n", 0o755)
        self.assertEqual(self.at.outcome("--version"), (b"Peashuttle, The newest\n", "", 0))

    def test_the_desk(self):
        self.at.put("house/tools/desk.py", "import sys\nprint(*sys.argv[1:])\nsys.exit(5)\n")
        self.assertEqual(self.at.outcome("a b", "--desk"), (b"a b\n", "", 5))
        self.assert_one_line(self.at.outcome("--desk"), 2, "--desk")

    def test_a_tool_that_is_missing(self):
        self.assert_one_line(self.at.outcome(env={"PATH": f"{self.at.folder}/bin:/usr/bin:/bin"}), 3, "rt", "PATH")
        self.assert_one_line(self.at.outcome(env={"PATH": f"{self.at.kit}/bin"}), 3, "python3", "PATH")
        self.addCleanup(self.at.put, "kit/KIT-ID", "kit one\n")
        (self.at.kit / "KIT-ID").unlink()
        self.assert_one_line(self.at.outcome(), 3, "KIT-ID")


# ---- the command


class Options(unittest.TestCase):
    def test_in_any_order(self):
        for option in (*list(PROGRAMS)[1:], *OTHER_OPTIONS):
            self.assertEqual(asked_for([option, "a", "b"]), Asked(option, ["a", "b"]))
            self.assertEqual(asked_for(["a", option, "b"]), Asked(option, ["a", "b"]))
            self.assertIn(f"\n  {option} ", HELP)

    def test_none(self):
        self.assertEqual(asked_for([]), Asked(None, []))
        self.assertEqual(asked_for(["-", "a"]), Asked(None, ["-", "a"]))

    def test_what_ends_them(self):
        self.assertEqual(asked_for(["--words", "--", "--play", "--"]), Asked("--words", ["--play", "--"]))

    def test_help_comes_first(self):
        self.assertEqual(asked_for(["--words", "--play", "--help"]).option, "--help")

    def test_misuse(self):
        for arguments in (["--no"], ["-w"], ["--words=yes"], ["--words", "a", "--play"]):
            with self.assertRaises(Misuse):
                asked_for(arguments)


class Refusals(unittest.TestCase):
    def told(self, program, output):
        """What is told of a refusal, before what that means."""
        return first_refusal(program, output).partition(":")[0]

    def test_none(self):
        for program in PROGRAMS.values():
            self.assertEqual(first_refusal(program, b"40024e\n4100\n31004e0000\n"), "")

    def test_of_a_listing(self):
        self.assertEqual(self.told("track", b"4e020103\n"), "refused, number 2, line 259 of the table")
        self.assertEqual(self.told("track", b"4e060000\n"), "refused, number 6")
        self.assertEqual(self.told("track", REFUSED_STEP), "refused, number 7, line 2 of the script")
        both = b"4100\n4e090002\n4e0c0000\n"
        self.assertEqual(self.told("track", both), "refused, number 9, line 2 of the script")

    def test_of_the_other_programs(self):
        self.assertEqual(self.told("reread", b"4e030004\n"), "refused, number 3, line 4 of the table or of the track")
        judged = b"table accepted 1 1 5\nstep 1 -\nscript refused 3 at line 258\n"
        self.assertEqual(self.told("judge", judged), "refused, number 3, line 258 of the script")
        self.assertEqual(self.told("judge", b"table refused 2 at line 1\n"), "refused, number 2, line 1 of the table")
        self.assertTrue(first_refusal("play", b""))


class Command(SharedProgram):
    def test_listed(self):
        for arguments in ((), ("-",), ("--", "shows/show.table")):
            self.assertEqual(self.at.outcome(*arguments), (LISTING, "", 0))

    def test_refused(self):
        self.assertEqual(self.at.outcome(given=REFUSED_STEP), (REFUSED_STEP, REFUSAL, 1))
        in_words = words.text_in_words(REFUSED_STEP, {})
        self.assertEqual(self.at.outcome("--words", given=REFUSED_STEP), (in_words, REFUSAL, 1))

    def test_several_files(self):
        front = self.at.put("front", "4000\n4000\n")
        self.assertEqual(self.at.outcome(front, "-", self.show, given=b"4001\n")[0], b"4000\n4000\n4001\n" + LISTING)

    def test_names_beside_the_first_file(self):
        self.at.put("named/show.names", "event 3 BLÄCKOUT\n")
        for name in ("show.txt", "show.table", "show"):
            show = self.at.put(f"named/{name}", "400203\n" + LISTING.decode("ascii"))
            printed, _, status = self.at.outcome(show, "--words")
            self.assertEqual((printed.decode("utf-8").splitlines()[0], status), ("step 1: event BLÄCKOUT", 0))
        self.at.put("named/show.names", "event three\n")
        self.assert_one_line(self.at.outcome(show, "--words"), 2, "show.names", "line 1 of the names")

    def test_links_and_folders(self):
        (self.at.folder / "bin" / "first").symlink_to(self.at.house / "run")
        (self.at.folder / "second").symlink_to("bin/first")
        for how in ({"command": "first"}, {"command": "./second"}, {"command": "../house/run", "cwd": "kit"}):
            how["cwd"] = self.at.folder / how.get("cwd", "")
            self.assertEqual(self.at.outcome(self.show, **how), (LISTING, "", 0))


class Streams(SharedProgram):
    def test_an_endless_input(self):
        for arguments in ((), (self.show, "-")):
            with subprocess.Popen(["yes"], stdout=subprocess.PIPE) as yes:
                printed, told, status = self.at.outcome(*arguments, stdin=yes.stdout)
                yes.stdout.close()
            self.assertEqual((len(printed), told, status), (ROOM, "", 0))

    def test_an_input_that_stays_open(self):
        with self.at.start() as run:
            run.stdin.write(b"4000\n" * (ROOM // 5 + 1))
            run.stdin.flush()
            self.assertEqual((len(run.stdout.read()), run.wait()), (ROOM, 0))

    def test_an_input_that_takes_its_time(self):
        with mock.patch.object(programs, "answer_from") as answer_from:
            programs.answer_to_files(None, [])
        self.assertIsNone(answer_from.call_args[1]["seconds"])

    def test_an_input_that_fails(self):
        with open("/proc/self/mem", "rb", buffering=0) as source:  # at whose front nothing can be read
            self.assert_one_line(self.at.outcome(stdin=source), 2, "cannot read the input: Input/output error")

    def test_closed_input(self):
        self.assert_one_line(self.at.outcome_in_shell("<&-"), 2, "cannot read standard input")
        self.assertEqual(self.at.outcome_in_shell("<&-", self.show), (LISTING, "", 0))

    def test_output_that_cannot_be_written(self):
        for streams in ("> /dev/full", ">&-"):
            outcome = self.at.outcome_in_shell(streams, self.show)
            self.assert_one_line(outcome, 2, "cannot write to standard output")

    def test_nobody_hears_what_is_told(self):
        refused = self.at.put("refused", REFUSED_STEP.decode("ascii"))
        for streams in ("2> /dev/full", "2>&-"):
            self.assertEqual(self.at.outcome_in_shell(streams, refused), (REFUSED_STEP, "", 1))

    def test_a_broken_pipe(self):
        reading, writing = os.pipe()
        os.close(reading)
        with open(writing, "wb") as unheard:
            self.assertEqual(self.at.outcome(self.show, stdout=unheard), (None, "", 141))

    def test_an_interrupt_while_it_reads(self):
        for stopping in (signal.SIGINT, signal.SIGTERM):
            with self.at.start() as run:
                self.at.wait_for_sign()
                run.send_signal(stopping)
                self.assertEqual((run.wait(), run.stdout.read(), run.stderr.read()), (130, b"", b""))
