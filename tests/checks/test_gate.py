"""Tests of the gate, with a made-up `rt` on the path and no other: what it shows, what comes last, and its status; and of
its unit tests, that none is left out and none fails unseen.
"""

import os
import pathlib
import signal
import subprocess
import sys
import tempfile
import unittest

from tests.checks import units
from tools.programs import REPOSITORY

RUN = """
import signal, sys
from tests.checks.gate import Part, run
signal.signal(signal.SIGINT, signal.default_int_handler)
first, later, last = (Part(name, (("/bin/sh", "-c", words),)) for name, words in zip(("x", "y", "z"), sys.argv[1:]))
sys.exit(run(first, (later, last)))
"""
PASSED = "12 passed, 0 failed"
NOT_TOLD = "FAILED: rt ci: its last line is not 'N passed, 0 failed'"


class Gate(unittest.TestCase):
    """Each test has a folder, with an `rt` in it that runs a script of the test when it is called as `rt ci`."""

    def setUp(self):
        folder = tempfile.TemporaryDirectory()
        self.addCleanup(folder.cleanup)
        self.folder = pathlib.Path(folder.name)

    def put_rt(self, script):
        rt = self.folder / "rt"
        rt.write_text(f'#!/bin/sh\n[ "$*" = ci ] || exit 9\ncd "{self.folder}"\n{script}\n', "utf-8")
        rt.chmod(0o755)

    def start(self, first="echo first", later="echo later", last="echo last", **variables):
        command = [sys.executable, "-B", "-c", RUN, first, later, last]
        environment = {"PATH": str(self.folder), "PYTHONPATH": str(REPOSITORY), **variables}
        return subprocess.Popen(command, stdout=subprocess.PIPE, stderr=subprocess.STDOUT, env=environment, text=True)

    def outcome(self, rt_ci, **commands):
        """The lines shown, and the exit status."""
        self.put_rt(rt_ci)
        with self.start(**commands) as gate:
            return gate.stdout.read().splitlines(), gate.wait()


def each_test(suite):
    """Every test of a suite, and of the suites in it."""
    for part in suite:
        yield from each_test(part) if isinstance(part, unittest.TestSuite) else (part,)


class Outcomes(Gate):
    def test_all_passes(self):
        lines, status = self.outcome(f"echo a proved; echo b proved; echo {PASSED}")
        self.assertEqual((lines[-1], status), (PASSED, 0))
        self.assertEqual(lines[:5], ["first", "a proved", "b proved", "later", "last"])

    def test_where_the_seconds_went(self):
        lines, _ = self.outcome(f"/bin/sleep 0.6; echo {PASSED}")
        table = [line.rsplit(None, 2) for line in lines[3:-1]]
        self.assertEqual([name for name, *_ in table], ["x", "rt ci", "y", "z", "all"])
        self.assertEqual({unit for *_, unit in table}, {"s"})
        self.assertTrue(1 <= int(table[1][1]) <= int(table[-1][1]))

    def test_what_comes_first_fails(self):
        failed = ["ill", "FAILED: /bin/sh -c echo ill; exit 3: status 3"]
        self.assertEqual(self.outcome(f"echo {PASSED}", first="echo ill; exit 3"), (failed, 1))

    def test_rt_ci_fails(self):
        failed = ["first", "a NOT PROVED", "11 passed, 1 failed", "FAILED: rt ci: status 1"]
        self.assertEqual(self.outcome("echo a NOT PROVED; echo 11 passed, 1 failed; exit 1"), (failed, 1))

    def test_rt_ci_fails_and_tells_that_all_has_passed(self):
        self.assertEqual(self.outcome(f"echo {PASSED}; exit 2"), (["first", "FAILED: rt ci: status 2"], 1))
        self.assertEqual(self.outcome(f"echo {PASSED}; kill -9 $$"), (["first", "FAILED: rt ci: status -9"], 1))

    def test_rt_ci_ends_well_with_another_last_line(self):
        for last in ("done", "11 passed, 1 failed", "0 passed, 0 failed", f"rt: {PASSED}", f"{PASSED}.", ""):
            outcome = self.outcome(f"echo {PASSED}; echo '{last}'")
            self.assertEqual(outcome, (["first", PASSED, last, NOT_TOLD], 1))

    def test_bad_must_fail_edits(self):
        ok = "rt: ok; handles allowed: none; must-fail edits: {}; every proof and must-fail edit was done in this run"
        for told, bad in (("9 refused, 2 bad", 2), ("9 refused, 3 of them only by a limit, 10 bad", 10)):
            lines, status = self.outcome(f"echo '{ok.format(told)}'; echo {PASSED}")
            failed = f"FAILED: rt ci: {bad} bad must-fail edits"
            self.assertEqual((lines, status), (["first", ok.format(told), failed], 1))
        for told in ("9 refused", "9 refused, 3 of them only by a limit", "9 refused, 0 bad"):
            lines, status = self.outcome(f"echo '{ok.format(told)}'; echo {PASSED}")
            self.assertEqual((lines[1], lines[-1], status), (ok.format(told), PASSED, 0))

    def test_rt_ci_prints_nothing(self):
        self.assertEqual(self.outcome(":"), (["first", NOT_TOLD], 1))

    def test_there_is_no_rt(self):
        with self.start() as gate:
            lines = gate.stdout.read().splitlines()
        self.assertEqual((len(lines), lines[1][:15], gate.returncode), (2, "FAILED: rt ci: ", 1))

    def test_a_later_command_fails(self):
        for which, shown in (("later", []), ("last", ["later"])):
            outcome = self.outcome(f"echo {PASSED}", **{which: f"echo {PASSED}; exit 1"})
            failed = ["first", *shown, PASSED, f"FAILED: /bin/sh -c echo {PASSED}; exit 1: status 1"]
            self.assertEqual(outcome, (failed, 1))


class Shown(Gate):
    def test_what_is_said_of_errors_is_shown_in_its_place(self):
        lines, status = self.outcome(f"echo one; echo two >&2; echo three; echo {PASSED}")
        self.assertEqual((lines[1:4], status), (["one", "two", "three"], 0))

    def test_lines_are_shown_as_they_come(self):
        wait_for_go = "n=0; until [ -e go ]; do /bin/sleep 0.1; n=$((n + 1)); [ $n -lt 150 ] || exit 1; done"
        self.put_rt(f"echo a proved; {wait_for_go}; echo {PASSED}")
        with self.start() as gate:
            self.assertEqual([gate.stdout.readline() for _ in range(2)], ["first\n", "a proved\n"])
            (self.folder / "go").touch()
            self.assertEqual(gate.stdout.read().splitlines()[-1], PASSED)


class AtATime(Gate):
    RT_CI = f"echo $RT_JOBS; echo {PASSED}"

    def test_as_many_as_rt_finds_room_for(self):
        self.assertEqual(self.outcome(self.RT_CI)[0][1], "")

    def test_as_many_as_are_asked_for(self):
        self.assertEqual(self.outcome(self.RT_CI, RT_JOBS="1")[0][1], "1")


class TemporaryFiles(Gate):
    RT_CI = f"echo $TMPDIR; echo {PASSED}"

    def test_where_rt_puts_them(self):
        self.assertEqual(self.outcome(self.RT_CI)[0][1], "")

    def test_where_they_are_asked_for(self):
        self.assertEqual(self.outcome(self.RT_CI, TMPDIR=str(self.folder))[0][1], str(self.folder))


class Units(unittest.TestCase):
    def test_every_module_is_run(self):
        found = unittest.TestLoader().discover(REPOSITORY / "tests" / "checks", top_level_dir=REPOSITORY)
        self.assertEqual({type(test).__module__ for test in each_test(found)}, set(units.modules()))

    def test_a_module_that_fails_is_named(self):
        run = "import sys; from tests.checks import units; sys.exit(units.run(sys.argv[1:]))"
        missing, passing = "tests.checks.test_nothing", "tests.checks.test_examples"
        for names, last, status in (((passing,), "OK", 0), ((missing, passing), f"FAILED: {missing}", 1)):
            command = [sys.executable, "-B", "-c", run, *names]
            ended = subprocess.run(command, cwd=REPOSITORY, stdout=subprocess.PIPE, text=True, check=False)
            self.assertEqual((ended.stdout.splitlines()[-1], ended.returncode), (last, status))


# an interrupt that comes while a command is being started, behind its fork
INTERRUPTED_AT_ITS_START = """
import os, signal, subprocess, sys
from tools.commands import stop_as_by_an_interrupt, under_way

class Popen(subprocess.Popen):
    def __init__(self, *words, **how):
        super().__init__(*words, **how)
        os.kill(os.getpid(), signal.SIGINT)

subprocess.Popen = Popen
stop_as_by_an_interrupt()
try:
    with under_way(["/bin/sh", "-c", "/bin/sleep 60; echo survived"]):
        print("the block", flush=True)
except KeyboardInterrupt:
    print("interrupted", flush=True)
"""


class Interrupts(Gate):
    # a shell's command that holds the pipe `alive` open for a minute; beside its shell it ignores an interrupt
    LASTING = f"(exec 3> alive; echo up; echo {PASSED}; /bin/sleep 60; echo survived)"

    def interrupted(self, rt_ci, **commands):
        """The last line shown after an interrupt, the exit status, and whether none holds the pipe open any more."""
        self.put_rt(rt_ci)
        os.mkfifo(self.folder / "alive")
        alive = os.open(self.folder / "alive", os.O_RDONLY | os.O_NONBLOCK)
        with self.start(**commands) as gate, open(alive, "rb", buffering=0) as reading:
            while gate.stdout.readline() != "up\n":
                pass
            gate.send_signal(signal.SIGINT)
            return gate.stdout.read().splitlines()[-1], gate.wait(), reading.read(1) == b""

    def test_rt_ci_is_ended_with_what_it_runs_beside_itself(self):
        self.assertEqual(self.interrupted(f"{self.LASTING} & wait"), ("FAILED: interrupted", 130, True))

    def test_a_later_command_is_ended(self):
        outcome = self.interrupted(f"echo {PASSED}", later=f'cd "{self.folder}"; {self.LASTING}')
        self.assertEqual(outcome, ("FAILED: interrupted", 130, True))

    def test_a_command_is_ended_that_is_just_being_started(self):
        command = [sys.executable, "-B", "-c", INTERRUPTED_AT_ITS_START]
        environment = {"PYTHONPATH": str(REPOSITORY)}
        ended = subprocess.run(command, stdout=subprocess.PIPE, env=environment, text=True, check=False)
        self.assertEqual((ended.stdout, ended.returncode), ("interrupted\n", 0))
