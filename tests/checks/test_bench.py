"""Tests of the benchmark's command that build nothing: kept tables read and compared, their heads, and other machines."""

import contextlib
import datetime
import io
import pathlib
import tempfile
import unittest
from unittest import mock

from tools import bench
from tools.programs import Trouble

TABLE = """\
# date: 2026-11-16 15:40:12 UTC
# machine: A Processor, 2 processors, load 0.10
# commit: d8e604b
name                unit     ours  theirs  ratio  ours-median  theirs-median
step/call-loop   ns/step    12.00    8.00   1.50        13.00           8.10
list/case-a   us/listing     4.00    1.00   4.00         4.10           1.10
# 2 workloads: the worst ratio is 4.00, list/case-a; the geometric mean is 2.45

name              unit     ours  theirs  ratio  ours-median  theirs-median
sides/step-2   ns/step    20.00   10.00   2.00        21.00          11.00
# kept as a table
"""
LATER = """\
# date: 2026-11-17 10:00:00 UTC
name                        unit  ours  theirs  ratio
step/call-loop           ns/step  6.00    8.00   0.75
list/case-a   instructions/listing  9.00  3.00   3.00
save/case-j              ns/node  9.00    3.00   3.00
"""


class Tables(unittest.TestCase):
    def test_a_kept_table_is_read(self):
        kept = bench.read_table(TABLE)
        self.assertEqual(list(kept.rows), ["step/call-loop", "list/case-a", "sides/step-2"])
        self.assertEqual(kept.rows["step/call-loop"], ("ns/step", 12.0, 8.0))
        self.assertEqual(kept.rows["list/case-a"].ratio, 4.0)
        self.assertEqual(kept.head["commit"], "d8e604b")
        self.assertEqual(kept.head["machine"], "A Processor, 2 processors, load 0.10")

    def test_what_is_no_table(self):
        for text in (
            "",
            "# date: today\n",
            "step/call-loop ns/step 12.00 8.00 1.50\n",
            "name unit ours theirs ratio\nstep/call-loop ns/step 12.00 8.00\n",
            "name unit ours theirs ratio\nstep/call-loop ns/step 12.00 fast 1.50\n",
            "name unit ours\nstep/call-loop ns/step 12.00\n",
        ):
            with self.assertRaises(Trouble, msg=text):
                bench.read_table(text)

    def test_two_tables_are_compared(self):
        lines = list(bench.compared(bench.read_table(TABLE), bench.read_table(LATER)))
        self.assertEqual([line.split() for line in lines if not line.startswith("#")], [
            ["name", "unit", "ratio-A", "ratio-B", "ours-B/A", "theirs-B/A"],
            ["step/call-loop", "ns/step", "1.50", "0.75", "0.50", "1.00"],
        ])
        self.assertEqual(lines[0], "# A: 2026-11-16 15:40:12 UTC, A Processor, 2 processors, load 0.10, d8e604b")
        self.assertEqual(lines[1], "# B: 2026-11-17 10:00:00 UTC, unknown, unknown")
        self.assertEqual(lines[-2], "# 1 workloads: the geometric mean of their ratios is 1.50 in A and 0.75 in B")
        self.assertEqual(lines[-1], "# in one of them alone: list/case-a save/case-j sides/step-2")

    def test_nothing_in_common(self):
        other = bench.Kept({}, {"step/other": bench.Row("ns/step", 1.0, 1.0)})
        with self.assertRaises(Trouble):
            list(bench.compared(bench.read_table(TABLE), other))

    def test_the_mean_is_geometric(self):
        self.assertAlmostEqual(bench.mean([8.0, 0.5]), 2.0)


class Heads(unittest.TestCase):
    def test_a_head_is_read_as_it_was_written(self):
        date = datetime.datetime(2026, 11, 16, 15, 40, 12)
        told = bench.read_table(bench.head(date, ["--quick"]) + TABLE.partition("commit: d8e604b\n")[2]).head
        self.assertEqual((told["date"], told["options"]), ("2026-11-16 15:40:12 UTC", "--quick"))
        self.assertEqual(set(told), {"date", "machine", "commit", "options", "told"})

    def test_the_processor(self):
        self.assertEqual(bench.cpu_model("processor\t: 0\nmodel name\t: A Processor \nflags\t: b\n"), "A Processor")
        self.assertEqual(bench.cpu_model(""), "unknown")


class Command(unittest.TestCase):
    def told(self, *words):
        """The exit status of the command, and what it prints."""
        output, errors = io.StringIO(), io.StringIO()
        with contextlib.redirect_stdout(output), contextlib.redirect_stderr(errors):
            status = bench.main(list(words))
        return status, output.getvalue(), errors.getvalue()

    def test_options_of_the_harness(self):
        asked = bench.parse(["--quick", "--only", "step/", "--as-built"])
        self.assertEqual(bench.options_of(asked), ["--quick", "--only", "step/"])
        self.assertEqual(bench.options_of(bench.parse([])), [])

    def test_other_machines_are_told_in_one_line(self):
        with mock.patch("platform.machine", return_value="aarch64"):
            status, output, errors = self.told()
        self.assertEqual((status, errors), (0, ""))
        self.assertEqual(output, "bench: the archive links only into programs for x86-64, and this machine is aarch64\n")

    def test_tables_are_compared_by_their_paths_and_names(self):
        with tempfile.TemporaryDirectory() as folder, mock.patch.object(bench, "TABLES", pathlib.Path(folder)):
            (bench.TABLES / "one.txt").write_text(TABLE, "utf-8")
            (bench.TABLES / "other").write_text(LATER, "utf-8")
            by_name = self.told("--compare", "one", "other")
            by_path = self.told("--compare", str(bench.TABLES / "one.txt"), str(bench.TABLES / "other"))
            missing = self.told("--compare", "one", "none")
        self.assertEqual((by_name[0], by_name), (0, by_path))
        self.assertIn("step/call-loop", by_name[1])
        self.assertEqual(missing, (1, "", "bench: there is no table none\n"))

    def test_an_archive_that_is_missing_is_told(self):
        missing = bench.REPOSITORY / "target" / "no" / "libpeashuttle.a"
        with mock.patch.object(bench, "ARCHIVE", missing), mock.patch("platform.machine", return_value="x86_64"):
            status, output, errors = self.told("--as-built")
        self.assertEqual((status, output), (1, ""))
        self.assertEqual(errors, "bench: there is no target/no/libpeashuttle.a; without --as-built it is made\n")

    def test_cargo_that_is_missing_is_told(self):
        with mock.patch("subprocess.run", side_effect=FileNotFoundError), self.assertRaises(Trouble) as trouble:
            bench.build_harness()
        self.assertEqual(str(trouble.exception), "needs cargo, and there is none on the PATH")
