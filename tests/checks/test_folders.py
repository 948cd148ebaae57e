"""Tests of the folders: what each imports, that its files run as commands, and that the paths told are there."""

import ast
import re
import subprocess
import sys
import tempfile
import unittest

from tools.programs import REPOSITORY

MAY_IMPORT = {  # of the repository
    "tools": ("tools.",),
    "tests/independent": ("tests.independent.",),
    "tests/generators": ("tests.independent.", "tests.generators."),
    "tests/checks": ("tests.independent.", "tests.generators.", "tests.checks.", "tools."),
}
GENERATORS = ("tables", "runs", "tracks", "inputs")
COMMANDS = (  # words that need no built program; standard input is empty
    "tests/independent/frames.py",
    "tests/independent/rules.py",
    "tests/independent/rules.py play",
    "tests/independent/saved.py",
    *(f"tests/generators/{name}.py --seed 7 --index 12" for name in GENERATORS),
    "tests/checks/cases.py --help",
    "tests/checks/differential.py --help",
    "tests/checks/gate.py --help",
    "tests/checks/hosts.py --help",
    "tests/checks/opponent.py --help",
    "tests/checks/units.py --help",
)
PATH = re.compile(r"(?<![\w/])(?:tests|tools)/[\w/.-]*\w")


def python_files():
    return [file for folder in ("tests", *MAY_IMPORT) for file in sorted((REPOSITORY / folder).glob("*.py"))]


def imported_by(source):
    """The whole names of what a file imports, one of `from a import b` as a.b."""
    for node in ast.walk(ast.parse(source)):
        if isinstance(node, ast.Import):
            yield from (alias.name for alias in node.names)
        if isinstance(node, ast.ImportFrom):
            yield from (f"{'.' * node.level}{node.module or ''}.{alias.name}" for alias in node.names)


def forbidden(folder, source):
    """The names of the repository that a file imports and its folder may not, or not in this way."""
    ours = {"", "tests", "tools"} | {file.stem for file in python_files()}
    names = [name for name in imported_by(source) if name.split(".")[0] in ours]
    return [name for name in names if not name.startswith(MAY_IMPORT[folder])]


class Imports(unittest.TestCase):
    def test_each_folder_imports_what_it_may(self):
        for folder in MAY_IMPORT:
            for file in (REPOSITORY / folder).glob("*.py"):
                self.assertEqual(forbidden(folder, file.read_text("utf-8")), [], file)

    def test_what_is_found(self):
        for folder, source, found in (
            ("tests/independent", "from tests.generators import runs", ["tests.generators.runs"]),
            ("tests/independent", "def late():\n    import tests.checks.cases", ["tests.checks.cases"]),
            ("tests/independent", "from tests import generators", ["tests.generators"]),
            ("tests/independent", "import runs, re", ["runs"]),
            ("tests/independent", "from ..generators.runs import call", ["..generators.runs.call"]),
            ("tests/independent", "import sys\nfrom tests.independent import frames", []),
            ("tests/generators", "from tests.checks.cases import KEPT", ["tests.checks.cases.KEPT"]),
            ("tests/generators", "from tests.independent.frames import Place", []),
        ):
            self.assertEqual(forbidden(folder, source), found)


class Commands(unittest.TestCase):
    def test_a_file_runs_as_a_command_from_any_folder(self):
        with tempfile.TemporaryDirectory() as elsewhere:
            for words in COMMANDS:
                file, *arguments = words.split()
                command = [sys.executable, "-B", str(REPOSITORY / file), *arguments]
                ended = subprocess.run(command, cwd=elsewhere, input=b"", capture_output=True, check=False)
                self.assertEqual((ended.returncode, ended.stderr), (0, b""), words)

    def test_every_command_of_tests_is_run(self):
        files = [file for file in python_files() if "\nif __name__" in file.read_text("utf-8")]
        paths = {str(file.relative_to(REPOSITORY)) for file in files}
        self.assertEqual({words.split()[0] for words in COMMANDS}, {path for path in paths if path[:5] == "tests"})


class Paths(unittest.TestCase):
    def test_paths_that_are_told_are_there(self):
        told = [REPOSITORY / name for name in ("README.md", "examples/README.md", "docs/FORMAT.md", "test", "run")]
        for file in told + python_files():
            for path in PATH.findall(file.read_text("utf-8")):
                self.assertTrue((REPOSITORY / path).exists(), f"{path} in {file}")
