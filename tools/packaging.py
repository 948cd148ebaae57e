"""What a host takes away: the proved library with its header, its Rust crate, examples and a page on how to use them.

    hosts/package

proves the library where its sources have changed, makes the folder target/hosts/peashuttle-VERSION anew, and prints where
that is. The version is the one that ./run --version tells. Nothing in the folder needs this repository.

exit status: 0 made, 1 not made, 2 no such option
"""

import argparse
import contextlib
import pathlib
import re
import shutil
import subprocess
import sys

if __name__ == "__main__":  # as a command, too, packages are found from the repository
    sys.path[0] = str(pathlib.Path(__file__).resolve().parents[1])

from tools.building import MADE_BY_RT, alone, keep_sums, kept_sums, prove, sum_of_program, sum_of_sources
from tools.programs import REPOSITORY, Trouble
from tools.run import version

HOSTS = REPOSITORY / "hosts"
MADE = REPOSITORY / "target" / "hosts"
CRATE = "peashuttle_c"  # the library as a static one
MADE_ARCHIVE = REPOSITORY / "crates" / CRATE / MADE_BY_RT / f"lib{CRATE}.a"
ARCHIVE = REPOSITORY / "target" / "staticlib" / "libpeashuttle.a"
CONTENTS = {  # of the folder, by where each file of the repository goes
    "README.md": HOSTS / "README.md",
    "include/peashuttle.h": HOSTS / "c" / "peashuttle.h",
    "examples/example.c": HOSTS / "c" / "example.c",
    "examples/casino.txt": REPOSITORY / "examples" / "casino.txt",
    "rust/Cargo.toml": HOSTS / "rust" / "Cargo.toml",
    "rust/build.rs": HOSTS / "rust" / "build.rs",
    "rust/src/lib.rs": HOSTS / "rust" / "src" / "lib.rs",
    "rust/src/proved.rs": HOSTS / "rust" / "src" / "proved.rs",
    "rust/examples/listing.rs": HOSTS / "rust" / "examples" / "listing.rs",
    "lib/libpeashuttle.a": ARCHIVE,
    "rust/lib/libpeashuttle.a": ARCHIVE,
}
FAILURE = 1  # an exit status


def sums():
    """Of the library's sources, and of the archive as it stands."""
    return [sum_of_sources(CRATE), sum_of_program(ARCHIVE.read_bytes() if ARCHIVE.is_file() else b"")]


def prove_archive(lock):
    """Proves the library, and writes its archive, under the name that hosts link it by."""
    prove(CRATE, "lib", lock)
    if not MADE_ARCHIVE.is_file():
        raise Trouble(f"`rt lib` in crates/{CRATE} ended well, and there is no {MADE_ARCHIVE.relative_to(REPOSITORY)}")
    ARCHIVE.parent.mkdir(parents=True, exist_ok=True)
    shutil.copyfile(MADE_ARCHIVE, ARCHIVE)


def build_archive():
    """The archive, proved and written anew where its sources or itself have changed since; one build at a time."""
    with alone() as lock:
        sources = sums()[0]
        if kept_sums(ARCHIVE.name) != sums():
            prove_archive(lock)
            keep_sums(ARCHIVE.name, sources, sums()[1])


def commit():
    """The commit that is checked out, none where git tells none."""
    with contextlib.suppress(OSError, subprocess.CalledProcessError):
        if (REPOSITORY / ".git").exists():
            asked = ["git", "-C", REPOSITORY, "rev-parse", "HEAD"]
            return subprocess.run(asked, capture_output=True, check=True, encoding="utf-8").stdout.strip()
    return ""


def version_text(told, committed):
    """The text of the file VERSION."""
    return f"Peashuttle, {told}\n" + (f"commit {committed}\n" if committed else "")


def folder_name(told):
    """The folder of a version, whatever characters that has."""
    return f"peashuttle-{re.sub('[^0-9A-Za-z._-]+', '-', told).strip('-')}"


def licences():
    """The files of the repository that say under which terms it may be used."""
    return sorted(REPOSITORY.glob("LICEN[CS]E*"))


def fill(folder):
    """Puts everything into an empty folder."""
    for name, source in [*CONTENTS.items(), *((file.name, file) for file in licences())]:
        (folder / name).parent.mkdir(parents=True, exist_ok=True)
        shutil.copyfile(source, folder / name)
    (folder / "VERSION").write_text(version_text(version(), commit()), "utf-8")


def make():
    """Makes the folder anew; gives where it is."""
    build_archive()
    fresh, folder = MADE / "fresh", MADE / folder_name(version())
    for old in (fresh, folder):
        shutil.rmtree(old, ignore_errors=True)
    fresh.mkdir(parents=True)
    fill(fresh)
    return fresh.rename(folder)


def main():
    argparse.ArgumentParser(description="make the folder that a host takes away").parse_args()
    try:
        print(make().relative_to(REPOSITORY))
    except (Trouble, OSError) as trouble:
        print(f"package: {trouble}", file=sys.stderr)
        return FAILURE
    return 0


if __name__ == "__main__":
    sys.exit(main())
