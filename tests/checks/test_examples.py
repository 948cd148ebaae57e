"""Tests of the shows under examples/: their listings and words are what examples/README.md states.

The listings are the independent program's.
"""

import re
import unittest

from tests.independent.frames import cut_input
from tests.independent.rules import listing
from tools import desk, words
from tools.programs import REPOSITORY

EXAMPLES = REPOSITORY / "examples"
README = (EXAMPLES / "README.md").read_text("utf-8")
COUNTS = re.findall(r"^\| (\S+) \| (\d+) \| (live|ended|stuck) \| (\d+) \| (\d+) \|$", README, re.MULTILINE)
SECTIONS = dict(re.findall(r"^## (\S+)\n(.*?)(?=^## |\Z)", README, re.MULTILINE | re.DOTALL))
SHOWS = ("casino", "held", "ends-well")
QUOTED_WORDS = re.compile(r"^    ((?:  )?(?:step|status|refused|node|Control|These) .*)", re.MULTILINE)


def given(show):
    return (EXAMPLES / f"{show}.txt").read_bytes()


def listed(show):
    """The lines of a show's listing."""
    return listing(given(show)).decode("ascii").splitlines()


def told(show):
    """The lines of a show's words, by its names."""
    names = words.read_names((EXAMPLES / f"{show}.names").read_text("utf-8"))
    frames = words.read_listing(listing(given(show)).decode("ascii"))
    return words.words_of(frames, names, desk.skips_in(given(show)))


class Shows(unittest.TestCase):
    def test_every_input_is_counted(self):
        self.assertEqual({show for show, *_ in COUNTS}, {"case-a", *SHOWS})

    def test_counts(self):
        for show, steps, status, meetings, refusals in COUNTS:
            lines = listed(show)
            for count, tag in ((steps, "40"), (meetings, "33"), (refusals, "4e")):
                self.assertEqual(sum(line.startswith(tag) for line in lines), int(count), (show, tag))
            self.assertIn("41%02x" % ("live", "ended", "stuck").index(status), lines, show)

    def test_script_lines(self):
        for show in SHOWS:
            rows = re.findall(r"^\| (\d+) \| `(\w+)` \|", SECTIONS[show], re.MULTILINE)
            script = cut_input(given(show))[1].decode("ascii").splitlines()
            self.assertEqual(rows, [(str(number), line) for number, line in enumerate(script, 1)], show)

    def test_quoted_words(self):
        for show in SHOWS:
            quoted = QUOTED_WORDS.findall(SECTIONS[show])
            self.assertGreaterEqual(len(quoted), 5, show)
            self.assertLessEqual(set(quoted), set(told(show)), show)

    def test_no_rack_that_has_ended_is_one_to_look_at(self):
        lines = told("held")
        look, sound = lines.index(words.REST_WORDS[2]), lines.index(words.SOUND_WORDS)
        racks = [line.split()[2].strip(",") for line in lines[look + 1 : sound]]
        self.assertEqual((racks, lines[sound + 1].split()[2]), (["FRONT", "BACK"], "HOUSE"))

    def test_quoted_frames(self):
        for show in SHOWS:
            quoted = re.findall(r"`(3[0-3][0-9a-f]+)`", SECTIONS[show])
            self.assertGreaterEqual(len(quoted), 2, show)
            self.assertLessEqual(set(quoted), set(listed(show)), show)

    def test_every_definition_and_event_has_a_name(self):
        for show in SHOWS:
            names = words.read_names((EXAMPLES / f"{show}.names").read_text("utf-8"))
            definitions, events = bytes.fromhex(given(show)[:8].decode("ascii"))[2:]
            numbered = {("definition", n) for n in range(definitions)} | {("event", n) for n in range(events)}
            self.assertEqual(set(names), numbered, show)
