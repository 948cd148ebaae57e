"""Tests of the independent program's frames, against answers written by hand from document 01 and document 02's W1.

A text is written as document 01 writes its case A: `/` for LF.
"""

import unittest

from tests.generators import tables
from tests.generators.families import DEFAULT_SEED
from tests.independent.frames import (
    Place, Refusal, Table, cut_input, event_place, judge_script_line, judge_table, liberal_frame_of, listing,
    strict_frame_of,
)

CASE_A_TABLE = "10010101/1100/12060000000000000001/120200/1207/120200/1208/1f0005/"
CASE_A_SCRIPT = "200000/20000103/20000101/20000102/"
SKIP_TABLE = "10010100/1100/1207/1f0001/"


def text(written):
    return written.replace("/", "\n").encode("latin-1")


def table_answer(written):
    """`accepted`, or the number and the line of the refusal, for a table given to the library."""
    judged = judge_table(text(written))
    return "accepted" if isinstance(judged, Table) else tuple(judged)


def script_answer(line):
    """The address of a script line, or the number of its refusal."""
    judged = judge_script_line(text(line), 1)
    return judged.number if isinstance(judged, Refusal) else tuple(judged)


def told(written):
    """The listing's lines."""
    return listing(text(written)).decode("ascii").splitlines()


def chain(prefixes):
    """That many prefixes and SKIP, as one definition."""
    return "10010101/1100/" + "120200/" * prefixes + f"1207/1f{prefixes + 1:04x}/"


def sequences(count, last="1207/"):
    """That many sequences, each the left part of the one before; the innermost left part is `last`."""
    return "10010101/1100/" + "1205/" * count + last + "1207/" * count


def definitions_of_15_terms(count):
    """That many definitions, each of seven sequences and eight SKIP."""
    return "".join("11%02x/" % number + "1205/" * 7 + "1207/" * 8 for number in range(count))


class Cases(unittest.TestCase):
    """The worked cases of document 01."""

    def test_case_a(self):
        expected = [
            "table accepted 1 1 5",
            "left 0 at 0 0",
            "term 0 kind 6 payload 1 after 5 at 0 -",
            "term 1 kind 2 payload 0 after 3 at 0 1 event 0 11",
            "term 2 kind 7 payload 0 after 3 at 0 12",
            "term 3 kind 2 payload 0 after 5 at 0 2 event 0 21",
            "term 4 kind 8 payload 0 after 5 at 0 22",
            "step 1 -",
            "step 2 3",
            "step 3 1",
            "step 4 2",
        ]
        self.assertEqual(told(CASE_A_TABLE + CASE_A_SCRIPT), expected)

    def test_case_l(self):
        table = judge_table(text(chain(64)))
        self.assertEqual(table.terms[63].place, Place(0, (2,) * 63))
        self.assertEqual(event_place(table.terms[63]), Place(0, (2,) * 63 + (1,)))
        self.assertEqual(table.terms[64].place, Place(0, (2,) * 64))
        self.assertEqual(table_answer(chain(65)), (5, 67))

    def test_case_m(self):
        self.assertEqual(told(CASE_A_TABLE), told(CASE_A_TABLE + CASE_A_SCRIPT)[:7])

    def test_every_kind_in_two_definitions(self):
        first = "1100/1203/120101/1204/12023f/1208/1207/"
        second = "1101/1205/12068000000000000000/1207/120100/1208/"
        expected = [
            "table accepted 2 64 11",
            "left 0 at 0 0",
            "left 1 at 1 0",
            "term 0 kind 3 payload 0 after 6 at 0 -",
            "term 1 kind 1 payload 1 after 2 at 0 1",
            "term 2 kind 4 payload 0 after 6 at 0 2",
            "term 3 kind 2 payload 3f after 5 at 0 21 event 0 211",
            "term 4 kind 8 payload 0 after 5 at 0 212",
            "term 5 kind 7 payload 0 after 6 at 0 22",
            "term 6 kind 5 payload 0 after 11 at 1 -",
            "term 7 kind 6 payload 8000000000000000 after 10 at 1 1",
            "term 8 kind 7 payload 0 after 9 at 1 11",
            "term 9 kind 1 payload 0 after 10 at 1 12",
            "term 10 kind 8 payload 0 after 11 at 1 2",
        ]
        self.assertEqual(told("10010240/" + first + second + "1f000b/"), expected)


class TableNumbers(unittest.TestCase):
    """Each number of refusal where document 01 gives it."""

    def test_number_1(self):
        self.assertEqual(table_answer("10010101/110/"), (1, 2))

    def test_number_2(self):
        for written, line in (
            ("1100/", 1),  # place in the order
            ("20000000/", 1),
            ("100101/", 1),  # length
            ("1001010101/", 1),
            ("10010101/10010101/", 2),
            ("10010101/1100/1209/", 3),  # unknown kk
            ("10010101/1100/1200/", 3),
            ("10010101/1100/12ff/", 3),
            ("10010101/1100/120100ff/", 3),
            ("10010101/1100/1202/", 3),
            ("10010101/1100/120600000000000000/", 3),
            ("10010101/1100/120700/", 3),
            ("10010101/1100/1207/1f01/", 4),
            ("10010101/110000/", 2),
            ("10010101/13/", 2),
            ("10010101/1207/", 2),  # before any `11`
        ):
            self.assertEqual(table_answer(written), (2, line), written)

    def test_number_3(self):
        for written, line in (
            ("10020101/", 1),
            ("10000101/", 1),
            ("10010001/", 1),
            ("10014101/", 1),
            ("10010141/", 1),
            ("10010101/1101/", 2),
            ("10010101/1100/120101/", 3),
            ("10010101/1100/120201/", 3),
            ("10010100/1100/120200/", 3),
            ("10010101/1100/12060000000000000002/", 3),
            ("10010101/1100/12068000000000000000/", 3),
            ("10010101/1100/1207/1f0000/", 4),
            ("10010101/1100/1207/1f0101/", 4),
        ):
            self.assertEqual(table_answer(written), (3, line), written)

    def test_number_4(self):
        for written, line in (
            ("10010201/1100/1101/", 3),  # no term at all
            ("10010201/1100/1203/1207/1101/", 5),
            ("10010201/1100/120200/1f0001/", 4),
            ("10010201/1100/1207/1f0001/", 4),  # definition 01 not begun
            ("10010101/1100/1207/1208/", 4),  # a term too many
        ):
            self.assertEqual(table_answer(written), (4, line), written)

    def test_number_5_for_term_1025(self):
        before = "10014000/" + definitions_of_15_terms(63) + "113f/"  # 65 lines and 945 terms
        self.assertEqual(table_answer(before + "1205/" * 39 + "1207/" * 40 + "1f0400/"), "accepted")
        self.assertEqual(table_answer(before + "1205/" * 40 + "1207/" * 41 + "1f0402/"), (5, 65 + 1025))

    def test_number_6(self):
        self.assertEqual(judge_table(b"\n" * 32_769), Refusal(6, 0))
        self.assertEqual(judge_table(b"\n" * 32_768), Refusal(1, 1))

    def test_first_failing_line_ends_the_work(self):
        self.assertEqual(table_answer("10010101/1101/1/1f/"), (3, 2))


class Readings(unittest.TestCase):
    """What document 01 leaves to its reader, by the number of the reading."""

    def test_01_last_line_without_lf(self):
        self.assertEqual(table_answer("10010100/1100/1207/1f0001"), (1, 4))
        self.assertEqual(table_answer("10010100/1100"), (1, 2))
        self.assertEqual(told(SKIP_TABLE + "200000")[-1], "script refused 1 at line 1")

    def test_02_empty_text_and_early_end(self):
        self.assertEqual(table_answer(""), (2, 1))
        self.assertEqual(table_answer("10010100/1100/1207/"), (2, 4))
        self.assertEqual(len(told(SKIP_TABLE)), 3)
        self.assertEqual(told(""), ["table refused 2 at line 1"])

    def test_03_characters_that_no_line_has(self):
        blanks = ("", " 1100", "1100 ", "11 00", "1100\t", "110\0", "1100\0")
        others = ("110g", "110G", "1:00", "1`00", "1@00", "\xff", "1", "110")
        for line in blanks + others:
            self.assertEqual(table_answer(f"10010100/{line}/"), (1, 2), repr(line))
            self.assertEqual(script_answer(line + "/"), 1, repr(line))

    def test_04_lines_behind_the_end(self):
        self.assertEqual(table_answer(SKIP_TABLE + "1f0001/"), (2, 5))
        self.assertEqual(table_answer(SKIP_TABLE + "200000/"), (2, 5))
        self.assertEqual(table_answer(SKIP_TABLE + "1f000/"), (1, 5))
        self.assertEqual(table_answer(SKIP_TABLE + "/"), (1, 5))

    def test_05_number_6_names_table_and_script(self):
        good_step, long_step = "200000/", "200001" + "01/"
        script = good_step * 9_361 + long_step  # 65,527 and 9
        self.assertEqual(len(script), 65_536)
        self.assertEqual(told(SKIP_TABLE + script)[-1], "step 9362 1")
        self.assertEqual(told(SKIP_TABLE + script + "/")[3:], ["script refused 6 at line 0"])

    def test_06_definition_after_the_last(self):
        self.assertEqual(table_answer("10010100/1100/1207/1101/"), (3, 4))

    def test_07_wrong_definition_behind_an_incomplete_one(self):
        self.assertEqual(table_answer("10010300/1100/1203/1102/"), (3, 4))
        self.assertEqual(table_answer("10010300/1100/1203/1101/"), (4, 4))

    def test_08_end_straight_after_the_first_line(self):
        self.assertEqual(table_answer("10010100/1f0000/"), (4, 2))
        self.assertEqual(table_answer("10010100/1f0001/"), (3, 2))
        self.assertEqual(table_answer("1f0000/"), (2, 1))

    def test_09_term_count_of_an_incomplete_definition(self):
        self.assertEqual(table_answer("10010100/1100/1203/1207/1f0003/"), (3, 5))
        self.assertEqual(table_answer("10010100/1100/1203/1207/1f0002/"), (4, 5))

    def test_10_term_too_many(self):
        complete = "10010101/1100/1207/"
        self.assertEqual(table_answer(complete + "1209/"), (2, 4))
        self.assertEqual(table_answer(complete + "120201/"), (3, 4))
        self.assertEqual(table_answer(complete + "120200/"), (4, 4))
        full = "10014000/" + definitions_of_15_terms(63) + "113f/" + "1205/" * 39 + "1207/" * 40
        self.assertEqual(table_answer(full + "1207/"), (4, 65 + 1025))
        self.assertEqual(table_answer(full + "120200/"), (3, 65 + 1025))

    def test_11_operator_whose_own_path_has_64_digits(self):
        self.assertEqual(table_answer(sequences(64) + "1f0081/"), "accepted")
        self.assertEqual(table_answer(sequences(65) + "1f0083/"), (5, 2 + 66))
        self.assertEqual(table_answer("10010101/1100/" + "1205/" * 65), (2, 2 + 66))  # an early end
        self.assertEqual(table_answer(sequences(64, "120200/1207/")), (5, 2 + 65))
        self.assertEqual(table_answer(sequences(63, "120200/1207/") + "1f0080/"), "accepted")

    def test_12_limits(self):
        self.assertEqual(table_answer("10010100/1100/1207/1f0001/"), "accepted")
        definitions = "".join("11%02x/1207/" % number for number in range(64))
        self.assertEqual(table_answer("10014040/" + definitions + "1f0040/"), "accepted")
        every_event = "10010140/1100/1206ffffffffffffffff/1207/1207/1f0003/"
        self.assertEqual(table_answer(every_event), "accepted")
        self.assertEqual(table_answer(every_event.replace("10010140", "1001013f")), (3, 3))
        self.assertEqual(table_answer("1002ffff00/"), (2, 1))
        self.assertEqual(table_answer("10010100/1100/1201ffff/"), (2, 3))
        self.assertEqual(table_answer("10010100/1100/12/"), (2, 3))

    def test_13_script_lines(self):
        self.assertEqual(script_answer("200000/"), ())
        self.assertEqual(script_answer("20000401020304/"), (1, 2, 3, 4))
        self.assertEqual(script_answer("200400" + "04" * 1_024 + "/"), (4,) * 1_024)
        self.assertEqual(script_answer("200401" + "04" * 1_025 + "/"), 3)
        self.assertEqual(script_answer("200401" + "04" * 1_024 + "/"), 2)
        self.assertEqual(script_answer("200401/"), 2)
        self.assertEqual(script_answer("20000100/"), 3)
        self.assertEqual(script_answer("20000105/"), 3)
        self.assertEqual(script_answer("20000205/"), 2)
        self.assertEqual(script_answer("2000/"), 2)
        self.assertEqual(script_answer("20/"), 2)
        self.assertEqual(script_answer("210000/"), 2)

    def test_14_lines_behind_a_refused_one_are_not_judged(self):
        script = "200000/20000105/1/200000/"
        self.assertEqual(told(SKIP_TABLE + script)[3:], ["step 1 -", "script refused 3 at line 2"])

    def test_15_a_refused_table_hides_the_script(self):
        self.assertEqual(told("10010100/1f0000/" + "/" * 70_000), ["table refused 4 at line 2"])

    def test_16_where_the_table_is_cut_off(self):
        self.assertEqual(told("10010100/1100/1207/1f/200000/"), ["table refused 2 at line 4"])
        self.assertEqual(told("10010100/1100/1207/1f000/200000/"), ["table refused 1 at line 4"])
        self.assertEqual(told("10010100/1100/1207/1f0001"), ["table refused 1 at line 4"])
        self.assertEqual(told("10010100/1fxx/" + "200000/" * 5_000), ["table refused 1 at line 2"])
        self.assertEqual(told("10010100/1e0000/" + "200000/" * 5_000), ["table refused 6 at line 0"])
        self.assertEqual(told("10010100/1100/1207/" + "200000/"), ["table refused 2 at line 4"])
        self.assertEqual(told(SKIP_TABLE + "1f0001/")[-1], "script refused 2 at line 1")


class Spelling(unittest.TestCase):
    """Document 02's W1: what lines of tables and scripts may have, and those of saved tracks may not."""

    def test_strict_and_liberal_lines(self):
        for line, strict, liberal in (
            (b"1f0b\n", b"\x1f\x0b", b"\x1f\x0b"),
            (b"1F0B\n", None, b"\x1f\x0b"),
            (b"1f0B\n", None, b"\x1f\x0b"),
            (b"1f0b\r\n", None, b"\x1f\x0b"),
            (b"1F0b\r\n", None, b"\x1f\x0b"),
            *((line, None, None) for line in (b"", b"\n", b"\r\n", b"1f0b", b"1f0b\r", b"1f\r0b\n", b"1f\r0b\r\n")),
            *((line, None, None) for line in (b"\r1f0b\n", b"1f0b\r\r\n", b"1f0b\n\r", b"1G\n", b"1F0\n", b"1F0\r\n")),
        ):
            self.assertEqual((strict_frame_of(line), liberal_frame_of(line)), (strict, liberal), line)

    def test_case_a_in_capitals_with_cr_lf(self):
        given = CASE_A_TABLE + CASE_A_SCRIPT
        for spelt in (given.upper(), given.replace("/", "\r/"), given.upper().replace("/", "\r/")):
            self.assertEqual(told(spelt), told(given))

    def test_mixed_lines(self):
        every_event = "10010140/1100/1206ffffffffffffffff/1207/12023F/1207/1f0004/200000/"
        mixed = "10010140\r/1100/1206FFFFffffFFFFffff/1207\r/12023F\r/1207/1F0004/200000\r/"
        self.assertEqual(told(mixed), told(every_event.replace("3F", "3f")))

    def test_a_cr_elsewhere(self):
        for third in ("12\r07/", "1207\r\r/", "\r1207/", "\r/", "1207\r", "1207\r\r"):
            self.assertEqual(table_answer("10010100/1100/" + third), (1, 3), repr(third))
        for line in ("20\r0000/", "200000\r\r/", "\r200000/", "\r/", "200000\r"):
            self.assertEqual(script_answer(line), 1, repr(line))

    def test_a_cr_alone_ends_no_line(self):
        self.assertEqual(table_answer(SKIP_TABLE.replace("/", "\r")), (1, 1))
        self.assertEqual(told(SKIP_TABLE + "200000\r20000101\r")[3:], ["script refused 1 at line 1"])
        self.assertEqual(told(SKIP_TABLE + "200000\r20000101/")[3:], ["script refused 1 at line 1"])

    def test_numbers_behind_the_characters(self):
        self.assertEqual(table_answer("10010101\r/1100/1202FF\r/"), (3, 3))
        self.assertEqual(table_answer("10010100/1100/1207\r/1F0001\r/1F0001/"), (2, 5))
        self.assertEqual(table_answer("10010100\r/1100\r/1207\r/"), (2, 4))
        self.assertEqual(script_answer("200001FF\r/"), 3)
        self.assertEqual(script_answer("2F\r/"), 2)

    def test_1f_in_capitals_ends_a_table(self):
        for last in ("1F0001/", "1F0001\r/", "1F/", "1Fxx/", "1F0/", "1F0001\r\r/", "1F\r/", "1f0001\r/"):
            table, script = "10010100/1100/1207/" + last, "200000/"
            self.assertEqual(cut_input(text(table + script)), (text(table), text(script)))
        for other in ("1\rF0001/", "\r1F0001/", "F1/", "1E0001/", "01F001/"):
            given = text("10010100/1100/1207/" + other + "200000/")
            self.assertEqual(cut_input(given), (given, b""))
        self.assertEqual(told("10010100/1Fxx/" + "200000/" * 5_000), ["table refused 1 at line 2"])

    def test_room_for_a_table_counts_its_crs(self):
        lines = "1207\r/" * 5_461  # 32,766 bytes
        self.assertEqual(table_answer(lines + "12"), (2, 1))
        self.assertEqual(table_answer(lines + "12/"), (6, 0))

    def test_room_for_a_script_counts_its_crs(self):
        lines = "200000\r/" * 8_191  # 65,528 bytes
        self.assertEqual(told(SKIP_TABLE + lines + "200000\r/")[-1], "step 8192 -")
        self.assertEqual(told(SKIP_TABLE + lines + "20000101/")[3:], ["script refused 6 at line 0"])


class GoodInputs(unittest.TestCase):
    """What the generators call good is accepted, with the counts they meant."""

    def test_good_inputs(self):
        families = tables.FAMILIES
        for index in range(0, 100 * len(families.round), len(families.round)):
            given = families.generate(DEFAULT_SEED, index)
            lines = given.decode("ascii").splitlines()
            definitions, events = int(lines[0][4:6], 16), int(lines[0][6:8], 16)
            terms = sum(line.startswith("12") for line in lines)
            steps = sum(line.startswith("20") for line in lines)
            answer = listing(given).decode("ascii").splitlines()
            self.assertEqual(answer[0], f"table accepted {definitions} {events} {terms}")
            self.assertEqual(len(answer), 1 + definitions + terms + steps)
