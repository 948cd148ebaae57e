"""Spellings: capitals and CR LF, which tables and scripts may have and saved tracks may not, and CRs out of place.

A text is a str of Latin-1 characters, a byte each. What stands behind its last LF is left as it is.
"""

NO_LINE, SOME_LINES, ALL_LINES = 0, 0.4, 1  # the chance of each line
SPELLINGS = (  # which lines have capitals, and which CR LF
    (ALL_LINES, ALL_LINES),
    (ALL_LINES, NO_LINE),
    (NO_LINE, ALL_LINES),
    (SOME_LINES, NO_LINE),
    (NO_LINE, SOME_LINES),
    (SOME_LINES, SOME_LINES),
)
TO_CAPITALS = str.maketrans("abcdef", "ABCDEF")


def whole(_, line):
    return line.translate(TO_CAPITALS)


def behind_the_first_byte(_, line):
    return line[:2] + line[2:].translate(TO_CAPITALS)


def letter_by_letter(rng, line):
    return "".join(rng.choice((letter, letter.translate(TO_CAPITALS))) for letter in line)


CAPITALS = (whole, whole, behind_the_first_byte, letter_by_letter)


def ended(line, by_return):
    """A line with its end, CR LF where asked; one that has its CR already gets no second."""
    return line + ("\r\n" if by_return and not line.endswith("\r") else "\n")


def respelt(rng, text):
    """A text with capitals, CR LF or both, in some or all of its lines; what they spell is the same."""
    capitals, returns = rng.choice(SPELLINGS)
    *lines, rest = text.split("\n")
    lines = [rng.choice(CAPITALS)(rng, line) if rng.random() < capitals else line for line in lines]
    return "".join(ended(line, rng.random() < returns) for line in lines) + rest


def with_returns(rng, lines, count):
    """The text of lines, so many of which, drawn by lot, end with CR LF."""
    returned = set(rng.sample(range(len(lines)), count))
    return "".join(ended(line, number in returned) for number, line in enumerate(lines))


def damage_by_returns(rng, text):
    """CRs that belong to no line's end: in a line, two before LF, before LF alone, without LF, in place of every LF."""
    ends = [where for where, character in enumerate(text) if character == "\n"]
    if not ends:
        return rng.choice(("\r", "\r\n"))
    end = rng.choice(ends)
    start = text.rfind("\n", 0, end) + 1
    inside = rng.randint(start, max(start, end - 1))  # before a character of the line
    return rng.choice(
        (
            text[:inside] + "\r" + text[inside:],
            text[:end] + "\r\r" + text[end:],
            text[:start] + "\r\n" + text[start:],
            text[:end] + "\r" + text[end + 1 :],
            text[: ends[-1]] + "\r",
            text.replace("\n", "\r"),
        )
    )
