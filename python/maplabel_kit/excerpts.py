"""A place in a text: the line with a mark beneath the column."""

import re
from dataclasses import dataclass

WIDTH = 100


@dataclass(frozen=True)
class Place:
    """A place in a file: its line and column, counted from 1, and the line with a mark beneath."""

    line: int
    column: int
    shown: str
    mark: str


def at(text: str, line: int, column: int) -> Place:
    """A place by line and column, with as much of the line as fits."""
    lines = text.split("\n")
    whole = lines[line - 1].rstrip("\r").replace("\t", " ") if line <= len(lines) else ""
    begin = max(0, column - 1 - WIDTH // 2)
    return Place(line, column, whole[begin : begin + WIDTH], " " * (column - 1 - begin) + "^")


def at_character(text: str, place: int) -> Place:
    """A place by the number of characters before it."""
    return at(text, text.count("\n", 0, place) + 1, place - text.rfind("\n", 0, place))


def at_byte(data: bytes, place: int) -> Place:
    """A place by the number of bytes before it."""
    before = data[:place].decode("utf-8", "replace")
    return at_character(data.decode("utf-8", "replace"), len(before))


def first_match(text: str, pattern: str, begin: int = 0, end: int | None = None) -> Place | None:
    """The first of the lines from `begin` on, counted from 0, that begins with a pattern, spaces
    left out.
    """
    lines = text.split("\n")
    for number in range(begin, len(lines) if end is None else end):
        if found := re.match(pattern, lines[number]):
            return at(text, number + 1, len(found[0]) - len(found[0].lstrip()) + 1)
    return None


def quoted(word: str) -> str:
    """A word as a pattern that it alone fits."""
    return re.escape(word)
