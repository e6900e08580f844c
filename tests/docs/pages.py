"""The pages: their lines, the text between code, what stands in backticks, tables, links and
printed examples.
"""
import glob
import os
import re
from collections.abc import Iterator
from dataclasses import dataclass
from typing import Any

FENCE = re.compile(r"^\s*(`{3,})\s*(\w*)")
SPAN = re.compile(r"(?<!`)`([^`\n]+)`(?!`)")
LINK = re.compile(r"!?\[[^\]]*\]\(([^)\s]+)\)")
COMMENT = re.compile(r"<!--.*?-->", re.DOTALL)


@dataclass(frozen=True)
class Fault:
    """What is wrong, and where."""

    page: str
    line: int
    text: str

    def __str__(self) -> Any:
        return f"{self.page}:{self.line}: {self.text}"


@dataclass(frozen=True)
class Block:
    """A block of code: its kind, the line of its fence, and its lines."""

    kind: str
    line: int
    lines: tuple[str, ...]


def blank(match: re.Match[str]) -> str:
    """As many line ends as a match has."""
    return "\n" * match.group(0).count("\n")


class Page:
    """A page with its name, as from the top folder."""

    def __init__(self, root: str, name: str) -> None:
        self.root, self.name = root, name
        with open(os.path.join(root, name), encoding="utf-8") as stream:
            self.text = stream.read()
        self.prose: list[str] = []
        self.blocks: list[Block] = []
        self.read(COMMENT.sub(blank, self.text).split("\n"))

    def read(self, lines: list[str]) -> None:
        """Parts the lines into prose and blocks of code; a line of a block is an empty line of the
        prose.
        """
        fence, start = None, 0
        held: list[str] = []
        for number, line in enumerate(lines, 1):
            mark = FENCE.match(line)
            if fence is None and mark:
                fence, kind, start, held = mark.group(1), mark.group(2), number, []
            elif fence is not None and line.strip() == fence:
                self.blocks.append(Block(kind, start, tuple(held)))
                fence = None
            elif fence is not None:
                held.append(line)
            else:
                self.prose.append(line)
                continue
            self.prose.append("")

    def fault(self, line: Any, text: Any) -> Any:
        """A fault of this page."""
        return Fault(self.name, line, text)

    def spans(self) -> Iterator[tuple[int, str, str]]:
        """What stands in backticks, with the line and the text of that line."""
        for number, line in enumerate(self.prose, 1):
            for found in SPAN.finditer(line):
                yield number, found.group(1), line

    def links(self) -> Iterator[tuple[int, str]]:
        """The targets of links and pictures, with their lines."""
        for number, line in enumerate(self.prose, 1):
            for found in LINK.finditer(SPAN.sub("", line)):
                yield number, found.group(1)

    def rows(self, *head: str) -> Iterator[tuple[int, list[str], str]]:
        """The rows of the tables with this head, as lists of cells, with their lines and the
        section that they are in.
        """
        inside, section = False, ""
        for number, line in enumerate(self.prose, 1):
            if line.startswith("#"):
                section = line.lstrip("# ")
            cells = [cell.strip() for cell in re.split(r"(?<!\\)\|", line)[1:-1]]
            if not line.startswith("|"):
                inside = False
            elif cells == list(head):
                inside = True
            elif inside and set("".join(cells)) - set("-: "):
                yield number, cells, section

    def paragraphs(self) -> Iterator[tuple[int, str]]:
        """The paragraphs, each with its first line; a list item and a row of a table are paragraphs
        of their own.
        """
        held: list[str] = []
        start = 0
        for number, line in enumerate([*self.prose, ""], 1):
            if held and (not line.strip() or re.match(r"\s*(?:[-*|#]|\d+\.) ?", line)):
                yield start, " ".join(held)
                held = []
            if line.strip():
                start = start if held else number
                held.append(line.strip())


def pages_in(root: str) -> list[Page]:
    """The pages that are checked: README, CONTRIBUTING and those of docs."""
    names = ["README.md", "CONTRIBUTING.md"]
    names += sorted(
        os.path.relpath(path, root) for path in glob.glob(os.path.join(root, "docs", "*.md"))
    )
    return [Page(root, name) for name in names if os.path.exists(os.path.join(root, name))]


def names_in(cell: str) -> list[str]:
    """The names in backticks of a cell of a table."""
    return SPAN.findall(cell)
