"""What a person sees of a build: on a terminal one line that is kept up to date, elsewhere a line
for each crate that ends.
"""

import os
import sys
import time
from collections.abc import Sequence
from typing import TextIO

CLEAR = "\r\033[K"
# The width of a terminal that tells none.
WIDTH = 80


def clock(seconds: float) -> str:
    """A time in minutes and seconds."""
    return f"{int(seconds) // 60}:{int(seconds) % 60:02d}"


def about(seconds: float) -> str:
    """A guess of a time, no finer than it can be."""
    if seconds < 90:
        return "about a minute left"
    return f"about {round(seconds / 60)} minutes left"


def line_of(
    done: int, count: int, at_work: Sequence[str], seconds: float, left: float | None
) -> str:
    """The line that tells where a build is."""
    parts = [f"maplabel: {done} of {count} crates", clock(seconds)]
    if left is not None:
        parts.append(about(left))
    parts.append(f"at work: {', '.join(at_work) or 'none'}")
    return "; ".join(parts)


class Shown:
    """The standard error of a build."""

    def __init__(self, stream: TextIO | None = None) -> None:
        self.stream = stream or sys.stderr
        self.is_terminal = self.stream.isatty()
        self.is_open = False

    def show(self, line: str) -> None:
        """Puts the line in the place of the one before, where there is a terminal."""
        if not self.is_terminal:
            return
        width = os.get_terminal_size(self.stream.fileno()).columns or WIDTH
        self.stream.write(CLEAR + (line if len(line) < width else line[: width - 2] + "…"))
        self.stream.flush()
        self.is_open = True

    def tell(self, line: str) -> None:
        """Tells a line that stays."""
        self.stream.write((CLEAR if self.is_open else "") + line + "\n")
        self.stream.flush()
        self.is_open = False

    def ended(self, name: str, seconds: float, done: int, count: int) -> None:
        """Tells that a crate is done, where there is no line to tell it."""
        if not self.is_terminal:
            self.tell(f"maplabel: {name} is proved, {clock(seconds)} ({done} of {count} crates)")


def now() -> float:
    """The time, in seconds, from some beginning."""
    return time.monotonic()
