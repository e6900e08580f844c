"""A line on a terminal that tells how far a work is."""

import sys
import time
from typing import TextIO

PAUSE = 0.1


class Progress:
    """How far a work is, on standard error where that is a terminal; nothing elsewhere.

    with Progress("places", len(towns)) as progress:
        for place, town in enumerate(towns):
            progress.at(place)
    """

    def __init__(self, what: str, total: int | None = None, stream: TextIO | None = None) -> None:
        self._what, self._total = what, total
        self._stream = stream or sys.stderr
        self._is_shown = self._stream.isatty()
        self._next = 0.0

    def __enter__(self) -> "Progress":
        return self

    def __exit__(self, *_: object) -> None:
        self.clear()

    def at(self, done: int, note: str = "") -> None:
        """Shows how many are done, at most ten times a second."""
        now = time.monotonic()
        if not self._is_shown or now < self._next:
            return
        self._next = now + PAUSE
        of = f" of {self._total:,} ({done * 100 // max(self._total, 1)} %)" if self._total else ""
        self._write(f"{self._what}: {done:,}{of}{' ' + note if note else ''}")

    def clear(self) -> None:
        """Takes the line away, so that something else may be printed."""
        if self._is_shown and self._next:
            self._write("")
            self._next = 0.0

    def _write(self, text: str) -> None:
        print(f"\r\x1b[K{text[:120]}", end="", file=self._stream, flush=True)
