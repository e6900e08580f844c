"""What a command tells a person while it works: sentences with the time, and a line of progress on
a terminal.
"""

import sys
import time

from maplabel_kit.progress import Progress


class Teller:
    """Tells sentences on standard error, and how far a work is; `is_quiet` leaves the sentences
    out.
    """

    def __init__(self, is_quiet: bool = False) -> None:
        self._begin, self._is_quiet = time.monotonic(), is_quiet
        self._progress: Progress | None = None
        self._part_begin = self._begin
        self._total: int | None = None

    def say(self, sentence: str) -> None:
        """Tells a sentence."""
        if self._progress is not None:
            self._progress.clear()
        if not self._is_quiet:
            print(
                f"{time.monotonic() - self._begin:7.1f} s  {sentence}", file=sys.stderr, flush=True
            )

    def part(self, what: str, total: int | None = None) -> None:
        """Begins a part of the work."""
        if self._progress is not None:
            self._progress.clear()
        self._progress, self._total = Progress(what, total), total
        self._part_begin = time.monotonic()

    def at(self, done: int) -> None:
        """Tells how many of a part are done, and about how long the rest will take."""
        if self._progress is None:
            return
        note = ""
        if self._total and done:
            left = (time.monotonic() - self._part_begin) * (self._total - done) / done
            note = f"about {clock(left)} left"
        self._progress.at(done, note)

    def end(self) -> None:
        """Takes the line of progress away."""
        if self._progress is not None:
            self._progress.clear()
        self._progress = None


def clock(seconds: float) -> str:
    """A time in minutes and seconds."""
    return f"{int(seconds) // 60}:{int(seconds) % 60:02d}"
