"""What both programs take for a workload, and the row that tells it."""

from collections.abc import Sequence
from pathlib import Path
from typing import NamedTuple

from against_parts import owed
from against_parts.runs import Program, end_of
from against_parts.works import Work

HEAD = """| Workload | Seconds | Seconds of OTHER | Ratio | MiB | MiB of OTHER | Owed |
|---|---|---|---|---|---|---|"""
LEAST = 0.001  # seconds: what takes less counts as this much in a ratio
# A processor may be slower for seconds on end: so a short workload is timed until OTHER has run for
# so many seconds in all, but not more often than this.
ENOUGH, MOST = 1.0, 20


class Taken:
    """What a program took for a workload: the least seconds, the least of what is taken off, and
    the most memory.
    """

    def __init__(self) -> None:
        self.seconds, self.less, self.kib = float("inf"), float("inf"), 0

    def left(self, work: Work) -> float:
        """Seconds of one part, without what is taken off."""
        return max(0.0, self.seconds - (self.less if work.less else 0.0)) / work.parts


class Measured(NamedTuple):
    """The workload, what each program took, and what was wrong with its runs, or nothing."""

    work: Work
    taken: tuple[Taken, Taken]
    fault: str

    def row(self) -> str:
        """A line of the table."""
        work, (one, other) = self.work, self.taken
        seconds = [it.left(work) for it in self.taken]
        ratio = seconds[0] / max(seconds[1], LEAST / work.parts)
        times = [f"{it:.3f}" if it >= 0.01 else f"{it:.5f}" for it in seconds]
        if work.is_memory:
            ratio, times = one.kib / other.kib, ["-", "-"]
        due = owed.told(work.title)
        if not owed.is_kept(work.title, ratio, seconds[0]):
            due += " **missed**"
        title = work.title + (f" **{self.fault}**" if self.fault else "")
        cells = [
            title,
            *times,
            f"{ratio:.2f}",
            *(f"{it.kib / 1024:.0f}" for it in self.taken),
            due or "-",
        ]
        return f"| {' | '.join(cells)} |"


def measure(programs: Sequence[Program], work: Work, folder: Path, times: int) -> Measured:
    """Runs the program and each way of OTHER in turn, so many times at least; the way that takes
    least is what OTHER takes. The first run of each is not timed; there standard error is compared
    too.
    """
    taken, fault = tuple(Taken() for _ in programs), ""
    first: tuple[int, bytes, bytes] | None = None
    notes = folder / "notes"
    for name, program in zip(("the program", *["OTHER"] * (len(programs) - 1)), programs):
        with notes.open("wb") as sink:
            ended = end_of(program, work.run, folder, sink)
        seen = ended.status, ended.out, notes.read_bytes()
        first = first or seen
        if ended.has_failed(work.run):
            fault = fault or f"{name} fails"
        elif seen != first:
            fault = fault or "outputs differ"
    turn, spent = 0, 0.0
    while turn < times or turn < MOST and spent < ENOUGH:
        turn += 1
        for program, its in zip(programs, taken):
            if work.less:
                its.less = min(its.less, end_of(program, work.less, folder).seconds)
            ended = end_of(program, work.run, folder)
            its.seconds, its.kib = min(its.seconds, ended.seconds), max(its.kib, ended.kib)
            if first and (ended.status, ended.out) != first[:2]:
                fault = fault or "outputs differ"
        spent += ended.seconds  # (OTHER ran last)
    return Measured(work, (taken[0], min(taken[1:], key=lambda it: it.left(work))), fault)
