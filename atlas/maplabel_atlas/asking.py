"""Asking for cells: the questions, their answers, and an account of both."""

from collections.abc import Iterable, Iterator
from dataclasses import dataclass, field

from maplabel_atlas.arrays import Whole
from maplabel_atlas.cut import Cell
from maplabel_atlas.ends import Answer, Ends
from maplabel_atlas.engine import SlotsCall
from maplabel_atlas.table import Table
from maplabel_atlas.workers import Question, Workers


@dataclass
class Account:
    """What was done for a tier: cells at first, lines that were told, and of what was asked again
    the labels by rounds.
    """

    begin: int
    end: int
    cells: int = 0
    tables: int = 0
    lines: int = 0
    lines_again: int = 0
    rounds: list[int] = field(default_factory=list)

    def sentence(self) -> str:
        """The account for a person."""
        again = "none asked again"
        if self.rounds:
            counts = ", ".join(map(str, self.rounds))
            again = (
                f"asked again by rounds {counts} ({self.tables - self.cells} tables,"
                f" {self.lines_again} lines)"
            )
        return f"labels {self.begin} to {self.end}: {self.cells} cells, {self.lines} lines; {again}"


class Asker:
    """Asks workers for cells, and takes the ends that they find over."""

    def __init__(self, ends: Ends, workers: Workers) -> None:
        self._ends, self._workers = ends, workers

    def ask(self, plan: Iterable[Cell], account: Account) -> Iterator[Answer]:
        """Asks for cells. All are told the ends of before, so no answer depends on the order in
        which others come.
        """
        until = self._ends.until.copy()
        for table, slots in self._workers.answers(self._questions(plan, until)):
            account.tables += 1
            account.lines += len(table.rows)
            yield self._ends.record(table, slots)

    def _questions(self, plan: Iterable[Cell], until: Whole) -> Iterator[Question[Table, Whole]]:
        for cell in plan:
            table = self._ends.table(cell, until)
            call = SlotsCall(self._workers.engine, table.content)
            yield Question(
                table, table.content.key(self._workers.engine.digest), table.where(), call
            )
