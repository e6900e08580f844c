"""Columns behind an edit: some rows go, and new ones stand between those that stay.

Nothing is sorted anew: rows that stay are copied in runs, as they stand.
"""

from dataclasses import dataclass
from typing import Any

import numpy as np

from maplabel_atlas.arrays import Whole
from maplabel_atlas.labels import PLAIN, Labels


@dataclass(frozen=True)
class Run:
    """Rows that follow one another, of the new ones or of those that stay."""

    is_new: bool
    begin: int
    end: int


class Splice:
    """The order of `count` rows, of which some go, with new ones before the rows `before`.

    Both lists ascend; a new row before the row `count` stands at the end.
    """

    def __init__(self, count: int, gone: Whole, before: Whole) -> None:
        events = [(row, 0, number) for number, row in enumerate(before.tolist())]
        events += [(row, 1, 0) for row in gone.tolist()]
        self._runs, here = [], 0
        for row, is_gone, number in sorted(events):
            if row > here:
                self._runs.append(Run(False, here, row))
            here = row + is_gone
            if not is_gone:
                self._runs.append(Run(True, number, number + 1))
        self._runs.append(Run(False, here, count))

    def column(self, old: Any, new: Any) -> Any:
        """A column of the rows that stay and of the new ones."""
        return np.concatenate(
            [(new if run.is_new else old)[run.begin : run.end] for run in self._runs]
        )

    def labels(self, old: Labels, new: Labels) -> Labels:
        """All columns of labels."""
        plain = {name: self.column(getattr(old, name), getattr(new, name)) for name in PLAIN}
        counts = self.column(np.diff(old.first), np.diff(new.first))
        first = np.zeros(len(counts) + 1, dtype=np.int64)
        np.cumsum(counts, out=first[1:])
        return Labels(**plain, first=first, boxes=self._boxes(old, new))

    def _boxes(self, old: Labels, new: Labels) -> Whole:
        parts = []
        for run in self._runs:
            one = new if run.is_new else old
            parts.append(one.boxes[one.first[run.begin] : one.first[run.end]])
        boxes: Whole = np.concatenate(parts)
        return boxes
