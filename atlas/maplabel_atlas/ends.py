"""The ends and blockers of labels, as far as they are known, and the tables that ask for more of
them.
"""

from dataclasses import dataclass

import numpy as np

from maplabel_atlas.arrays import Real, Whole
from maplabel_atlas.cover import Area, Cover, area_of
from maplabel_atlas.cut import Cell
from maplabel_atlas.labels import Labels
from maplabel_atlas.table import Content, Table

NONE = -1


@dataclass(frozen=True)
class Answer:
    """What the engine said of a table: the ends that it gave the labels which were told beside the
    own ones.

    The ends of the own ones are taken over into `Ends` at once.
    """

    own: Whole
    others: Whole
    told: Whole


class Ends:
    """Labels with their ends: `until` as fractions, `value` as floating numbers, and the rows of
    blockers.
    """

    def __init__(self, labels: Labels) -> None:
        self.labels = labels
        self.place: Real = labels.place.astype(np.float64)
        self.extents = labels.extents()
        self.most: Real = labels.most[:, 0] / labels.most[:, 1]
        self.until: Whole = labels.most.copy()
        self.value = self.most.copy()
        self.blocker: Whole = np.full(len(labels), NONE, dtype=np.int64)

    def __len__(self) -> int:
        return len(self.labels)

    def take(self, until: Whole, blocker: Whole) -> None:
        """Takes over ends and blockers that were found before."""
        self.until, self.blocker, self.value = until, blocker, until[:, 0] / until[:, 1]

    def forget(self, rows: slice) -> None:
        """Takes some labels for such as end where their classes end."""
        self.until[rows], self.value[rows], self.blocker[rows] = (
            self.labels.most[rows],
            self.most[rows],
            NONE,
        )

    def restore(self, rows: Whole, until: Whole, blocker: Whole) -> None:
        """Gives some labels the ends and blockers that these columns have for them."""
        self.until[rows], self.blocker[rows] = until[rows], blocker[rows]
        self.value[rows] = until[rows, 0] / until[rows, 1]

    def shown(self, begin: int, end: int) -> Whole:
        """The labels of some rows that are shown at some scale."""
        least, until = self.labels.least[begin:end], self.until[begin:end]
        return begin + np.flatnonzero(least[:, 0] * until[:, 1] < until[:, 0] * least[:, 1])

    def cover(self, rows: Whole) -> Cover:
        """The cover of some labels, up to the ends that are known now."""
        return Cover(rows, self.place, self.extents, self.value)

    def area(self, rows: Whole) -> Area:
        """The area of some labels."""
        return area_of(self.place[rows], self.extents[rows])

    def table(self, cell: Cell, until: Whole) -> Table:
        """The table of a cell. The others end where `until` tells; what is nowhere shown is left
        out.
        """
        rows = np.sort(np.concatenate([cell.own, cell.others]))
        is_own = np.isin(rows, cell.own, assume_unique=True)
        most = np.where(is_own[:, None], self.labels.most[rows], until[rows])
        least = self.labels.least[rows]
        is_some = is_own | (least[:, 0] * most[:, 1] < most[:, 0] * least[:, 1])
        rows, is_own, least, most = rows[is_some], is_own[is_some], least[is_some], most[is_some]
        boxes, first = self.labels.wide(rows)
        return Table(rows, is_own, Content(self.labels.place[rows], least, most, first, boxes))

    def record(self, table: Table, slots: Whole) -> Answer:
        """Takes over the ends and blockers of a table's own labels. A slot is numerator,
        denominator, blocker.
        """
        own, blocker = table.rows[table.is_own], slots[:, 2]
        self.until[own] = slots[table.is_own, :2]
        self.value[own] = slots[table.is_own, 0] / slots[table.is_own, 1]
        self.blocker[own] = np.where(blocker == NONE, NONE, table.rows[blocker])[table.is_own]
        return Answer(own, table.rows[~table.is_own], slots[~table.is_own, :2])
