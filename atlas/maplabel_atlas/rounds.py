"""Asking for labels again, and for those whose ends depend on what has changed, until nothing
changes.
"""

from collections.abc import Iterator
from dataclasses import replace

import numpy as np

from maplabel_atlas.arrays import Whole, all_of, no_rows, union
from maplabel_atlas.asking import Account, Asker
from maplabel_atlas.cover import Cover, meet
from maplabel_atlas.cut import Cell, Sizes, cells
from maplabel_atlas.ends import NONE, Answer, Ends
from maplabel_atlas.faults import Fault
from maplabel_atlas.seams import met_after, misled

MOST_ROUNDS = 500
SQUARES = 24


class Rounds:
    """The rounds of the labels from `begin` to `end`; ends before these are final."""

    def __init__(
        self,
        ends: Ends,
        asker: Asker,
        sizes: Sizes,
        account: Account,
        cover: Cover | None = None,
    ) -> None:
        """The cover of all labels up to the end of the account, where it was made already."""
        self._ends, self._asker, self._account = ends, asker, account
        self._sizes = replace(sizes, fewest=1)
        self._begin, self._end = account.begin, account.end
        self._before = cover or ends.cover(ends.shown(0, account.end))
        self._after = cover or ends.cover(np.arange(account.begin, account.end))
        self._moved = no_rows()

    def settle(self, waiting: Whole) -> None:
        """Asks for these labels, and for all whose ends depend on theirs."""
        ends, account = self._ends, self._account
        while len(waiting):
            if len(account.rounds) == MOST_ROUNDS:
                name = ends.labels.ids[waiting[0]].decode()
                raise Fault(
                    f"{len(waiting)} ends do not settle after {MOST_ROUNDS} rounds, the first "
                    f"that of {name}"
                )
            account.rounds.append(len(waiting))
            was, was_value = ends.until[waiting].copy(), ends.value[waiting].copy()
            answers = list(self._asker.ask(list(self._patches(waiting)), account))
            is_other = (was != ends.until[waiting]).any(axis=1)
            changed = waiting[is_other]
            grown = waiting[is_other & (ends.value[waiting] > was_value)]
            self._moved = np.union1d(self._moved, changed)
            waiting = self._next(answers, changed, grown)

    def _patches(self, waiting: Whole) -> Iterator[Cell]:
        """Waiting labels in cells, each with all labels before it that overlap it below their
        ends.
        """
        return cells(waiting, self._ends.labels.place, self._about, self._sizes)

    def _about(self, own: Whole) -> Whole:
        found = [self._about_group(group) for group in self._groups(own)]
        return np.setdiff1d(all_of(found), own)

    def _about_group(self, group: Whole) -> Whole:
        """The cover holds the ends of before the first round; labels whose ends have moved are
        looked at one by one.
        """
        ends, moved = self._ends, self._moved
        area, most = ends.area(group), float(ends.most[group].max())
        scales = np.minimum(ends.value[moved], most)
        is_met = meet(ends.place[moved], ends.extents[moved], area, scales)
        rows = np.concatenate([self._before.near(area, most), moved[is_met]])
        found: Whole = rows[rows < group[-1]]
        return found

    def _groups(self, own: Whole) -> list[Whole]:
        """Labels of a cell by small squares, so that few others are told for each."""
        at = self._ends.place[own]
        low = at.min(axis=0)
        side = max(1.0, float((at.max(axis=0) - low).max()) / SQUARES)
        square = np.floor((at - low) / side).astype(np.int64)
        _, number = np.unique(square[:, 0] * (2 * SQUARES) + square[:, 1], return_inverse=True)
        order = np.argsort(number, kind="stable")
        return np.split(own[order], np.flatnonzero(np.diff(number[order])) + 1)

    def _next(self, answers: list[Answer], changed: Whole, grown: Whole) -> Whole:
        """The labels whose ends depend on what has changed."""
        ends = self._ends
        home = np.full(self._end - self._begin, NONE, dtype=np.int64)
        for number, one in enumerate(answers):
            home[one.own - self._begin] = number
        blocked = self._begin + np.flatnonzero(
            np.isin(ends.blocker[self._begin : self._end], changed)
        )
        found = [misled(ends, one) for one in answers]
        found.append(self._apart(blocked, ends.blocker[blocked], home))
        for row in grown.tolist():
            met = met_after(ends, row, self._after, self._moved)
            found.append(self._apart(met, np.full(len(met), row), home))
        return union(found)

    def _apart(self, rows: Whole, causes: Whole, home: Whole) -> Whole:
        """Those rows that were not asked for in one table with their causes: of the others the
        engine has seen all.
        """
        theirs, of_causes = home[rows - self._begin], home[causes - self._begin]
        found: Whole = rows[(theirs == NONE) | (theirs != of_causes)]
        return found
