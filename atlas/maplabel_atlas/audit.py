"""Looking over all labels: each is asked for once more, in other cells than those in which its end
was found.
"""

from collections.abc import Iterator
from dataclasses import dataclass

import numpy as np

from maplabel_atlas.arrays import Whole, union
from maplabel_atlas.asking import Account, Asker
from maplabel_atlas.cut import Cell, Sizes, cells
from maplabel_atlas.ends import Ends
from maplabel_atlas.telling import Teller
from maplabel_atlas.workers import Workers


@dataclass(frozen=True)
class Looked:
    """How many labels were looked at, and the rows of those that are wrong."""

    looked_at: int
    rows: Whole


def look_over(
    ends: Ends, workers: Workers, sizes: Sizes, at_once: int, share: float, teller: Teller
) -> Looked:
    """Asks for labels once more: all, or of each hundred cells so many as the share tells.

    So many labels in priority order are cut into cells at once, and each cell is told all labels
    before its own that overlap these below both ends. A label is wrong where its end or blocker is
    another than the engine's, or where the engine gives it another end among others."""
    was, blockers = ends.until.copy(), ends.blocker.copy()
    found, count = [], 0
    teller.part("labels looked over", int(len(ends) * share))
    plan = _some(_plan(ends, sizes, at_once), share)
    for one in Asker(ends, workers).ask(plan, Account(0, len(ends))):
        is_other = (ends.until[one.own] != was[one.own]).any(axis=1)
        found.append(one.own[is_other | (ends.blocker[one.own] != blockers[one.own])])
        found.append(one.others[(one.told != was[one.others]).any(axis=1)])
        ends.restore(one.own, was, blockers)
        count += len(one.own)
        teller.at(count)
    teller.end()
    return Looked(count, union(found))


def _plan(ends: Ends, sizes: Sizes, at_once: int) -> Iterator[Cell]:
    """All labels in cells, each told of by all labels before its own that matter."""
    cover = ends.cover(ends.shown(0, len(ends)))

    def about(own: Whole) -> Whole:
        near = cover.near(ends.area(own), float(ends.value[own].max()))
        return np.setdiff1d(near[near < own[-1]], own, assume_unique=True)

    for begin in range(0, len(ends), at_once):
        rows = np.arange(begin, min(begin + at_once, len(ends)))
        yield from cells(rows, ends.labels.place, about, sizes)


def _some(plan: Iterator[Cell], share: float) -> Iterator[Cell]:
    """A share of the cells, spread evenly."""
    due = 0.0
    for cell in plan:
        due += share
        if due >= 1 - 1e-9:
            due -= 1
            yield cell
