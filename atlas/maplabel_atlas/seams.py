"""Which labels have to be asked for again, since what their tables were told of others turned out
otherwise.

A label's end stands where, for each label before it, one of these holds: its table was told that
label with the end that it has; or with a greater one that did not matter; or the two do not overlap
below both of their ends.
"""

import numpy as np

from maplabel_atlas.arrays import Real, Whole, all_of, no_rows, union
from maplabel_atlas.cover import Area, Cover, meet
from maplabel_atlas.ends import Answer, Ends

LESS = 1 - 1e-9


def unfit(ends: Ends, answers: list[Answer], begin: int, end: int) -> Whole:
    """The labels of a tier that were told a wrong end of another one, or not told of one that
    matters.
    """
    cover = ends.cover(ends.shown(begin, end))
    return union(
        [rows for one in answers for rows in (misled(ends, one), untold(ends, one, cover))]
    )


def misled(ends: Ends, answer: Answer) -> Whole:
    """The own labels of a table for which it matters that the ends which it gave others are not
    their ends.
    """
    is_wrong = (answer.told != ends.until[answer.others]).any(axis=1)
    rows, told = answer.others[is_wrong], answer.told[is_wrong]
    blocked = answer.own[np.isin(ends.blocker[answer.own], rows)]
    longer = rows[told[:, 0] / told[:, 1] < ends.value[rows]]
    return union([blocked, met_by(ends, longer, answer.own)])


def untold(ends: Ends, answer: Answer, cover: Cover) -> Whole:
    """The own labels of a table that overlap a label of their tier before them of which the table
    was not told.
    """
    near = cover.near(ends.area(answer.own), float(ends.value[answer.own].max()))
    near = near[near < answer.own[-1]]
    told = np.concatenate([answer.own, answer.others])
    return met_by(ends, np.setdiff1d(near, told, assume_unique=True), answer.own)


def met_by(ends: Ends, rows: Whole, among: Whole) -> Whole:
    """Those of `among` which come after one of `rows` and overlap it below its end and theirs."""
    if len(rows) == 0:
        return no_rows()
    falling = among[np.argsort(-ends.value[among], kind="stable")]
    area, values = ends.area(among), -ends.value[falling]
    found = []
    for row in rows.tolist():
        least = _least_scale(ends.place[row], ends.extents[row], area)
        some = falling[: int(np.searchsorted(values, -least, side="right"))]
        found.append(_met(ends, row, some[some > row]))
    return all_of(found)


def met_after(ends: Ends, row: int, after: Cover, moved: Whole) -> Whole:
    """The labels after one that it overlaps below its end and theirs: those of a cover, and those
    whose ends moved.
    """
    near = after.near(_point(ends, row), float(ends.value[row]))
    near = np.union1d(near, moved)
    return _met(ends, row, near[near > row])


def _met(ends: Ends, row: int, others: Whole) -> Whole:
    scales = np.minimum(ends.value[others], ends.value[row])
    return others[meet(ends.place[others], ends.extents[others], _point(ends, row), scales)]


def _point(ends: Ends, row: int) -> Area:
    return Area(np.tile(ends.place[row], 2), ends.extents[row])


def _least_scale(at: Real, sides: Real, area: Area) -> float:
    """No label of an area overlaps the one at a place at a scale below this."""
    gap = np.maximum(np.concatenate([area.places[:2] - at, at - area.places[2:]]) - 1, 0)
    room = np.concatenate([sides[2:] - area.sides[:2], area.sides[2:] - sides[:2]])
    return float((gap / np.maximum(room, 1)).max()) * LESS
