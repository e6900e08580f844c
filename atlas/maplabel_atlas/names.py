"""What is published of an atlas: the labels that are shown at some scale, with all that a page or a
server wants of them.
"""

from collections.abc import Iterator
from dataclasses import dataclass

import numpy as np
from maplabel_kit.zooms import SCALE_OF_ZOOM_0

from maplabel_atlas.arrays import Real, Truth, Whole
from maplabel_atlas.editing import State

DEEPEST, STEP = 24, 1_000_000
BATCH = 20_000


@dataclass(frozen=True)
class Name:
    """A name: its row, id, text, class, rank, blocker, place, boxes and scales, and its zooms.

    The zooms are those at which it is shown, or none.
    `is_level` tells that all of its boxes reach the common height, so that it may be drawn where a
    map stretches y.
    """

    row: int
    id: str
    text: str
    number: int
    priority: int
    rank: int
    blocker: str | None
    place: tuple[int, int]
    boxes: list[list[int]]
    least: tuple[int, int]
    until: tuple[int, int]
    zooms: tuple[float, float] | None
    is_level: bool

    def boxes_text(self) -> str:
        """The boxes as tiles tell them: left,bottom,right,top of each, with spaces between."""
        return " ".join(",".join(map(str, box)) for box in self.boxes)


class Names:
    """The names of a state."""

    def __init__(self, state: State, level: int | None = None) -> None:
        self.state = state
        self.labels = state.labels
        self.level = level_of(state) if level is None else level

    def shown(self) -> Whole:
        """The rows of the labels that are shown at some scale."""
        least, until = self.labels.least, self.state.until
        return np.flatnonzero(least[:, 0] * until[:, 1] < until[:, 0] * least[:, 1])

    def reach(self) -> int:
        """How many pixels the boxes reach to a side of their places at most."""
        return int(np.abs(self.labels.boxes).max(initial=0))

    def of(self, rows: Whole) -> Iterator[Name]:
        """The names at some rows."""
        for begin in range(0, len(rows), BATCH):
            yield from self._batch(rows[begin : begin + BATCH])

    def _batch(self, rows: Whole) -> Iterator[Name]:
        labels, until = self.labels, self.state.until
        low, high = zooms_of(labels.least[rows], until[rows])
        is_level = self._reaching(rows)
        begins, ends = labels.first[rows].tolist(), labels.first[rows + 1].tolist()
        for at, row in enumerate(rows.tolist()):
            yield Name(
                row,
                labels.ids[row].decode(),
                labels.texts[row].decode(),
                int(labels.number[row]),
                int(labels.priority[row]),
                int(labels.rank[row]),
                self._blocker(row),
                _pair(labels.place[row]),
                labels.boxes[begins[at] : ends[at]].tolist(),
                _pair(labels.least[row]),
                _pair(until[row]),
                (float(low[at]), float(high[at])) if low[at] <= high[at] else None,
                bool(is_level[at]),
            )

    def _blocker(self, row: int) -> str | None:
        by = int(self.state.blocker[row])
        return None if by < 0 else str(self.labels.ids[by].decode())

    def _reaching(self, rows: Whole) -> Truth:
        low, high = heights_of(self.state, rows)
        return (low <= self.level) & (self.level <= high)


def _pair(values: Whole) -> tuple[int, int]:
    return int(values[0]), int(values[1])


def heights_of(state: State, rows: Whole) -> tuple[Whole, Whole]:
    """The heights above its place that all boxes of a label reach, margins counted: from the one to
    the other.
    """
    wide, first = state.labels.wide(rows)
    if not len(rows):
        return first[:0], first[:0]
    low: Whole = np.maximum.reduceat(wide[:, 1], first[:-1])
    high: Whole = np.minimum.reduceat(wide[:, 3], first[:-1])
    return low, high


def level_of(state: State) -> int:
    """The height that most labels reach with all of their boxes, the lowest of several.

    Names that do not overlap in the engine's plane stay apart where y is stretched, as in Web
    Mercator, if there is one height over their places that every box of theirs reaches."""
    low, high = heights_of(state, np.arange(len(state.labels)))
    has_some = low <= high
    low, high = low[has_some], high[has_some]
    if not len(low):
        return 0
    begin = int(low.min())
    steps = np.bincount(low - begin, minlength=int(high.max()) - begin + 2)
    steps -= np.bincount(high + 1 - begin, minlength=len(steps))
    return begin + int(np.cumsum(steps).argmax())


def zooms_of(least: Whole, until: Whole) -> tuple[Real, Real]:
    """The zooms at which labels are shown, with six decimals, both included and rounded to the
    inside.

    Where the least is above the greatest, there is none.
    """
    most, fewest = until[:, 0] / until[:, 1], least[:, 0] / least[:, 1]
    low = np.ceil(np.log2(SCALE_OF_ZOOM_0 / most) * STEP)
    while (is_out := SCALE_OF_ZOOM_0 / 2 ** (low / STEP) >= most).any():
        low[is_out] += 1
    high = np.full(len(low), float(DEEPEST * STEP))
    has_least = fewest > 0
    if has_least.any():
        found = np.floor(np.log2(SCALE_OF_ZOOM_0 / fewest[has_least]) * STEP)
        while (is_out := SCALE_OF_ZOOM_0 / 2 ** (found / STEP) < fewest[has_least]).any():
            found[is_out] -= 1
        high[has_least] = np.minimum(high[has_least], found)
    return np.maximum(low, 0) / STEP, high / STEP
