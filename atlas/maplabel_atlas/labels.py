"""All labels of a layer, as columns in priority order."""

from dataclasses import dataclass, fields
from pathlib import Path
from typing import Any, Literal

import numpy as np

from maplabel_atlas.arrays import Real, Texts, Whole, ranges

Mode = Literal["c"] | None


@dataclass
class Labels:
    """Columns with a row for each label.

    `least` and `most` are fractions, a numerator and a denominator. `first` tells where a label's
    boxes begin in `boxes`, and has one item more than there are labels. A box is left, bottom,
    right, top, without its margin.
    """

    place: Whole
    least: Whole
    most: Whole
    margin: Whole
    number: Whole
    priority: Whole
    rank: Whole
    first: Whole
    boxes: Whole
    ids: Texts
    texts: Texts

    def __len__(self) -> int:
        return len(self.place)

    def take(self, rows: Whole) -> "Labels":
        """The labels at some rows, in the order of these rows."""
        places, first = ranges(self.first[rows], np.diff(self.first)[rows])
        return Labels(**self._plain(rows), first=first, boxes=self.boxes[places])

    def _plain(self, rows: Whole) -> dict[str, Any]:
        return {name: getattr(self, name)[rows] for name in PLAIN}

    def wide(self, rows: Whole) -> tuple[Whole, Whole]:
        """The boxes of some labels, widened by their margins, and where the boxes of each begin.

        A table knows no margins. With these boxes it has the same overlaps."""
        places, first = ranges(self.first[rows], np.diff(self.first)[rows])
        return _widened(self.boxes[places], self.margin[rows], first), first

    def extents(self) -> Real:
        """For each label the least box that holds its anchor and its widened boxes."""
        found: Real = np.zeros((len(self), 4))
        if len(self):
            wide = _widened(self.boxes.copy(), self.margin, self.first)
            low, high = wide[:, :2], wide[:, 2:]
            if len(wide) > len(self):
                low = np.minimum.reduceat(low, self.first[:-1])
                high = np.maximum.reduceat(high, self.first[:-1])
            np.minimum(low, 0, out=found[:, :2])
            np.maximum(high, 0, out=found[:, 2:])
        return found

    def order(self) -> Whole:
        """The rows in priority order: by priority, then by rank downwards, then by id byte by
        byte.
        """
        keys = np.char.str_len(self.ids), self.ids, -self.rank, self.priority
        rows: Whole = np.lexsort(keys)
        return rows

    def save(self, folder: Path) -> None:
        """Writes a file for each column."""
        for one in fields(self):
            np.save(folder / f"{one.name}.npy", getattr(self, one.name))


def _widened(boxes: Whole, margin: Whole, first: Whole) -> Whole:
    """Widens boxes, in their place, by the margins of the labels that they are of."""
    room = np.repeat(margin, np.diff(first))[:, None]
    boxes[:, :2] -= room
    boxes[:, 2:] += room
    return boxes


PLAIN = tuple(one.name for one in fields(Labels) if one.name not in ("first", "boxes"))


def column(folder: Path, name: str, mode: Mode) -> Any:
    """A column of a folder: read at once, or in the mode `c` mapped into memory."""
    return np.load(folder / f"{name}.npy", mmap_mode=mode)


def load(folder: Path, mode: Mode) -> Labels:
    """The labels of a folder."""
    return Labels(**{one.name: column(folder, one.name, mode) for one in fields(Labels)})


def join(parts: list[Labels]) -> Labels:
    """Labels one part behind another."""
    shifts = np.cumsum([0] + [len(one.boxes) for one in parts])
    first = [one.first[:-1] + shift for one, shift in zip(parts, shifts)] + [shifts[-1:]]
    plain = {
        name: np.concatenate([getattr(part, name) for part in parts]) for name in (*PLAIN, "boxes")
    }
    return Labels(first=np.concatenate(first), **plain)
