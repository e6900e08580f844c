"""The ends of labels by the definition, one label after another, in whole numbers.

The definition is that of tests/oracle, written apart from the engine. Here is only which labels
are near enough to be looked at: squares so large that what overlaps lies in the next one at
most.
"""

import importlib
import math
import sys
from collections.abc import Iterator
from fractions import Fraction
from pathlib import Path
from typing import Any

from maplabel_atlas.editing import State

sys.path.append(str(Path(__file__).resolve().parent.parent / "oracle"))
ml_cone: Any = importlib.import_module("ml_cone")
ml_conflict: Any = importlib.import_module("ml_conflict")

FORGET = 2_000
SLACK = 1.001


class Squares:
    """Labels that are shown, by how far out, in squares."""

    def __init__(self, wide: int, high: int) -> None:
        self._sides = 2 * wide, 2 * high
        self._squares: dict[int, dict[tuple[int, int], list[tuple[int, float, Any]]]] = {}

    def add(self, row: int, label: Any, until: Fraction) -> None:
        """Takes a label in that is shown up to an end."""
        band = max(0, math.floor(math.log2(until)) + 1)
        squares = self._squares.setdefault(band, {})
        place = squares.setdefault(self._square(label, band), [])
        place.append((row, float(until) * SLACK, (label, until)))

    def _square(self, label: Any, band: int) -> tuple[int, int]:
        wide, high = self._sides
        return label.x // (wide << band), label.y // (high << band)

    def near(self, label: Any, most: Fraction) -> list[tuple[int, Any]]:
        """The labels that may overlap one below an end, in priority order."""
        found = []
        for band, squares in self._squares.items():
            x, y = self._square(label, band)
            for square in ((i, j) for i in (x - 1, x, x + 1) for j in (y - 1, y, y + 1)):
                for row, until, pair in squares.get(square, ()):
                    if self._is_near(label, pair[0], min(until, float(most) * SLACK)):
                        found.append((row, pair))
        return sorted(found, key=lambda one: one[0])

    def _is_near(self, one: Any, other: Any, scale: float) -> bool:
        wide, high = self._sides
        gap: tuple[int, int] = abs(one.x - other.x), abs(one.y - other.y)
        return gap[0] <= wide * scale and gap[1] <= high * scale


def labels_of(state: State, count: int) -> list[Any]:
    """The first labels of a state as the oracle knows them."""
    columns, found = state.labels, []
    for row in range(min(count, len(columns))):
        begin, end = columns.first[row : row + 2].tolist()
        boxes = tuple(map(tuple, columns.boxes[begin:end].tolist()))
        scales = tuple(Fraction(*map(int, one[row])) for one in (columns.least, columns.most))
        at = tuple(columns.place[row].tolist())
        margin = int(columns.margin[row])
        found.append(ml_cone.Label(row, str(row), at, boxes, (), scales, margin))
    return found


def ends(labels: list[Any]) -> Iterator[tuple[Fraction, int]]:
    """The end and the blocker of each label."""
    wide = [ml_cone.widened(one, box) for one in labels for box in one.boxes]
    squares = Squares(
        max(max(-box[0], box[2]) for box in wide), max(max(-box[1], box[3]) for box in wide)
    )
    for row, label in enumerate(labels):
        until, blocker = label.max, -1
        near = squares.near(label, label.max)
        for _, (other, end) in near:
            until = min(until, ml_conflict.limit(label, other, end))
        if until < label.max:
            blocker = next(
                by
                for by, (other, end) in near
                if ml_conflict.ends_just_there(label, until, other, end)
            )
        if until > label.min:
            squares.add(row, label, until)
        if row % FORGET == 0:
            ml_conflict.forget()
        yield until, blocker


def wrong(state: State, count: int) -> list[int]:
    """The rows among the first ones whose end or blocker is not that of the definition."""
    found = []
    for row, (until, blocker) in enumerate(ends(labels_of(state, count))):
        told = tuple(state.until[row].tolist()), int(state.blocker[row])
        if told != (until.as_integer_ratio(), blocker):
            found.append(row)
    return found
