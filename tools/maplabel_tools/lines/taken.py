"""Room that labels take which are shown whatever the names along lines are."""

import math
from collections.abc import Iterable, Sequence
from enum import Enum

import numpy as np

from maplabel_kit.labels import Box, Label
from maplabel_tools.lines.tracks import Floats
from maplabel_tools.lines.wish import Wish

# A level ends below its greatest scale.
BELOW_END = 1 - 1e-9


class Scope(Enum):
    """Scales of a level: all of them; from the least to that of its zoom, which a new label needs;
    or from half way between these to that of the zoom, where there is no more room.
    """

    WHOLE = 0
    INNER = 1
    NARROW = 2


class Taken:
    """The boxes of labels that are shown at a scale, in pixels of that scale."""

    def __init__(self, labels: Iterable[Label], scale: float) -> None:
        rows = [
            _widened(one, box, scale)
            for one in labels
            if one.least <= scale < one.until
            for box in one.boxes
        ]
        self.scale = scale
        self.sides: Floats = np.array(sorted(rows), dtype=np.float64).reshape(-1, 4)
        self.widest = float((self.sides[:, 2] - self.sides[:, 0]).max()) if rows else 0.0

    def hits(self, place: tuple[float, float], boxes: Floats, margin: int) -> bool:
        """Whether boxes about a place overlap what is taken."""
        if not len(self.sides):
            return False
        own = boxes + (-margin, -margin, margin, margin)
        own += (place[0] / self.scale, place[1] / self.scale) * 2
        low = np.searchsorted(self.sides[:, 0], own[:, 0].min() - self.widest)
        high = np.searchsorted(self.sides[:, 0], own[:, 2].max())
        near = self.sides[low:high, None, :]
        over = (
            (near[..., 0] < own[:, 2])
            & (own[:, 0] < near[..., 2])
            & (near[..., 1] < own[:, 3])
            & (own[:, 1] < near[..., 3])
        )
        return bool(over.any())


class LevelRoom:
    """What is taken at the scales of a level: the inner ones, from its least scale to that of its
    zoom, and the outer ones.
    """

    def __init__(self, labels: Sequence[Label], scales: tuple[float, float, float]) -> None:
        """The scales are the least of the level, that of its zoom, and its greatest."""
        least, own, most = scales
        least = least or own / math.sqrt(2)
        middle, outer = math.sqrt(least * own), math.sqrt(own * most)
        scales_of = {
            Scope.NARROW: (middle, math.sqrt(middle * own), own),
            Scope.INNER: (least, middle, own),
            Scope.WHOLE: (least, middle, own, outer, most * BELOW_END),
        }
        self.seen = {
            scope: [Taken(labels, scale) for scale in scales] for scope, scales in scales_of.items()
        }

    def has_others(self) -> bool:
        """Whether any label is there."""
        return any(len(one.sides) for one in self.seen[Scope.INNER])

    def is_free(self, place: tuple[float, float], boxes: Floats, margin: int, scope: Scope) -> bool:
        """Whether boxes about a place overlap nothing that is taken at some scales of the level."""
        return not any(one.hits(place, boxes, margin) for one in self.seen[scope])


def level_rooms(labels: Sequence[Label], wish: Wish) -> list[LevelRoom]:
    """What is taken at each level."""
    bounds = [float(bound) for bound in wish.bounds()]
    return [
        LevelRoom(labels, (bounds[k + 1], scale, bounds[k]))
        for k, scale in enumerate(wish.scales())
    ]


def _widened(label: Label, box: Box, scale: float) -> tuple[float, float, float, float]:
    """A box with its margin, in pixels of a scale."""
    x, y, margin = label.x / scale, label.y / scale, label.margin
    return x + box[0] - margin, y + box[1] - margin, x + box[2] + margin, y + box[3] + margin
