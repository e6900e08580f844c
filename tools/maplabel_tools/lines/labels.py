"""A name at a place of a line, over some levels."""

import math
from dataclasses import dataclass

import numpy as np

from maplabel_kit.along import Point, curve_of, places_of
from maplabel_tools.lines.chains import Chain, Name
from maplabel_tools.lines.fits import MOST_BUMP, MOST_OFF, Fit
from maplabel_tools.lines.taken import Scope
from maplabel_tools.lines.tracks import STEP, Path, Track
from maplabel_tools.lines.wish import Wish

ABOVE, BELOW = 1, -1


@dataclass(frozen=True)
class How:
    """How a name stands at a place: the name, with its letters spaced or not, the side of the line,
    by how many pixels further from it than names do elsewhere, and the scales of its first level at
    which it has room.
    """

    name: Name
    side: int
    further: float
    scope: Scope


@dataclass
class Label:
    """A name at a place of a line, over some levels."""

    how: How
    path: Path
    t: float
    place: Point
    first: int
    last: int
    fit: Fit
    chain: Chain
    scale: float

    @property
    def name(self) -> Name:
        """The name that it shows."""
        return self.how.name

    def letters(self) -> list[Point]:
        """Where the letters are drawn, about the anchor."""
        shape = curve_of(self.chain.core, self.name.is_run)
        if shape is None:
            return []
        middle = shape.curve.at_x(
            (self.chain.core[0][0] + max(box[2] for box in self.chain.core)) / 2
        )
        found = places_of(
            self.name.letters, shape.curve, self.name.height, middle, self.name.tracking
        )
        return [(x, y) for x, y, _ in found]

    def is_narrow(self) -> bool:
        """Whether it has room at the outer scales of its level alone."""
        return self.how.scope == Scope.NARROW

    def moved(self, other: "Label") -> float:
        """By how far a letter moves where another label takes over."""
        return max((math.dist(a, b) for a, b in zip(self.letters(), other.letters())), default=0.0)

    def follows(self, track: Track, wish: Wish) -> bool:
        """Whether the letters still follow the line at the scale of a track."""
        low, high = -MOST_OFF - 0.5, MOST_OFF + 0.5
        if wish.is_beside() and self.how.side == ABOVE:
            low, high = -MOST_BUMP - 4, self.fit.above + 2
        elif wish.is_beside():
            low, high = -self.fit.below - 2, MOST_BUMP + 4
        at, half = track.index(self.t), self.name.length / 2
        count = int((1.4 * half + 8) / STEP)
        return all(self._keeps(track, at, way, half, count, low, high) for way in (1, -1))

    def _keeps(
        self, track: Track, at: int, way: int, half: float, count: int, low: float, high: float
    ) -> bool:
        """Whether the line keeps near the curve on one side of the anchor, until it is beyond the
        name's end.
        """
        part = slice(at + 1, at + count + 1) if way > 0 else slice(max(at - count, 0), at)
        x, y = track.x[part][::way] - track.x[at], track.y[part][::way] - track.y[at]
        cos, sin = math.cos(self.fit.angle), math.sin(self.fit.angle)
        u, w = x * cos + y * sin, y * cos - x * sin
        beyond = np.flatnonzero(np.abs(u) > half)
        if not len(beyond):
            return False
        near = u[: beyond[0]]
        curve = np.zeros(len(near))
        for factor in reversed(self.fit.poly):
            curve = curve * near + factor
        off = w[: beyond[0]] - curve
        return bool(((low <= off) & (off <= high)).all())
