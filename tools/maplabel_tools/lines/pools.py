"""The places of a level at which a name lies well."""

from collections.abc import Iterable, Iterator, Sequence
from dataclasses import dataclass

import numpy as np

from maplabel_kit.along import Point
from maplabel_tools.lines.fits import Ask, Fit, Fits, fits
from maplabel_tools.lines.tracks import Floats, Path, Track, Truths, Whole

# How much a place counts that a name has one zoom further in, and the cost of one where it does not
# lie well there.
AHEAD, AHEAD_BAD = 0.6, 3.0


class Closed:
    """Circles about places, within which no new label of a name may stand."""

    def __init__(self, circles: Sequence[tuple[Point, float]]) -> None:
        rows = np.array([(x, y, far) for (x, y), far in circles], dtype=np.float64).reshape(-1, 3)
        self.x, self.y, self.far = rows[:, 0], rows[:, 1], rows[:, 2]

    def leaves(self, x: Floats, y: Floats) -> Truths:
        """Which of some places stand free of all circles."""
        distances = np.hypot(x[:, None] - self.x, y[:, None] - self.y)
        free: Truths = (distances >= self.far).all(axis=1)
        return free


@dataclass(frozen=True)
class Part:
    """Good points of a track, which lie free, with the fits about them and their costs."""

    track: Track
    fits: Fits
    cost: Floats


class Pool:
    """The places of a level at which a name lies well, the best first; those that may still be
    taken are open.
    """

    def __init__(self, parts: Sequence[Part], scale: float) -> None:
        self.parts = parts
        self.x = _all(part.track.x[part.fits.places] * scale for part in parts)
        self.y = _all(part.track.y[part.fits.places] * scale for part in parts)
        self.numbers = [(part, row) for part in parts for row in range(len(part.cost))]
        self.order = np.argsort(_all(part.cost for part in parts), kind="stable")
        self.is_open = np.ones(len(self.order), dtype=np.bool_)

    def close(self, place: Point, far: float) -> None:
        """Takes out all places that are nearer to a place than so many units."""
        self.is_open &= Closed([(place, far)]).leaves(self.x, self.y)

    def best(self) -> Iterator[tuple[Path, float, Fit]]:
        """The open places, the best first, as path, length along it and fit."""
        for k in self.order:
            if self.is_open[k]:
                part, row = self.numbers[k]
                t = float(part.track.ts[part.fits.places[row]])
                yield part.track.path, t, part.fits.one(row)


def _all(parts: Iterable[Floats]) -> Floats:
    """Arrays one behind another."""
    return np.concatenate([np.zeros(0), *parts])


def pool_of(
    tracks: dict[int, Track],
    ahead: dict[int, Track],
    scale: float,
    closed: Closed,
    step: int,
    ask: Ask,
) -> Pool:
    """The places of a level at which a name lies well and that lie free, of each so many points of
    its tracks; the tracks of the next level are `ahead`.
    """
    parts = []
    for number, track in tracks.items():
        places: Whole = np.arange(0, track.count(), step)
        places = places[closed.leaves(track.x[places] * scale, track.y[places] * scale)]
        if len(places):
            parts.append(_part(track, ahead.get(number), places, ask))
    return Pool(parts, scale)


def _part(track: Track, ahead: Track | None, places: Whole, ask: Ask) -> Part:
    """The good ones of some points of a track; how good they are one zoom further in counts too."""
    here = fits(track, places, ask)
    cost = here.cost
    if ahead is not None and len(cost):
        there = fits(ahead, ahead.indices(track.ts[here.places]), ask)
        further = np.full(len(cost), AHEAD_BAD)
        further[there.rows] = there.cost
        cost = cost + AHEAD * further
    return Part(track, here, cost)
