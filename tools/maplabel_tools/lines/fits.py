"""How well a name would lie on a line about each of many of its points, reckoned for all of them at
once.
"""

import math
from dataclasses import dataclass

import numpy as np

from maplabel_kit.along import Curve
from maplabel_tools.lines.tracks import Floats, Track, Truths, Whole

# Steeper than this, in degrees, a name runs straight up.
UPRIGHT = 85.0
# Of a curve's degree: pixels from the line at which a curve of this degree is good enough and none
# of a higher one is tried.
GOOD_OFF = ((1, 1.2), (2, 1.8), (3, 2.2))
# Pixels that a curve may keep from the line; that the line may reach beyond it towards the name,
# and away from it.
MOST_OFF, MOST_BUMP, MOST_HOLLOW = 3.5, 5.0, 7.0
# Degrees: over a name, from letter to letter, and the steepest letters of a bent and of a straight
# name.
MOST_TURN, MOST_STEP, STEEPEST_BENT, STEEPEST = 60.0, 12.0, 80.0, 91.0
# Of a stretch: how long its chord is at least.
LEAST_CHORD = 0.85
SAMPLES = 13


@dataclass(frozen=True)
class Fit:
    """A name's curve about a place, in pixels about that: its frame's angle, its polynomial there,
    how far it is fitted, how far the line reaches beyond it upwards and downwards, and the less the
    better `cost`.
    """

    angle: float
    is_upright: bool
    poly: tuple[float, ...]
    degree: int
    reach: float
    above: float
    below: float
    cost: float

    def curve(self, rise: float) -> Curve:
        """The curve raised by so many pixels."""
        if self.is_upright:
            return Curve((-rise, 0.0), math.pi / 2, [0.0])
        return Curve((0.0, 0.0), self.angle, [self.poly[0] + rise, *self.poly[1:]], self.reach)


@dataclass(frozen=True)
class Ask:
    """What is to lie on a line: how long it is, how far its letters stand apart, whether it is a
    run that is written whole, and whether it stands beside the line.
    """

    length: float
    pitch: float
    is_run: bool
    is_beside: bool


class Windows:
    """The line about those of some points that have enough of it on both sides, turned so that a
    name would run from left to right: u along, w upwards. `rows` tells which points these are.
    """

    def __init__(self, track: Track, places: Whole, ask: Ask) -> None:
        half = ask.length / 2 + 1
        arcs = track.arc[places]
        self.rows: Whole = np.flatnonzero((arcs - half >= 0) & (arcs + half <= track.arc[-1]))
        count = max(5, math.ceil(half) + 1)
        apart = np.arange(count) * (2 * half / (count - 1)) - half
        apart[-1] = half
        at = arcs[self.rows, None] + apart[None, :]
        own = places[self.rows]
        origin_x, origin_y = track.x[own, None], track.y[own, None]
        smooth_x = np.interp(at, track.arc, track.smooth_x) - origin_x
        smooth_y = np.interp(at, track.arc, track.smooth_y) - origin_y
        dx, dy = smooth_x[:, -1] - smooth_x[:, 0], smooth_y[:, -1] - smooth_y[:, 0]
        is_long = np.hypot(dx, dy) >= LEAST_CHORD * 2 * half
        self.rows, at, dx, dy = self.rows[is_long], at[is_long], dx[is_long], dy[is_long]
        sign = np.where((dx < 0) | ((dx == 0) & (dy < 0)), -1.0, 1.0)
        angle = np.arctan2(dy * sign, dx * sign)
        self.is_upright: Truths = np.abs(angle) > math.radians(UPRIGHT)
        self.angle: Floats = np.where(self.is_upright, math.pi / 2, angle)
        self._cos, self._sin = np.cos(self.angle)[:, None], np.sin(self.angle)[:, None]
        self.u, self.w = self._turned(smooth_x[is_long], smooth_y[is_long])
        raw_x = np.interp(at, track.arc, track.x) - origin_x[is_long]
        raw_y = np.interp(at, track.arc, track.y) - origin_y[is_long]
        self.raw_u, self.raw_w = self._turned(raw_x, raw_y)

    def _turned(self, x: Floats, y: Floats) -> tuple[Floats, Floats]:
        return x * self._cos + y * self._sin, y * self._cos - x * self._sin


def powers(u: Floats, degree: int) -> Floats:
    """The powers of values from 0 to a degree, in a last dimension."""
    return np.stack([u**k for k in range(degree + 1)], axis=-1)


def values(poly: Floats, u: Floats) -> Floats:
    """The values of polynomials, one for each row of u."""
    found = np.zeros_like(u)
    for k in range(poly.shape[1] - 1, -1, -1):
        found = found * u + poly[:, k : k + 1]
    return found


def least_squares(u: Floats, w: Floats, degree: int) -> Floats:
    """For each row the polynomial of least squares, filled up to four factors."""
    size = np.maximum(np.abs(u).max(axis=1), 1e-9)
    basis = powers(u / size[:, None], degree)
    turned = basis.transpose(0, 2, 1)
    normal = turned @ basis + 1e-12 * np.eye(degree + 1)
    found = np.linalg.solve(normal, turned @ w[:, :, None])[:, :, 0]
    poly = np.zeros((len(u), 4))
    poly[:, : degree + 1] = found / size[:, None] ** np.arange(degree + 1)
    return poly


@dataclass
class Fits:
    """Fits about some of many points of a track: those that are good. `rows` tells which of the
    points these are.
    """

    places: Whole
    rows: Whole
    angle: Floats
    is_upright: Truths
    poly: Floats
    degree: Whole
    reach: Floats
    above: Floats
    below: Floats
    cost: Floats

    def one(self, k: int) -> Fit:
        """One of the fits."""
        degree = int(self.degree[k])
        poly = tuple(float(factor) for factor in self.poly[k, : degree + 1])
        return Fit(
            float(self.angle[k]),
            bool(self.is_upright[k]),
            poly,
            degree,
            float(self.reach[k]),
            float(self.above[k]),
            float(self.below[k]),
            float(self.cost[k]),
        )


def fits(track: Track, places: Whole, ask: Ask) -> Fits:
    """How a name lies about those of the points of a track where it lies well."""
    seen = Windows(track, places, ask)
    if not len(seen.rows):
        empty = np.zeros(0)
        none = seen.rows
        return Fits(none, none, empty, none > 0, empty, none, empty, empty, empty, empty)
    poly, degree, off = _curves(seen, ask)
    over = seen.raw_w - values(poly, seen.raw_u)
    above, below = np.maximum(0.0, over.max(axis=1)), np.maximum(0.0, -over.min(axis=1))
    is_good = off <= MOST_OFF
    if ask.is_beside:
        is_good &= (above <= MOST_BUMP) & (below <= MOST_HOLLOW)
    is_good &= ~seen.is_upright | (np.abs(seen.raw_w).max(axis=1) <= MOST_OFF + 1)
    total, step, steep = _bends(seen.angle, poly, ask)
    is_good &= (total <= MOST_TURN) & (step <= MOST_STEP)
    is_good &= (steep <= STEEPEST) & ((steep <= STEEPEST_BENT) | (degree == 1))
    cost = (
        off / 2
        + (above + below) / 8
        + total / 40
        + np.abs(seen.angle) / math.pi
        + 0.3 * (degree > 1)
    )
    reach = np.abs(seen.u).max(axis=1)
    rows = seen.rows[is_good]
    found = (seen.angle, seen.is_upright, poly, degree, reach, above, below, cost)
    return Fits(places[rows], rows, *(one[is_good] for one in found))


def _curves(seen: Windows, ask: Ask) -> tuple[Floats, Whole, Floats]:
    """For each window the curve of the least degree that is near enough, its degree and its
    distance from the line.
    """
    count = len(seen.u)
    poly, off = np.zeros((count, 4)), np.full(count, np.inf)
    degree = np.ones(count, dtype=np.int64)
    is_open = np.ones(count, dtype=np.bool_)
    for one, bound in GOOD_OFF[:1] if ask.is_run else GOOD_OFF:
        if not is_open.any():
            break
        u, w = seen.u[is_open], seen.w[is_open]
        found = least_squares(u, w, one)
        found[seen.is_upright[is_open]] = 0.0
        near_u, near_w = (u, w) if ask.is_beside else (seen.raw_u[is_open], seen.raw_w[is_open])
        distance = np.abs(near_w - values(found, near_u)).max(axis=1)
        poly[is_open], degree[is_open], off[is_open] = found, one, distance
        is_open[is_open] = (distance > bound) & ~seen.is_upright[is_open]
    return poly, degree, off


def _bends(angle: Floats, poly: Floats, ask: Ask) -> tuple[Floats, Floats, Floats]:
    """In degrees: the turn over the whole name, the greatest from letter to letter, and the
    steepest slope.
    """
    us = (np.arange(SAMPLES) / (SAMPLES - 1) - 0.5) * ask.length
    slopes = poly[:, 1:2] + 2 * poly[:, 2:3] * us + 3 * poly[:, 3:4] * us**2
    angles = np.degrees(np.arctan(slopes))
    step = np.abs(np.diff(angles, axis=1)).max(axis=1) / (ask.length / (SAMPLES - 1)) * ask.pitch
    steep = np.abs(np.degrees(angle)[:, None] + angles).max(axis=1)
    return angles.max(axis=1) - angles.min(axis=1), step, steep
