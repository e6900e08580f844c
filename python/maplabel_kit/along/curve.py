"""The smooth curve that the boxes of a name follow. Pixels about the anchor, y upwards."""

import math
from collections.abc import Sequence
from dataclasses import dataclass, field

Point = tuple[float, float]
Box = tuple[float, float, float, float]

# Of a curve's degree: how many pixels it may keep from the middles of the boxes.
BOUNDS = ((1, 0.62), (2, 0.72), (3, 1.1))
STEP = 2.0
# Pixels that are as good as none where an x is sought.
NEAR = 1e-12


def solve(rows: list[list[float]], right: list[float]) -> list[float] | None:
    """The answer of a system of as many equations as unknowns, or none (Gauss, with pivots)."""
    count = len(rows)
    table = [row + [value] for row, value in zip(rows, right)]
    for k in range(count):
        best = k
        for i in range(k + 1, count):
            if abs(table[i][k]) > abs(table[best][k]):
                best = i
        table[k], table[best] = table[best], table[k]
        if abs(table[k][k]) < 1e-12:
            return None
        for i in range(k + 1, count):
            factor = table[i][k] / table[k][k]
            for j in range(k, count + 1):
                table[i][j] -= factor * table[k][j]
    found = [0.0] * count
    for k in reversed(range(count)):
        rest = table[k][count] - sum(table[k][j] * found[j] for j in range(k + 1, count))
        found[k] = rest / table[k][k]
    return found


def value_at(poly: Sequence[float], u: float) -> float:
    """The value of a polynomial, whose least power stands first."""
    value = 0.0
    for factor in reversed(poly):
        value = value * u + factor
    return value


def fit(points: Sequence[Point], degree: int) -> tuple[list[float] | None, float]:
    """The polynomial of least squares, and its greatest distance from the points. u is scaled to -1
    to 1 meanwhile.
    """
    size = max(max(abs(u) for u, _ in points), 1e-9)
    scaled = [(u / size, w) for u, w in points]
    sums = [sum(u**k for u, _ in scaled) for k in range(2 * degree + 1)]
    right = [sum(w * u**k for u, w in scaled) for k in range(degree + 1)]
    found = solve([sums[i : i + degree + 1] for i in range(degree + 1)], right)
    if found is None:
        return None, math.inf
    poly = [factor / size**k for k, factor in enumerate(found)]
    return poly, max(abs(value_at(poly, u) - w) for u, w in points)


@dataclass
class Curve:
    """w = poly(u) in a frame that is turned by an angle about an origin; straight on beyond `reach`
    from there.
    """

    origin: Point
    angle: float
    poly: list[float]
    reach: float = math.inf
    cos: float = field(init=False)
    sin: float = field(init=False)
    is_straight: bool = field(init=False)
    # The factors of the polynomial and of its slope, whose greatest power stands first.
    factors: list[float] = field(init=False)
    slopes: list[float] = field(init=False)

    def __post_init__(self) -> None:
        self.cos, self.sin = math.cos(self.angle), math.sin(self.angle)
        self.is_straight = len(self.poly) <= 2
        self.factors = self.poly[::-1]
        self.slopes = [k * self.poly[k] for k in range(len(self.poly) - 1, 0, -1)]

    def slope(self, u: float) -> float:
        """The slope in the turned frame."""
        end = self.reach if u > self.reach else -self.reach if u < -self.reach else u
        value = 0.0
        for factor in self.slopes:
            value = value * end + factor
        return value

    def place(self, u: float) -> Point:
        """The point of the curve."""
        end = self.reach if u > self.reach else -self.reach if u < -self.reach else u
        w = 0.0
        for factor in self.factors:
            w = w * end + factor
        if u != end:
            w += (u - end) * self.slope(end)
        return (
            self.origin[0] + u * self.cos - w * self.sin,
            self.origin[1] + u * self.sin + w * self.cos,
        )

    def step(self, u: float, length: float) -> float:
        """The u that lies so far along the curve from u, found in steps of at most 2 pixels."""
        if self.is_straight:
            return u + length / math.hypot(1, self.slope(0.0))
        count = max(1, math.ceil(abs(length) / STEP))
        part = length / count
        for _ in range(count):
            middle = u + part / 2 / math.hypot(1, self.slope(u))
            u += part / math.hypot(1, self.slope(middle))
        return u

    def at_x(self, x: float) -> float:
        """The u whose point has this x, on a curve that does not turn back."""
        if self.cos < 1e-6:
            return 0.0
        u = (x - self.origin[0]) / self.cos
        for _ in range(1 if self.is_straight else 8):
            step = (self.place(u)[0] - x) / max(self.cos - self.slope(u) * self.sin, 0.05)
            u -= step
            if abs(step) < NEAR:
                break
        return u


@dataclass
class Shape:
    """The curve of a name, and whether it is straight."""

    curve: Curve
    is_straight: bool


def is_upright(boxes: Sequence[Box]) -> bool:
    """Whether these are the boxes of a name that runs straight up: all at one height, and narrow
    together.
    """
    wide = max(box[2] for box in boxes) - boxes[0][0]
    return all(box[1] == boxes[0][1] for box in boxes) and boxes[0][3] - boxes[0][1] > 3 * wide


def _turned(points: Sequence[Point], origin: Point, angle: float) -> list[Point]:
    """Points in the frame of an origin and an angle."""
    cos, sin = math.cos(angle), math.sin(angle)
    moved = [(x - origin[0], y - origin[1]) for x, y in points]
    return [(x * cos + y * sin, y * cos - x * sin) for x, y in moved]


def curve_of(boxes: Sequence[Box], is_run: bool = False) -> Shape | None:
    """The simplest curve that keeps near the middles of boxes, none where none does; of one run it
    is straight.
    """
    middles = [((left + right) / 2, (bottom + top) / 2) for left, bottom, right, top in boxes]
    count = len(middles)
    origin = sum(x for x, _ in middles) / count, sum(y for _, y in middles) / count
    if is_upright(boxes):
        return Shape(Curve(origin, math.pi / 2, [0.0]), True)
    line, _ = fit([(x - origin[0], y - origin[1]) for x, y in middles], 1)
    angle = math.atan(line[1]) if line else 0.0
    straight = Shape(Curve(origin, angle, [0.0]), True)
    if is_run:
        return straight
    turned = _turned(middles, origin, angle)
    for degree, bound in BOUNDS:
        if count <= degree:
            break
        poly, off = fit(turned, degree)
        if poly is not None and off <= bound:
            reach = max(abs(u) for u, _ in turned)
            return straight if degree == 1 else Shape(Curve(origin, angle, poly, reach), False)
    return None
