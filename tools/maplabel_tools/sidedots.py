"""Dots count as boxes of their own: a name ends where its dot, or the dot of a more important one,
would lie under a name, or where the two dots would touch.

The engine knows the boxes of names alone. So once all places are chosen, each pair of near labels
is compared, and the less important one ends at the scale where the first dot is met.
"""

import math
from collections import defaultdict
from collections.abc import Collection, Iterator, Sequence
from dataclasses import dataclass
from fractions import Fraction

from maplabel_kit.labels import Label

# The digits of a scale at which a name is made to end, so that there are not too many classes.
DIGITS = 3
LEVELS = 28
STEPS = tuple((column, row) for column in (-1, 0, 1) for row in (-1, 0, 1))
Half = tuple[int, int, int, int]
Range = tuple[Fraction, Fraction]


@dataclass(frozen=True)
class Meeting:
    """A dot that meets a name or a dot: the ids of both, the more important first, what meets, and
    the scale from which on it does.
    """

    first: str
    second: str
    is_dots: bool
    scale: Fraction


class Dots:
    """The dots of towns, as boxes of so many pixels across."""

    def __init__(self, across: int, towns: Collection[str]) -> None:
        self._half: Half = (-across, -across, across, across)
        self._towns = towns

    def meetings(self, labels: Sequence[Label]) -> Iterator[Meeting]:
        """All pairs whose dots meet something while both are shown, the first meeting of each."""
        for first, second in near_pairs(labels, self._half[2]):
            if found := list(self._between(first, second)):
                yield min(found, key=lambda one: one.scale)

    def _between(self, first: Label, second: Label) -> Iterator[Meeting]:
        """What meets of two labels, the more important first."""
        shown = max(first.least, second.least), min(first.until, second.until)
        for box, other, is_dots in self._boxes(first, second):
            met = overlap(box, other, second.x - first.x, second.y - first.y)
            if met is None or max(met[0], shown[0]) >= min(met[1], shown[1]):
                continue
            yield Meeting(first.id, second.id, is_dots, max(met[0], shown[0]))

    def _boxes(self, first: Label, second: Label) -> Iterator[tuple[Half, Half, bool]]:
        """The boxes of which no two may overlap, in half pixels; and whether both are dots."""
        if second.id in self._towns:
            for box in first.boxes:
                yield doubled(box), self._half, False
        if first.id in self._towns:
            for box in second.boxes:
                yield self._half, doubled(box), False
        if first.id in self._towns and second.id in self._towns:
            yield self._half, self._half, True


def doubled(box: Half) -> Half:
    """A box in half pixels."""
    return 2 * box[0], 2 * box[1], 2 * box[2], 2 * box[3]


def overlap(one: Half, other: Half, dx: int, dy: int) -> Range | None:
    """The scales between which two boxes overlap, in half pixels about anchors that are so far
    apart in the world; none where they never do.
    """
    along = _along(one[0] - other[2], one[2] - other[0], dx)
    across = _along(one[1] - other[3], one[3] - other[1], dy)
    if along is None or across is None:
        return None
    low, high = max(along[0], across[0]), min(along[1], across[1])
    return (low, high) if low < high else None


NEVER = Fraction(2**40)


def _along(low: int, high: int, apart: int) -> Range | None:
    """The scales s with low * s / 2 < apart < high * s / 2."""
    if apart < 0 or (apart == 0 and low >= 0):
        low, high, apart = -high, -low, -apart
    if high <= 0 or (apart == 0 and low >= 0):
        return None
    return Fraction(2 * apart, high), Fraction(2 * apart, low) if low > 0 else NEVER


@dataclass(frozen=True)
class _Spot:
    """A label by its number, its anchor, its end and how far its boxes and its dot reach."""

    number: int
    x: int
    y: int
    until: float
    wide: float
    high: float


def near_pairs(labels: Sequence[Label], half: int) -> Iterator[tuple[Label, Label]]:
    """Pairs of labels that may meet at a scale at which both are shown, the more important first,
    each once, where dots reach so many half pixels.

    Two that are not near where the first of them ends are not near further in either, since there
    they lie more pixels apart. So level by level of scales, each half of the one before, those that
    end within the level are compared with all that end there or further out.
    """
    spots = [_spot_of(number, one, half / 2) for number, one in enumerate(labels)]
    shown = [one for one in spots if labels[one.number].until > labels[one.number].least]
    if not shown:
        return
    wide, high = max(one.wide for one in shown), max(one.high for one in shown)
    top = max(one.until for one in shown)
    for level in range(LEVELS):
        scale = top / 2**level
        here = [one for one in shown if one.until > scale / 2 or level == LEVELS - 1]
        cell = max(int(2 * wide * scale), 1), max(int(2 * high * scale), 1)
        for one, other in _neighbours(here, scale, cell):
            first, second = sorted((one.number, other.number))
            yield labels[first], labels[second]


def _spot_of(number: int, one: Label, half: float) -> _Spot:
    wide = max(max(abs(box[0]), abs(box[2])) for box in one.boxes)
    high = max(max(abs(box[1]), abs(box[3])) for box in one.boxes)
    return _Spot(number, one.x, one.y, float(one.until), max(wide, half), max(high, half))


def _neighbours(
    spots: Sequence[_Spot], scale: float, cell: tuple[int, int]
) -> Iterator[tuple[_Spot, _Spot]]:
    """Pairs of which the one ends within a level, and which are near where the first ends."""
    cells: dict[tuple[int, int], list[_Spot]] = defaultdict(list)
    for one in spots:
        cells[one.x // cell[0], one.y // cell[1]].append(one)
    for one in spots:
        if one.until > scale:
            continue
        column, row = one.x // cell[0], one.y // cell[1]
        for step in STEPS:
            for other in cells.get((column + step[0], row + step[1]), ()):
                is_first = other.until > scale or one.number < other.number
                if is_first and other is not one and _is_near(one, other):
                    yield one, other


def _is_near(one: _Spot, other: _Spot) -> bool:
    end = min(one.until, other.until) * 1.001
    return (
        abs(one.x - other.x) < (one.wide + other.wide) * end
        and abs(one.y - other.y) < (one.high + other.high) * end
    )


def rounded(scale: Fraction) -> Fraction:
    """A scale a little below another, of few digits."""
    whole = math.floor(scale)
    step = 10 ** max(len(str(whole)) - DIGITS, 0)
    return Fraction(whole // step * step) if whole >= 1 else Fraction(0)
