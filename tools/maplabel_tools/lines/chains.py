"""The boxes that the engine is to make for a name, so that its turned letters find room in them."""

import math
from collections.abc import Sequence
from dataclasses import dataclass

import numpy as np

from maplabel_kit.along import Box as InkBox
from maplabel_kit.along import (
    Curve,
    Face,
    Letter,
    Point,
    Room,
    clusters,
    corners,
    curve_of,
    lay_letters,
    places_of,
)
from maplabel_kit.labels import Box
from maplabel_tools.lines.fits import Ask, Fit
from maplabel_tools.lines.tracks import Floats

# Units of the fonts of a style: the more, the narrower the boxes of the same letters.
UNITS = tuple(round(500 * 1.08**k) for k in range(62))
# How wide letters are in the fonts of a style: of as many units.
EM = 1000
SIZES = (
    8,
    10,
    12,
    14,
    16,
    18,
    20,
    24,
    28,
    32,
    36,
    42,
    48,
    56,
    64,
    74,
    84,
    98,
    112,
    128,
    148,
    170,
    196,
    226,
    256,
)
# A space beside an upright name, whose box takes the room between the name and its anchor.
PAD = "\u2009"
# What the engine takes: boxes of a label, and pixels from the anchor.
MOST_BOXES, MOST_REACH = 64, 512
# Pixels by which ink is taken to be larger, since a browser measures it otherwise than the font's
# outlines tell.
SPARE = 0.2
# The least cosine of a slope that counts, of one of 89 degrees.
FLATTEST = 0.017
NEXT_CORNER = [1, 2, 3, 0]
# How many heights of boxes are tried that hold all ink by their middles.
MOST_SIZES = 3
# How many fonts, each with wider boxes, are tried where a letter's middle would stand just over the
# anchor.
MOST_TRIES = 8


@dataclass(frozen=True)
class FontChoice:
    """The font of a style that gives boxes their widths: its units, and the advance of the space
    beside the name.
    """

    units: int
    pad: int

    def name(self) -> str:
        """How the font is called in a style."""
        return f"line-{self.units}" + (f"-{self.pad}" if self.pad else "")


@dataclass(frozen=True)
class Chain:
    """The boxes of a name, its text with a space beside it where one is wanted, the boxes' height
    and their font.
    """

    boxes: tuple[Box, ...]
    text: str
    size: int
    font: FontChoice
    core: tuple[Box, ...]


class Wanted:
    """Letters along a curve: the corners of their ink, and the height of the curve at each x."""

    def __init__(
        self, curve: Curve, is_upright: bool, rise: float, inks: list[list[Point]]
    ) -> None:
        self.curve, self.is_upright, self.rise = curve, is_upright, rise
        self.inks: Floats = np.array(inks, dtype=np.float64).reshape(-1, 4, 2)
        self.left, self.right = self.inks[:, :, 0].min(axis=1), self.inks[:, :, 0].max(axis=1)
        self.sides = sides_of(self.inks)
        middle = -rise if is_upright else 0.0
        reach = max(abs(float(self.left.min()) - middle), abs(float(self.right.max()) - middle))
        # How wide boxes are together that hold all ink, the same on both sides of the middle.
        self.width = 2 * reach + 1
        if not is_upright:
            self.xs, self.ys = sampled(curve, self.width)

    def boxes(self) -> Floats:
        """A box about the ink of each letter."""
        low, high = self.inks[:, :, 1].min(axis=1), self.inks[:, :, 1].max(axis=1)
        return np.stack([self.left, low, self.right, high], axis=1)

    def heights(self, xs: Floats) -> Floats:
        """The heights of the letters' middles at some x."""
        return np.zeros(len(xs)) if self.is_upright else np.interp(xs, self.xs, self.ys)

    def need(self, boxes: Floats) -> float:
        """How high boxes must be about their middles, so that each holds the ink that lies over it,
        and half a pixel more.
        """
        left, right = boxes[:, None, 0], boxes[:, None, 2]
        number, ink = np.nonzero((self.left[None] <= right) & (left <= self.right[None]))
        if not len(number):
            return 0.0
        near = boxes[number]
        low, high = clipped_all(self.sides[:, ink], near[:, 0::2])
        middles = (near[:, 1] + near[:, 3]) // 2
        return float(2 * np.fmax.reduce(np.maximum(middles - low, high - middles)) + 0.5)


def sampled(curve: Curve, width: float) -> tuple[Floats, Floats]:
    """Points of a curve, half a pixel apart, of a straight one its ends, as far as it may lie over
    boxes of a width.
    """
    reach = width / max(math.cos(curve.angle), FLATTEST) + curve_spare(curve)
    us = np.array([-reach, reach]) if curve.is_straight else np.arange(-reach, reach, 0.5)
    ends = np.clip(us, -curve.reach, curve.reach)
    ws, slopes = np.zeros(len(us)), np.zeros(len(us))
    for factor in reversed(curve.poly):
        slopes = slopes * ends + ws
        ws = ws * ends + factor
    ws += (us - ends) * slopes
    x, y = curve.origin
    return x + us * curve.cos - ws * curve.sin, y + us * curve.sin + ws * curve.cos


def curve_spare(curve: Curve) -> float:
    """How far a bent curve goes on beyond where its frame alone would reach."""
    return 0.0 if curve.is_straight else 3 * curve.reach


def sides_of(shapes: Floats) -> Floats:
    """The sides of shapes: of each shape the x and y where its sides begin, the x where they end,
    and how far they go.
    """
    steps = shapes[:, NEXT_CORNER] - shapes
    steps[:, :, 0] = np.where(steps[:, :, 0] == 0, 1.0, steps[:, :, 0])
    begin, after = (shapes[:, :, 0], shapes[:, :, 1]), shapes[:, NEXT_CORNER, 0]
    return np.stack([*begin, after, steps[:, :, 0], steps[:, :, 1]])


def clipped_all(sides: Floats, between: Floats) -> tuple[Floats, Floats]:
    """The least and the greatest y of convex shapes, told by their sides, between two x each; not a
    number where a shape is not there.
    """
    x, y, after_x, dx, dy = sides[:, :, None]
    before, after = x - between[:, :, None], after_x - between[:, :, None]
    is_within = (before[:, 0] >= 0) & (before[:, 1] <= 0)
    cut = np.where(before * after < 0, y - dy * before / dx, np.nan)
    values = np.concatenate([cut[:, 0], cut[:, 1], np.where(is_within, y[:, 0], np.nan)], axis=1)
    return np.fmin.reduce(values, axis=1), np.fmax.reduce(values, axis=1)


def advance_of(face: Face, character: str) -> int:
    """The advance of a character in the fonts that are written."""
    return round(face.advance(character) * EM)


class Name:
    """A text, with all that is the same for each of its places."""

    def __init__(self, text: str, face: Face, height: int, tracking: int = 0) -> None:
        self.text, self.face, self.height = text, face, height
        self.parts = clusters(text)
        self.letters = face.letters(text)
        self.is_run = len(self.letters) == 1 and len(self.parts) > 1
        self.tracking = 0 if self.is_run else tracking
        self.advances = [sum(advance_of(face, one) for one in part) for part in self.parts]
        wide = sum(letter.wide for letter in self.letters)
        self.length = wide * height + self.tracking * (len(self.letters) - 1)
        self.pitch = self.length / max(1, len(self.parts))
        self.inked = [
            Letter(one.text, one.wide, _wider(one.ink, SPARE / height)) for one in self.letters
        ]

    def has_ink(self) -> bool:
        """Whether there is anything to draw."""
        return self.length > 0 and any(one.ink for one in self.letters)

    def ask(self, is_beside: bool) -> Ask:
        """What is asked of a line that is to carry the name."""
        return Ask(self.length, self.pitch, self.is_run, is_beside)

    def wanted(self, fit: Fit, rise: float) -> Wanted:
        """The letters on a fit, raised from it by so many pixels."""
        curve = fit.curve(rise)
        middle = 0.0 if fit.is_upright else curve.at_x(0.0)
        places = places_of(self.inked, curve, self.height, middle, self.tracking)
        inks = [
            corners(one.ink, place, self.height)
            for one, place in zip(self.inked, places)
            if one.ink
        ]
        return Wanted(curve, fit.is_upright, rise, inks)

    def chain(self, wanted: Wanted) -> Chain | None:
        """The smallest boxes in which all letters have room at full height; none where there are
        none.
        """
        size, tries = self._least_size(wanted), 0
        while tries < MOST_SIZES:
            made = self._boxes(wanted, size)
            if made is None:
                return None
            need = wanted.need(np.array(made.core, dtype=np.float64))
            if need <= size:
                found = self._fits(made)
                if found is not None:
                    return made if found else None
                tries += 1
            larger = [one for one in SIZES if one > size and one >= need]
            if not larger:
                return None
            size = larger[0]
        return None

    def _least_size(self, wanted: Wanted) -> int:
        """The least height of boxes that may do; those of an upright name are known by being high
        and narrow.
        """
        least = 3 * (wanted.width + 2) if wanted.is_upright else self.height
        return (
            self.height
            if least <= self.height
            else next((one for one in SIZES if one >= least), SIZES[-1])
        )

    def _fits(self, chain: Chain) -> bool | None:
        """Whether the letters are drawn at full height in the boxes of a chain; none where higher
        ones might do.
        """
        shape = curve_of(chain.core, self.is_run)
        if shape is None:
            return False
        if lay_letters(
            self.inked, shape, Room(chain.boxes), chain.core, (self.height,), self.tracking
        ):
            return True
        return None

    def _boxes(self, wanted: Wanted, size: int) -> Chain | None:
        """Boxes of a height as the engine will make them, none where it would not."""
        total = sum(self.advances)
        wide_enough = [units for units in reversed(UNITS) if total * size >= wanted.width * units]
        for units in wide_enough[:MOST_TRIES]:
            chain = self._chain(wanted, size, units)
            if (
                len(chain.boxes) > MOST_BOXES
                or max(abs(side) for box in chain.boxes for side in box) > MOST_REACH
            ):
                return None
            if not any(_is_over_anchor(box, size) for box in chain.boxes):
                return chain
        return None

    def _chain(self, wanted: Wanted, size: int, units: int) -> Chain:
        """The boxes of a height and a font; beside an upright name that is raised from its line
        stands one more.
        """
        if not wanted.is_upright or wanted.rise == 0:
            boxes = boxes_of(self.advances, size, units, wanted)
            return Chain(boxes, self.text, size, FontChoice(units, 0), boxes)
        pad = math.ceil(2 * abs(wanted.rise) * units / size)
        if wanted.rise > 0:
            boxes = boxes_of([*self.advances, pad], size, units, wanted)
            return Chain(boxes, self.text + PAD, size, FontChoice(units, pad), boxes[:-1])
        boxes = boxes_of([pad, *self.advances], size, units, wanted)
        return Chain(boxes, PAD + self.text, size, FontChoice(units, pad), boxes[1:])


def boxes_of(advances: Sequence[int], size: int, units: int, wanted: Wanted) -> tuple[Box, ...]:
    """The boxes as the engine makes them for letters of these advances, their middles raised in
    whole pixels.
    """
    total = sum(advances)
    wide = max(1, -(-total * size // units))
    ends, run = [0], 0
    for advance in advances[:-1]:
        run += advance
        ends.append(run * size // units)
    ends.append(wide)
    sides = [
        (begin - wide // 2, max(end, begin + 1) - wide // 2) for begin, end in zip(ends, ends[1:])
    ]
    middles = np.array([(left + right) / 2 for left, right in sides])
    bottoms = np.floor(wanted.heights(middles) + 0.5).astype(np.int64) - size // 2
    return tuple(
        (left, int(bottom), right, int(bottom) + size)
        for (left, right), bottom in zip(sides, bottoms)
    )


def _is_over_anchor(box: Box, size: int) -> bool:
    """Whether the middle of a box stands just over the anchor and is to be raised, which the engine
    does not do.
    """
    return box[0] + box[2] == 0 and box[1] + size // 2 != 0


def _wider(ink: InkBox | None, more: float) -> InkBox | None:
    return ink and (ink[0] - more, ink[1] - more, ink[2] + more, ink[3] + more)
