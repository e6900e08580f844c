"""How a name lies in its boxes: its height, and the place and the angle of each letter."""

import math
from collections.abc import Mapping, Sequence
from dataclasses import dataclass

from maplabel_kit.along.curve import Box, Curve, Point, Shape, curve_of
from maplabel_kit.along.face import Face, Letter
from maplabel_kit.along.room import Room
from maplabel_kit.along.scripts import clusters, is_whole
from maplabel_kit.geojson import Number

# Of the height of letters: how far the base line is below the middle of a box.
RISE = 0.29
# Of the wanted height: smaller than this a name is not drawn along its boxes. A run that is written
# whole may be smaller.
LEAST, LEAST_WHOLE = 0.7, 0.4
# Degrees by which a drawn letter may be turned against the one before it.
MOST_TURN = 15.0
# The properties of a feature that tell the height of its letters and the pixels between them, and
# what holds without.
HEIGHT, SPACING = "line_height", "line_spacing"
# The property that tools/lines gives to features that it made for names alone.
MADE = "line_label"
DEFAULT_HEIGHT, MOST_SPACING = 12, 64.0

Place = tuple[float, float, float]


@dataclass(frozen=True)
class Placed:
    """A letter, or a run that is written whole, where it is drawn: the pen's place on the base line
    in pixels about the anchor, y upwards, its angle in radians against the clock, and its height. A
    run is centred about that place.
    """

    text: str
    x: float
    y: float
    angle: float
    height: int

    def properties(self) -> dict[str, float | int]:
        """As exports tell it: `angle` in degrees, clockwise from level, `dx` and `dy` in pixels
        east and south.
        """
        angle = round(-math.degrees(self.angle), 2)
        return {
            "angle": angle + 0.0,
            "dx": round(self.x, 2),
            "dy": round(0.0 - self.y, 2),
            "size": self.height,
        }


@dataclass(frozen=True)
class Lay:
    """A name along its boxes: the height of its letters, and those that have ink, each where it is
    drawn.
    """

    height: int
    is_run: bool
    is_straight: bool
    letters: tuple[Placed, ...]


def wanted(properties: Mapping[str, object], size: int) -> tuple[int, float]:
    """The height of letters and the pixels between them, as the properties of a feature tell them
    for boxes of a height: `line_height`, else 12, and at most the boxes' own, and `line_spacing`,
    else none.
    """
    height, spacing = (number_of(properties.get(key)) for key in (HEIGHT, SPACING))
    own = DEFAULT_HEIGHT if height is None or height < 1 else int(height)
    return min(own, size), min(max(spacing or 0.0, 0.0), MOST_SPACING)


def number_of(value: object) -> float | None:
    """The value of a property that is a number, or a number kept as it stood in its text; else
    none.
    """
    if isinstance(value, bool) or not isinstance(value, (int, float, Number)):
        return None
    return float(value)


def corners(ink: Box, place: Place, height: float) -> list[Point]:
    """The corners of a letter's ink, turned about the pen's place."""
    left, bottom, right, top = (height * value for value in ink)
    x, y, angle = place
    cos, sin = math.cos(angle), math.sin(angle)
    flat = ((left, bottom), (right, bottom), (right, top), (left, top))
    return [(x + u * cos - w * sin, y + u * sin + w * cos) for u, w in flat]


def places_of(
    letters: Sequence[Letter], curve: Curve, height: float, middle: float, spacing: float = 0.0
) -> list[Place]:
    """The pen's place and angle for each letter, all together about the curve's middle."""
    total = sum(letter.wide for letter in letters) * height + spacing * (len(letters) - 1)
    u, found = curve.step(middle, -total / 2), []
    ax, ay = curve.place(u)
    for letter in letters:
        after = curve.step(u, letter.wide * height)
        bx, by = curve.place(after)
        angle = math.atan2(by - ay, bx - ax) if after > u else curve.angle
        found.append(
            (ax + RISE * height * math.sin(angle), ay - RISE * height * math.cos(angle), angle)
        )
        u = curve.step(after, spacing) if spacing else after
        ax, ay = curve.place(u) if spacing else (bx, by)
    return found


def most_turn(letters: Sequence[Letter], places: Sequence[Place]) -> float:
    """The greatest angle in degrees between a letter with ink and the next one."""
    angles = [math.degrees(place[2]) for letter, place in zip(letters, places) if letter.ink]
    return max((abs(b - a) for a, b in zip(angles, angles[1:])), default=0.0)


def core_of(text: str, boxes: Sequence[Box]) -> Sequence[Box]:
    """The boxes of a text without those of the spaces before and behind it."""
    parts = clusters(text)
    if len(parts) != len(boxes):
        return boxes
    inked = [k for k, part in enumerate(parts) if not part.isspace()]
    return boxes[inked[0] : inked[-1] + 1] if inked else boxes


def lay_letters(
    letters: Sequence[Letter],
    shape: Shape,
    room: Room,
    core: Sequence[Box],
    heights: Sequence[int],
    spacing: float = 0.0,
) -> tuple[int, list[Place]] | None:
    """The first of the heights at which the ink of all letters is within the boxes, with their
    places; or none.
    """
    middle = shape.curve.at_x((core[0][0] + max(box[2] for box in core)) / 2)
    for height in heights:
        places = places_of(letters, shape.curve, height, middle, spacing)
        if most_turn(letters, places) > MOST_TURN:
            return None
        inks = (corners(one.ink, place, height) for one, place in zip(letters, places) if one.ink)
        if all(map(room.has, inks)):
            return height, places
    return None


def lay(
    text: str, boxes: Sequence[Box], face: Face, height: int, spacing: float = 0.0
) -> Lay | None:
    """How a name lies along its boxes, at most so high; none where it does not, and its letters
    stand upright.

    None comes where the boxes follow no smooth curve, where a letter would be turned by more than
    15 degrees against the one before it, or where the letters would be smaller than 0.7 of the
    height, of a run 0.4.
    """
    run = text.strip()
    if not run or not boxes or height < 1:
        return None
    is_run, core = is_whole(run), core_of(text, boxes)
    shape = curve_of(core, is_run)
    if shape is None:
        return None
    letters = face.letters(run)
    least = math.ceil((LEAST_WHOLE if is_run else LEAST) * height)
    found = lay_letters(
        letters, shape, Room(boxes), core, range(height, least - 1, -1), 0.0 if is_run else spacing
    )
    if found is None:
        return None
    size, places = found
    return Lay(size, is_run, shape.is_straight, tuple(_placed(letters, places, size, is_run)))


def _placed(
    letters: Sequence[Letter], places: Sequence[Place], height: int, is_run: bool
) -> list[Placed]:
    """The letters that have ink; a run is told by its middle, since programs shape it to widths of
    their own.
    """
    found = []
    for letter, (x, y, angle) in zip(letters, places):
        half = letter.wide * height / 2 if is_run else 0.0
        if letter.ink:
            found.append(
                Placed(
                    letter.text,
                    x + half * math.cos(angle),
                    y + half * math.sin(angle),
                    angle,
                    height,
                )
            )
    return found
