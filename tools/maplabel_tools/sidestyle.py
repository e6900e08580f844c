"""The places round a dot that a name may have, and the classes of a style that put it there."""

import re
from collections.abc import Iterable, Sequence
from dataclasses import dataclass, replace
from fractions import Fraction

from maplabel_kit import geojson, toml, zooms
from maplabel_kit.faults import Fault
from maplabel_kit.geojson import Feature
from maplabel_kit.labels import Box
from maplabel_kit.style import Class, Style

PROPERTY = "label_place"
PLACES = "right", "left", "above", "below"
MOST_SHIFT = 256


@dataclass(frozen=True)
class Place:
    """A place of a name: the class that it had, the side of the dot, by how many pixels the box is
    moved, and perhaps a scale from which on the name is not shown.
    """

    base: int
    side: str
    dx: int
    dy: int
    most: Fraction | None = None

    def text(self) -> str:
        """The value of the property that names the place."""
        words = [str(self.base), self.side] + ([str(self.dx)] if self.dx else [])
        return " ".join(words + ([f"to {self.most}"] if self.most else []))

    def until(self, most: Fraction | None) -> "Place":
        """The same place up to a scale, where that is told."""
        return replace(self, most=most)


def place_of(base: Class, side: str, width: int, gap: int) -> Place | None:
    """The place of a name of a width on a side of the dot, none where the box would have to be
    moved too far.
    """
    size = base.size
    dx, dy = {
        "right": (gap + width // 2, 0),
        "left": (-gap - width + width // 2, 0),
        "above": (0, gap + size // 2),
        "below": (0, -gap - size + size // 2),
    }[side]
    fits = abs(dx) <= MOST_SHIFT and abs(dy) <= MOST_SHIFT
    return Place(base.place, side, dx, dy) if fits else None


def places_of(feature: Feature, style: Style, gap: int) -> list[Place]:
    """The places that the name of a feature may have, none where no class of points takes it or it
    has no name.
    """
    base, name = style.class_of(feature), feature.name(style.name)
    if base is None or base.kind != "point" or name is None:
        return []
    width = style.fonts[base.font].width(geojson.shown(name), base.size)
    return [one for one in (place_of(base, side, width, gap) for side in PLACES) if one]


def margin_for(gap: int, dot: int) -> int:
    """The margin with which no name lies over the dot of another whose name is apart from it.

    A name that is apart from one at `gap` beside a dot ends two margins before that; this is not
    behind the edge of the dot, so that 2 * margin >= gap + dot / 2.
    """
    return -(-(2 * gap + dot) // 4) if dot else 0


def with_places(text: str, style: Style, places: Iterable[Place], margin: int) -> str:
    """The text of a style with a class for each place before its own classes, which stay for all
    other features. Their margins are at least the one that is told.
    """
    head = re.search(r"^[ \t]*\[\[[ \t]*class[ \t]*\]\]", text, re.M)
    if not head:
        raise Fault(
            "the style has no line [[class]], before which the classes of the places would stand"
        )
    made = ["# The places of names round their dots, as tools/sides chose them."]
    for one in sorted(places, key=_order):
        made += _class_lines(one, style.classes[one.base], margin)
    begin = _comment_before(text, head.start())
    return text[:begin] + "\n".join(made) + "\n" + text[begin:]


def _order(place: Place) -> tuple[int, int, int, Fraction]:
    return place.base, PLACES.index(place.side), place.dx, place.most or Fraction(0)


def _comment_before(text: str, at: int) -> int:
    """Where the lines of comment begin that stand right before a place."""
    while True:
        before = text.rfind("\n", 0, max(at - 1, 0)) + 1
        if before >= at or not text[before:at].lstrip().startswith("#"):
            return at
        at = before


def _class_lines(place: Place, base: Class, margin: int) -> list[str]:
    """The class of a place: like the class that it comes from, but for the box's place, its margin,
    and where it ends sooner.
    """
    most = base.most
    if place.most is not None and Fraction(base.least) < place.most < Fraction(base.most):
        most = zooms.asked(place.most)
    return [
        "[[class]]",
        f"title = {toml.text(title_of(place, base))}",
        'geometry = "point"',
        f'key = "{PROPERTY}"',
        f"value = {toml.text(place.text())}",
        f"font = {toml.text(base.font)}",
        f"size = {base.size}",
        f"priority = {base.priority}",
        f"dx = {place.dx}",
        f"dy = {place.dy}",
        f'min = "{base.least}"',
        f'max = "{most}"',
        f"margin = {max(base.margin, margin)}",
        "",
    ]


def title_of(place: Place, base: Class) -> str:
    """What the class of a place is called."""
    width = 2 * abs(place.dx) if place.dx else 0
    wide = f", names of about {width} px" if width else ""
    ends = " that end at a dot" if place.most else ""
    return f"{base.title()}, {place.side}{wide}{ends}"


def box_of(place: Place, width: int, size: int) -> Box:
    """The box of a name at a place, in pixels about its dot, y upwards."""
    left, bottom = place.dx - width // 2, place.dy - size // 2
    return left, bottom, left + width, bottom + size


def with_place(feature_text: str, place: Place) -> str:
    """The text of a feature with its place as the last property, which counts where an earlier one
    has the key.
    """
    return geojson.with_property(feature_text, PROPERTY, place.text())


def is_placed(style: Style) -> bool:
    """Whether a style has classes of places."""
    return any(one.key == PROPERTY for one in style.classes)


def bases_of(classes: Sequence[Class]) -> dict[int, tuple[int, Class]]:
    """For the place of each class of places: the number of the class that it was made of, and the
    first class of places of that.
    """
    firsts: dict[int, Class] = {}
    found = {}
    for one in classes:
        if one.key == PROPERTY and one.value:
            base = int(one.value.split(" ")[0])
            found[one.place] = base, firsts.setdefault(base, one)
    return found
