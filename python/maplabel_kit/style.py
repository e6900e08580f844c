"""Styles as the tools read them, once the program has accepted them."""

import tomllib
from dataclasses import dataclass, field
from fractions import Fraction
from functools import cached_property
from pathlib import Path
from typing import Any

from maplabel_kit.faults import Fault
from maplabel_kit.files import must_read
from maplabel_kit.geojson import Feature

KEYS = ("version", "name", "rank", "fonts", "class")
FONT_KEYS = ("units", "default", "advances", "family")
CLASS_KEYS = (
    "geometry",
    "key",
    "value",
    "font",
    "size",
    "priority",
    "ref",
    "dx",
    "dy",
    "min",
    "max",
    "margin",
)


@dataclass(frozen=True)
class Font:
    """A font of a style: the units of its em, the default advance and those of its characters."""

    units: int
    default: int
    advances: dict[str, int] = field(hash=False)

    def width(self, text: str, size: int) -> int:
        """The width of a text in whole pixels, rounded up."""
        total = sum(self.advances.get(character, self.default) for character in text)
        return max(1, -(-total * size // self.units))


@dataclass(frozen=True)
class Class:
    """A class of a style, with its place in it. `least` and `most` are its `min` and `max`, as they
    stand.
    """

    place: int
    kind: str
    key: str | None
    value: str | None
    font: str
    size: int
    priority: int
    least: str
    most: str
    margin: int
    dx: int
    dy: int
    ref: int | None
    called: str | None = None

    def wants(self) -> "Wanted":
        """The kind of the features that it takes and, where a key is told, their value of it."""
        return self.kind, self.key, self.value if self.key is not None else None

    def fits(self, feature: Feature) -> bool:
        """Whether a feature has this kind and, where a key is told, this value."""
        return self.wants() == wanted(feature, self.key)

    def scales(self) -> tuple[Fraction, Fraction]:
        """The scales from which on and below which its labels may be shown."""
        return Fraction(self.least), Fraction(self.most)

    def title(self) -> str:
        """How the class is called in lines for a person: by its `title`, else by what it takes."""
        if self.called:
            return self.called
        if self.key is None:
            return f"{self.kind} (all others)"
        return f"{self.kind} {self.key}={self.value}"

    def reach(self) -> tuple[int, int]:
        """From which height to which the straight box reaches, with its margin, in pixels above the
        anchor.
        """
        dy = 0 if self.kind == "line" else self.dy
        bottom = dy - self.size // 2
        return bottom - self.margin, bottom + self.size + self.margin


Wanted = tuple[str | None, str | None, str | None]


def wanted(feature: Feature, key: str | None) -> Wanted:
    """What a class of this key wants where it takes the feature."""
    return feature.kind, key, feature.text(key)


@dataclass
class Style:
    """A style: the keys of name and rank, its fonts and its classes in order."""

    name: str
    rank: str
    fonts: dict[str, Font]
    classes: list[Class]

    def class_of(self, feature: Feature) -> Class | None:
        """The first class that fits a feature, or none."""
        found = (self._firsts.get(wanted(feature, key)) for key in self._keys)
        fits = [one for one in found if one is not None]
        return min(fits, key=lambda one: one.place) if fits else None

    @cached_property
    def _keys(self) -> set[str | None]:
        return {one.key for one in self.classes}

    @cached_property
    def _firsts(self) -> dict[Wanted, Class]:
        """The first class of those that want the same: a map may have thousands of classes."""
        return {one.wants(): one for one in reversed(self.classes)}

    def common_height(self) -> int | None:
        """A height above the anchor that the boxes of all classes of points and areas reach, or
        none.
        """
        reaches = [one.reach() for one in self.classes if one.kind != "line"]
        low = max((a for a, _ in reaches), default=0)
        high = min((b for _, b in reaches), default=0)
        return None if low > high else 0 if low <= 0 <= high else low


def read(path: str | Path) -> Style:
    """The style of a file that the program has accepted."""
    try:
        tree = tomllib.loads(must_read(path, "the style").decode("utf-8-sig"))
    except ValueError as error:
        raise Fault(f"the style {path} is no TOML text for Python: {error}") from None
    return of_tree(tree)


def of_tree(tree: dict[str, Any]) -> Style:
    """The style of a TOML tree."""
    fonts = {
        name: Font(font["units"], font["default"], font.get("advances", {}))
        for name, font in _table(tree.get("fonts")).items()
    }
    has_margins = tree.get("version") == 2
    items = enumerate(tree.get("class", []))
    classes = [_class_of(place, item, has_margins) for place, item in items]
    return Style(_key(tree, "name"), _key(tree, "rank"), fonts, classes)


def _class_of(place: int, item: dict[str, Any], has_margins: bool) -> Class:
    return Class(
        place,
        item["geometry"],
        item.get("key"),
        item.get("value"),
        item["font"],
        item["size"],
        item["priority"],
        item["min"],
        item["max"],
        item.get("margin", 0) if has_margins else 0,
        item.get("dx", 0),
        item.get("dy", 0),
        item.get("ref"),
        title if isinstance(title := item.get("title"), str) else None,
    )


def _table(value: object) -> dict[str, Any]:
    return value if isinstance(value, dict) else {}


def _key(tree: dict[str, Any], which: str) -> str:
    value = tree.get(which)
    return value if isinstance(value, str) else which
