"""A picture of a view, with the outlines of the map, in which names along lines are drawn letter by
letter, turned.
"""

import math
from collections.abc import Iterator, Sequence
from dataclasses import dataclass
from typing import Any
from xml.sax.saxutils import escape

from maplabel_kit import geojson
from maplabel_kit.along import MADE, Face, clusters, lay, wanted

UNITS_OF_DEGREE = 10_000_000
# Of the height of a text: how far its base line is above its box.
BASE = 0.21
DOT = 2.5
LAND = "#f5f4ef"
TEXTS = "font-kerning:none;paint-order:stroke;stroke-width:3px;stroke-linejoin:round"
LINE_COLOURS = {"river": "#8fb4d3", "street": "#c9c3b8"}
# Of names along lines: streets are written as on printed maps, all others as rivers.
NAME_COLOURS = {"street": "#3d3a34"}
NAME_COLOUR = "#1f5f96"
Place = tuple[float, float]


@dataclass(frozen=True)
class View:
    """A window: its middle in units of the engine, its pixels and its scale."""

    cx: int
    cy: int
    width: int
    height: int
    scale: float

    def pixel(self, x: float, y: float) -> Place:
        """Where a place of the engine's plane is, from the left and from the top."""
        return (
            self.width / 2 + (x - self.cx) / self.scale,
            self.height / 2 - (y - self.cy) / self.scale,
        )

    def meets(self, places: Sequence[Place]) -> bool:
        """Whether the box about pixels meets the window."""
        xs, ys = [x for x, _ in places], [y for _, y in places]
        return max(xs) >= 0 and min(xs) <= self.width and max(ys) >= 0 and min(ys) <= self.height


@dataclass(frozen=True)
class Looks:
    """What a picture is drawn with: the face of its letters, their family, and whether names are
    turned.
    """

    face: Face
    family: str
    is_turned: bool


def svg(
    view: View, labels: Sequence[dict[str, Any]], features: Sequence[geojson.Feature], looks: Looks
) -> str:
    """The text of a picture of the labels of a view over the outlines of features."""
    lines = [
        f'<svg xmlns="http://www.w3.org/2000/svg" width="{view.width}" height="{view.height}" '
        f'viewBox="0 0 {view.width} {view.height}" font-family="{escape(looks.family)}">',
        f"<style>text{{{TEXTS}}}</style>",
        f'<rect width="100%" height="100%" fill="{LAND}"/>',
    ]
    for feature in features:
        lines += outlines(view, feature)
    known = {one.id: one for one in features}
    for label in labels:
        lines += names(view, label, known.get(label["id"]), looks)
    return "\n".join([*lines, "</svg>"]) + "\n"


def outlines(view: View, feature: geojson.Feature) -> Iterator[str]:
    """The lines of a feature; those that were made for names are left out."""
    if feature.kind not in ("line", "area") or MADE in feature.properties:
        return
    colour = LINE_COLOURS.get(str(feature.properties.get("kind")), "#d3c7b3")
    for part in parts_of(feature.geometry):
        places = [
            view.pixel(float(x) * UNITS_OF_DEGREE, float(y) * UNITS_OF_DEGREE) for x, y, *_ in part
        ]
        if view.meets(places):
            drawn = " ".join(f"{x:.1f},{y:.1f}" for x, y in places)
            yield f'<polyline points="{drawn}" fill="none" stroke="{colour}" stroke-width="1.2"/>'


def parts_of(geometry: dict[str, Any] | None) -> Iterator[list[Any]]:
    """The lists of positions of a geometry of lines or areas."""
    waiting = [(geometry or {}).get("coordinates") or []]
    while waiting:
        item = waiting.pop(0)
        if item and item[0] and not isinstance(item[0][0], list):
            yield item
        else:
            waiting.extend(item)


def names(
    view: View, label: dict[str, Any], feature: geojson.Feature | None, looks: Looks
) -> Iterator[str]:
    """A label as it is drawn."""
    x, y = view.pixel(*label["at"])
    x, y = math.floor(x + 0.5), math.floor(y + 0.5)
    if len(label["boxes"]) > 1:
        yield from along(x, y, label, feature, looks)
        return
    left, bottom, right, top = label["boxes"][0]
    if left > 0 or bottom > 0 or right < 0 or top < 0:
        yield f'<circle cx="{x}" cy="{y}" r="{DOT}" fill="#444" stroke="#fff"/>'
    size = top - bottom
    yield (
        f'<text x="{x + (left + right) / 2}" y="{y - bottom - round(BASE * size)}" '
        f'font-size="{size}" text-anchor="middle" '
        'fill="#1a1a1a" stroke="#ffffff" '
        f'stroke-opacity="0.85">{escape(label["text"].strip())}</text>'
    )


def along(
    x: int, y: int, label: dict[str, Any], feature: geojson.Feature | None, looks: Looks
) -> Iterator[str]:
    """A name of several boxes: turned along their curve, or upright in them."""
    size = label["boxes"][0][3] - label["boxes"][0][1]
    properties = feature.properties if feature else {}
    height, spacing = wanted(properties, size)
    found = (
        lay(label["text"], label["boxes"], looks.face, height, spacing) if looks.is_turned else None
    )
    colour = NAME_COLOURS.get(str(properties.get("kind")), NAME_COLOUR)
    style = f'fill="{colour}" stroke="#ffffff" stroke-opacity="0.8"'
    if found is None:
        for part, (left, bottom, right, top) in zip(clusters(label["text"]), label["boxes"]):
            place = f'x="{x + (left + right) / 2}" y="{y - bottom - round(BASE * (top - bottom))}"'
            how = f'font-size="{top - bottom}" text-anchor="middle" {style}'
            yield f"<text {place} {how}>{escape(part)}</text>"
        return
    anchor = ' text-anchor="middle"' if found.is_run else ""
    for letter in found.letters:
        told = letter.properties()
        place = f'translate({x + told["dx"]:.2f} {y + told["dy"]:.2f}) rotate({told["angle"]:.2f})'
        how = f'font-size="{letter.height}"{anchor} {style}'
        yield f'<text transform="{place}" {how}>{escape(letter.text)}</text>'
