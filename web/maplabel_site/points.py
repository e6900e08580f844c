"""Names as points of GeoJSON, for programs that draw them by their zooms."""

import json
import math
from collections.abc import Iterator
from dataclasses import dataclass
from fractions import Fraction
from pathlib import Path
from typing import Any

from maplabel_kit import along
from maplabel_kit.along import Face
from maplabel_kit.labels import Label
from maplabel_site import mercator
from maplabel_site.names import Labelled, Name, level_of, zooms_of

UNITS = 10_000_000
WORLD = 14_062_500


@dataclass(frozen=True)
class Wish:
    """How names are written: whether the map is projected, whether all are, the pixels of a tile,
    and a font for letters along lines.
    """

    is_projected: bool
    has_all: bool
    tile: int
    font: Path | None


def text_of(made: Labelled, wish: Wish, style: dict[str, Any]) -> tuple[str, int]:
    """The file's text, and how many names were left out."""
    base = Fraction(WORLD, 2 if wish.is_projected else 1) * 256 / wish.tile
    is_free = wish.is_projected or wish.has_all
    level = None if is_free else level_of([name.label for name in made.names])
    face, lines, left_out = Face.read(str(wish.font)) if wish.font else None, [], 0
    for name in made.names:
        zooms = zooms_of(name.label, base)
        if zooms is None:
            continue
        kept = level is None or name.label.reaches(level)
        points = list(_points_of(name, zooms, wish.is_projected, face)) if kept else []
        left_out += not points
        lines += [json.dumps(one, ensure_ascii=False) for one in points]
    told = {"way": "projected" if wish.is_projected else "degrees", "style": style}
    head = f'{{"type": "FeatureCollection", "maplabel": {json.dumps(told, ensure_ascii=False)}, '
    return head + '"features": [\n%s\n]}\n' % ",\n".join(lines), left_out


def place_of(label: Label, is_projected: bool) -> tuple[float, float]:
    """The longitude and the latitude of a label's anchor."""
    x, y = label.x / UNITS, label.y / UNITS
    east, north = mercator.back(x, y) if is_projected else (x, y)
    return round(east, 7), round(north, 7)


def _points_of(
    name: Name, zooms: tuple[float, float], is_projected: bool, face: Face | None
) -> Iterator[dict[str, Any]]:
    label = name.label
    common = {
        "id": label.id,
        "class": name.place,
        "min": _written(label.least),
        "until": _written(label.until),
        "minzoom": zooms[0],
        "maxzoom": zooms[1],
    }
    tiles = {"minzoom": math.floor(zooms[0]), "maxzoom": math.floor(zooms[1])}
    geometry = {"type": "Point", "coordinates": list(place_of(label, is_projected))}
    for part in _parts_of(name, face):
        yield {
            "type": "Feature",
            "tippecanoe": tiles,
            "geometry": geometry,
            "properties": {**common, **part},
        }


def _written(scale: Fraction) -> str:
    return f"{scale.numerator}/{scale.denominator}"


def _parts_of(name: Name, face: Face | None) -> Iterator[dict[str, Any]]:
    """What tells one point of a name from another: the text, the box, and for a letter along a line
    how it is turned.
    """
    boxes = name.label.boxes
    parts = [name.text] if len(boxes) == 1 else along.clusters(name.text)
    if len(parts) != len(boxes):
        return
    if len(boxes) == 1:
        yield {"text": name.text, **_box(boxes[0])}
        return
    height, spacing = along.wanted(name.feature.properties, boxes[0][3] - boxes[0][1])
    lies = along.lay(name.text, boxes, face, height, spacing) if face else None
    if lies is None:
        for number, (part, box) in enumerate(zip(parts, boxes)):
            whole = _whole(name) if number == 0 else {}
            yield {"text": part, **_box(box), "part": number, **whole}
        return
    hull = tuple(side(box[k] for box in boxes) for k, side in enumerate((min, min, max, max)))
    for number, letter in enumerate(lies.letters):
        turned = {"run": True} if lies.is_run else {}
        yield {
            "text": letter.text,
            **_box(hull),
            **letter.properties(),
            **turned,
            "part": number,
            **(_whole(name) if number == 0 else {}),
        }


def _whole(name: Name) -> dict[str, str]:
    """The whole name and all of its boxes, which stand with its first letter."""
    boxes = " ".join(",".join(map(str, box)) for box in name.label.boxes)
    return {"name": name.text, "boxes": boxes}


def _box(box: tuple[int, ...]) -> dict[str, int]:
    left, bottom, right, top = box
    return {"left": left, "bottom": bottom, "right": right, "top": top, "size": top - bottom}
