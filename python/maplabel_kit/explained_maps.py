"""What is wrong with a map that the program refuses."""

import json
import re
from typing import Any

from maplabel_kit import excerpts, formats
from maplabel_kit.told import Told, near

TYPES = ("Point", "MultiPoint", "LineString", "MultiLineString", "Polygon", "MultiPolygon")
DEPTHS = dict(zip(TYPES, (0, 1, 1, 2, 2, 3)))
FULL = (
    "leave out features that need no label, cut the map by place, or take `atlas/atlas make`, "
    "which labels millions of places exactly"
)


def told_of(words: list[str], data: bytes, path: str) -> Told:
    """What is known of a map's fault, from the words of the program's line behind `map refused:
    N`.
    """
    name = words[0]
    if name == "Full":
        return _full(data)
    if name in ("NotJson", "NotCollection"):
        if other := formats.of(data, path):
            return Told(f"this is {other.name}", todo=other.command(path))
    if name == "NotCollection":
        return _not_collection(data)
    number = int(words[1])
    if name == "NotJson":
        return _not_json(data, number)
    if name == "Deep":
        return Told(
            "a 65th list or map within one another begins here",
            todo="take out the deep members: the geometries need no more than 8",
            place=excerpts.at_byte(data, number),
        )
    return _feature(data.decode("utf-8", "replace"), number, name)


def _full(data: bytes) -> Told:
    value = _value(data.decode("utf-8-sig", "replace"))
    count = len(value["features"]) if isinstance(value, dict) and "features" in value else 0
    many = f"{count:,}" if count else "more"
    return Told(
        f"there are {many} features, and a map has at most 32,768, those without a label counted",
        todo=FULL,
    )


def _not_json(data: bytes, number: int) -> Told:
    place = excerpts.at_byte(data, number)
    try:
        data.decode("utf-8")
    except UnicodeDecodeError as error:
        if error.start <= number < error.end + 3:
            return Told(
                "these bytes are no UTF-8: the file has another character set",
                todo="`iconv -f ISO-8859-1 -t UTF-8` turns it",
                place=place,
            )
    if number >= len(data.rstrip()):
        return Told("the file ends here", "it may have been cut off", place=place)
    return Told(
        "no JSON text goes on like this",
        "often a comma is too many or too few, or a quote is not closed",
        place=place,
    )


def _not_collection(data: bytes) -> Told:
    text = data.decode("utf-8", "replace")
    value = _value(text)
    kind = value.get("type") if isinstance(value, dict) else None
    return Told(
        f'the file is a map of the type "{kind}"' if kind else "the file is no map with a `type`",
        'it may be {"type":"FeatureCollection","features":[..]} or one {"type":"Feature",..}',
        "export the layer as GeoJSON: ogr2ogr -f GeoJSON -t_srs EPSG:4326 OUT.geojson LAYER",
        excerpts.first_match(text, r'.*"type"'),
    )


def _value(text: str) -> Any:
    try:
        return json.loads(text)
    except (ValueError, RecursionError):
        return None


def _feature(text: str, number: int, name: str) -> Told:
    """Where feature `number` begins, and what is wrong with it."""
    at, item = _item(text, number)
    if at is None:
        return Told(f"feature {number} is at fault")
    place = excerpts.at_character(text, at)
    if not isinstance(item, dict) or name == "NotFeature":
        return Told(
            f"item {number} of the features is no map of the type Feature",
            todo='put a geometry into {"type":"Feature","geometry":..,"properties":{..}}',
            place=place,
        )
    called = f"feature {number}, {_called(item)}"
    geometry = item.get("geometry")
    if name == "OutOfRange":
        return _out_of_range(called, geometry, place)
    if name == "ShortRing":
        return Told(
            f"{called}: a ring of its polygon has fewer than four positions",
            todo="repair the geometry (ogr2ogr -makevalid), or leave the ring out",
            place=place,
        )
    return Told(f"{called}: {_bad_geometry(geometry)}", todo=TODO_GEOMETRY, place=place)


TODO_GEOMETRY = (
    "compare `type` with the nesting of `coordinates`; " "a geometry that is not wanted may be null"
)


def _item(text: str, number: int) -> tuple[int | None, Any]:
    """Where item `number` of the features begins, and what it is; none where that cannot be
    read.
    """
    found = re.search(r'"features"\s*:\s*\[', text)
    if not found:
        return (0, _value(text)) if number == 0 else (None, None)
    decoder, at = json.JSONDecoder(), _skipped(text, found.end())
    try:
        for _ in range(number):
            _, at = decoder.raw_decode(text, at)
            at = _skipped(text, at)
        return at, decoder.raw_decode(text, at)[0]
    except (ValueError, RecursionError):
        return None, None


def _skipped(text: str, at: int) -> int:
    """The place of the next item of a list."""
    found = re.compile(r"[\s,]*").match(text, at)
    return found.end() if found else at


def _called(item: dict[str, Any]) -> str:
    """A feature's id and properties."""
    own = json.dumps(item.get("properties"), ensure_ascii=False)[:80]
    return (f"id {item['id']}" if "id" in item else "without id") + f", properties {own}"


def _bad_geometry(geometry: Any) -> str:
    """What is wrong with a geometry."""
    if not isinstance(geometry, dict):
        return "its geometry is no map"
    kind = geometry.get("type")
    if kind not in DEPTHS:
        return f'its geometry has the type "{kind}"{near(str(kind), TYPES)}'
    coordinates = geometry.get("coordinates")
    if not isinstance(coordinates, list):
        return f"its {kind} has no list of coordinates"
    depth = _depth(coordinates)
    if depth != DEPTHS[kind] + 1:
        return (
            f"its {kind} has coordinates of {depth} lists within one another, "
            f"and {DEPTHS[kind] + 1} are due"
        )
    return f"its {kind} has a position that does not begin with two numbers"


def _depth(value: Any) -> int:
    depth = 0
    while isinstance(value, list):
        depth += 1
        value = value[0] if value else None
    return depth


def _out_of_range(called: str, geometry: Any, place: excerpts.Place) -> Told:
    """The first position beyond 200 degrees, and whether it looks like metres."""
    coordinates = geometry.get("coordinates") if isinstance(geometry, dict) else None
    position = _beyond(coordinates)
    if position is None:
        return Told(f"{called}: a position is beyond 200 degrees", place=place)
    x, y = position[:2]
    return Told(
        f"{called}: its position {x}, {y} is beyond 200 degrees",
        "it looks like metres" if max(abs(x), abs(y)) > 360 else "",
        "export in longitude and latitude (ogr2ogr -t_srs EPSG:4326)",
        place,
    )


def _beyond(coordinates: Any) -> list[Any] | None:
    waiting = [coordinates or []]
    while waiting:
        one = waiting.pop(0)
        if not isinstance(one, list) or not one:
            continue
        if isinstance(one[0], list):
            waiting = one + waiting
        elif len(one) > 1 and any(isinstance(v, (int, float)) and abs(v) > 200 for v in one[:2]):
            return one
    return None
