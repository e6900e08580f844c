"""GeoJSON as the tools read and write it: numbers stay as they stand in the text, so a rank stays
exact.
"""

import json
from collections.abc import Iterable, Iterator, Sequence
from dataclasses import dataclass
from pathlib import Path
from typing import Any

from maplabel_kit.faults import Fault
from maplabel_kit.files import must_read

KINDS = {
    "Point": "point",
    "MultiPoint": "point",
    "LineString": "line",
    "MultiLineString": "line",
    "Polygon": "area",
    "MultiPolygon": "area",
}
MOST_RANK = 2**53
MOST_DIGITS = 16


class Number(str):
    """A number of a JSON text, as it stands there."""


@dataclass
class Feature:
    """A feature: its id, its kind (or none, without a geometry), its geometry and its properties.

    Numbers of properties and of coordinates are of the class `Number`.
    """

    id: str
    kind: str | None
    geometry: dict[str, Any] | None
    properties: dict[str, Any]

    def text(self, key: str | None) -> str | None:
        """The text of a property as classes compare it: none of null, of lists and of maps."""
        return None if key is None else text_of(self.properties.get(key))

    def name(self, key: str) -> str | None:
        """The name, where the property is one: a string or a number that is not of spaces alone."""
        value = self.properties.get(key)
        return value if isinstance(value, str) and value.strip(" ") else None

    def rank(self, key: str) -> int:
        """The rank: the whole part of a number from 0 to 2^53; 0 for anything else, a number in
        quotes too.
        """
        value = self.properties.get(key)
        return rank_of(value) if isinstance(value, Number) else 0


def rank_of(number: str) -> int:
    """The whole part of a number that is told as JSON writes it, from 0 to 2^53, exactly."""
    digits, _, exponent = number.lower().partition("e")
    front, _, back = digits.partition(".")
    if front.startswith("-"):
        return 0
    power = _bounded(exponent or "0", 10**6) - len(back)
    whole = (front + back).lstrip("0")
    if not whole or len(whole) + power <= 0:
        return 0
    if len(whole) + power > MOST_DIGITS:
        return MOST_RANK
    return min(int(whole[: len(whole) + power].ljust(len(whole) + power, "0")), MOST_RANK)


def _bounded(exponent: str, most: int) -> int:
    """An exponent; one of many digits is as good as one of some."""
    sign = -1 if exponent.startswith("-") else 1
    digits = exponent.lstrip("+-").lstrip("0")
    return sign * (most if len(digits) > len(str(most)) else min(int(digits or "0"), most))


def shown(name: str) -> str:
    """A name as the engine shows it: each character that cannot be shown is a space."""
    return "".join(" " if _is_hidden(one) else one for one in name)


def _is_hidden(one: str) -> bool:
    return one < " " or "\x7f" <= one <= "\x9f" or one in "\ufffe\uffff"


def text_of(value: object) -> str | None:
    """The text of a property's value, or none."""
    if isinstance(value, bool):
        return "true" if value else "false"
    return str(value) if isinstance(value, str) else None


def parse(text: str) -> Any:
    """The value of a JSON text, whose numbers are kept as they stand."""
    return json.loads(text, parse_int=Number, parse_float=Number)


def write(value: Any) -> str:
    """A value as compact JSON text; numbers that were kept stand there as they did, and letters as
    they are.
    """
    if isinstance(value, Number):
        return str(value)
    if isinstance(value, dict):
        inner = ",".join(f"{_quoted(key)}:{write(item)}" for key, item in value.items())
        return "{" + inner + "}"
    if isinstance(value, (list, tuple)):
        return "[" + ",".join(map(write, value)) + "]"
    return _quoted(value)


_quoted = json.JSONEncoder(ensure_ascii=False).encode


def collection(features: Iterable[str]) -> str:
    """The text of a map file of features that are told by their texts, each on a line of its
    own.
    """
    return '{"type":"FeatureCollection","features":[\n' + ",\n".join(features) + "\n]}\n"


def feature_text(own: str | None, geometry: Any, properties: dict[str, Any]) -> str:
    """The text of a feature, without an id where that is none."""
    made: dict[str, Any] = {"type": "Feature"} | ({} if own is None else {"id": own})
    return write(made | {"geometry": geometry, "properties": properties})


def features_of(text: str) -> list[Feature]:
    """The features of a map as a server exports it (`/map`), all of which have ids."""
    return [
        Feature(item["id"], kind_of(item["geometry"]), item["geometry"], item["properties"] or {})
        for item in parse(text)["features"]
    ]


def split_features(text: str) -> list[str]:
    """The text of each feature of a map as a server exports it, byte by byte as it stands there."""
    decoder, found = json.JSONDecoder(), []
    at = text.index('"features":[') + len('"features":[')
    while text[at] != "]":
        _, end = decoder.raw_decode(text, at)
        found.append(text[at:end])
        at = end + 1 if text[end] == "," else end
    return found


def with_property(feature: str, key: str, value: str) -> str:
    """The text of an exported feature with one more property, which counts where an earlier one has
    the key.
    """
    at = feature.index('"properties":{') + len('"properties":{')
    comma = "" if feature[at] == "}" else ","
    return f"{feature[:-2]}{comma}{_quoted(key)}:{_quoted(value)}}}}}"


def kind_of(geometry: dict[str, Any] | None) -> str | None:
    """The kind of a geometry, none where there is none or it has no position."""
    if not geometry or geometry.get("type") not in KINDS:
        return None
    return KINDS[geometry["type"]] if next(positions(geometry), None) else None


def positions(geometry: dict[str, Any] | None) -> Iterator[list[Any]]:
    """All positions of a geometry, in order, with their numbers as they stand."""
    waiting: list[Any] = [(geometry or {}).get("coordinates") or []]
    while waiting:
        item = waiting.pop()
        if item and not isinstance(item[0], list):
            yield item
        else:
            waiting.extend(reversed(item))


def first_place(geometry: dict[str, Any] | None) -> tuple[float, float] | None:
    """The first position of a geometry as longitude and latitude, or none."""
    place = next(positions(geometry), None)
    return (float(place[0]), float(place[1])) if place else None


def extent_of(features: Sequence[Feature]) -> tuple[float, float, float, float] | None:
    """West, south, east and north of all positions in degrees, or none."""
    places = [
        (float(place[0]), float(place[1])) for one in features for place in positions(one.geometry)
    ]
    if not places:
        return None
    east, north = zip(*places)
    return min(east), min(north), max(east), max(north)


def raw_map(path: str | Path) -> dict[str, Any]:
    """The value of a map file as it stands there, whose form the program has accepted."""
    data = must_read(path, "the map")
    try:
        value: dict[str, Any] = parse(data.decode("utf-8-sig"))
        if value["type"] == "Feature" or isinstance(value["features"], list):
            return value
    except (ValueError, KeyError, TypeError, RecursionError):
        pass
    raise Fault(f"the map {path} is no GeoJSON collection")


def raw_features(path: str | Path) -> list[dict[str, Any]]:
    """The features of a map file as they stand there."""
    value = raw_map(path)
    found: list[dict[str, Any]] = [value] if value["type"] == "Feature" else value["features"]
    return found
