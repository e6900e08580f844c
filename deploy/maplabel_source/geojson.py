"""Map files as the program reads them (docs/FORMATS.md, "Map file").

Each feature becomes its canonical text, which is what `/map` serves: two features are equal exactly
where these texts are. Numbers are kept as the texts that they are written with."""
import json
import re
from collections.abc import Iterator
from typing import Any, NoReturn

from maplabel_kit.geojson import Number

WORLD = 2_000_000_000
DEPTHS = {
    "Point": 0,
    "MultiPoint": 1,
    "LineString": 1,
    "MultiLineString": 2,
    "Polygon": 2,
    "MultiPolygon": 3,
}
MOST_NESTED = 64
SURROGATE = re.compile("[\ud800-\udfff]")
NUMBER = re.compile(r"(-?)(\d+)(?:\.(\d+))?(?:[eE]([-+]?\d+))?", re.ASCII)


class NoMap(Exception):
    """The text is no map file: nothing of it can be used."""


class Fault(Exception):
    """The program refuses the feature."""


class Faulty(str):
    """The text of a feature that the program will refuse."""


def _no_constant(name: str) -> NoReturn:
    raise ValueError("%s is no number" % name)


def read_json(text: str) -> Any:
    """The value of a JSON text, with its numbers as texts."""
    try:
        return json.loads(text, parse_float=Number, parse_int=Number, parse_constant=_no_constant)
    except RecursionError:
        raise ValueError("it is nested too deeply") from None


def whole(text: str) -> str:
    """The characters of a string: half a surrogate pair becomes U+FFFD."""
    return SURROGATE.sub("\ufffd", text)


def quoted(text: str) -> str:
    """A string as JSON writes it."""
    return json.dumps(whole(text), ensure_ascii=False)


def is_nested_more(value: Any, most: int) -> bool:
    """Whether more lists and maps than `most` are open at once in the value."""
    level = [value]
    for _ in range(most + 1):
        level = [
            item
            for one in level
            if isinstance(one, (list, dict))
            for item in ([None] + (list(one.values()) if isinstance(one, dict) else one))
        ]
        if not level:
            return False
    return True


def exponent(power: str) -> int:
    """The exponent of a number; one of many digits is as good as one of ten."""
    digits = power.lstrip("+-").lstrip("0") or "0"
    size = int(digits) if len(digits) <= 10 else 10**10
    return -size if power.startswith("-") else size


def units(number: str) -> int:
    """The world units of a number of degrees: rounded to seven decimals, a half away from zero."""
    found = NUMBER.fullmatch(number)
    assert found is not None  # JSON's reader found it to be a number
    sign, digits, decimals, power = found.groups()
    mantissa = digits + (decimals or "")
    significant = mantissa.lstrip("0")
    if not significant:
        return 0
    before_point = len(significant) - len(decimals or "") + exponent(power or "0")
    if before_point > 3:
        raise Fault("OutOfRange")
    kept = max(before_point + 8, 0)
    rounded = (int(significant[:kept].ljust(kept, "0") or "0") + 5) // 10
    if rounded > WORLD:
        raise Fault("OutOfRange")
    return -rounded if sign else rounded


def seven_decimals(value: int) -> str:
    """World units in degrees."""
    return "%s%d.%07d" % (
        "-" if value < 0 else "",
        abs(value) // 10_000_000,
        abs(value) % 10_000_000,
    )


def position(value: Any) -> tuple[int, int]:
    """A position in world units."""
    if (
        not isinstance(value, list)
        or len(value) < 2
        or not all(isinstance(part, Number) for part in value[:2])
    ):
        raise Fault("BadGeometry")
    return units(value[0]), units(value[1])


def ring(positions: list[Any]) -> list[Any]:
    """A ring, closed."""
    if positions and positions[0] != positions[-1]:
        positions = positions + [positions[0]]
    if positions and len(positions) < 4:
        raise Fault("ShortRing")
    return positions


def parts(value: Any, depth: int, has_rings: bool) -> Any:
    """Lists of positions, so many deep; empty parts are passed over."""
    if depth == 0:
        return position(value)
    if not isinstance(value, list):
        raise Fault("BadGeometry")
    read = [parts(item, depth - 1, has_rings) for item in value]
    if depth == 1:
        return ring(read) if has_rings else read
    return [part for part in read if part]


def coordinates_text(value: Any) -> str:
    """Positions and lists of them as text."""
    if isinstance(value, tuple):
        return "[%s,%s]" % (seven_decimals(value[0]), seven_decimals(value[1]))
    return "[%s]" % ",".join(map(coordinates_text, value))


def geometry_text(value: Any) -> str:
    """A geometry as canonical text."""
    if value is None:
        return "null"
    if not isinstance(value, dict):
        raise Fault("BadGeometry")
    kind = value.get("type")
    if kind == "GeometryCollection":
        return "null"
    if (
        not isinstance(kind, str)
        or kind not in DEPTHS
        or not isinstance(value.get("coordinates"), list)
    ):
        raise Fault("BadGeometry")
    if not value["coordinates"]:
        return "null"
    read = parts(value["coordinates"], DEPTHS[kind], kind in ("Polygon", "MultiPolygon"))
    if not read:
        return "null"
    return '{"type":"%s","coordinates":%s}' % (kind, coordinates_text(read))


def scalar_text(value: Any) -> str:
    """A value that is neither list nor map, as text."""
    if isinstance(value, Number):
        return value
    return (
        quoted(value)
        if isinstance(value, str)
        else {True: "true", False: "false", None: "null"}[value]
    )


def properties_text(value: Any) -> str:
    """Properties as canonical text."""
    kept: dict[str, Any] = {}
    for key, item in value.items() if isinstance(value, dict) else ():
        kept[whole(key)] = item
    return "{%s}" % ",".join(
        "%s:%s" % (quoted(key), scalar_text(kept[key]))
        for key in sorted(kept)
        if not isinstance(kept[key], (list, dict))
    )


def canonical_text(feature: dict[str, Any], name: str) -> str:
    """The canonical text of a feature that has this id, or the fault for which the program
    refuses it."""
    return '{"type":"Feature","id":%s,"geometry":%s,"properties":%s}' % (
        quoted(name),
        geometry_text(feature.get("geometry")),
        properties_text(feature.get("properties")),
    )


def own_id(feature: dict[str, Any]) -> str | None:
    """The id that a feature has of its own, if any."""
    value = feature.get("id")
    return whole(value) if isinstance(value, str) else None


def raw_text(value: Any) -> str:
    """The value as JSON text, its numbers as they were written."""
    if isinstance(value, dict):
        return "{%s}" % ",".join(
            "%s:%s" % (quoted(key), raw_text(item)) for key, item in value.items()
        )
    if isinstance(value, list):
        return "[%s]" % ",".join(map(raw_text, value))
    return scalar_text(value)


def feature_text(feature: dict[str, Any], name: str) -> str:
    """The text to send and to compare: canonical, or as the source has it where the program will
    refuse it."""
    try:
        return canonical_text(feature, name)
    except Fault:
        return Faulty(raw_text({**feature, "id": name}))


def features_of(value: Any) -> list[dict[str, Any]]:
    """The list of features of a map file's value."""
    kind = value.get("type") if isinstance(value, dict) else None
    listed = (
        value.get("features")
        if kind == "FeatureCollection"
        else [value]
        if kind == "Feature"
        else None
    )
    if not isinstance(listed, list):
        raise NoMap("it is neither a FeatureCollection with a list of features nor a Feature")
    for place, item in enumerate(listed):
        if not isinstance(item, dict) or item.get("type") != "Feature":
            raise NoMap("item %d of its features is no Feature" % place)
    return listed


def named(features: list[dict[str, Any]]) -> Iterator[tuple[str, dict[str, Any]]]:
    """Each feature with the id that the program gives it: its own where that is free, else `#`
    and its place."""
    taken: set[str] = set()
    for place, feature in enumerate(features):
        name = own_id(feature)
        if name is None or name in taken:
            name = "#%d" % place
            while name in taken:
                name = "#" + name
        taken.add(name)
        yield name, feature


def read_map(data: bytes) -> dict[str, str]:
    """The features of a map file, in order: a dictionary from ids to texts."""
    try:
        value = read_json(data.decode("utf-8").removeprefix("\ufeff"))
    except ValueError as error:
        raise NoMap("it is no JSON text: %s" % error) from None
    if is_nested_more(value, MOST_NESTED):
        raise NoMap("more than %d of its lists and maps stand within one another" % MOST_NESTED)
    return {name: feature_text(feature, name) for name, feature in named(features_of(value))}


def read_feature(text: str) -> tuple[str, str]:
    """The id and the text of one feature that has an id."""
    feature = read_json(text)
    name = own_id(feature)
    if name is None:
        raise NoMap("it has no id")
    return name, feature_text(feature, name)


def read_export(data: bytes) -> dict[str, str]:
    """The features of a reply to `/map`, which are canonical already: a dictionary from ids to
    texts."""
    text = data.decode("utf-8")
    opening, closing = '{"type":"FeatureCollection","features":[', "]}"
    if not text.startswith(opening) or not text.endswith(closing):
        raise NoMap("it is not the export of a map")
    decoder, texts, at = json.JSONDecoder(parse_float=Number, parse_int=Number), {}, len(opening)
    while text.startswith("{", at):
        feature, end = decoder.raw_decode(text, at)
        texts[feature["id"]] = text[at:end]
        at = end + 1
    return texts
