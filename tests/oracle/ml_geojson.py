"""Map files: features with their ids, by the rules in order, and their canonical text."""

import ml_json
from ml_json import Num, e7, write_e7, write_string
from ml_pass import Refused

DEPTHS = {
    "Point": 0,
    "MultiPoint": 1,
    "LineString": 1,
    "MultiLineString": 2,
    "Polygon": 2,
    "MultiPolygon": 3,
}
NUMBERS = {"BadGeometry": 5, "OutOfRange": 6, "ShortRing": 7}


class Feature:
    """A feature; `geometry` is None or its type with its coordinates."""

    def __init__(self, ident, geometry, props):
        self.id, self.geometry, self.props = ident, geometry, props


class Fault(Exception):
    """What is wrong with a geometry."""


def read_position(value):
    if (
        not isinstance(value, list)
        or len(value) < 2
        or not all(isinstance(part, Num) for part in value[:2])
    ):
        raise Fault("BadGeometry")
    place = tuple(map(e7, value[:2]))
    if None in place:
        raise Fault("OutOfRange")
    return place


def read_ring(value):
    """A closed ring, empty where it has no positions."""
    ring = read_parts(value, 1, False)
    if ring and ring[0] != ring[-1]:
        ring = ring + (ring[0],)
    if ring and len(ring) < 4:
        raise Fault("ShortRing")
    return ring


def read_parts(value, depth, has_rings):
    """Lists within lists down to positions; empty parts are passed over."""
    if depth == 0:
        return read_position(value)
    if not isinstance(value, list):
        raise Fault("BadGeometry")
    if depth == 1:
        return tuple(map(read_position, value))
    if depth == 2 and has_rings:
        parts = map(read_ring, value)
    else:
        parts = (read_parts(part, depth - 1, has_rings) for part in value)
    return tuple(part for part in parts if part)


def read_geometry(value):
    """The geometry of a feature, or None for none."""
    if value is None:
        return None
    kind = value.get("type") if isinstance(value, dict) else None
    if isinstance(kind, str) and not isinstance(kind, Num) and kind == "GeometryCollection":
        return None
    if not isinstance(kind, str) or isinstance(kind, Num) or kind not in DEPTHS:
        raise Fault("BadGeometry")
    coordinates = value.get("coordinates")
    if coordinates == []:
        return None
    parts = read_parts(coordinates, DEPTHS[kind], kind in ("Polygon", "MultiPolygon"))
    return (kind, parts) if parts else None


def is_text(value):
    return isinstance(value, str) and not isinstance(value, Num)


def is_of_type(value, name):
    return isinstance(value, dict) and is_text(value.get("type")) and value["type"] == name


def read_properties(value):
    if not isinstance(value, dict):
        return {}
    return {key: item for key, item in value.items() if not isinstance(item, (list, dict))}


def read_one(value, place):
    """The own id (or None), the geometry and the properties of a feature."""
    if not is_of_type(value, "Feature"):
        raise Refused(4, "NotFeature", place)
    try:
        geometry = read_geometry(value.get("geometry"))
    except Fault as fault:
        name = str(fault)
        raise Refused(NUMBERS[name], name, place) from None
    ident = value.get("id")
    return (
        str(ident) if isinstance(ident, str) else None,
        geometry,
        read_properties(value.get("properties")),
    )


def free_id(own, place, taken):
    if own is not None and own not in taken:
        return own
    ident = f"#{place}"
    while ident in taken:
        ident = "#" + ident
    return ident


def read_collection(data):
    """The features of a map file."""
    value = ml_json.read(data)
    if is_of_type(value, "Feature"):
        items = [value]
    elif is_of_type(value, "FeatureCollection") and isinstance(value.get("features"), list):
        items = value["features"]
    else:
        raise Refused(3, "NotCollection")
    features, taken = [], set()
    for place, item in enumerate(items):
        own, geometry, props = read_one(item, place)
        ident = free_id(own, place, taken)
        taken.add(ident)
        features.append(Feature(ident, geometry, props))
    return features


def read_feature(data):
    """One feature with an id, as the body of an edit."""
    own, geometry, props = read_one(ml_json.read(data), 0)
    if own is None:
        raise Refused(8, "NoId")
    return Feature(own, geometry, props)


def scalar_text(value):
    """The canonical text of a property's value."""
    if isinstance(value, Num):
        return str(value)
    return (
        {None: "null", True: "true", False: "false"}[value]
        if not isinstance(value, str)
        else write_string(value)
    )


def coordinates_text(parts, depth):
    if depth == 0:
        return f"[{write_e7(parts[0])},{write_e7(parts[1])}]"
    return "[" + ",".join(coordinates_text(part, depth - 1) for part in parts) + "]"


def feature_text(feature):
    geometry = "null"
    if feature.geometry:
        kind, parts = feature.geometry
        geometry = f'{{"type":"{kind}","coordinates":{coordinates_text(parts, DEPTHS[kind])}}}'
    props = ",".join(
        f"{write_string(key)}:{scalar_text(feature.props[key])}"
        for key in sorted(feature.props, key=str.encode)
    )
    head = f'{{"type":"Feature","id":{write_string(feature.id)},"geometry":{geometry}'
    return f'{head},"properties":{{{props}}}}}'


def collection_text(features):
    return '{"type":"FeatureCollection","features":[' + ",".join(map(feature_text, features)) + "]}"
