"""Style files: fonts and classes, or the first fault."""

from collections import namedtuple

import toml_text
from ml_pass import Refused
from ml_ratio import FURTHEST, read_fraction
from ml_text import property_text

Font = namedtuple("Font", "units default advances")
Class = namedtuple("Class", "kind rule font size priority ref dx dy min max margin")
Style = namedtuple("Style", "name rank fonts classes")
KINDS = {
    "Point": "point",
    "MultiPoint": "point",
    "LineString": "line",
    "MultiLineString": "line",
    "Polygon": "area",
    "MultiPolygon": "area",
}


class Fault(Exception):
    """A field of a class that is missing or wrong."""


def is_whole(value, least, greatest):
    return isinstance(value, int) and not isinstance(value, bool) and least <= value <= greatest


def read_font(value):
    """The font of a table, or None."""
    if not isinstance(value, dict):
        return None
    advances = value.get("advances", {})
    if not is_whole(value.get("units"), 1, 65535) or not is_whole(value.get("default"), 0, 65535):
        return None
    if not isinstance(advances, dict):
        return None
    if not all(len(key) == 1 and is_whole(width, 0, 65535) for key, width in advances.items()):
        return None
    return Font(value["units"], value["default"], advances)


def read_fonts(value):
    fonts = {}
    if isinstance(value, dict):
        for name in sorted(value, key=str.encode):
            fonts[name] = read_font(value[name])
            if fonts[name] is None:
                raise Refused(3, "BadFont", name)
    return fonts


def text_field(table, field):
    if not isinstance(table.get(field), str):
        raise Fault(field)
    return table[field]


def whole_field(table, field, least, greatest, absent=None):
    value = table.get(field, absent)
    if not is_whole(value, least, greatest):
        raise Fault(field)
    return value


def scale_field(table, field):
    value = read_fraction(text_field(table, field))
    if value is None or value > FURTHEST or (field == "max" and value == 0):
        raise Fault(field)
    return value


def read_rule(table):
    """The key and the value that a class asks for, or None."""
    if "key" not in table and "value" not in table:
        return None
    return text_field(table, "key"), text_field(table, "value")


def read_class(table, version):
    """The class of a table; Fault with the first field that is wrong."""
    if not isinstance(table, dict):
        raise Fault("class")
    kind = text_field(table, "geometry")
    if kind not in ("point", "line", "area"):
        raise Fault("geometry")
    rule, font = read_rule(table), text_field(table, "font")
    size = whole_field(table, "size", 1, 256)
    priority = whole_field(table, "priority", 0, 65535)
    ref = whole_field(table, "ref", 1, 268435455) if kind == "line" else None
    dx, dy = whole_field(table, "dx", -256, 256, 0), whole_field(table, "dy", -256, 256, 0)
    lower, upper = scale_field(table, "min"), scale_field(table, "max")
    margin = whole_field(table, "margin", 0, 64, 0) if version == 2 else 0
    return Class(kind, rule, font, size, priority, ref, dx, dy, lower, upper, margin)


def read_classes(value, version, fonts):
    if value is None:
        return []
    if not isinstance(value, list):
        raise Refused(4, "BadClass", 0, "class")
    classes = []
    for place, table in enumerate(value):
        try:
            made = read_class(table, version)
        except Fault as fault:
            raise Refused(4, "BadClass", place, str(fault)) from None
        if made.font not in fonts:
            raise Refused(5, "UnknownFont", place)
        if made.min >= made.max:
            raise Refused(6, "EmptyRange", place)
        classes.append(made)
    return classes


def read_style(data):
    """The style of a file."""
    try:
        table = toml_text.read(data)
    except toml_text.NotToml:
        raise Refused(1, "NotToml") from None
    version = table.get("version")
    if not is_whole(version, 1, 2):
        raise Refused(2, "Version")
    keys = [table[key] if isinstance(table.get(key), str) else key for key in ("name", "rank")]
    fonts = read_fonts(table.get("fonts"))
    return Style(*keys, fonts, read_classes(table.get("class"), version, fonts))


def fits(made, feature):
    """Whether a class is for a feature that has a geometry."""
    if made.kind != KINDS[feature.geometry[0]]:
        return False
    return made.rule is None or property_text(feature.props.get(made.rule[0])) == made.rule[1]


def class_of(style, feature):
    """The first class that fits, or None."""
    return next((made for made in style.classes if fits(made, feature)), None)
