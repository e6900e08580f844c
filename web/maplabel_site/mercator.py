"""Web Mercator in the engine's plane: x is half the longitude, y half of Mercator's northing in
degrees.
"""

import json
import math
import re
import tomllib
from collections.abc import Callable
from fractions import Fraction
from typing import Any

from maplabel_kit.faults import Fault

CUT = 85.0511287798066
EAST, NORTH = 200, 90  # degrees beyond which the engine takes no position
SCALE_LINE = re.compile(
    r'^(\s*(min|max|ref)\s*=\s*)("?)(\d+)(?:/(\d+))?("?)(\s*(?:#.*)?)$', re.MULTILINE
)
Way = Callable[[float, float], tuple[float, float]]


def forward(x: float, y: float) -> tuple[float, float]:
    """The place in the plane of a longitude and a latitude."""
    if not (abs(x) <= EAST and abs(y) <= NORTH):
        raise Fault(
            f"the position {x}, {y} is no longitude and latitude; it looks like metres: "
            "export the map in degrees (ogr2ogr -t_srs EPSG:4326)"
        )
    kept = min(max(y, -CUT), CUT)
    return x / 2, math.degrees(math.log(math.tan(math.pi / 4 + math.radians(kept) / 2))) / 2


def back(x: float, y: float) -> tuple[float, float]:
    """The longitude and the latitude of a place in the plane."""
    return x * 2, math.degrees(math.atan(math.exp(math.radians(y * 2)))) * 2 - 90


def moved(coordinates: Any, way: Way) -> Any:
    """Coordinates of any geometry, each position by the way; what stands behind two numbers
    stays.
    """
    if coordinates and isinstance(coordinates[0], (int, float)):
        x, y = way(*coordinates[:2])
        return [round(x, 7), round(y, 7), *coordinates[2:]]
    return [moved(part, way) for part in coordinates]


def _move_geometry(geometry: dict[str, Any] | None, way: Way) -> dict[str, Any] | None:
    if geometry is None:
        return None
    if geometry.get("type") == "GeometryCollection":
        inner = [_move_geometry(part, way) for part in geometry.get("geometries", [])]
        return {**geometry, "geometries": inner}
    kept = {key: value for key, value in geometry.items() if key != "bbox"}
    return {**kept, "coordinates": moved(geometry["coordinates"], way)}


def project_map(text: str, way: Way) -> str:
    """The text of a map with all places moved by a way."""
    world = json.loads(text)
    if not isinstance(world, dict) or world.get("type") not in ("FeatureCollection", "Feature"):
        raise Fault("this is no map file")
    features = world["features"] if world["type"] == "FeatureCollection" else [world]
    made = []
    for number, feature in enumerate(features):
        kept = {key: value for key, value in feature.items() if key != "bbox"}
        try:
            geometry = _move_geometry(feature.get("geometry"), way)
        except Fault as fault:
            raise Fault(f"feature {feature.get('id', f'#{number}')}: {fault}") from None
        made.append(json.dumps({**kept, "geometry": geometry}, ensure_ascii=False))
    return '{"type": "FeatureCollection", "features": [\n%s\n]}\n' % ",\n".join(made)


def _scaled(value: str, by: Fraction) -> str:
    return str(Fraction(value) * by)


def project_style(text: str, by: Fraction) -> str:
    """The style with its scales times a factor; all else stays as it stands, line by line."""

    def line(found: re.Match[str]) -> str:
        head, name, mark, number, below, end, rest = found.groups()
        if name == "ref":
            return head + str(max(1, math.floor(int(number) * by))) + rest
        return head + mark + _scaled(number + ("/" + below if below else ""), by) + end + rest

    made = SCALE_LINE.sub(line, text)
    wanted = tomllib.loads(text)
    for one in wanted.get("class", []):
        one.update({key: _scaled(one[key], by) for key in ("min", "max") if key in one})
        if "ref" in one:
            one["ref"] = max(1, math.floor(one["ref"] * by))
    if tomllib.loads(made) != wanted:
        raise Fault('the scales of this style are not written one to a line, as min = "0"')
    return made


HALF = Fraction(1, 2)
ERRORS = (ValueError, KeyError, TypeError, IndexError, AttributeError)
