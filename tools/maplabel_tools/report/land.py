"""Whether places lie on land as they stand or with longitude and latitude exchanged.

The land is that of the countries of the sample map, which is coarse; so only a clear difference is
told.
"""

import json
from collections.abc import Sequence

from maplabel_kit import geojson
from maplabel_kit.files import TOP

SAMPLE = TOP / "crates" / "maplabel" / "data" / "world.geojson"
ASKED = 300
Ring = tuple[float, float, float, float, list[list[float]]]


def swapped(places: Sequence[tuple[float, float]]) -> list[str]:
    """A sentence where the places fit the land far better with their numbers exchanged."""
    if len(places) < 5 or not SAMPLE.exists():
        return []
    count = min(ASKED, len(places))
    few = [places[k * len(places) // count] for k in range(count)]
    rings = rings_of_land()
    here = sum(is_land(x, y, rings) for x, y in few)
    there = sum(is_land(y, x, rings) for x, y in few)
    if there < 0.9 * len(few) or here > 0.7 * there:
        return []
    return [
        f"of {len(few)} places {here} lie on land as they stand, and {there} with the two numbers "
        "exchanged: perhaps latitude stands first. A position is longitude, latitude."
    ]


def rings_of_land() -> list[Ring]:
    """The outer rings of the sample's countries, each with its bounds."""
    rings = []
    for one in json.loads(SAMPLE.read_text("utf-8"))["features"]:
        shape = one["geometry"]
        if geojson.kind_of(shape) != "area":
            continue
        is_many = shape["type"] == "MultiPolygon"
        for part in shape["coordinates"] if is_many else [shape["coordinates"]]:
            east, north = [place[0] for place in part[0]], [place[1] for place in part[0]]
            rings.append((min(east), min(north), max(east), max(north), part[0]))
    return rings


def is_land(x: float, y: float, rings: Sequence[Ring]) -> bool:
    """Whether a place lies within a ring, by the number of sides that a ray to the east crosses."""
    return any(
        west <= x <= east and south <= y <= north and _crossings(x, y, ring) % 2
        for west, south, east, north, ring in rings
    )


def _crossings(x: float, y: float, ring: Sequence[Sequence[float]]) -> int:
    return sum(
        (a[1] > y) != (b[1] > y) and x < a[0] + (y - a[1]) * (b[0] - a[0]) / (b[1] - a[1])
        for a, b in zip(ring, ring[1:])
    )
