#!/usr/bin/env python3
"""Writes a layer of generated places and a style: generated_names.py COUNT PLACES.geojsonl
STYLE.toml.

The 243 cities of the sample map lie where they do. About them lie towns, the more the greater a
city is, most of them near and some far away, and about all of these the other places. Numbers of
people fall as those of real places do: a few great ones, very many small ones. The style has six
classes, from capitals that are shown from zoom 0 on to hamlets from zoom 10 on; with --one-class
it has one for all, shown from zoom 0 on.
"""

import argparse
import json
import math
import random
from collections.abc import Iterator
from dataclasses import dataclass
from pathlib import Path
from typing import Any, TextIO

from maplabel_kit import faults, words
from maplabel_kit.files import TOP

SAMPLE = TOP / "crates" / "maplabel" / "data" / "world.geojson"
FIRST = (
    "Alt Neu Ober Unter Groß Klein Sankt Bad Burg Feld Wald Stein Berg Tal See Hof Mühl Kirch "
    "Königs Frei Linden Eichen"
).split()
LAST = (
    "dorf hausen heim berg burg ingen feld kirchen bach au stadt furt hofen tal wil see brunn rode "
    "leben"
).split()
RULES = (
    ("capital", 16, 14062501),
    ("metropolis", 15, 3515626),
    ("city", 14, 878907),
    ("town", 13, 219727),
    ("village", 12, 54932),
    ("hamlet", 11, 13733),
)
ONE_RULE = (("all", 12, 14062501),)
LEAST_PEOPLE = (
    ("metropolis", 1_000_000),
    ("city", 100_000),
    ("town", 10_000),
    ("village", 1_000),
    ("hamlet", 0),
)
WIDTHS = {
    **dict.fromkeys("iljtfI", 278),
    **dict.fromkeys("mwMW", 833),
    **dict.fromkeys("ABCDEFGHKLNOPQRSTUVXYZ", 667),
}
TOWNS = 70
NORTH = 84.0


@dataclass(frozen=True)
class Place:
    """A place: its name, longitude and latitude, and how many people live there."""

    name: str
    longitude: float
    latitude: float
    people: int
    is_capital: bool = False

    def line(self, number: int) -> str:
        """The place as a feature, on one line."""
        kind = next(one for one, least in LEAST_PEOPLE if self.people >= least)
        properties = {
            "name": self.name,
            "place": "capital" if self.is_capital else kind,
            "pop": self.people,
        }
        at = [round(self.longitude, 7), round(self.latitude, 7)]
        geometry = {"type": "Point", "coordinates": at}
        feature: dict[str, Any] = {"type": "Feature", "id": f"p{number}", "geometry": geometry}
        whole = {**feature, "properties": properties}
        return json.dumps(whole, ensure_ascii=False, separators=(",", ":"))


def style_text(is_one: bool) -> str:
    """The style of six classes or of one."""
    advances = ", ".join(f'"{sign}" = {wide}' for sign, wide in WIDTHS.items())
    lines = ["version = 2", 'name = "name"', 'rank = "pop"', "", "[fonts.sans]", "units = 1000"]
    lines += ["default = 556", f"advances = {{ {advances} }}"]
    for number, (place, size, most) in enumerate(ONE_RULE if is_one else RULES):
        lines += ["", "[[class]]", 'geometry = "point"']
        lines += [] if is_one else ['key = "place"', f'value = "{place}"']
        lines += ['font = "sans"', f"size = {size}", f"priority = {number}", 'min = "0"']
        lines += [f'max = "{most}"', "margin = 2"]
    return "\n".join(lines) + "\n"


def cities() -> list[Place]:
    """The cities of the sample map."""
    features = json.loads(SAMPLE.read_text(encoding="utf-8"))["features"]
    found = []
    for one in features:
        told = one["properties"]
        if told.get("place") == "city":
            longitude, latitude = one["geometry"]["coordinates"]
            people = int(told.get("pop_est") or 0)
            found.append(Place(told["name"], longitude, latitude, people, True))
    return found


def about(place: Place, chance: random.Random, near: float, far: float, people: int) -> Place:
    """A place about another one, with a name of its own."""
    way = min(near * chance.paretovariate(0.9), far * chance.random() + near)
    turn = chance.random() * 2 * math.pi
    latitude = place.latitude + way * math.sin(turn)
    latitude = max(-NORTH, min(NORTH, latitude))
    wide = max(0.2, math.cos(math.radians(latitude)))
    longitude = (place.longitude + way * math.cos(turn) / wide + 180) % 360 - 180
    gap = " " if chance.random() < 0.2 else ""
    return Place(chance.choice(FIRST) + gap + chance.choice(LAST), longitude, latitude, people)


def places(count: int) -> Iterator[Place]:
    """So many places; the same for the same number."""
    chance, first = random.Random(count), cities()
    yield from first[:count]
    weights = [one.people**0.6 + 300 for one in first]
    roots = chance.choices(
        first, weights, k=max(0, min(count, TOWNS + count // TOWNS) - len(first))
    )
    towns = [
        about(one, chance, 0.4, 12, int(2_000 * chance.paretovariate(0.9)) % 3_000_000)
        for one in roots
    ]
    yield from towns
    seats = first + towns
    weights = [one.people**0.6 + 30 for one in seats]
    for one in chance.choices(seats, weights, k=max(0, count - len(seats))):
        yield about(one, chance, 0.03, 4, int(20 * chance.paretovariate(0.75)) % 60_000)


def write(count: int, out: TextIO) -> None:
    """Writes so many places, a line for each."""
    for number, place in enumerate(places(count)):
        out.write(place.line(number) + "\n")


def main() -> None:
    """Writes both files."""
    parser = words.parser(__doc__)
    parser.add_argument("count", type=words.whole(1, 100_000_000), metavar="COUNT")
    parser.add_argument("places", type=Path, metavar="PLACES")
    parser.add_argument("style", type=Path, metavar="STYLE")
    parser.add_argument("--one-class", action="store_true", help="one class for all places")
    told: argparse.Namespace = parser.parse_args()
    told.style.write_text(style_text(told.one_class), encoding="utf-8")
    with told.places.open("w", encoding="utf-8") as out:
        write(told.count, out)


if __name__ == "__main__":
    faults.main(main)
