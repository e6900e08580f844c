"""Maps with their styles, and tables of labels."""

import json
from collections.abc import Iterable, Iterator
from random import Random
from typing import NamedTuple

DEGREE = 10_000_000  # world units
LETTERS = "abcdeilmnorstu"
HEAD = """version = 1
name = "name"
rank = "pop"

[fonts.sans]
units = 1000
default = 500
advances = { "i" = 250, "\\u0301" = 0 }
"""


def style(*classes: dict[str, object]) -> str:
    """A style of these classes, of which the first comes first. Their names may be shown from the
    scale 0 on.
    """
    text = [HEAD]
    for place, fields in enumerate(classes, 1):
        fields = {**fields, "font": "sans", "priority": place, "min": "0"}
        text.append(
            "\n[[class]]\n"
            + "".join(f"{key} = {json.dumps(value)}\n" for key, value in fields.items())
        )
    return "".join(text)


# The style of generated maps, as the program has it: names of points end below 1000, those of lines
# and areas later.
OF_GROUPS = style(
    {"geometry": "point", "key": "place", "value": "city", "size": 20, "max": "1000"},
    {"geometry": "point", "size": 20, "max": "1000"},
    {"geometry": "line", "size": 20, "ref": 1000, "max": "2000"},
    {"geometry": "area", "size": 20, "max": "100000"},
)
# Towns may be shown at every scale, so nearly all are cut by others.
OF_TOWNS = style({"geometry": "point", "size": 16, "max": "268435456"})
# One class, and scales so far out that a name is as wide as several countries.
OF_CITIES = style({"geometry": "point", "size": 12, "max": "4000000"})


class Feature(NamedTuple):
    """A feature: its id, its first position in world units, and its text."""

    ident: str
    x: int
    y: int
    text: str


def feature(
    ident: str, kind: str, positions: list[tuple[int, int]], **properties: object
) -> Feature:
    """The feature of one position, of a line of several, or of an area within a ring."""
    texts = [f"[{x / DEGREE:.7f},{y / DEGREE:.7f}]" for x, y in positions]
    inner = ",".join(texts)
    coordinates = {"Point": inner, "LineString": f"[{inner}]", "Polygon": f"[[{inner}]]"}[kind]
    told = json.dumps(properties, separators=(",", ":"))
    return Feature(
        ident,
        *positions[0],
        f'{{"type":"Feature","id":"{ident}","geometry":{{"type":"{kind}",'
        f'"coordinates":{coordinates}}},"properties":{told}}}',
    )


def group(number: int, x: int, y: int) -> Iterator[Feature]:
    """A group at a place: three towns in a row, the first of which has no room for the others, a
    river and an area.
    """
    at = f"g{number}"
    for letter, pop in ("a", 3), ("b", 2), ("c", 1):
        yield feature(
            at + letter, "Point", [(x + 400 * (3 - pop), y)], name="ab", place="city", pop=pop
        )
    bends = [(x, y + 4_000_000), (x + 1_000_000, y + 4_100_000), (x + 2_000_000, y + 4_000_000)]
    yield feature(at + "r", "LineString", bends, name="river")
    west, east, south, north = x, x + 1_000_000, y + 7_000_000, y + 8_000_000
    ring = [(west, south), (east, south), (east, north), (west, north), (west, south)]
    yield feature(at + "p", "Polygon", ring, name="area")


def groups(count: int, seed: int) -> Iterator[Feature]:
    """The map that `gen` makes of so many groups: in 80 columns, a degree apart, each moved by a
    number of its own.
    """
    number = seed
    for place in range(count):
        number = (number * 6364136223846793005 + 1442695040888963407) % 2**64
        row, column = divmod(place, 80)
        yield from group(
            place,
            (column - 40) * DEGREE + (number >> 32) % 100_000,
            (row - 40) * DEGREE + number % 100_000,
        )


def point(draw: Random, ident: str, x: int, y: int, **more: object) -> Feature:
    """A point with a name of 3 to 14 letters and a rank."""
    name = "".join(draw.choices(LETTERS, k=draw.randint(3, 14)))
    return feature(ident, "Point", [(x, y)], name=name, **more, pop=draw.randint(1, 1_000_000))


def points(draw: Random, count: int) -> list[Feature]:
    """Cities anywhere in the world, but for the poles."""
    east, north = 180 * DEGREE, 85 * DEGREE
    return [
        point(
            draw, f"p{number}", draw.randint(-east, east), draw.randint(-north, north), place="city"
        )
        for number in range(count)
    ]


def towns(draw: Random, count: int) -> list[Feature]:
    """Points in 60 clumps over 20 by 20 degrees, some of them narrow and some wide."""
    reach = 10 * DEGREE
    clumps = [
        (draw.uniform(-reach, reach), draw.uniform(-reach, reach), draw.uniform(200_000, 8_000_000))
        for _ in range(60)
    ]
    made = []
    for number in range(count):
        x, y, spread = draw.choice(clumps)
        made.append(
            point(draw, f"t{number}", int(draw.gauss(x, spread)), int(draw.gauss(y, spread)))
        )
    return made


def collection(features: Iterable[Feature]) -> str:
    """The text of a map."""
    return (
        '{"type":"FeatureCollection","features":[' + ",\n".join(it.text for it in features) + "]}"
    )


def table(draw: Random, count: int) -> str:
    """Labels 10 to 80 pixels wide at all scales, whose places are normally distributed about the
    middle of the world.
    """
    lines = []
    for number in range(count):
        width = draw.randint(10, 80)
        left = -width // 2
        x, y = int(draw.gauss(0, 3 * DEGREE)), int(draw.gauss(0, 3 * DEGREE))
        lines.append(f"L{number} {x} {y} 0 268435456 {left},-8,{left + width},8\n")
    return "".join(lines)
