"""Maps with named lines, made anew each time from the same seeds: a town of bent streets, rivers
with bends at latitudes 40 to 65, the great rivers of Europe, and styles for them.
"""

import json
import math
import random
from collections.abc import Iterator
from dataclasses import dataclass, field
from pathlib import Path
from typing import Any

HERE = Path(__file__).resolve().parent
# The rivers of Europe of the CIA World Data Bank II (public domain), with names by their places.
RIVERS = HERE / "rivers.geojson"
METRES_OF_DEGREE = 111_320.0
TOWN = (9.52, 47.16)
FIRST = (
    "Alt Berg Brunn Buch Eich Erlen Feld Garten Grub Hag Hof Kirch Land Linden Mühl Ober Post "
    "Reben Ried Rosen Sand Schloss Schul See Stein Tal Unter Vor Wald Weiher Wiesen Ziegel"
)
SECOND = (
    "acker au bach bühl dorf egg garten grund haus holz kreuz matt moos rain stall tobel weid "
    "wingert"
)
LAST = "gass gasse strasse strasse strasse weg weg weg"


@dataclass
class Town:
    """Streets that run along a field of directions, so that they are bent alike and keep apart."""

    dice: random.Random
    radius: float
    lines: list[list[tuple[float, float]]] = field(default_factory=list)
    cells: dict[tuple[int, int, int], list[tuple[float, float, int]]] = field(default_factory=dict)

    def heading(self, x: float, y: float, family: int) -> float:
        """The direction of streets of a family at a place, in metres about the town's middle."""
        bend = 0.5 * math.sin(x / 900) + 0.45 * math.cos(y / 700) + 0.3 * math.sin((x + y) / 400)
        return bend + family * math.pi / 2 + 0.4

    def is_near(self, x: float, y: float, family: int, apart: float, own: int) -> bool:
        """Whether another street of the family is nearer than so many metres."""
        i, j = math.floor(x / 100), math.floor(y / 100)
        near = (
            one
            for di in (-1, 0, 1)
            for dj in (-1, 0, 1)
            for one in self.cells.get((i + di, j + dj, family), ())
        )
        return any(number != own and math.hypot(x - a, y - b) < apart for a, b, number in near)

    def walk(self, x: float, y: float, family: int, length: float) -> list[tuple[float, float]]:
        """A street from a place on, until it is long enough or comes near another one."""
        own, line, wobble = len(self.lines), [(x, y)], 0.0
        for _ in range(int(length / 25)):
            wobble = 0.8 * wobble + self.dice.uniform(-0.06, 0.06)
            angle = self.heading(x, y, family) + wobble
            x, y = x + 25 * math.cos(angle), y + 25 * math.sin(angle)
            if math.hypot(x, y) > self.radius or self.is_near(x, y, family, 45, own):
                break
            line.append((x, y))
        return line

    def add(self) -> None:
        """One more street, where there is room."""
        far, turn = self.radius * math.sqrt(self.dice.random()), self.dice.uniform(0, 2 * math.pi)
        x, y, family = far * math.cos(turn), far * math.sin(turn), self.dice.randrange(2)
        if self.is_near(x, y, family, 60, -1):
            return
        line = self.walk(x, y, family, self.dice.choice((250, 400, 600, 900, 1500, 2500)))
        if len(line) > 6:
            for a, b in line:
                self.cells.setdefault(
                    (math.floor(a / 100), math.floor(b / 100), family), []
                ).append((a, b, len(self.lines)))
            self.lines.append(line)


def street_names(dice: random.Random) -> Iterator[str]:
    """Names of streets, each once."""
    seen: set[str] = set()
    while True:
        name = (
            dice.choice(FIRST.split())
            + dice.choice(("", *SECOND.split()))
            + dice.choice(LAST.split())
        )
        name = dice.choice(("", "", "", "Im ", "Alte ", "Obere ")) + name
        if name not in seen:
            seen.add(name)
            yield name


def streets(count: int = 800, seed: int = 11) -> list[dict[str, Any]]:
    """The ways of a town: each street in parts of several positions, as maps of streets have
    them.
    """
    dice = random.Random(seed)
    town = Town(dice, 90.0 * math.sqrt(count))
    while len(town.lines) < count:
        town.add()
    made: list[dict[str, Any]] = []
    for line, name in zip(town.lines, street_names(dice)):
        for part in parts_of(line, dice):
            places = [[round(v, 7) for v in degrees_of(x, y)] for x, y in part]
            made.append(feature(f"w{len(made)}", "LineString", places, name=name, kind="street"))
    return made


def parts_of(
    line: list[tuple[float, float]], dice: random.Random
) -> Iterator[list[tuple[float, float]]]:
    """A line cut at some of its positions, some parts turned round."""
    begin = 0
    while begin < len(line) - 1:
        end = min(len(line) - 1, begin + dice.randint(4, 20))
        part = line[begin : end + 1]
        yield part[::-1] if dice.random() < 0.3 else part
        begin = end


def degrees_of(x: float, y: float) -> tuple[float, float]:
    """Metres about the town's middle as longitude and latitude."""
    return (
        TOWN[0] + x / METRES_OF_DEGREE / math.cos(math.radians(TOWN[1])),
        TOWN[1] + y / METRES_OF_DEGREE,
    )


def feature(own: str, shape: str, coordinates: Any, **properties: Any) -> dict[str, Any]:
    """A feature with an id."""
    return {
        "type": "Feature",
        "id": own,
        "properties": properties,
        "geometry": {"type": shape, "coordinates": coordinates},
    }


def bends(count: int = 600, seed: int = 5) -> list[dict[str, Any]]:
    """Rivers with bends at latitudes 40 to 65, each with a town or two beside its bends."""
    dice = random.Random(seed)
    found: list[dict[str, Any]] = []
    for number in range(count):
        x, y, turn = dice.uniform(-10, 40), dice.uniform(40, 65), dice.uniform(-0.5, 0.5)
        line = [[round(x, 6), round(y, 6)]]
        for _ in range(40):
            turn = max(-1.2, min(1.2, turn + dice.uniform(-0.5, 0.5)))
            x, y = x + 0.03 * math.cos(turn), y + 0.03 * math.sin(turn)
            line.append([round(x, 6), round(y, 6)])
            if dice.random() < 0.04:
                place = [
                    round(x + dice.uniform(-0.02, 0.02), 6),
                    round(y + dice.uniform(-0.02, 0.02), 6),
                ]
                found.append(
                    feature(
                        f"t{len(found)}",
                        "Point",
                        place,
                        name=f"Town {len(found)}",
                        pop=dice.randrange(100000),
                    )
                )
        found.append(
            feature(f"r{number}", "LineString", line, name=f"River number {number}", kind="river")
        )
    return found


def rivers() -> list[dict[str, Any]]:
    """The great rivers of Europe, and the cities of the sample map."""
    found: list[dict[str, Any]] = json.loads(RIVERS.read_text("utf-8"))["features"]
    world = HERE.parents[1] / "crates" / "maplabel" / "data" / "world.geojson"
    for k, one in enumerate(json.loads(world.read_text("utf-8"))["features"]):
        if one["properties"].get("place") != "city":
            continue
        x, y, *_ = one["geometry"]["coordinates"]
        if -15 < x < 50 and 33 < y < 68:
            properties = {
                "name": one["properties"]["name"].strip(),
                "pop": one["properties"].get("pop_est", 0),
            }
            found.append(feature(f"c{k}", "Point", [x, y], **properties, kind="city"))
    return found


def dense_towns(count: int = 900, seed: int = 3) -> list[dict[str, Any]]:
    """Towns close about the Rhine, at random places."""
    dice = random.Random(seed)
    found: list[dict[str, Any]] = []
    for k in range(count):
        x, y = dice.uniform(3.5, 10), dice.uniform(46.5, 52.5)
        name = dice.choice(
            "Alt Bad Berg Brunn Eich Feld Hof Kirch Lind Neu Ober Rhein Stein Wald".split()
        ) + dice.choice("au bach berg burg dorf feld hausen heim ingen stadt".split())
        found.append(
            feature(
                f"d{k}",
                "Point",
                [round(x, 6), round(y, 6)],
                name=name.capitalize(),
                pop=dice.randrange(20000, 300000),
                kind="town",
            )
        )
    return found


def collection(features: list[dict[str, Any]]) -> str:
    """The text of a map."""
    return json.dumps({"type": "FeatureCollection", "features": features}, ensure_ascii=False)


FONT = """[fonts.serif]
units = 1000
default = 500
[fonts.serif.advances]
"i" = 278
"l" = 278
"t" = 278
"r" = 333
"m" = 778
"w" = 722
"B" = 667
"R" = 667
"""


def style(*classes: str) -> str:
    """A style of some classes, without a class of lines unless that is among them."""
    return 'version = 2\nname = "name"\nrank = "pop"\n\n' + "".join(classes) + FONT


def one_class(kind: str, size: int, priority: int, most: int, more: str = "") -> str:
    """A class of a style, for features without regard to their properties."""
    return (
        f'[[class]]\ngeometry = "{kind}"\nfont = "serif"\nsize = {size}\npriority = {priority}\n'
        f'min = "0"\nmax = "{most}"\nmargin = 2\n{more}\n'
    )


TOWNS = one_class("point", 13, 1, 1_800_000, "dy = 10\n")
