#!/usr/bin/python3
"""Counts names that come and go without a reason, here and in Mapnik: bench/mapnik.py [PATHS
[POINTS]].

It stands outside the gate, and wants Debian's python3-mapnik and fonts-liberation. Both programs
get the same points in the same order of priority with the same font: the points of the sample map,
cities and countries, or POINTS towns at places drawn at random. In windows of 512 by 384 pixels,
along PATHS paths (10 if not told) of 60 steps each about places drawn at random, it counts

- while the map is moved, names that are gone, or new, though they lie within the window before the
  step and after it;
- while the map is zoomed in, names that are gone though they lie within the window, where there is
  more room than before;
- the time of a view: for Mapnik, of drawing the names into an image; here, of the reply to /svg
  over a connection that stays open, which draws nothing.

Mapnik looks for names as far beyond the window as its buffer says, so it is tried with three
buffers. Of `maplabel` it runs the program.
"""

import importlib
import json
import random
import sys
import time
from collections.abc import Callable, Sequence
from pathlib import Path
from typing import Any

from maplabel_kit import files, program, words
from maplabel_kit.client import get
from maplabel_kit.faults import Fault, main
from maplabel_kit.server import over_texts

DATA = files.TOP / "crates" / "maplabel" / "data"
# A point: its name and its place in world units. A view: its middle and its scale.
Point = tuple[str, int, int]
View = tuple[int, int, int]
Box = tuple[int, int, int, int]
if __name__ == "__main__":
    sys.path.pop(0)  # else this file would be taken for the module of its name
mapnik: Any = importlib.import_module("mapnik")
W, H = 512, 384
FACE, SIZE = "Liberation Serif Regular", 11
STEPS = 60


def style() -> str:
    """A style of one class of points, with the sample style's font."""
    fonts = (DATA / "world.toml").read_text("utf-8").partition("[fonts.serif]")[2]
    return (
        'version = 2\nrank = "order"\n[[class]]\ngeometry = "point"\nfont = "serif"\n'
        'size = %d\npriority = 1\nmin = "0"\nmax = "30000000"\n[fonts.serif]%s' % (SIZE, fonts)
    )


def points(count: int) -> list[Point]:
    """Names with their places in world units, the first of them first in priority."""
    if count:
        chance = random.Random(5)
        return [
            (
                "Town %d" % n,
                chance.randrange(-1_800_000_000, 1_800_000_000),
                chance.randrange(-800_000_000, 800_000_000),
            )
            for n in range(count)
        ]
    features = json.loads((DATA / "world.geojson").read_text("utf-8"))["features"]
    found = []
    for one in features:
        if one["geometry"]["type"] == "Point":
            x, y = one["geometry"]["coordinates"][:2]
            found.append((one["properties"]["name"], round(x * 10**7), round(y * 10**7)))
    return found


class Ours:
    """`serve` over the points, each with its place in the order of priority as its rank and in its
    id.
    """

    def __init__(self, asked: Path, names: Sequence[Point]) -> None:
        features = [
            {
                "type": "Feature",
                "id": str(n),
                "properties": {"name": name, "order": len(names) - n},
                "geometry": {"type": "Point", "coordinates": [x / 1e7, y / 1e7]},
            }
            for n, (name, x, y) in enumerate(names)
        ]
        text = json.dumps({"type": "FeatureCollection", "features": features})
        self.server = over_texts(asked, style(), text)

    def ask(self, route: str, cx: int, cy: int, s: int) -> bytes:
        """The body of a reply about a view."""
        return self.server.one(get(route, cx=cx, cy=cy, w=W, h=H, s=s)).text().encode()

    def view(self, cx: int, cy: int, s: int) -> dict[int, Box]:
        """The numbers of the names that are shown, and their boxes."""
        labels = json.loads(self.ask("/view", cx, cy, s))["labels"]
        found: dict[int, Box] = {int(one["id"]): box_of(one["boxes"][0]) for one in labels}
        return found

    def draw(self, cx: int, cy: int, s: int) -> None:
        """Has the names written as a picture."""
        self.ask("/svg", cx, cy, s)

    def end(self) -> None:
        """Ends the server."""
        self.server.end()


def box_of(sides: Sequence[int]) -> Box:
    """A box of its four sides."""
    left, bottom, right, top = sides
    return left, bottom, right, top


class Theirs:
    """Mapnik over the points, with so many pixels beyond the window."""

    def __init__(self, names: Sequence[Point], buffer: int) -> None:
        self.map = mapnik.Map(W, H, "+proj=longlat +datum=WGS84 +no_defs")
        mapnik.load_map_from_string(
            self.map,
            '<Map srs="+proj=longlat +datum=WGS84 +no_defs"><Style name="names"><Rule>'
            '<TextSymbolizer face-name="%s" size="%d" placement="point">[name]</TextSymbolizer>'
            "</Rule></Style></Map>" % (FACE, SIZE),
        )
        self.map.buffer_size = buffer
        source, context = mapnik.MemoryDatasource(), mapnik.Context()
        context.push("name")
        for number, (name, x, y) in enumerate(names):
            feature = mapnik.Feature(context, number + 1)
            feature["name"] = name
            feature.geometry = mapnik.Geometry.from_wkt("POINT(%.7f %.7f)" % (x / 1e7, y / 1e7))
            source.add_feature(feature)
        layer = mapnik.Layer("names", "+proj=longlat +datum=WGS84 +no_defs")
        layer.datasource = source
        layer.styles.append("names")
        self.map.layers.append(layer)

    def move(self, cx: int, cy: int, s: int) -> None:
        """Shows a view."""
        dx, dy = W / 2 * s / 1e7, H / 2 * s / 1e7
        self.map.zoom_to_box(
            mapnik.Box2d(cx / 1e7 - dx, cy / 1e7 - dy, cx / 1e7 + dx, cy / 1e7 + dy)
        )

    def view(self, cx: int, cy: int, s: int) -> set[int]:
        """The numbers of the names that are shown."""
        self.move(cx, cy, s)
        grid = mapnik.Grid(W, H)
        mapnik.render_layer(self.map, grid, layer=0, fields=[])
        return {int(key) - 1 for key in grid.encode("utf", resolution=1)["keys"] if key}

    def draw(self, cx: int, cy: int, s: int) -> None:
        """Draws the names."""
        self.move(cx, cy, s)
        mapnik.render(self.map, mapnik.Image(W, H))


def paths_of(count: int, names: Sequence[Point]) -> tuple[list[list[View]], list[list[View]]]:
    """Paths of moves at one scale, and of zooms about one place, each as a list of views."""
    chance = random.Random(11)
    moves, zooms = [], []
    # Far enough inside that no path leaves the world.
    inner = [(x, y) for _, x, y in names if abs(x) < 1_000_000_000]
    for _ in range(count):
        x, y = chance.choice(inner)
        s, dx, dy = (
            chance.choice((4_000_000, 2_000_000, 1_000_000)),
            chance.choice((-7, 7)),
            chance.choice((-3, 3)),
        )
        moves.append([(x + k * dx * s, y + k * dy * s, s) for k in range(-STEPS // 2, STEPS // 2)])
        zooms.append([(x, y, round(4_000_000 / 2 ** (k / 12))) for k in range(STEPS)])
    return moves, zooms


def within(name: Point, box: Box, view: View) -> bool:
    """Whether a name's box lies whole within a window, a pixel off its sides."""
    (_, x, y), (cx, cy, s), (left, bottom, right, top) = name, view, box
    px, py = (x - cx) / s, (y - cy) / s
    return (
        px + left > 1 - W / 2
        and px + right < W / 2 - 1
        and py + bottom > 1 - H / 2
        and py + top < H / 2 - 1
    )


def count_changes(
    names: Sequence[Point],
    boxes: Sequence[Box],
    show: Callable[..., Any],
    path: Sequence[View],
    is_zoom: bool,
) -> tuple[int, int]:
    """Names that go, and with moves those that come, though they lie within both windows; and names
    shown.
    """
    bad, shown = 0, 0
    before: set[int] | None = None
    for number, view in enumerate(path):
        now = set(show(*view))
        shown += len(now)
        if before is not None:
            changed = before - now if is_zoom else before ^ now
            bad += sum(
                within(names[n], boxes[n], view) and within(names[n], boxes[n], path[number - 1])
                for n in changed
            )
        before = now
    return bad, shown


def milliseconds(draw: Callable[..., None], paths: Sequence[Sequence[View]]) -> float:
    """What drawing a view takes."""
    views = [view for path in paths for view in path]
    begin = time.perf_counter()
    for view in views:
        draw(*view)
    return 1000 * (time.perf_counter() - begin) / len(views)


def measure(
    name: str,
    names: Sequence[Point],
    boxes: Sequence[Box],
    one: Any,
    moves: Sequence[Sequence[View]],
    zooms: Sequence[Sequence[View]],
) -> None:
    """Measures one of the two, and tells it."""
    gone, shown = map(
        sum, zip(*(count_changes(names, boxes, one.view, path, False) for path in moves))
    )
    lost, zoomed = map(
        sum, zip(*(count_changes(names, boxes, one.view, path, True) for path in zooms))
    )
    steps = STEPS - 1
    print(
        f"{name:22} {gone:6} come or go in {len(moves) * steps} moves "
        f"({shown / len(moves) / STEPS:.0f} names a view); {lost:6} go in {len(zooms) * steps} "
        f"steps inwards ({zoomed / len(zooms) / STEPS:.0f}); "
        f"{milliseconds(one.draw, [*moves, *zooms]):.2f} ms a view",
        flush=True,
    )


def boxes_of(names: Sequence[Point]) -> list[Box]:
    """The boxes of all names, whether they are shown or not, from the widths of the style."""
    advances: dict[str, int] = {}
    default = 0
    for line in style().splitlines():
        key, _, value = line.partition(" = ")
        if key == "default":
            default = int(value)
        elif key.startswith('"') and not key.startswith('"\\'):
            advances[key[1:-1]] = int(value)
    found = []
    for name, _, _ in names:
        width = -(-sum(advances.get(c, default) for c in name) * SIZE // 2048)
        found.append((-(width // 2), -(SIZE // 2), width - width // 2, SIZE - SIZE // 2))
    return found


def version() -> str:
    """The version of Mapnik."""
    number = mapnik.mapnik_version()
    return f"{number // 100000}.{number // 100 % 1000}.{number % 100}"


def compare() -> None:
    """Counts for both, and tells it."""
    parser = words.parser(__doc__)
    parser.add_argument("paths", nargs="?", type=words.whole(1, 1000), default=10)
    parser.add_argument("points", nargs="?", type=words.whole(0, 32_768), default=0)
    program.add_option(parser)
    told = parser.parse_args()
    names = points(told.points)
    boxes = boxes_of(names)
    moves, zooms = paths_of(told.paths, names)
    print(f"{len(names)} points, Mapnik {version()}")
    ours = Ours(program.find(told.program), names)
    try:
        for number, box in ours.view(0, 0, 7_000_000).items():
            if box != boxes[number]:
                raise Fault(f"{names[number][0]} has the box {box} and not {boxes[number]}")
        measure("maplabel", names, boxes, ours, moves, zooms)
    finally:
        ours.end()
    for buffer in (0, 128, 1024):
        theirs = Theirs(names, buffer)
        measure(f"Mapnik, buffer {buffer}", names, boxes, theirs, moves, zooms)


if __name__ == "__main__":
    main(compare)
