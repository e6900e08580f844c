"""The scripts that make files: web/export against the command `view` at eight zooms, web/project
there and back, and the sample map.
"""
import json
import math
import os
import subprocess
import tempfile
from collections.abc import Iterator
from fractions import Fraction
from pathlib import Path
from typing import Any

from chromium import Fault
from planes import project, rivers, style
from servers import STYLE, WEB, WORLD, Pages

ZOOMS = (0, 1, 2, 3.3, 4, 5, 6.5, 8)
WINDOWS = ((0, 0), (85000000, 468000000), (1000000000, 250000000))
SIDE = 2000
MARGIN = 1  # of the style of the rivers


def export(program: str, *words: str | Path) -> str:
    run = subprocess.run(
        [os.path.join(WEB, "export"), "--program", program, *words], capture_output=True
    )
    if run.returncode != 0:
        raise Fault("web/export: %s" % run.stderr.decode())
    return run.stderr.decode()


def meets(one: dict[str, Any], scale: Fraction, cx: int, cy: int) -> bool:
    """Whether a box of an exported name lies in a window: strictly, touching is not enough."""
    x, y = (round(Fraction(str(part)) * 10000000) for part in one["geometry"]["coordinates"])
    box, half = one["properties"], SIDE // 2 * scale
    return bool(
        x + box["left"] * scale < cx + half
        and x + box["right"] * scale > cx - half
        and y + box["bottom"] * scale < cy + half
        and y + box["top"] * scale > cy - half
    )


def compare(
    program: str, style_file: str | Path, map_file: str | Path, exported: str | Path
) -> int:
    """The names of views at eight zooms are those that the file has at that zoom in that window."""
    with open(exported, encoding="utf-8") as file:
        features = json.load(file)["features"]
    seen = 0
    for zoom in ZOOMS:
        scale = Fraction(round(14062500 / 2**zoom * 256), 256)
        exact = math.log2(14062500 / scale)
        for cx, cy in WINDOWS:
            words = [
                program,
                "view",
                style_file,
                map_file,
                str(cx),
                str(cy),
                str(SIDE),
                str(SIDE),
                "%d/%d" % scale.as_integer_ratio(),
            ]
            view = json.loads(subprocess.run(words, stdout=subprocess.PIPE, check=True).stdout)
            shown = {label["id"] for label in view["labels"]}
            told = {
                one["properties"]["id"]
                for one in features
                if one["properties"]["minzoom"] <= exact <= one["properties"]["maxzoom"]
                and meets(one, scale, cx, cy)
            }
            if shown != told:
                raise Fault(
                    "zoom %s: the view has %s besides, the file %s"
                    % (zoom, sorted(shown - told)[:5], sorted(told - shown)[:5])
                )
            seen += len(shown)
    return seen


def exports(pages: Pages, folder: str) -> None:
    program = pages.engine.program
    with tempfile.TemporaryDirectory() as made:
        names, lines, kinds = (
            os.path.join(made, name) for name in ("names.geojson", "rivers.geojson", "rivers.toml")
        )
        export(program, STYLE, WORLD, names)
        seen = compare(program, STYLE, WORLD, names)
        print(
            "export of the sample: %d names in views at eight zooms, all as the file has them"
            % seen
        )
        rivers(lines)
        style(kinds)
        export(program, "--all", kinds, lines, names)
        seen = compare(program, kinds, lines, names)
        print("export of rivers: %d names in views at eight zooms, all as the file has them" % seen)
        left = export(program, kinds, lines, names)
        if "left out" not in left:
            raise Fault("of rivers no name is left out")
        with open(names, encoding="utf-8") as file:
            boxes = [one["properties"] for one in json.load(file)["features"]]
        if max(box["bottom"] for box in boxes) - MARGIN > min(box["top"] for box in boxes) + MARGIN:
            raise Fault("what is left of the rivers does not reach one height")
        with open(kinds, "w") as file:
            file.write("version = 3\n")
        words = [os.path.join(WEB, "export"), "--program", program, kinds, lines, names + ".none"]
        run = subprocess.run(words, capture_output=True)
        if (
            run.returncode != 1
            or b"style refused: 2 Version" not in run.stderr
            or os.path.exists(names + ".none")
        ):
            raise Fault("a wrong style was answered with %s" % run)


def positions(coordinates: Any) -> Iterator[Any]:
    if coordinates and isinstance(coordinates[0], (int, float)):
        yield coordinates
    else:
        for part in coordinates:
            yield from positions(part)


def projects(pages: Pages, folder: str) -> None:
    with tempfile.TemporaryDirectory() as made:
        moved, again, there, back = (os.path.join(made, name) for name in "abcd")
        project(WORLD, moved)
        project("--back", moved, again)
        project("--style", STYLE, there)
        project("--style", "--back", there, back)
        with open(STYLE) as one, open(back) as other:
            if one.read() != other.read():
                raise Fault("a style is not the same there and back")
        most, high = 0.0, 0.0
        with open(WORLD) as one, open(again) as other, open(moved) as middle:
            for a, b, c in zip(*(json.load(file)["features"] for file in (one, other, middle))):
                for p, q, r in zip(
                    *(positions(part["geometry"]["coordinates"]) for part in (a, b, c))
                ):
                    high = max(high, abs(r[0]), abs(r[1]))
                    if abs(p[1]) < 85:
                        most = max(most, abs(p[0] - q[0]), abs(p[1] - q[1]))
        # By the definition of Web Mercator: 45 degrees north lies ln(1 + sqrt(2)) from the equator.
        with open(moved, "w") as file:
            file.write(
                '{"type":"Feature","properties":{},'
                '"geometry":{"type":"Point","coordinates":[10,45,7]}}'
            )
        project(moved, again)
        with open(again) as file:
            x, y, z = json.load(file)["features"][0]["geometry"]["coordinates"]
        if (
            most > 2e-7
            or high > 90
            or x != 5
            or z != 7
            or abs(y - math.degrees(math.log(1 + math.sqrt(2))) / 2) > 1e-7
        ):
            raise Fault(
                "there and back is %s degrees off, the greatest is %s, (10, 45) is (%s, %s)"
                % (most, high, x, y)
            )
        with open(moved, "w") as file:
            file.write('{"type":"Topology"}')
        run = subprocess.run(
            [os.path.join(WEB, "project"), moved, again + ".none"], capture_output=True
        )
        if run.returncode != 1 or os.path.exists(again + ".none"):
            raise Fault("what is no map was answered with %s" % run)
        print("project: there and back within %.1e degrees, all within 90" % most)


def is_inside(x: float, y: float, rings: Any) -> bool:
    """Whether a place lies inside of rings: how often the turns about it go round, by angles."""
    turns = 0.0
    for ring in rings:
        for (ax, ay, *_), (bx, by, *_) in zip(ring, ring[1:]):
            turns += math.remainder(
                math.atan2(by - y, bx - x) - math.atan2(ay - y, ax - x), 2 * math.pi
            )
    return abs(turns) > math.pi


# Smaller cities and the greater neighbours that end their names.
BEHIND = {
    "Vatican City": "Rome",
    "Bratislava": "Vienna",
    "The Hague": "Amsterdam",
    "Cotonou": "Lagos",
    "Rio de Janeiro": "S\u00e3o Paulo",
}


def sample(pages: Pages, folder: str) -> None:
    """The script makes the same sample; names of countries stand within them; greater cities come
    before smaller ones.
    """
    with tempfile.TemporaryDirectory() as made:
        again = os.path.join(made, "again.geojson")
        run = subprocess.run([os.path.join(WEB, "sample", "make"), "--output", again])
        with open(WORLD, "rb") as one, open(again, "rb") as other:
            if run.returncode != 0 or one.read() != other.read():
                raise Fault("web/sample/make does not make the sample")
    with open(WORLD, encoding="utf-8") as file:
        features = json.load(file)["features"]
    names = {
        feature.get("id", "#%d" % k): feature["properties"]["name"]
        for k, feature in enumerate(features)
    }
    areas = {
        f["properties"]["name"]: f["geometry"]
        for f in features
        if f["geometry"]["type"] in ("Polygon", "MultiPolygon")
    }
    parts = {
        name: area["coordinates"] if area["type"] == "MultiPolygon" else [area["coordinates"]]
        for name, area in areas.items()
    }
    points = {
        f["properties"]["name"]: f["geometry"]["coordinates"]
        for f in features
        if f["properties"].get("place") == "country"
    }
    outside = [
        name
        for name, (x, y) in points.items()
        if not any(is_inside(x, y, part) for part in parts[name])
    ]
    if set(points) != set(areas) or outside:
        raise Fault("outside of their countries: %s" % outside)
    ids = {
        f["properties"]["name"]: "#%d" % k
        for k, f in enumerate(features)
        if f["properties"].get("place") == "city"
    }
    for small, great in BEHIND.items():
        blocker = pages.ask("/why?id=" + ids[small].replace("#", "%23"))["blocker"]
        if names.get(blocker) != great:
            raise Fault("%s ends behind %s" % (small, names.get(blocker)))
    if any("\ufffd" in name for name in names.values()):
        raise Fault("a name is damaged")
    print(
        "sample: made again byte by byte; %d names of countries within them; %d cities behind"
        " greater ones" % (len(points), len(BEHIND))
    )
