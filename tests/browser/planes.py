"""Planes: names never overlap as they are drawn, on either plane and over the date line; and pages
from a file.
"""
import json
import math
import os
import random
import subprocess
import tempfile
from collections.abc import Iterator
from pathlib import Path

from chromium import Browser, Fault
from servers import STYLE, WEB, Engine, Nginx, Pages
from steady import AT_REST, OVERLAPS, SETTLED


def looked_at(browser: Browser, where: str) -> int:
    """How many names are drawn; a fault where two overlap."""
    browser.tell(AT_REST)
    told = browser.tell(OVERLAPS)
    if told["found"]:
        raise Fault(
            "%s: %d pairs overlap, first %s" % (where, len(told["found"]), told["found"][0])
        )
    count: int = told["count"]
    return count


def overlaps(pages: Pages, folder: str) -> None:
    """The Mercator page at four zooms over the sample, and over towns whose names may touch; also
    with two and with one and a half pixels a pixel.
    """
    for density in (1, 2, 1.5):
        at_zooms(pages, folder, density)
    touching(pages)


# Pairs of names whose boxes are less than a pixel apart.
NEAR = """(() => {
  const all = page.names.drawn(), near = 1 - 1e-6
  let count = 0
  all.forEach((a, k) => all.slice(k + 1).forEach(b => {
    const [p] = a.boxes, [q] = b.boxes
    if (a.x + p[0] - near < b.x + q[2] && b.x + q[0] < a.x + p[2] + near &&
        a.y - p[3] - near < b.y - q[1] && b.y - q[3] < a.y - p[1] + near) count++ }))
  return count })()"""


def touching(pages: Pages) -> None:
    """Names without a margin: many pairs touch, and none overlaps, however anchors are rounded."""
    with tempfile.TemporaryDirectory() as made:
        towns, kinds = Path(made, "towns.geojson"), Path(made, "towns.toml")
        points(towns, 6000, 3)
        style(kinds)
        kinds.write_text(kinds.read_text("utf-8").replace("margin = 1", "margin = 0"), "utf-8")
        for way, own in in_two_ways(pages, made, kinds, towns):
            if way == "degrees":
                continue
            count, near = 0, 0
            for density in (1, 1.5, 2):
                with Browser(density=density) as browser:
                    browser.open(f"{own.base}/mercator.html#lat=20&lng=20&z=3&way={way}&poll=no")
                    browser.wait(SETTLED, "the names have come")
                    for view in ("[20, 20], 3.1", "[40, -60], 3.77", "[-10, 100], 4.4"):
                        browser.tell(f"void page.leaflet.setView({view}, {{ animate: false }})")
                        count += looked_at(browser, f"touching names at {view}, {density}")
                        near += browser.tell(NEAR)
            if near < 20:
                raise Fault(f"of {count} names only {near} pairs touch")
            print(f"names without a margin: {count} in 9 views, {near} pairs touch, 0 overlap")


def at_zooms(pages: Pages, folder: str, density: float) -> None:
    with Browser(density=density) as browser:
        browser.open(pages.base + "/mercator.html#lat=25&lng=10&z=2")
        browser.wait(SETTLED, "the names have come")
        counts = []
        for lat, lng, zoom in ((25, 10, 2), (50, 10, 4), (52, 8, 6), (65, 20, 4.37)):
            browser.tell(
                "void page.leaflet.setView([%s, %s], %s, { animate: false })" % (lat, lng, zoom)
            )
            counts.append(looked_at(browser, "zoom %s" % zoom))
            if density < 2:
                browser.picture(os.path.join(folder, "mercator-%s-%s.png" % (zoom, density)))
        print(
            "mercator at zooms 2, 4, 6 and 4.37, density %s: %s names, 0 overlaps"
            % (density, ", ".join(map(str, counts)))
        )


def date_line(pages: Pages, folder: str) -> None:
    """About the date line the names of both sides are drawn, each once, and none lies over
    another.
    """
    with Browser() as browser:
        for address in (
            "plain.html#cx=1790000000&cy=-100000000&s=300000",
            "mercator.html#lat=-10&lng=179&z=5",
        ):
            browser.open(pages.base + "/" + address)
            browser.wait(SETTLED, "the names have come")
            looked_at(browser, address)
            shifts = browser.tell("page.names.drawn().map(one => [one.text, one.shift])")
            sides = {shift for _, shift in shifts}
            if (
                len(sides) < 2
                or "Funafuti" not in [text for text, _ in shifts]
                or len(set(map(tuple, shifts))) < len(shifts)
            ):
                raise Fault("about the date line there are %s" % shifts)
            browser.picture(os.path.join(folder, "date-line-%s.png" % address[:5]))
            print(
                "%s about the date line: %s"
                % (address.split("#")[0], ", ".join(text for text, _ in shifts))
            )
        neighbours(pages, browser)
        browser.open(pages.base + "/plain.html#cx=0&cy=0&s=7031250")
        browser.wait(SETTLED, "the names have come")
        looked_at(browser, "the world more than twice")
        browser.picture(os.path.join(folder, "world-twice.png"))


def neighbours(pages: Pages, browser: Browser) -> None:
    """Two towns beside the date line: far out the western name alone, further in both."""
    with tempfile.TemporaryDirectory() as made:
        towns, kinds = os.path.join(made, "towns.geojson"), os.path.join(made, "towns.toml")
        with open(towns, "w") as file:
            json.dump(
                {
                    "type": "FeatureCollection",
                    "features": [
                        {
                            "type": "Feature",
                            "properties": {"name": name},
                            "geometry": {"type": "Point", "coordinates": [x, 10]},
                        }
                        for name, x in (("East", -179.98), ("West", 179.98))
                    ],
                },
                file,
            )
        style(kinds)
        with Engine(pages.engine.program, None, kinds, towns) as engine, Pages(engine) as own:
            for scale, wanted in ((50000, ["West"]), (2000, ["East", "West"])):
                browser.open("%s/plain.html#cx=1799000000&cy=100000000&s=%d" % (own.base, scale))
                browser.wait(SETTLED, "the names have come")
                found = sorted(browser.tell("page.names.drawn().map(one => one.text)"))
                if found != wanted:
                    raise Fault("beside the date line, at scale %d, are drawn %s" % (scale, found))


def from_file(pages: Pages, folder: str) -> None:
    """From a file a page needs to be told where the server is, and says what to do where it may not
    read it; by way of nginx, which sends a field for other origins, it reads.
    """
    with Browser() as browser:
        bare = "#port=%d" % pages.engine.port
        for address, text in (
            ("plain.html", "opened from a file"),
            ("plain.html" + bare, "web/serve"),
            ("mercator.html" + bare, "web/serve"),
        ):
            browser.open("file://%s/%s" % (WEB, address))
            browser.wait(
                'document.body.innerText.includes("%s")' % text, "%s says: %s" % (address, text)
            )
            browser.picture(os.path.join(folder, "file-%s.png" % address[:5]))
    with Nginx(pages.engine) as nginx, Browser() as browser:
        for address in (
            "plain.html#port=%d&cx=85000000&cy=468000000&s=500000",
            "mercator.html#port=%d&lat=48&lng=10&z=5",
        ):
            browser.open("file://%s/%s" % (WEB, address % nginx.port))
            browser.wait(SETTLED, "the names have come")
            looked_at(browser, "a page from a file")
    print("from a file: says where to find the server, and reads by way of nginx")


def rivers(path: str | Path, seed: int = 5) -> None:
    """A map of rivers with bends at latitudes 40 to 65, each with a town or two beside its
    bends.
    """
    dice = random.Random(seed)
    features: list[dict[str, object]] = []
    for number in range(600):
        x, y, turn = dice.uniform(-10, 40), dice.uniform(40, 65), dice.uniform(-0.5, 0.5)
        line = [[round(x, 6), round(y, 6)]]
        for step in range(40):
            turn = max(-1.2, min(1.2, turn + dice.uniform(-0.5, 0.5)))
            x, y = x + 0.03 * math.cos(turn), y + 0.03 * math.sin(turn)
            line.append([round(x, 6), round(y, 6)])
            if dice.random() < 0.04:
                people, place = dice.randrange(100000), [
                    x + dice.uniform(-0.02, 0.02),
                    y + dice.uniform(-0.02, 0.02),
                ]
                features.append(
                    {
                        "type": "Feature",
                        "properties": {"name": "Town %d" % len(features), "pop": people},
                        "geometry": {"type": "Point", "coordinates": place},
                    }
                )
        features.append(
            {
                "type": "Feature",
                "properties": {"name": "River number %d" % number, "pop": dice.randrange(100000)},
                "geometry": {"type": "LineString", "coordinates": line},
            }
        )
    with open(path, "w") as file:
        json.dump({"type": "FeatureCollection", "features": features}, file)


def points(path: str | Path, count: int = 8000, seed: int = 7) -> None:
    """A map of towns all over the world, with names of 3 to 14 letters."""
    dice, features = random.Random(seed), []
    for _ in range(count):
        name = "".join(
            dice.choice("abcdefghiklmnoprstuvw") for _ in range(dice.randint(3, 14))
        ).title()
        people, place = dice.randrange(1000000), [
            round(dice.uniform(-180, 180), 6),
            round(dice.uniform(-75, 75), 6),
        ]
        features.append(
            {
                "type": "Feature",
                "properties": {"name": name, "pop": people},
                "geometry": {"type": "Point", "coordinates": place},
            }
        )
    with open(path, "w") as file:
        json.dump({"type": "FeatureCollection", "features": features}, file)


def style(path: str | Path) -> None:
    """A style for them, with the font of the sample."""
    with open(STYLE, encoding="utf-8") as file:
        font = "[fonts.serif]" + file.read().partition("[fonts.serif]")[2]
    one = (
        '[[class]]\ngeometry = "%s"\nfont = "serif"\nsize = 12\npriority = %d\n%s\nmin = "0"\nmax ='
        ' "20000000"\nmargin = 1\n\n'
    )
    classes = one % ("point", 1, "dy = 10") + one % ("line", 2, "ref = 50000")
    with open(path, "w", encoding="utf-8") as file:
        file.write('version = 2\nname = "name"\nrank = "pop"\n\n' + classes + font)


def project(*words: str | Path) -> None:
    if subprocess.run([os.path.join(WEB, "project"), *words]).returncode != 0:
        raise Fault("web/project failed")


# A river whose last letter stands high over a town that is apart from it in degrees, and covers it
# in Web Mercator.
RISING = {
    "type": "FeatureCollection",
    "features": [
        {
            "type": "Feature",
            "properties": {"name": "abcdefgh"},
            "geometry": {
                "type": "LineString",
                "coordinates": [[-0.02, 53], [0, 53], [0.0035, 53.01], [0.02, 53.01]],
            },
        },
        {
            "type": "Feature",
            "properties": {"name": "ab"},
            "geometry": {"type": "Point", "coordinates": [0.0045, 53.006]},
        },
    ],
}
RISING_STYLE = """version = 2
[fonts.plain]
units = 1000
default = 500
[[class]]
geometry = "point"
font = "plain"
size = 20
priority = 1
min = "0"
max = "100000"
[[class]]
geometry = "line"
font = "plain"
size = 20
priority = 2
ref = 1000
min = "0"
max = "100000"
"""


def rising(pages: Pages, folder: str) -> None:
    """A name along a line that would lie over a town where y is stretched is left out; drawn, it
    would.
    """
    with tempfile.TemporaryDirectory() as made, Browser() as browser:
        lines, kinds = os.path.join(made, "rising.geojson"), os.path.join(made, "rising.toml")
        with open(lines, "w") as file:
            json.dump(RISING, file)
        with open(kinds, "w") as file:
            file.write(RISING_STYLE)
        for way, own in in_two_ways(pages, made, kinds, lines):
            browser.open(
                "%s/mercator.html#lat=53.003&lng=0&z=%s&way=%s"
                % (own.base, math.log2(14062500 / 1000), way)
            )
            browser.wait(SETTLED, "the names have come")
            count = looked_at(browser, "rising, %s" % way)
            browser.tell("page.facts.hidden?.clear(); page.draw()")
            over = browser.tell(OVERLAPS)
            browser.picture(os.path.join(folder, "rising-%s.png" % way))
            if way == "degrees" and (count, over["count"], len(over["found"])) != (1, 2, 1):
                raise Fault("rising, %s: %d names, and with all %s" % (way, count, over))
        print("rising: in degrees the river is left out; it would lie over the town")


NAMES = (
    "\u6771\u4eac",
    "\u5317\u4eac\u5e02\u671d\u9633\u533a",
    "\uc11c\uc6b8\ud2b9\ubcc4\uc2dc",
    "\u0627\u0644\u0642\u0627\u0647\u0631\u0629",
    "Wien",
    "\u041c\u043e\u0441\u043a\u0432\u0430",
    "Zu\u0308rich",
)
# Of each name: how much ink is in its box, and how much more than three pixels outside of it.
SPILT = """(() => {
  const pen = page.names.canvas.getContext('2d')
  const ink = (x, y, w, h) =>
    pen.getImageData(x, y, w, h).data.reduce((sum, part, k) => sum + (k % 4 === 3 ? part : 0), 0)
  return page.names.drawn().map(({ text, x, y, boxes: [[l, b, r, t]] }) => ({ text,
    inner: ink(x + l, y - t, r - l, t - b),
    outer: ink(x + l - 30, y - t - 3, 27, t - b + 6) + ink(x + r + 3, y - t - 3, 27, t - b + 6)
  })) })()"""


def letters(pages: Pages, folder: str) -> None:
    """Names in letters that the style's font does not have keep within their boxes."""
    with tempfile.TemporaryDirectory() as made, Browser() as browser:
        towns, kinds = os.path.join(made, "towns.geojson"), os.path.join(made, "towns.toml")
        with open(towns, "w") as file:
            json.dump(
                {
                    "type": "FeatureCollection",
                    "features": [
                        {
                            "type": "Feature",
                            "properties": {"name": name},
                            "geometry": {
                                "type": "Point",
                                "coordinates": [k % 3 * 0.2, k // 3 * 0.1],
                            },
                        }
                        for k, name in enumerate(NAMES)
                    ],
                },
                file,
            )
        style(kinds)
        with Engine(pages.engine.program, None, kinds, towns) as engine, Pages(engine) as own:
            browser.open(own.base + "/plain.html#cx=2000000&cy=1000000&s=10000")
            browser.wait(SETTLED, "the names have come")
            spilt = browser.tell(SPILT)
            browser.picture(os.path.join(folder, "letters.png"))
            if len(spilt) != len(NAMES) or any(
                one["inner"] == 0 or one["outer"] > 0 for one in spilt
            ):
                raise Fault("names leave their boxes: %s" % spilt)
            print("letters: %d names within their boxes" % len(spilt))


def in_two_ways(
    pages: Pages, made: str | Path, style_file: str | Path, map_file: str | Path
) -> Iterator[tuple[str, Pages]]:
    """The pages over a map in degrees, and over the same map projected: the way, and the pages."""
    moved, halves = os.path.join(made, "moved.geojson"), os.path.join(made, "moved.toml")
    project(map_file, moved)
    project("--style", style_file, halves)
    for way, kinds, features in (("degrees", style_file, map_file), ("projected", halves, moved)):
        with Engine(pages.engine.program, None, kinds, features) as engine, Pages(engine) as own:
            yield way, own


def ways(pages: Pages, folder: str) -> None:
    """Rivers: in degrees those are left out whose letters could come to lie over a name, and the
    page says so; projected, all are drawn, as the engine shows them.
    """
    with tempfile.TemporaryDirectory() as made, Browser() as browser:
        lines, kinds = os.path.join(made, "rivers.geojson"), os.path.join(made, "rivers.toml")
        rivers(lines)
        style(kinds)
        for way, own in in_two_ways(pages, made, kinds, lines):
            browser.open("%s/mercator.html?explain#lat=52&lng=10&z=8&way=%s" % (own.base, way))
            browser.wait(SETTLED, "the names have come")
            count = looked_at(browser, "rivers, %s" % way)
            chains = browser.tell("page.names.drawn().filter(one => one.boxes.length > 1).length")
            told = browser.tell("page.panel.where.textContent")
            browser.picture(os.path.join(folder, "rivers-%s.png" % way))
            if (way == "degrees") != ("left out" in told) or way == "projected" and not chains:
                raise Fault(
                    "rivers, %s: %d names along lines are drawn; the page says: %s"
                    % (way, chains, told)
                )
            print("rivers, %s: %d names, %d of them along lines; %s" % (way, count, chains, told))
