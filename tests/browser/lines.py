"""Names along lines on the pages: their ink keeps within the boxes that the engine keeps apart.

`ink` draws each name of three maps alone, at three densities, and looks at all of its pixels; the
page and the package `maplabel_kit.along` reckon the same places. `runs` draws Arabic and Hebrew
names. `moves` drags and zooms maps with such names in 30 steps. `letters_of_export` compares what
`web/export` writes with what the page draws.
"""

import json
import math
import subprocess
from dataclasses import replace
from pathlib import Path
from typing import Any

import line_maps
from chromium import Browser, Fault
from lines_ink import DENSITIES, FAMILY, Drawn, ink_of, lays_of, with_module
from maplabel_kit import files, geojson, labels, program
from maplabel_kit.along import Face, default_font, lay, wanted
from maplabel_kit.client import get
from maplabel_kit.files import TOP
from servers import WEB, Engine, Pages
from steady import AT_REST, OVERLAPS, SETTLED

MOST_APART = 0.05
HALF = 0.5 + 1e-6
HEBREW, ARABIC = "נהר הירדן", "نهر النيل الكبير"
Map = tuple[Path, Path]
MAPS = {
    "streets": (
        line_maps.streets(300),
        line_maps.style(),
        ("--zooms", "14-18", "--side", "on", "--spacing", "250"),
    ),
    "rivers": (
        line_maps.rivers(),
        line_maps.style(line_maps.TOWNS),
        ("--zooms", "4-10", "--spacing", "240", "--snap", "600000"),
    ),
    "bends": (
        line_maps.bends(200),
        line_maps.style(line_maps.TOWNS),
        ("--zooms", "6-9"),
    ),
}
# Of each name along a line that is drawn: its anchor's pixel and the middle and the amount of its
# ink,
# but where the halo of another name or a dot reaches into its boxes.
CHAINS = """(() => {
  const canvas = page.names.canvas, all = page.names.drawn()
  const pen = canvas.getContext('2d', { willReadFrequently: true })
  const near = (one, [l, b, r, t]) => all.some(o => o !== one && (
    o.x + 5 > one.x + l && o.x - 5 < one.x + r && o.y + 5 > one.y - t && o.y - 5 < one.y - b ||
    o.boxes.some(([L, B, R, T]) => o.x + R + 3 > one.x + l && o.x + L - 3 < one.x + r &&
      o.y - B + 3 > one.y - t && o.y - T - 3 < one.y - b)))
  return all.filter(one => one.boxes.length > 1).map(one => {
    const { id, x, y, at, boxes, shift } = one
    const l = Math.min(...boxes.map(q => q[0])) - 3, b = Math.min(...boxes.map(q => q[1])) - 3
    const r = Math.max(...boxes.map(q => q[2])) + 3, t = Math.max(...boxes.map(q => q[3])) + 3
    const isCut = x + l < 0 || y - t < 0 || x + r > canvas.width || y - b > canvas.height
    if (isCut || near(one, [l, b, r, t])) return { id, x, y, at, shift }
    const { data } = pen.getImageData(x + l, y - t, r - l, t - b)
    let mass = 0, east = 0, south = 0
    for (let k = 3; k < data.length; k += 4) {
      const place = (k - 3) / 4
      mass += data[k]
      east += data[k] * (place % (r - l))
      south += data[k] * Math.floor(place / (r - l))
    }
    return { id, x, y, at, shift, mass, east: east / mass + l, south: south / mass - t }
  })
})()"""
FRAME = """(() => {
  const m = page.leaflet, o = m.getPixelOrigin()
  const p = new DOMMatrix(getComputedStyle(m.getPane('mapPane')).transform)
  return [m.getZoom(), o.x - p.e, o.y - p.f] })()"""

# All of one moment: between two scripts a page may draw again.
MOMENT = f"({{ frame: {FRAME}, over: {OVERLAPS}, chains: {CHAINS} }})"


def made(folder: Path, features: list[dict[str, Any]], style: str, words: tuple[str, ...]) -> Map:
    """A map with names along lines, projected."""
    given, flat, out = ((folder / f"{k}.toml", folder / f"{k}.geojson") for k in ("a", "b", "c"))
    given[0].write_text(style, "utf-8")
    given[1].write_text(line_maps.collection(features), "utf-8")
    run(WEB / "project", given[1], flat[1])
    run(WEB / "project", "--style", given[0], flat[0])
    run(TOP / "tools" / "lines", *flat, "--projected", *words, "-o", *out)
    return out


def run(command: Path, *words: object) -> None:
    """Runs a command of the checkout."""
    called = [str(command), *map(str, words)]
    done = subprocess.run(called, capture_output=True, text=True, check=False)
    if done.returncode:
        raise Fault(f"{command.name}: {done.stderr}")


def names_of(engine: str | Path, at: Map) -> dict[str, Drawn]:
    """The names along lines of a map, as they are to be drawn, by their ids."""
    world, state = program.pipe(engine, *at, [get("/map"), get("/state")])
    features = {one.id: one for one in geojson.features_of(world.text())}
    found = {}
    for one in labels.read_state(state.text()):
        properties = features[one.id].properties
        if "line_label" in properties:
            size = one.boxes[0][3] - one.boxes[0][1]
            height, spacing = wanted(properties, size)
            found[one.id] = Drawn(str(properties["name"]), one.boxes, height, spacing)
    return found


def must(is_so: bool, told: str) -> None:
    """A fault unless something is so."""
    if not is_so:
        raise Fault(told)


def ink(pages: Pages, _folder: str) -> None:
    """Every pixel of every name of three maps, alone, at three densities."""
    for what, (features, style, words) in MAPS.items():
        with files.folder() as folder, Browser(400, 300) as browser:
            at = made(folder, features, style, words)
            names = list(names_of(pages.engine.program, at).values())
            with_module(browser)
            for density in DENSITIES:
                look_at_ink(browser, names, density, what)
            look_at_tight(browser, names, what)
            apart = apart_of(browser, names)
            print(
                f"{what}: the page and maplabel_kit.along lay names {apart:.6f} pixels apart "
                "at most"
            )


def look_at_ink(browser: Browser, names: list[Drawn], density: float, what: str) -> None:
    """Looks at the pixels of names at a density."""
    seen = ink_of(browser, names, density)
    told = f"{what}, density {density}"
    must(seen["drawn"] == len(names) > 50, f"{told}: {len(names)} names, drawn {seen['drawn']}")
    must(not seen["small"], f"{told}: smaller than told are {seen['small'][:5]}")
    must(seen["spilt"] == 0, f"{told}: ink of {seen['who']} lies out of its boxes")
    must(seen["ink"] > 50000 * density, f"{told}: there is hardly any ink")
    must(seen["turn"] <= 15, f"{told}: neighbours turn by {seen['turn']:.1f} degrees")
    print(
        f"{told}: {seen['drawn']} names, no ink out of boxes, turns of at most {seen['turn']:.1f}"
    )


def look_at_tight(browser: Browser, names: list[Drawn], what: str) -> None:
    """In boxes that are too low names are drawn smaller or upright, and no ink is out of these."""
    tight = []
    for one in names:
        boxes = tuple((left, low + 3, right, high - 3) for left, low, right, high in one.boxes)
        tight.append(replace(one, boxes=boxes))
    seen = ink_of(browser, tight, 2)
    must(seen["spilt"] == 0, f"{what}, low boxes: ink of {seen['who']} lies out of its boxes")
    must(len(seen["small"]) > 20, f"{what}, low boxes: {len(seen['small'])} names are smaller")
    must(seen["drawn"] + len(seen["upright"]) == len(names), f"{what}, low boxes: all are seen")


def apart_of(browser: Browser, names: list[Drawn]) -> float:
    """The greatest distance between where the page draws a letter and where the package says."""
    face, most = Face.read(default_font()), 0.0
    for one, told in zip(names, lays_of(browser, names)):
        own = lay(one.text, one.boxes, face, one.height, one.spacing)
        must((own is None) == (told is None), f"{one.text} lies along its boxes for one alone")
        if own is None:
            continue
        height, letters = told
        must(height == own.height, f"{one.text}: {height} pixels high, and {own.height}")
        must(len(letters) == len(own.letters), f"{one.text}: as many letters")
        for (_, x, y, angle), letter in zip(letters, own.letters):
            off = math.hypot(x - letter.x, y - letter.y) + 12 * abs(angle - letter.angle)
            most = max(most, off)
    must(most <= MOST_APART, f"a letter lies {most:.3f} pixels apart")
    return most


def runs(pages: Pages, folder: str) -> None:
    """Arabic and Hebrew are drawn as one run, turned, and no ink lies out of the boxes."""
    features = [
        line_maps.feature("h", "LineString", slope(0.0, 0.10), name=HEBREW),
        line_maps.feature("a", "LineString", slope(0.7, -0.08), name=ARABIC),
    ]
    with files.folder() as at, Browser(900, 500) as browser:
        out = made(at, features, line_maps.style(), ("--zooms", "8-9"))
        names = list(names_of(pages.engine.program, out).values())
        must({one.text.strip() for one in names} == {HEBREW, ARABIC}, "both rivers have names")
        with_module(browser)
        for one, told in zip(names, lays_of(browser, names)):
            must(told is not None and len(told[1]) == 1, f"{one.text} is one run: {told}")
            angle = math.degrees(told[1][0][3])
            wide = 5.7 if one.text.strip() == HEBREW else -4.6
            must(abs(angle - wide) < 2, f"{one.text} is turned by {angle:.1f} degrees")
        for density in DENSITIES:
            seen = ink_of(browser, names, density, '"Liberation Serif", serif')
            must(seen["spilt"] == 0 and seen["drawn"] == len(names), f"runs: {seen}")
        with Engine(pages.engine.program, None, *out) as engine, Pages(engine) as own:
            browser.open(f"{own.base}/mercator.html#lat=0.35&lng=0.5&z=9&way=projected&poll=no")
            browser.wait(SETTLED, "the names have come")
            browser.tell(AT_REST)
            browser.picture(str(Path(folder) / "lines-runs.png"))
            drawn = browser.tell("page.names.drawn().length")
            must(drawn >= 2, f"{drawn} runs are drawn on the page")
    print(f"runs: {len(names)} Arabic and Hebrew names, each one run")


def slope(y: float, by: float) -> list[list[float]]:
    """A line of a degree in length that rises by so much."""
    return [[k / 50, round(y + by * k / 50, 6)] for k in range(51)]


class Watch:
    """What was seen of each name along a line so far, in steps of a move."""

    def __init__(self, where: str) -> None:
        self.where, self.ink = where, {}  # type: str, dict[str, list[float]]
        self.looks, self.inks, self.off, self.moved = 0, 0, 0.0, 0.0

    def look(self, browser: Browser, step: int) -> None:
        """Looks at all names along lines as they are drawn."""
        seen = browser.tell(MOMENT)
        zoom, left, top = seen["frame"]
        over, chains = seen["over"]["found"], seen["chains"]
        must(not over, f"{self.where}, step {step}: {over[:1]} overlap")
        world = 256 * 2**zoom
        for one in chains:
            x = (0.5 + one["at"][0] / 1.8e9 + one["shift"]) * world - left
            y = (0.5 - one["at"][1] / 1.8e9) * world - top
            off = max(abs(one["x"] - x), abs(one["y"] - y))
            self.off, self.looks = max(self.off, off), self.looks + 1
            must(off <= HALF, f"{self.where}, step {step}: {one['id']} is {off:.2f} pixels off")
            if "mass" in one:
                self._look_at_ink(one, step)

    def _look_at_ink(self, one: dict[str, Any], step: int) -> None:
        """The ink of a name stands about its anchor as it stood in the steps before."""
        now = [one["mass"], one["east"], one["south"]]
        was = self.ink.setdefault(one["id"], now)
        moved = max(abs(now[1] - was[1]), abs(now[2] - was[2]))
        self.moved, self.inks = max(self.moved, moved), self.inks + 1
        is_same = moved < 0.01 and abs(now[0] - was[0]) <= 0.001 * was[0] and now[0] > 0
        must(is_same, f"{self.where}, step {step}: the ink of {one['id']} was {was} and is {now}")


def moves(pages: Pages, folder: str) -> None:
    """A drag and a zoom of 30 steps over streets and over rivers: names keep to their anchors."""
    for what, address in (
        ("streets", "lat=47.16&lng=9.52&z=16.2"),
        ("rivers", "lat=48&lng=12&z=6.3"),
    ):
        with files.folder() as at, Browser() as browser:
            out = made(at, *MAPS[what])
            with Engine(pages.engine.program, None, *out) as engine, Pages(engine) as own:
                page = f"{own.base}/mercator.html#{address}&way=projected&poll=no"
                browser.open(page)
                browser.wait(SETTLED, "the names have come")
                browser.tell(AT_REST)
                browser.picture(str(Path(folder) / f"lines-{what}.png"))
                for name, act in (("drag", drag), ("zoom", zoom)):
                    watch = Watch(f"{what}, {name}")
                    act(browser, watch)
                    browser.tell(AT_REST)
                    must(watch.looks > 60, f"{watch.where}: only {watch.looks} names were seen")
                    must(watch.inks > 20, f"{watch.where}: the ink of only {watch.inks} was seen")
                    print(
                        f"{watch.where} of 30 steps: {watch.looks} names along lines, at most "
                        f"{watch.off:.3f} pixels from their anchors; ink of {watch.inks} moved by "
                        f"{watch.moved:.3f} pixels"
                    )


def drag(browser: Browser, watch: Watch) -> None:
    """Drags the map."""
    x, y = 900, 500
    watch.look(browser, -1)
    browser.mouse("mousePressed", x, y, button="left", buttons=1, clickCount=1)
    for step in range(30):
        x, y = x - 17, y - 5 + step % 3
        browser.mouse("mouseMoved", x, y, button="left", buttons=1)
        browser.tell("new Promise(requestAnimationFrame)")
        watch.look(browser, step)
    browser.mouse("mouseReleased", x, y, button="left", clickCount=1)


def zoom(browser: Browser, watch: Watch) -> None:
    """Turns the wheel, inwards and then outwards."""
    watch.look(browser, -1)
    for step in range(30):
        browser.wheel(700, 300, -23 if step < 15 else 31)
        browser.tell("new Promise(requestAnimationFrame)")
        watch.look(browser, step)


def letters_of_export(pages: Pages, _folder: str) -> None:
    """A point for each letter that `web/export` writes is where the page draws that letter."""
    with files.folder() as at, Browser(400, 300) as browser:
        out = made(at, *MAPS["rivers"])
        to = at / "names.geojson"
        words = ("--projected", "--font", default_font(), "--program", pages.engine.program)
        run(WEB / "export", *words, *out, to)
        points: dict[str, list[dict[str, Any]]] = {}
        for one in json.loads(to.read_text("utf-8"))["features"]:
            points.setdefault(one["properties"]["id"], []).append(one["properties"])
        names = names_of(pages.engine.program, out)
        with_module(browser)
        most, count = 0.0, 0
        for (own, _), told in zip(names.items(), lays_of(browser, list(names.values()), FAMILY)):
            letters = points.get(own, [])
            must(
                told is not None and len(letters) == len(told[1]), f"{own}: a point for each letter"
            )
            for point, (text, x, y, angle) in zip(letters, told[1]):
                must(point["text"] == text and point["size"] == told[0], f"{own}: {point}, {text}")
                turned = (point["angle"] + math.degrees(angle) + 180) % 360 - 180
                off = max(
                    abs(point["dx"] - x), abs(point["dy"] + y), 12 * abs(math.radians(turned))
                )
                most, count = max(most, off), count + 1
    must(most <= MOST_APART and count > 300, f"export: {count} letters, {most:.3f} pixels apart")
    print(f"export: {count} letters, at most {most:.4f} pixels from where the page draws them")
