"""Names as a layer: in an article, several maps on a page, taken away again; on a canvas without
Leaflet; how names and outlines look by class.
"""

import json
import tempfile
from pathlib import Path
from typing import Any

from chromium import Browser, Fault
from maplabel_kit.files import write_whole
from servers import Engine, Pages
from steady import OVERLAPS

ARTICLE = """<!DOCTYPE html><html lang="en"><head><meta charset="utf-8"><title>An article</title>
<link rel="stylesheet" href="BASE/leaflet/leaflet.css">
<link rel="stylesheet" href="BASE/maplabel.css">
<style>body { font: 16px/1.6 serif; margin: 40px auto; width: 640px }
.map { width: 600px; height: 300px; margin: 20px 0 }</style></head>
<body><h1>Rivers and towns</h1><p>The first map shows the middle of Europe.</p>
<div id="a" class="map"></div>
<p>LONG</p><div id="b" class="map"></div><p>LONG</p>
<script src="BASE/leaflet/leaflet.js"></script><script src="BASE/maplabel.js"></script>
<script>
const open = (id, lat, lng, zoom, options) => {
  const map = L.map(id, { center: [lat, lng], zoom, zoomSnap: 0, zoomAnimation: false })
  return { map, layer: L.maplabel('BASE', options).addTo(map) }
}
const a = open('a', 48, 10, 5,
  { title: 'Central Europe', attribution: 'Natural Earth', smooth: true, shy: true })
const b = open('b', 40, -95, 4, { title: 'North America', panel: false })
</script></body></html>"""
LONG = "This text goes on so that the page is longer than the window. " * 40
BOTH = "[a, b].every(one => one.layer.viewer && one.layer.viewer.names.replies > 0)"

# What a layer could leave: elements, classes and attributes of the map, listeners of Leaflet,
# focus.
LEFT = """(map => ({ html: map.getContainer().cloneNode(false).outerHTML,
  below: map.getContainer().querySelectorAll('*').length,
  heard: Object.entries(map._events).map(([kind, list]) => kind + ' ' + list.length)
    .filter(one => !one.endsWith(' 0')).sort(),
  wheel: map.scrollWheelZoom.enabled(), keys: map.keyboard.enabled(),
  credit: map.attributionControl.getContainer().innerText,
  }))(%s)"""


def _must(condition: object, text: str) -> None:
    if not condition:
        raise Fault(text)


def _opened(browser: Browser, pages: Pages) -> None:
    """An article of another origin would not be let read, so it stands beside the pages."""
    text = ARTICLE.replace("BASE", "").replace("LONG", LONG)
    text = text.replace("L.maplabel(''", "L.maplabel(location.origin")
    browser.open(pages.base + "/plain.html#land=no&poll=no")
    browser.tell(f"document.open(); document.write({json.dumps(text)}); document.close()")
    browser.wait("!!(window.a && a.layer && b.layer)", "the article is there")
    browser.wait(BOTH, "both maps have names")


def plugin(pages: Pages, folder: str) -> None:
    """Two maps in an article: they keep to their places, the article scrolls, keys go to the map
    with the focus, and a layer that is taken away leaves nothing.
    """
    with Browser(900, 700) as browser:
        _opened(browser, pages)
        browser.picture(f"{folder}/article.png")
        for one in ("a", "b"):
            over = browser.tell(f"(page => {OVERLAPS})({one}.layer.viewer)")
            _must(over["count"] and not over["found"], f"map {one} in the article: {over}")
            inside = browser.tell(
                f"[...document.querySelectorAll('#{one} .ml-panel > *, #{one} canvas')].every(part"
                " => { const p = part.getBoundingClientRect(), q ="
                f" {one}.map.getContainer().getBoundingClientRect(); return !p.width || p.left >="
                " q.left - 1 && p.right <= q.right + 1 && p.top >= q.top - 1 && p.bottom <="
                " q.bottom + 1 })"
            )
            _must(inside, f"something of map {one} lies outside of it")
        fields = browser.tell(
            "[a, b].map(one => one.map.getContainer().querySelectorAll('input').length)"
        )
        _must(fields == [1, 0], f"the panels have {fields} fields")
        _scrolls(browser)
        _keys(browser)
        _leaves_nothing(browser)
        _must(not [one for one in browser.heard if "uncaught" in one], str(browser.heard))
        print("plugin: two maps in an article keep to their places; one taken away leaves nothing")


def _scrolls(browser: Browser) -> None:
    """The wheel scrolls the article, beside a map and over a shy one without the focus; over one
    that has it, it zooms.
    """
    before, middle = browser.tell("[a.map.getZoom(), a.map.getContainer().offsetTop + 150]")
    for y in (60, middle):
        browser.wheel(450, y, 400)
        browser.wait("window.scrollY > 100", f"the article scrolls by a wheel at {y}", 5)
        zoom = browser.tell("a.map.getZoom()")
        _must(zoom == before, "the map zoomed though the article was scrolled")
        browser.tell("scrollTo(0, 0)")
        browser.wait("window.scrollY === 0", "the article is at its top", 5)
    browser.tell("a.map.getContainer().focus({ preventScroll: true })")
    browser.wheel(450, middle, -120)
    browser.wait(f"a.map.getZoom() > {before} + 0.4", "the map with the focus zooms", 5)
    browser.wait("!a.layer.viewer.map.isMoving()", "the map rests", 5)
    _must(browser.tell("window.scrollY") == 0, "the article scrolled though the map zoomed")
    browser.tell("document.activeElement.blur()")


def _keys(browser: Browser) -> None:
    """Without focus an arrow is the article's; with focus it moves that map and no other."""
    script = "JSON.stringify([a.map.getCenter(), b.map.getCenter()])"
    before = json.loads(browser.tell(f"window.was = {script}"))
    browser.key("ArrowRight")
    browser.tell("new Promise(done => setTimeout(done, 400))")
    _must(json.loads(browser.tell(script)) == before, "a key moved a map that has no focus")
    browser.tell("b.map.getContainer().focus({ preventScroll: true })")
    browser.call(
        "Input.dispatchKeyEvent", type="keyDown", key="ArrowRight", windowsVirtualKeyCode=39
    )
    browser.call("Input.dispatchKeyEvent", type="keyUp", key="ArrowRight", windowsVirtualKeyCode=39)
    browser.wait(f"{script} !== was", "a key moves a map", 5)
    after = json.loads(browser.tell(script))
    _must(after[0] == before[0] and after[1] != before[1], f"a key moved {before} to {after}")


def _leaves_nothing(browser: Browser) -> None:
    browser.tell(
        "window.clean ="
        " L.map(document.body.appendChild(Object.assign(document.createElement('div'), { className:"
        " 'map', id: 'c' })), { center: [48, 10], zoom: 5, zoomAnimation: false }); void 0"
    )
    before = browser.tell(LEFT % "clean")
    for options in ({}, {"smooth": True, "attribution": "Someone"}):
        told = json.dumps(options)
        browser.tell(f"window.layer = L.maplabel(location.origin, {told}).addTo(clean); void 0")
        browser.wait("layer.viewer && layer.viewer.names.replies > 0", "the third map has names")
        asked = "layer.viewer.source"
        browser.tell(f"window.source = {asked}; layer.remove(); void 0")
        count = browser.tell("source.count")
        browser.tell(
            "clean.panBy([50, 0], { animate: false }); new Promise(done => setTimeout(done, 3500))"
        )
        after = browser.tell(LEFT % "clean")
        _must(after == before, f"a layer that was removed leaves {after}, before was {before}")
        _must(browser.tell("source.count") == count, "a source that has ended is still asked")


CANVAS = '<canvas id="c" style="width: 800px; height: 500px"></canvas>'


def canvas(pages: Pages, folder: str) -> None:
    """Without Leaflet names are drawn on a canvas that is given, over which its owner moves."""
    with Browser(800, 500) as browser:
        browser.open(pages.base + "/plain.html#land=no&poll=no")
        browser.tell(
            f"page = null; document.body.innerHTML = {json.dumps(CANVAS)}; page = new"
            " maplabel.CanvasNames(document.querySelector('canvas'), location.origin);"
            " window.before = document.querySelector('canvas').outerHTML; void 0"
        )
        browser.tell("page.show({ lng: 10, lat: 48, zoom: 5 })")
        browser.wait(
            "page.names && page.names.replies > 0 && page.names.drawn().length > 20",
            "names are drawn",
        )
        over = browser.tell(OVERLAPS)
        _must(over["count"] > 20 and not over["found"], f"on a canvas: {over}")
        prague = browser.tell("page.names.drawn().find(one => one.text === 'Prague')")
        # By the definition of Web Mercator, a map of 8,192 pixels: Prague is 2 and a half degrees
        # north-east.
        x = 400 + (14.4641 - 10) / 360 * 8192
        _must(abs(prague["x"] - x) < 1, f"Prague is drawn at {prague['x']}, and belongs to {x}")
        browser.picture(f"{folder}/canvas.png")
        browser.tell("page.remove()")
        _must(
            browser.tell("document.querySelector('canvas').outerHTML === before"),
            "the canvas is another",
        )
        print(f"canvas: {over['count']} names on a canvas without Leaflet, 0 overlaps")


def _feature(own: str, form: str, coordinates: Any, **properties: object) -> dict[str, Any]:
    geometry = {"type": form, "coordinates": coordinates}
    return {"type": "Feature", "id": own, "properties": properties, "geometry": geometry}


# A lake stands behind the road and the town in the file, and a land behind all.
SHAPES = {
    "type": "FeatureCollection",
    "features": [
        _feature("p", "Point", [10, 48], name="Town", kind="city", people=5),
        _feature("r", "LineString", [[9.5, 48], [10.5, 48]], kind="road"),
        _feature(
            "l",
            "Polygon",
            [[[9.8, 47.9], [10.2, 47.9], [10.2, 48.1], [9.8, 48.1], [9.8, 47.9]]],
            kind="lake",
            name="Mere",
        ),
        _feature(
            "c",
            "Polygon",
            [[[9, 47.3], [11, 47.3], [11, 48.3], [9, 48.3], [9, 47.3]]],
            kind="country",
            name="Land",
        ),
    ],
}
SHAPE_STYLE = "\n".join(
    ["version = 2", "[fonts.serif]", "units = 1000", "default = 500"]
    + [
        f'[[class]]\ngeometry = "{kind}"\nkey = "kind"\nvalue = "{value}"\nfont = "serif"\nsize ='
        f' 12\npriority = {number}\nmin = "0"\nmax = "10000000"\n'
        + ("dy = 12\n" if kind == "point" else "")
        for number, (kind, value) in enumerate(
            (("point", "city"), ("area", "lake"), ("area", "country"))
        )
    ]
)


class _Shapes:
    """The pages over the small map of shapes."""

    def __init__(self, pages: Pages) -> None:
        self.folder = tempfile.TemporaryDirectory(prefix="maplabel-shapes-")
        self.style, self.map_file = Path(self.folder.name, "s.toml"), Path(
            self.folder.name, "m.geojson"
        )
        write_whole({self.style: SHAPE_STYLE, self.map_file: json.dumps(SHAPES)})
        self.engine = Engine(pages.engine.program, None, self.style, self.map_file)
        self.pages = Pages(self.engine, None, "--style", self.style)

    def __enter__(self) -> Pages:
        return self.pages

    def __exit__(self, *_: object) -> None:
        self.pages.end()
        self.engine.end()
        self.folder.cleanup()


SETTLED = "page && page.names.replies > 0 && !page.source.asking && page.shapes"


def classes(pages: Pages, folder: str) -> None:
    """`look` is given the class, the value, the kind and the properties; and an author's colours
    are drawn.
    """
    with _Shapes(pages) as own, Browser(600, 400) as browser:
        browser.open(own.base + "/mercator.html#lat=48&lng=10&z=8")
        browser.wait(SETTLED, "the names have come")
        known = browser.tell(
            "page.names.placed.map(({ label: { id, class: number, value, kind, properties } }) =>"
            " [id, number, value, kind, properties.people ?? null])"
        )
        wanted = [
            ["p", 0, "city", "point", 5],
            ["l", 1, "lake", "area", None],
            ["c", 2, "country", "area", None],
        ]
        _must(sorted(known) == sorted(wanted), f"what is known of names is {known}")
        dots = browser.tell(
            "page.names.placed.map(({ label }) => [label.id, page.lookOf(label).dot !== false])"
        )
        _must(dict(dots) == {"p": True, "l": False, "c": False}, f"dots are {dots}")
        colours = browser.tell(
            "Object.fromEntries(page.names.placed.map(({ label }) => [label.id,"
            " page.lookOf(label).colour]))"
        )
        _must(len(set(colours.values())) == 3, f"the three classes have the colours {colours}")
        browser.tell(
            "page.options.look = label => label.value === 'city' ? { colour: '#ff0000', halo:"
            " '#ffffff' } : {}; page.draw()"
        )
        red = browser.tell(
            "(() => { const { x, y, boxes: [[l, b, r, t]] } = page.names.placed.find(one =>"
            " one.label.id === 'p'); const { data } ="
            " page.names.canvas.getContext('2d').getImageData(x + l, y - t, r - l, t - b); let"
            " count = 0; for (let k = 0; k < data.length; k += 4) if (data[k + 3] > 200 && data[k]"
            " > 200 && data[k + 1] < 80) count++; return count })()"
        )
        _must(red > 10, f"an author's colour has {red} pixels")
        browser.click(500, 30)
        browser.type_text("mere")
        browser.wait("page.panel.list.innerText.includes('Mere')", "Mere is found")
        asked = browser.tell(
            "performance.getEntriesByType('resource').filter(one =>"
            " one.name.includes('/map?')).map(one => one.name)"
        )
        _must(
            len(asked) == 1 and asked[0].endswith("/map?rev=0"), f"the map was asked for as {asked}"
        )
        print("classes: class, value, kind and properties reach `look`; the map is asked for once")


# The colour in the middle of a pixel of the outlines, as of a page.
PIXEL = """(([x, y]) => {
  const { data } = page.ground.getContext('2d').getImageData(x, y, 1, 1)
  return [...data].slice(0, 3) })(
  (({ x, y }) => [Math.round(x), Math.round(y)])(page.leaflet.latLngToContainerPoint([%s, %s])))"""


def outlines(pages: Pages, folder: str) -> None:
    """Areas lie lowest, lines over them; colours go by class and are the author's to choose; land
    or sea lies beneath.
    """
    with _Shapes(pages) as own, Browser(600, 400) as browser:
        browser.open(own.base + "/mercator.html#lat=48&lng=10&z=8")
        browser.wait(SETTLED, "the outlines have come")
        light = browser.tell("maplabel.LIGHT.shapes")
        for place, what in (
            ((48.05, 10.0), light["lake"]["fill"]),
            ((47.5, 10.0), light["area"]["fill"]),
            ((48.0, 9.7), light["road"]["line"]),
        ):
            got = browser.tell(PIXEL % place)
            want = [int(what[k : k + 2], 16) for k in (1, 3, 5)]
            _must(
                max(abs(a - b) for a, b in zip(got, want)) < 30, f"at {place} is {got}, not {what}"
            )
        # The lake comes behind the road in the file, and lies under it.
        got = browser.tell(PIXEL % (48.0, 10.0))
        lake = [int(light["lake"]["fill"][k : k + 2], 16) for k in (1, 3, 5)]
        _must(max(abs(a - b) for a, b in zip(got, lake)) > 10, f"over the lake the road is {got}")
        kinds = browser.tell("page.shapes.map(shape => shape.kind)")
        _must(
            kinds == sorted(kinds, key=["area", "line", "point"].index),
            f"shapes are drawn as {kinds}",
        )
        browser.tell(
            "page.options.colours = { light: { sea: '#010203', shapes: { road: { line: '#ff0000',"
            " width: 4 } } } }; page.colours = { ...page.colours, sea: '#010203', shapes: {"
            " ...page.colours.shapes, road: { line: '#ff0000', width: 4 } } }; page.draw()"
        )
        _must(
            browser.tell(PIXEL % (48.0, 9.7)) == [255, 0, 0],
            "the author's colour of roads is not drawn",
        )
        _must(
            browser.tell("getComputedStyle(page.ground).backgroundColor") == "rgb(1, 2, 3)",
            "the sea is another",
        )
        browser.tell("page.options.background = 'land'; page.draw()")
        land = browser.tell("getComputedStyle(page.ground).backgroundColor")
        _must(land == "rgb(244, 241, 232)", f"the land beneath is {land}")
        browser.picture(f"{folder}/outlines.png")
        print("outlines: areas under lines, colours by class, land or sea beneath")
