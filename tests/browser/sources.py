"""What a layer may be given beside a server: the names of a site, a file of points by its address,
and the value in it; the same without Leaflet. And what a site stands on: tiles with their credit,
and nginx as the host of its files.
"""

import struct
import tempfile
import zlib
from pathlib import Path

from chromium import Browser, Fault
from files import export
from maplabel_kit.files import write_whole
from planes import project
from servers import STYLE, WORLD, Files, Pages, StaticNginx
from site_pages import SHOWN, make_site
from steady import AT_REST, AT_SEA, OVERLAPS

PAGE = """<!DOCTYPE html><html lang="en"><head><meta charset="utf-8"><title>Sources</title>
<link rel="stylesheet" href="leaflet/leaflet.css"><link rel="stylesheet" href="maplabel.css">
<style>div.map { width: 700px; height: 380px }</style></head><body>
<div id="pieces" class="map"></div><div id="points" class="map"></div>
<div id="value" class="map"></div><div id="bare" class="map"></div>
<script src="leaflet/leaflet.js"></script><script src="maplabel.js"></script>
<script>
const named = name => document.getElementById(name)
const options = { attribution: 'Natural <b>Earth</b>', properties: [] }, heard = []
const over = (id, source) => {
  const map = L.map(id, { center: [48, 10], zoom: 5, zoomSnap: 0, zoomAnimation: false })
  const chosen = label => heard.push([id, label.text])
  return L.maplabel(source, { ...options, chosen }).addTo(map)
}
const layers = { pieces: over('pieces', 'names/index.json'), points: over('points', 'p.geojson') }
const before = named('bare').outerHTML, view = [48, 10, 5]
let bare
fetch('p.geojson').then(reply => reply.json())
  .then(value => { layers.value = over('value', value) })
maplabel.onElement(named('bare'), 'names/index.json', { ...options, panel: false, view })
  .then(made => { bare = made })
const viewers = () => [layers.pieces, layers.points, layers.value, bare].map(one => one?.viewer)
</script></body></html>"""
NAMES = """viewers().map(one => one.names.drawn()
  .map(({ id, text, x, y }) => [id + ' ' + text, x, y])
  .sort((a, b) => a[0] < b[0] ? -1 : 1))"""
HAVE = "viewers().every(one => one?.names.replies > 0 && !one.source.asking)"
CREDITS = """['pieces', 'points', 'value', 'bare'].map(id => [...document.querySelectorAll(
  `#${id} .leaflet-control-attribution, #${id} .ml-credit`)]
  .filter(one => one.offsetWidth).map(one => one.innerText).join('; '))"""
# Sea and land of the README's pictures: a file of points has no areas.
SEA, LAND = "rgb(214, 228, 236)", "rgb(244, 241, 232)"
BACKGROUNDS = "viewers().map(one => getComputedStyle(one.ground).backgroundColor)"
MOVED = """(() => { const before = bare.viewer.map.u
  bare.viewer.map.move(-100, 0); return bare.viewer.map.u > before })()"""
TILES = """[...document.querySelectorAll('img.leaflet-tile')]
  .filter(one => one.complete && one.naturalWidth === 256).length"""
TILE = (190, 205, 150)


def _must(condition: object, text: str) -> None:
    if not condition:
        raise Fault(text)


def sources(pages: Pages, folder: str) -> None:
    """The same names of each source, in four maps on a page."""
    with tempfile.TemporaryDirectory() as made, Browser(720, 1600) as browser:
        own, program = Path(made, "site"), pages.engine.program
        make_site(program, own, STYLE, WORLD)
        flat, halves = Path(made, "flat.geojson"), Path(made, "flat.toml")
        project(WORLD, flat)
        project("--style", STYLE, halves)
        export(program, "--projected", halves, flat, own / "p.geojson")
        write_whole({own / "sources.html": PAGE})
        with Files(own) as served:
            browser.open(served.base + "/sources.html")
            browser.wait(HAVE, "all four maps have names")
            names = browser.tell(NAMES)
            browser.picture(f"{folder}/sources.png")
            for what, found in zip(("points", "value", "bare"), names[1:]):
                odd = [one for one, other in zip(names[0], found) if not _is_same(one, other)]
                is_same = len(found) == len(names[0]) > 20 and not odd
                _must(is_same, f"{what}: {len(found)} names are drawn elsewhere: {odd[:3]}")
            for number in range(4):
                over = browser.tell(f"(page => {OVERLAPS})(viewers()[{number}])")["found"]
                _must(not over, f"in map {number} overlap {over}")
            beneath = browser.tell(BACKGROUNDS)
            wanted = [SEA, LAND, LAND, SEA]
            _must(beneath == wanted, f"beneath names with and without areas lies {beneath}")
            credits = browser.tell(CREDITS)
            is_credited = all("Natural Earth" in one and one.count("Earth") == 1 for one in credits)
            _must(is_credited, f"the attributions of the maps are {credits}")
            _clicked(browser)
            _taken_away(browser)
            uncaught = [one for one in browser.heard if "uncaught" in one]
            _must(not uncaught, f"the page does not catch {uncaught}")
        print(f"sources: {len(names[0])} names of pieces, points, a value, and without Leaflet")


def _is_same(one: tuple[str, float, float], other: tuple[str, float, float]) -> bool:
    """Whether a name is drawn at one place, but for a pixel: Leaflet's middle is a whole one."""
    return one[0] == other[0] and abs(one[1] - other[1]) <= 1 and abs(one[2] - other[2]) <= 1


def _clicked(browser: Browser) -> None:
    """An author hears of a click on a name."""
    x, y = browser.tell(
        "(() => { const one = layers.points.viewer.names.drawn().find(one => one.text === 'Prague')"
        "\n const box = document.getElementById('points').getBoundingClientRect()"
        "\n return [box.left + one.x, box.top + one.y - 8] })()"
    )
    browser.click(x, y)
    browser.wait("heard.length > 0", "the author hears of a click", 5)
    heard = browser.tell("heard")
    _must(heard == [["points", "Prague"]], f"the author hears {heard}")


def _taken_away(browser: Browser) -> None:
    """A map without Leaflet moves, and leaves its element as it was."""
    _must(browser.tell(MOVED), "the map without Leaflet does not move")
    browser.tell("bare.remove()")
    left = browser.tell("[document.getElementById('bare').outerHTML, before]")
    _must(left[0] == left[1], f"a map without Leaflet that was removed leaves {left[0][:300]}")


def _png(colour: tuple[int, int, int]) -> bytes:
    """A picture of 256 by 256 pixels of one colour."""

    def part(kind: bytes, data: bytes) -> bytes:
        told = zlib.crc32(kind + data).to_bytes(4, "big")
        return len(data).to_bytes(4, "big") + kind + data + told

    head = struct.pack(">IIBBBBB", 256, 256, 8, 2, 0, 0, 0)
    rows = (b"\0" + bytes(colour) * 256) * 256
    parts = part(b"IHDR", head) + part(b"IDAT", zlib.compress(rows)) + part(b"IEND", b"")
    return b"\x89PNG\r\n\x1a\n" + parts


def beneath(pages: Pages, folder: str) -> None:
    """A site over tiles: they lie beneath the names in the place of outlines, with their credit."""
    with tempfile.TemporaryDirectory() as made, Browser(900, 600) as browser:
        own = Path(made, "site")
        credit = 'Tiles of <a href="https://example.org">someone</a>'
        options = ("--tiles", "tiles/{z}-{x}-{y}.png", "--credit", credit, "--attribution", "Own")
        make_site(pages.engine.program, own, *options, STYLE, WORLD)
        (own / "tiles").mkdir()
        for z in range(4, 7):
            for x in range(2**z):
                for y in range(2**z):
                    if abs(x / 2**z - 0.53) < 0.1 and abs(y / 2**z - 0.35) < 0.1:
                        (own / "tiles" / f"{z}-{x}-{y}.png").write_bytes(_png(TILE))
        with Files(own) as served:
            browser.open(served.base + "/index.html#lat=48&lng=10&z=5")
            browser.wait(SHOWN, "the names have come")
            browser.wait(TILES + " >= 4", "the tiles have come")
            browser.tell(AT_REST)
            over = browser.tell(OVERLAPS)
            _must(over["count"] > 20 and not over["found"], f"over tiles are drawn {over}")
            browser.tell("new Promise(done => setTimeout(done, 600))")  # tiles come softly
            seen = browser.colour(*browser.tell(AT_SEA))
            _must(seen == TILE, f"the tile beneath is {seen}, and not {TILE}")
            said = browser.tell("document.querySelector('.leaflet-control-attribution').innerText")
            _must("Tiles of someone" in said and "Own" in said, f"over tiles is credited: {said}")
            _must(not browser.tell("page.hasOutlines"), "outlines are drawn over tiles")
            browser.picture(f"{folder}/tiles.png")
        print(f"tiles: {over['count']} names over tiles, which are credited")


def hosted(pages: Pages, folder: str) -> None:
    """nginx with `gzip_static on` serves a site as any other folder: no file of it is fetched
    twice, and what is packed is sent packed.
    """
    with tempfile.TemporaryDirectory() as made, Browser(900, 600) as browser:
        own = Path(made, "site")
        make_site(pages.engine.program, own, STYLE, WORLD)
        Path(made).chmod(0o755)
        with StaticNginx(own) as served:
            browser.open(served.base + "/#lat=48&lng=10&z=5")
            browser.wait(SHOWN + " && !!page.shapes", "the names have come")
            over = browser.tell(OVERLAPS)
            _must(over["count"] > 20 and not over["found"], f"behind nginx are drawn {over}")
            told = browser.tell(
                "performance.getEntriesByType('resource').map(one => [one.name,"
                " one.encodedBodySize, one.responseStatus])"
            )
            browser.picture(f"{folder}/hosted.png")
        names = [name.removesuffix(".gz") for name, _, _ in told]
        _must(len(set(names)) == len(names), f"a file is fetched twice: {sorted(names)}")
        for name, size, status in told:
            file = own / name.split("/", 3)[3]
            packed = file if file.suffix == ".gz" else file.with_name(file.name + ".gz")
            if packed.exists():
                _must(status == 200 and size <= packed.stat().st_size, f"{name} took {size} bytes")
        print(f"nginx: {len(told)} files of a site, {sum(size for _, size, _ in told):,} bytes")
