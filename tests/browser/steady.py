"""Names stay put while a map is dragged and zoomed: a picture at each of 30 steps, on both pages.

At each step the drawn names are compared with where their anchors are, reckoned from the page's
centre and zoom and the map's own coordinates; and the ink of each name, read from the picture's
pixels, with where that was in the step before. No name's centre moves by more than half a pixel
against its anchor, none changes its size, none is drawn that is not in the last reply, none twice,
and no two overlap.
"""
import math
import os
import socket
from collections.abc import Callable
from typing import Any

from chromium import Browser, Fault
from servers import Pages

Place = Callable[[dict[str, Any]], tuple[float, float]]
Taken = Callable[[int], None]

HALF = 0.5 + 1e-6
SETTLED = 'typeof page !== "undefined" && page.names.replies > 0 && !page.source.asking'

# Once the map stands still for three pictures, and no request is under way.
AT_REST = """(async () => {
  const frame = () => new Promise(done =>
    requestAnimationFrame(() => done(JSON.stringify(page.map.frame()))))
  for (let still = 0, last = ''; still < 3;) {
    const now = await frame()
    still = now === last && !page.source.asking && !page.map.isMoving() ? still + 1 : 0
    last = now
  } })()"""

# Pairs of names whose drawn boxes overlap.
OVERLAPS = """(() => {
  const all = page.names.drawn(), found = []
  all.forEach((a, k) => all.slice(k + 1).forEach(b => {
    if (a.boxes.some(p => b.boxes.some(q => a.x + p[0] < b.x + q[2] && b.x + q[0] < a.x + p[2] &&
        a.y - p[3] < b.y - q[1] && b.y - q[3] < a.y - p[1]))) found.push([a.text, b.text]) }))
  return { count: all.length, found } })()"""

# Of each name that lies within the canvas: its anchor's pixel, and the middle and the amount of the
# ink in its box, but where a dot or the halo of another name reaches into it.
INK = """(() => {
  const canvas = page.names.canvas, pen = canvas.getContext('2d', { willReadFrequently: true })
  const all = page.names.drawn()
  const near = (one, [l, b, r, t]) => all.some(o => o !== one && (
    o.x + 5 > one.x + l && o.x - 5 < one.x + r && o.y + 5 > one.y - t && o.y - 5 < one.y - b ||
    o.boxes.some(([L, B, R, T]) => o.x + R + 3 > one.x + l && o.x + L - 3 < one.x + r &&
      o.y - B + 3 > one.y - t && o.y - T - 3 < one.y - b)))
  return all.map(one => {
    const { id, x, y, at, boxes: [[l, b, r, t]], shift } = one
    const isCut = x + l < 0 || y - t < 0 || x + r > canvas.width || y - b > canvas.height
    if (isCut || near(one, [l, b, r, t])) return { id, x, y, at, shift }
    const { data } = pen.getImageData(x + l, y - t, r - l, t - b)
    let mass = 0, east = 0, south = 0
    for (let k = 3; k < data.length; k += 4) {
      const place = (k - 3) / 4
      mass += data[k]
      east += data[k] * (place % (r - l))
      south += data[k] * Math.floor(place / (r - l))
    }
    return { id, x, y, at, shift, mass, east: east / mass + l, south: south / mass - t }
  })
})()"""
MOMENT = (
    "({ at: AT, drawn: "
    + INK
    + ", known: page.names.pieces.flatMap(p => p.labels.map(l => l.id)), over: "
    + OVERLAPS
    + " })"
)


# The pixel of a place in the Bay of Biscay, where no name stands.
AT_SEA = """(({ x, y }) => [Math.round(x), Math.round(y)])(
  page.leaflet.latLngToContainerPoint([46, -5]))"""


def northing(latitude: float) -> float:
    return math.log(math.tan(math.pi / 4 + math.radians(latitude) / 2)) / (2 * math.pi)


class Watch:
    """What was seen of each name so far."""

    def __init__(self, where: str) -> None:
        self.where, self.names, self.most = where, 0, 0.0
        self.ink: dict[str, list[float]] = {}

    def look(self, browser: Browser, anchor: Any, step: int) -> None:
        """Looks at one moment: names that glide move on between two scripts."""
        seen = browser.tell(MOMENT.replace("AT", anchor.script, 1))
        drawn, known, anchor = seen["drawn"], set(seen["known"]), anchor(browser.size, *seen["at"])
        if over := seen["over"]["found"]:
            raise Fault(
                "%s, step %d: %d pairs of names overlap, first %s"
                % (self.where, step, len(over), over[0])
            )
        places = [(one["id"], one["shift"]) for one in drawn]
        if len(set(places)) < len(places):
            raise Fault("%s, step %d: a name is drawn twice" % (self.where, step))
        for one in drawn:
            if one["id"] not in known:
                raise Fault(
                    "%s, step %d: %s is drawn and not in the reply" % (self.where, step, one["id"])
                )
            x, y = anchor(one)
            off = max(abs(one["x"] - x), abs(one["y"] - y))
            self.most = max(self.most, off)
            if off > HALF:
                raise Fault(
                    "%s, step %d: %s is drawn %.2f pixels from its anchor"
                    % (self.where, step, one["id"], off)
                )
            if "mass" in one:
                ink = [one[part] for part in ("mass", "east", "south")]
                before = self.ink.setdefault(one["id"], ink)
                if one["mass"] == 0 or any(
                    abs(a - b) > 0.02 * max(1, abs(b) / 100) for a, b in zip(ink, before)
                ):
                    raise Fault(
                        "%s, step %d: the ink of %s was %s and is %s"
                        % (self.where, step, one["id"], before, ink)
                    )
        self.names += len(drawn)


class Plain:
    """The pixel of an anchor on the plain page, from the page's centre and scale."""

    script = "[page.map.u, -page.map.v, page.map.scale.value]"

    def __call__(self, size: tuple[int, int], cx: float, cy: float, s: float) -> Place:
        width, height = size
        return lambda one: (
            width / 2 + (one["at"][0] + one["shift"] * 3.6e9 - cx) / s,
            height / 2 - (one["at"][1] - cy) / s,
        )


class Mercator:
    """The pixel of an anchor on the Mercator page, from Leaflet's zoom and the place of its
    layers.
    """

    script = """(() => { const m = page.leaflet, o = m.getPixelOrigin(),
        p = new DOMMatrix(getComputedStyle(m.getPane('mapPane')).transform)
        return [m.getZoom(), o.x - p.e, o.y - p.f] })()"""

    def __call__(self, size: tuple[int, int], zoom: float, left: float, top: float) -> Place:
        world = 256 * 2**zoom
        return lambda one: (
            (0.5 + one["at"][0] / 3.6e9 + one["shift"]) * world - left,
            (0.5 - northing(one["at"][1] / 1e7)) * world - top,
        )


def drag(browser: Browser, watch: Watch, anchor: Any, picture: Taken) -> None:
    x, y = 900, 500
    browser.mouse("mousePressed", x, y, button="left", buttons=1, clickCount=1)
    for step in range(30):
        x, y = x - 17, y - 5 + step % 3
        browser.mouse("mouseMoved", x, y, button="left", buttons=1)
        browser.tell("new Promise(requestAnimationFrame)")
        picture(step)
        watch.look(browser, anchor, step)
    browser.mouse("mouseReleased", x, y, button="left", clickCount=1)


def zoom(browser: Browser, watch: Watch, anchor: Any, picture: Taken) -> None:
    for step in range(30):
        browser.wheel(700, 300, -23 if step < 15 else 31)
        browser.tell("new Promise(requestAnimationFrame)")
        picture(step)
        watch.look(browser, anchor, step)


def all_due(pages: Pages, browser: Browser) -> int:
    """The names of the plain page at rest are those that the engine has for its window."""
    browser.tell(AT_REST)
    (width, height), (cx, cy, s) = browser.size, browser.tell(
        "[Math.round(page.map.u), Math.round(-page.map.v), page.map.scale.text]"
    )
    path = f"/view?cx={cx}&cy={cy}&w={width - 4}&h={height - 4}&s={s}"
    due = {one["id"] for one in pages.ask(path)["labels"]}
    absent = due - set(browser.tell("page.names.drawn().map(one => one.id)"))
    if absent or not due:
        raise Fault(f"of {len(due)} names that are due at {path} {sorted(absent)} are not drawn")
    return len(due)


PAGES = (
    ("plain", "plain.html#cx=85000000&cy=468000000&s=500000", Plain()),
    ("mercator", "mercator.html#lat=48&lng=10&z=5", Mercator()),
)


def steady(pages: Pages, folder: str) -> None:
    for name, address, anchor in PAGES:
        with Browser() as browser:
            browser.open("%s/%s" % (pages.base, address))
            browser.wait(SETTLED, "the names have come")
            for what, act in (("drag", drag), ("zoom", zoom)):
                watch = Watch("%s, %s" % (name, what))
                watch.look(browser, anchor, -1)
                path = os.path.join(folder, "%s-%s-%%02d.png" % (name, what))
                act(browser, watch, anchor, lambda step: browser.picture(path % step))
                browser.wait(SETTLED, "the names have come")
                if name == "plain":
                    print(f"plain, after the {what}: {all_due(pages, browser)} names are due")
                print(
                    "%s, %s of 30 steps: %d names looked at, none further than %.3f pixels from its"
                    " anchor" % (name, what, watch.names, watch.most)
                )


def waiting(pages: Pages, folder: str) -> None:
    """While the server is held a map is zoomed out: names that end on the way go at once, and no
    two overlap.
    """
    for name, address, anchor in PAGES:
        with Browser() as browser:
            browser.open("%s/%s" % (pages.base, address))
            browser.wait(SETTLED, "the names have come")
            with socket.create_connection(("127.0.0.1", pages.engine.port)):
                watch = Watch("%s, waiting" % name)
                counts = []
                for step in range(16):
                    browser.wheel(640, 400, 40)
                    browser.tell("new Promise(requestAnimationFrame)")
                    watch.look(browser, anchor, step)
                    counts.append(browser.tell("page.names.placed.length"))
                browser.picture(os.path.join(folder, "%s-waiting.png" % name))
            browser.wait(SETTLED, "the names have come", 30)
            print(
                "%s, zoomed out 6-fold while the server was held: from %d names to %d, 0 overlaps"
                % (name, counts[0], counts[-1])
            )


def animated(pages: Pages, folder: str) -> None:
    """The zoom of Leaflet's button, which goes on by itself for a quarter of a second."""
    with Browser() as browser:
        browser.open("%s/mercator.html#lat=48&lng=10&z=5" % pages.base)
        browser.wait(SETTLED, "the names have come")
        looks = browser.tell(
            """(async () => {
            const icon = L.divIcon({ iconSize: [0, 0] })
            const pin = L.marker([48.85, 2.35], { icon }).addTo(page.leaflet)
            const [u, v] = page.plane.flatOf(23500000, 488500000), found = []
            document.querySelector('.leaflet-control-zoom-in').click()
            for (let k = 0; k < 40; k++) {
              await new Promise(requestAnimationFrame)
              const { k: scale, ox, oy } = page.map.frame()
              const box = pin.getElement().getBoundingClientRect()
              const x = scale * u + ox - box.left, y = scale * v + oy - box.top
              if (page.map.moving) found.push(Math.max(Math.abs(x), Math.abs(y)))
            }
            return found })()"""
        )
        if len(looks) < 3:
            raise Fault("the animation had %d pictures" % len(looks))
        if max(looks) > 3:
            raise Fault(
                "while Leaflet zooms, names are %.1f pixels from where its layers are" % max(looks)
            )
        print(
            "mercator, zoom by the button: %d pictures on the way, names at most %.1f pixels from a"
            " layer of Leaflet" % (len(looks), max(looks))
        )
