"""What a reader does: wheel and trackpad, double click, buttons, keys, clicks on names, touch, the
field that finds names.
"""
import os
import tempfile
import time

from chromium import Browser, Fault
from planes import points, style
from servers import Engine, Pages
from steady import SETTLED

# The place under a pixel, in the page's plane, and the zoom.
UNDER = """(() => { const f = page.map.frame(); return {
    u: (%d - f.ox) / f.k, v: (%d - f.oy) / f.k, k: f.k,
    zoom: Math.log2(page.plane.turn * f.k / 256) } })()"""
PAGES = (
    "plain.html?explain#cx=85000000&cy=468000000&s=500000",
    "mercator.html?explain#lat=48&lng=10&z=5",
)


# Whether the address tells the view as it stands.
TOLD = """(() => { const words = new URLSearchParams(location.hash.slice(1))
  return Object.entries(page.map.words()).every(([key, value]) => words.get(key) === `${value}`)
  })()"""
# A notch of the wheel: the zooms of the pictures that follow it.
NOTCH = """(async () => {
  const zoom = () => { const f = page.map.frame(); return Math.log2(page.plane.turn * f.k / 256) }
  const seen = [zoom()]
  page.element.dispatchEvent(new WheelEvent('wheel', { deltaY: -120, clientX: 700, clientY: 300,
    bubbles: true, cancelable: true }))
  for (let k = 0; k < 60; k++) {
    await new Promise(requestAnimationFrame)
    seen.push(zoom())
  }
  return seen })()"""


def opened(browser: Browser, pages: Pages, address: str) -> None:
    browser.open("%s/%s" % (pages.base, address))
    browser.wait(SETTLED, "the names have come")


def settled(browser: Browser) -> None:
    browser.tell("new Promise(requestAnimationFrame)")
    time.sleep(0.3)
    browser.wait(SETTLED + " && !page.map.isMoving()", "the names have come")


def must(condition: object, text: str) -> None:
    if not condition:
        raise Fault(text)


def wheel(pages: Pages, folder: str) -> None:
    """The wheel zooms by its amount about the pointer: a notch by less than 2, twenty small events
    by as much as one large one.
    """
    for address in PAGES:
        with Browser() as browser:
            opened(browser, pages, address)
            before = browser.tell(UNDER % (700, 300))
            browser.wheel(700, 300, -120)
            settled(browser)
            notch = browser.tell(UNDER % (700, 300))
            must(
                0.2 < notch["zoom"] - before["zoom"] < 1,
                "a notch of the wheel zoomed by %.2f" % (notch["zoom"] - before["zoom"]),
            )
            moved = max(abs(notch[part] - before[part]) for part in "uv") * notch["k"]
            must(moved < 1.5, "the wheel moved the place under the pointer by %.2f pixels" % moved)
            for _ in range(20):
                browser.wheel(700, 300, 6)
            settled(browser)
            after = browser.tell(UNDER % (700, 300))
            must(
                abs(after["zoom"] - before["zoom"]) < 0.01,
                "twenty events of 6 pixels did not undo one of 120: %s and %s" % (before, after),
            )
            steps = smooth_steps(browser)
            for _ in range(60):
                browser.wheel(700, 300, 300)
            settled(browser)
            must(browser.tell(UNDER % (0, 0))["zoom"] >= 0, "the wheel led out of the world")
            in_address(browser)
            print(
                "%s: a notch zooms by %.2f in %d pictures, at most %.3f in one, about the pointer"
                " within %.2f pixels"
                % (
                    address.split("?")[0],
                    notch["zoom"] - before["zoom"],
                    len(steps),
                    max(steps),
                    moved,
                )
            )


def in_address(browser: Browser) -> None:
    """The address tells the view, and opened anew it leads there again."""
    browser.wait(TOLD, "the address tells the view", 10)
    before, address = browser.tell("[page.map.words(), location.href]")
    browser.open(address)
    browser.wait(SETTLED, "the names have come")
    after = browser.tell("page.map.words()")
    must(before == after, f"the address of {before} leads to {after}")


def smooth_steps(browser: Browser) -> list[float]:
    """A notch goes on over several pictures, and none takes half of it. The smoothest of some is
    taken, since a machine with other work may leave out pictures.
    """
    best: list[float] = []
    for _ in range(8):
        seen = browser.tell(NOTCH)
        steps = [after - before for before, after in zip(seen, seen[1:]) if after != before]
        browser.wheel(700, 300, 120)
        settled(browser)
        if not best or max(steps) < max(best):
            best = steps
        if len(best) >= 5 and max(best) < 0.25:
            break
    told = ", ".join(f"{step:.3f}" for step in best)
    must(len(best) >= 5 and max(best) < 0.25, f"a notch of the wheel jumps by {told}")
    return best


def keys(pages: Pages, folder: str) -> None:
    """Arrows move, plus and minus zoom by one, double click and buttons too; none of it while a
    field has the keys.
    """
    for address in PAGES:
        with Browser() as browser:
            opened(browser, pages, address)
            start = browser.tell(UNDER % (640, 400))
            for name, part, sign in (
                ("Right", "u", 1),
                ("Left", "u", -1),
                ("Up", "v", -1),
                ("Down", "v", 1),
            ):
                before = browser.tell(UNDER % (640, 400))
                browser.key("Arrow" + name)
                settled(browser)
                after = browser.tell(UNDER % (640, 400))
                must(
                    abs((after[part] - before[part]) * after["k"] - 80 * sign) < 1,
                    "the key to the %s moved by %s" % (name, after),
                )
            for key, by in (("+", 1), ("-", -1)):
                before = browser.tell(UNDER % (640, 400))
                browser.key(key, key)
                settled(browser)
                after = browser.tell(UNDER % (640, 400))
                must(
                    abs(after["zoom"] - before["zoom"] - by) < 1e-6,
                    "the key %s did not zoom by %d" % (key, by),
                )
            browser.click(500, 330, count=2)
            settled(browser)
            must(
                abs(browser.tell(UNDER % (0, 0))["zoom"] - start["zoom"] - 1) < 1e-6,
                "a double click did not zoom by 1",
            )
            browser.click(29, 62)
            settled(browser)
            must(
                abs(browser.tell(UNDER % (0, 0))["zoom"] - start["zoom"]) < 1e-6,
                "the button did not zoom by -1",
            )
            browser.tell("page.panel.field.focus()")
            before = browser.tell(UNDER % (640, 400))
            browser.key("ArrowRight")
            settled(browser)
            must(browser.tell(UNDER % (640, 400)) == before, "a key for the field moved the map")
            print("%s: keys, double click and buttons" % address.split("?")[0])


def clicks(pages: Pages, folder: str) -> None:
    """A click on a name tells its id, its text, its end and what ends it."""
    for address in PAGES:
        with Browser() as browser:
            opened(browser, pages, address)
            prague = browser.tell("page.names.drawn().find(one => one.text === 'Prague')")
            browser.click(prague["x"], prague["y"] - 10)
            browser.wait("!page.panel.card.hidden", "a card about the name")
            text = browser.tell("page.panel.card.innerText")
            why = pages.ask("/why?id=%23160")
            for part in ("Prague", "#160", "Shown at this scale", why["blocker"]):
                must(part in text, "the card does not say %s: %s" % (part, text))
            browser.picture(os.path.join(folder, "click-%s.png" % address[:5]))
            browser.click(prague["x"] - 60, prague["y"] + 40)
            browser.wait("page.panel.card.hidden", "a click beside names closes the card")
            print(
                "%s: a click on Prague says: %s" % (address.split("?")[0], text.replace("\n", " "))
            )


def find(pages: Pages, folder: str) -> None:
    """The field finds a name by its letters, whatever their case and accents, with arrow keys; it
    goes there, at a scale that shows it, and tells no ids. With `?explain` it stays at the scale
    and says why the name is not shown.
    """
    found_by_readers(pages, folder)
    with Browser() as browser:
        opened(browser, pages, "mercator.html?explain#lat=0&lng=0&z=4")
        browser.click(1100, 30)
        browser.type_text("brati")
        browser.wait("page.panel.list.innerText.includes('Bratislava')", "Bratislava is found")
        browser.picture(os.path.join(folder, "find-list.png"))
        browser.key("Enter", "\r")
        browser.wait("!page.panel.card.hidden", "a card about Bratislava")
        text = browser.tell("page.panel.card.innerText")
        must("Not shown at this scale" in text and "Vienna" in text, "the card says: %s" % text)
        lat, lng = browser.tell("(c => [c.lat, c.lng])(page.leaflet.getCenter())")
        must(
            abs(lat - 48.15) < 0.1 and abs(lng - 17.12) < 0.1,
            "Bratislava was sought at %s, %s" % (lat, lng),
        )
        browser.picture(os.path.join(folder, "find-card.png"))
        browser.tell("page.panel.card.querySelector('button:last-child').click()")
        settled(browser)
        browser.wait(
            "page.names.drawn().some(one => one.text === 'Bratislava')", "Bratislava is shown"
        )
        browser.picture(os.path.join(folder, "find-shown.png"))
        print(
            "find: Bratislava is found, said to be behind Vienna, and shown at zoom %.2f"
            % browser.tell("page.leaflet.getZoom()")
        )
    with Browser() as browser:
        opened(browser, pages, "plain.html")
        browser.click(1100, 30)
        browser.type_text("no such name")
        browser.wait(
            "page.panel.list.innerText.includes('No name')", "the field says that there is none"
        )


def found_by_readers(pages: Pages, folder: str) -> None:
    with Browser() as browser:
        opened(browser, pages, "mercator.html#lat=0&lng=0&z=4")
        browser.click(1100, 30)
        browser.type_text("SAO")
        browser.wait(
            "page.panel.list.innerText.includes('S\u00e3o Paulo')",
            "S\u00e3o Paulo is found by its plain letters",
        )
        names = browser.tell("[...page.panel.list.children].map(item => item.innerText)")
        must(len(names) >= 2 and not any("#" in name for name in names), "found are %s" % names)
        for key, wanted in (
            ("ArrowDown", 0),
            ("ArrowDown", 1),
            ("ArrowUp", 0),
            ("ArrowUp", len(names) - 1),
            ("ArrowDown", 0),
        ):
            browser.key(key)
            marked = browser.tell(
                "[...page.panel.list.children].findIndex(item => item.getAttribute('aria-selected')"
                " === 'true')"
            )
            active = browser.tell(
                "document.getElementById("
                "page.panel.field.getAttribute('aria-activedescendant'))?.innerText"
            )
            must(
                marked == wanted and active == names[wanted],
                "after %s the mark is at %s, %s" % (key, marked, active),
            )
        browser.key("Enter", "\r")
        browser.wait("!page.panel.card.hidden", "a card")
        text = browser.tell("page.panel.card.innerText")
        must(
            names[0].split(" ")[0] in text and "#" not in text and "scale" not in text,
            "the card says: %s" % text,
        )
        settled(browser)
        chosen = browser.tell("page.panel.card.querySelector('h2').innerText")
        browser.wait(
            "page.names.drawn().some(one => one.text === '%s')" % chosen, "the name is shown", 10
        )
        print("find: S\u00e3o Paulo by SAO, chosen with arrows, shown without ids")


def heard(pages: Pages, folder: str) -> None:
    """The map is labelled, and what is shown stands in the accessibility tree, anew once the map
    rests.
    """
    for address in (
        "plain.html#cx=85000000&cy=468000000&s=500000",
        "mercator.html#lat=48&lng=10&z=5",
    ):
        with Browser() as browser:
            opened(browser, pages, address)
            for _ in range(2):
                browser.wait(
                    (
                        "JSON.stringify([...page.list.element.children].map(item =>"
                        " item.textContent)) === JSON.stringify([...new"
                        " Set(page.names.drawn().map(one => one.text))])"
                    ),
                    "the list is as the map",
                )
                drawn = set(browser.tell("page.names.drawn().map(one => one.text)"))
                names, told = tree(browser)
                must(drawn and drawn <= told, "not to be heard: %s" % sorted(drawn - told)[:5])
                must(
                    ("region", browser.tell("document.title")) in names,
                    "the map is not labelled: %s" % sorted(names)[:20],
                )
                must(
                    ("combobox", "Find a name") in names and ("list", "Names on the map") in names,
                    "the tree has %s" % sorted(names)[:20],
                )
                browser.key("ArrowRight")
                browser.wheel(640, 400, -200)
                settled(browser)
            print("%s: %d names in the accessibility tree" % (address.split("#")[0], len(drawn)))


def tree(browser: Browser) -> tuple[set[tuple[str, str]], set[str]]:
    """Roles with names, and all names, of Chromium's accessibility tree."""
    nodes = browser.call("Accessibility.getFullAXTree")["nodes"]
    seen = [one for one in nodes if not one.get("ignored")]
    names = [(one["role"]["value"], one.get("name", {}).get("value", "")) for one in seen]
    return set(names), {name for _, name in names}


# Milliseconds of script of each picture while a map is dragged, and what is drawn.
FRAMES = """(async () => {
  const times = [], draw = page.see.bind(page)
  page.see = (...words) => {
    const from = performance.now()
    draw(...words)
    times.push(performance.now() - from)
  }
  for (let k = 0; k < 60; k++) {
    page.map.move(k % 2 ? 7 : -9, k % 3 ? 5 : -7)
    await new Promise(requestAnimationFrame)
  }
  page.see = draw
  return { times, names: page.names.placed.length } })()"""
# Pictures of a map at rest: what is drawn anew in a second.
REST = """(async () => {
  let drawn = 0
  const own = page.names.draw.bind(page.names)
  page.names.draw = (...words) => { drawn++; own(...words) }
  await new Promise(done => setTimeout(done, 1500))
  page.names.draw = own
  return drawn })()"""


def script_at_rest(browser: Browser) -> float:
    """Seconds that the page's scripts take in two seconds."""

    def taken() -> float:
        told = browser.call("Performance.getMetrics")["metrics"]
        found: float = next(one["value"] for one in told if one["name"] == "ScriptDuration")
        return found

    browser.call("Performance.enable")
    before = taken()
    time.sleep(2)
    return taken() - before


def frames(pages: Pages, folder: str) -> None:
    """A picture at rest costs nothing; one while dragging, with 200 names, below 8 ms with half of
    a processor.
    """
    with tempfile.TemporaryDirectory() as made, Browser(1280, 800) as browser:
        towns, kinds = os.path.join(made, "towns.geojson"), os.path.join(made, "kinds.toml")
        points(towns, 20000)
        style(kinds)
        with Engine(pages.engine.program, None, kinds, towns) as engine, Pages(engine) as own:
            opened(browser, own, "mercator.html#lat=20&lng=20&z=5.3")
            settled(browser)
            must(browser.tell(REST) == 0, "a map at rest is drawn anew")
            rest = min(script_at_rest(browser) for _ in range(3))
            must(rest < 0.01, f"a map at rest takes {rest * 1000:.1f} ms of script in two seconds")
            browser.call("Emulation.setCPUThrottlingRate", rate=2)
            # The least of the rounds of two minutes, since the machine may have other work.
            best, until = float("inf"), time.monotonic() + 120
            while best >= 8 and time.monotonic() < until:
                told = browser.tell(FRAMES)
                best = min(sorted(told["times"])[len(told["times"]) // 2], best)
                settled(browser)
            must(told["names"] >= 200, "only %d names are drawn" % told["names"])
            must(best < 8, "a picture of %d names takes %.1f ms" % (told["names"], best))
            print(
                "frames: at rest none is drawn, and there are %.1f ms of script in two seconds;"
                " %d names are drawn in %.1f ms, with half of a processor"
                % (rest * 1000, told["names"], best)
            )


def touch(pages: Pages, folder: str) -> None:
    """A phone of 390 by 844: a finger drags, two fingers zoom about their middle, a tap tells of a
    name.
    """
    for address in PAGES:
        with Browser(390, 844, touch=True) as browser:
            opened(browser, pages, address)
            before = browser.tell(UNDER % (200, 500))
            browser.fingers("touchStart", (200, 500))
            for step in range(1, 11):
                browser.fingers("touchMove", (200 - 8 * step, 500 - 5 * step))
            browser.fingers("touchEnd")
            time.sleep(0.7)
            settled(browser)
            after = browser.tell(UNDER % (120, 450))
            moved = max(abs(after[part] - before[part]) for part in "uv") * after["k"]
            must(moved < 12, "a finger left its place by %.1f pixels" % moved)
            before = browser.tell(UNDER % (200, 400))
            browser.fingers("touchStart", (180, 400), (220, 400))
            for step in range(1, 11):
                browser.fingers("touchMove", (180 - 6 * step, 400), (220 + 6 * step, 400))
                browser.tell("new Promise(requestAnimationFrame)")
            browser.picture(os.path.join(folder, "pinch-%s.png" % address[:5]))
            browser.fingers("touchEnd")
            settled(browser)
            after = browser.tell(UNDER % (200, 400))
            nearer = after["zoom"] - before["zoom"]
            must(1.5 < nearer < 2.2, "a pinch of 40 to 160 pixels zoomed by %.2f" % nearer)
            moved = max(abs(after[part] - before[part]) for part in "uv") * after["k"]
            must(moved < 8, "the pinch moved its middle by %.1f pixels" % moved)
            wide = browser.tell("document.documentElement.scrollWidth")
            must(wide <= 390, "the page is %d pixels wide" % wide)
            name = browser.tell(
                "page.names.drawn().find(o => o.x > 60 && o.x < 330 && o.y > 150 && o.y < 600)"
            )
            left, bottom, right, top = name["boxes"][0]
            browser.fingers(
                "touchStart", (name["x"] + (left + right) // 2, name["y"] - (bottom + top) // 2)
            )
            browser.fingers("touchEnd")
            browser.wait("!page.panel.card.hidden", "a tap tells of a name")
            browser.picture(os.path.join(folder, "phone-%s.png" % address[:5]))
            print(
                "%s at 390 by 844: drag, pinch by %.2f, tap on %s"
                % (address.split("?")[0], nearer, name["text"])
            )
