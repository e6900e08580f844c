"""Sites of `web/export --site`: served as files alone, names steady and apart while one moves, and
a large one small to load.
"""

import json
import random
import subprocess
import tempfile
from pathlib import Path
from typing import Any

from chromium import Browser, Fault
from maplabel_kit.files import write_whole
from planes import in_two_ways, style
from servers import STYLE, WEB, WORLD, Files, Pages
from steady import AT_REST, OVERLAPS, Mercator, Watch, drag, zoom

SHOWN = 'typeof page !== "undefined" && page && page.names.replies > 0 && !page.source.asking'
# Bytes over the network until the names were drawn.
LOADED = """performance.getEntriesByType('resource')
  .filter(one => one.responseEnd <= window.shownAt)
  .reduce((sum, one) => sum + one.transferSize, 0) +
  performance.getEntriesByType('navigation')[0].transferSize"""
LIMIT = 200_000


def make_site(program: str, folder: Path, *words: object) -> str:
    """Makes a site, and gives back what is said of it."""
    command = [WEB / "export", "--program", program, "--site", folder, *words]
    done = subprocess.run([str(word) for word in command], capture_output=True, check=False)
    if done.returncode:
        raise Fault(f"web/export --site: {done.stderr.decode()}")
    return done.stdout.decode()


class Projected(Mercator):
    """The pixel of an anchor of a site, whose engine's plane is Web Mercator."""

    def __call__(self, size: Any, z: float, left: float, top: float) -> Any:
        world = 256 * 2**z
        return lambda one: (
            (0.5 + one["at"][0] / 1.8e9 + one["shift"]) * world - left,
            (0.5 - one["at"][1] / 1.8e9) * world - top,
        )


def site(pages: Pages, folder: str) -> None:
    """The sample as a site: what it tells, and names that stay put while it is dragged and
    zoomed.
    """
    with tempfile.TemporaryDirectory() as made:
        own = Path(made, "site")
        said = make_site(
            pages.engine.program,
            own,
            "--title",
            "Cities <& countries>",
            "--attribution",
            "Natural Earth",
            "--zooms",
            "2-8",
            "--tell",
            "pop_est",
            STYLE,
            WORLD,
        )
        if "420 names" not in said:
            raise Fault(f"a site of the sample is told as: {said}")
        _files(own)
        with Files(own) as served, Browser() as browser:
            browser.open(f"{served.base}/index.html#lat=48&lng=10&z=5")
            browser.wait(SHOWN, "the names have come")
            _furniture(browser)
            for what, act in (("drag", drag), ("zoom", zoom)):
                watch = Watch(f"site, {what}")
                anchor = Projected()
                watch.look(browser, anchor, -1)
                path = f"{folder}/site-{what}-%02d.png"
                act(browser, watch, anchor, lambda step: browser.picture(path % step))
                browser.wait(SHOWN, "the names have come")
                print(
                    f"site, {what} of 30 steps: {watch.names} names, at most"
                    f" {watch.most:.3f} pixels off"
                )
            _limits(browser)
            _found(browser)
            if browser.heard:
                raise Fault(f"a site says in its console: {browser.heard}")
        again = make_site(pages.engine.program, own, STYLE, WORLD)
        if "420 names" not in again:
            raise Fault(f"a site in the place of one is told as: {again}")
        _kept(pages.engine.program, Path(made))
    _same_names(pages, folder)


def _files(own: Path) -> None:
    """All paths are relative, and beside each text stands its packed form."""
    page = (own / "index.html").read_text(encoding="utf-8")
    if "Cities &lt;&amp; countries&gt;" not in page or '="/' in page or "<& countries" in page:
        raise Fault("the page of a site is not as it should be")
    for path in own.rglob("*"):
        if path.suffix in (".js", ".css", ".json") and path.stat().st_size > 1000:
            if not path.with_name(path.name + ".gz").exists():
                raise Fault(f"{path} has no packed form")


def _furniture(browser: Browser) -> None:
    """Title, attribution and scale bar."""
    title, credit, scale = browser.tell(
        "[document.title, document.querySelector('.leaflet-control-attribution').innerText,"
        " document.querySelector('.ml-scale').innerText]"
    )
    if title != "Cities <& countries>" or "Natural Earth" not in credit or scale != "200 km":
        raise Fault(f"a site shows the title {title}, the credit {credit}, the scale {scale}")
    # At zoom 5 and 48 degrees north a pixel is 3,274 metres: 61 of them are 200 km.
    wide = browser.tell("document.querySelector('.ml-length').getBoundingClientRect().width")
    if abs(wide - 61) > 3:
        raise Fault(f"the bar of 200 km is {wide} pixels wide")


def _limits(browser: Browser) -> None:
    """The zooms that were told bound what one can go to."""
    browser.tell("page.leaflet.setView([48, 10], 4, { animate: false }); void 0")
    for _ in range(12):
        browser.wheel(600, 400, 300)
    browser.tell(AT_REST)
    least = browser.tell("page.leaflet.getZoom()")
    if abs(least - 2) > 0.001:
        raise Fault(f"the least zoom is {least}")


def _found(browser: Browser) -> None:
    browser.click(1100, 30)
    browser.type_text("brati")
    browser.wait("page.panel.list.innerText.includes('Bratislava')", "Bratislava is found")
    browser.key("Enter", "\r")
    browser.wait("page.names.drawn().some(one => one.text === 'Bratislava')", "Bratislava is shown")
    browser.wait("!page.panel.card.hidden", "a card")
    text = browser.tell("page.panel.card.innerText")
    if "Bratislava" not in text or "pop_est: " not in text or "#" in text:
        raise Fault(f"the card of a site says: {text}")


def _kept(program: str, made: Path) -> None:
    """A folder of something else is not written over."""
    other = made / "other"
    other.mkdir()
    (other / "letter.txt").write_text("mine", encoding="utf-8")
    command: list[str | Path] = [WEB / "export", "--program", program, "--site"]
    command += [other, STYLE, WORLD]
    done = subprocess.run(command, capture_output=True, check=False)
    if done.returncode != 1 or [one.name for one in other.iterdir()] != ["letter.txt"]:
        raise Fault(f"a folder of something else was answered with {done}")


def _same_names(pages: Pages, _folder: str) -> None:
    """The names of a site in 60 views are those of the engine over the projected map."""

    dice, looked = random.Random(4), 0
    with tempfile.TemporaryDirectory() as made:
        own = Path(made, "site")
        make_site(pages.engine.program, own, STYLE, WORLD)
        for way, served in in_two_ways(pages, made, STYLE, WORLD):
            if way == "degrees":
                continue
            with Files(own) as files, Browser() as one, Browser() as other:
                one.open(f"{files.base}/index.html#lat=48&lng=10&z=5")
                other.open(f"{served.base}/mercator.html#lat=48&lng=10&z=5&way=projected&land=no")
                one.wait(SHOWN, "the site has names")
                other.wait(SHOWN, "the server has names")
                for _ in range(30):
                    view = [dice.uniform(-50, 65), dice.uniform(-170, 170)], dice.uniform(2, 8)
                    names = []
                    for browser in (one, other):
                        browser.tell(
                            "page.leaflet.setView(%s, %s, { animate: false }); void 0" % view
                        )
                        browser.tell(AT_REST)
                        names.append(
                            sorted(
                                browser.tell(
                                    "page.names.drawn().map(n => n.id + ' ' + n.shift + ' ' + n.x +"
                                    " ' ' + n.y)"
                                )
                            )
                        )
                        if over := browser.tell(OVERLAPS)["found"]:
                            raise Fault(f"at {view} overlap {over}")
                    if names[0] != names[1]:
                        raise Fault(
                            f"at {view} the site draws {names[0][:5]}, the server {names[1][:5]}"
                        )
                    looked += len(names[0])
    print(f"site: {looked} names in 30 views are drawn where a served map has them, 0 overlaps")


def large(pages: Pages, folder: str) -> None:
    """A site of 30,000 names loads less than 200,000 bytes before it shows, of a host that packs
    nothing.
    """
    dice, features = random.Random(11), []
    for number in range(30_000):
        name = "".join(
            dice.choice("abcdefghiklmnoprstuvw") for _ in range(dice.randint(4, 12))
        ).title()
        place = [round(dice.uniform(-10, 30), 5), round(dice.uniform(38, 67), 5)]
        geometry = {"type": "Point", "coordinates": place}
        properties = {"name": name, "pop": dice.randrange(1_000_000)}
        features.append(
            {"type": "Feature", "id": f"n{number}", "properties": properties, "geometry": geometry}
        )
    with tempfile.TemporaryDirectory() as made, Browser() as browser:
        towns, kinds = Path(made, "towns.geojson"), Path(made, "kinds.toml")
        write_whole({towns: json.dumps({"type": "FeatureCollection", "features": features})})
        style(kinds)
        said = make_site(pages.engine.program, Path(made, "site"), "--zooms", "3-14", kinds, towns)
        with Files(Path(made, "site")) as served:
            browser.call(
                "Page.addScriptToEvaluateOnNewDocument",
                source=(
                    "(() => { const look = () => { try { if (page.names.placed.length) {"
                    " window.shownAt = performance.now(); return } } catch {}"
                    " requestAnimationFrame(look) }; requestAnimationFrame(look) })()"
                ),
            )
            browser.open(served.base + "/index.html")
            browser.wait("window.shownAt > 0 && !page.source.asking", "the names have come")
            loaded, count = browser.tell(LOADED), browser.tell(OVERLAPS)
            browser.picture(f"{folder}/large-site.png")
            if not 50_000 < loaded < LIMIT or count["count"] < 100 or count["found"]:
                raise Fault(f"{loaded} bytes are loaded before {count['count']} names show")
            watch = Watch("large site, zoom")
            zoom(browser, watch, Projected(), lambda step: None)
        print(
            f"large site: {said.splitlines()[0].split(': ')[1]} {loaded:,} bytes before"
            f" {count['count']} names show; {watch.names} names in a zoom of 30 steps, at most"
            f" {watch.most:.3f} pixels off"
        )
