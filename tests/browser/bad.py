"""Bad input: each is a sentence on the page, and no page is left without one."""

import json
import tempfile
from pathlib import Path
from typing import Any

from chromium import Browser, Fault
from maplabel_kit.files import write_whole
from servers import STYLE, WORLD, Engine, Files, Pages
from site_pages import SHOWN, make_site

NOTE = "page.panel.note.textContent"


def _town(own: str, name: str, x: float = 10, y: float = 48) -> dict[str, Any]:
    geometry = {"type": "Point", "coordinates": [x, y]}
    return {
        "type": "Feature",
        "id": own,
        "properties": {"name": name, "kind": "city"},
        "geometry": geometry,
    }


def _style(family: str, wide: int, kind: str = "point") -> str:
    advances = "\n".join(f'"{letter}" = {wide}' for letter in "abcdefghijklmnopqrstuvwxyz")
    return (
        f'version = 2\n[fonts.own]\nfamily = "{family}"\nunits = 1000\ndefault ='
        f' 500\n[fonts.own.advances]\n{advances}\n[[class]]\ngeometry = "{kind}"\nfont ='
        ' "own"\nsize = 14\npriority = 1\nmin = "0"\nmax = "20000000"\n'
    )


def _served(
    pages: Pages, made: Path, features: list[dict[str, Any]], style: str
) -> tuple[Engine, Pages]:
    map_file, style_file = made / "bad.geojson", made / "bad.toml"
    text = json.dumps({"type": "FeatureCollection", "features": features})
    write_whole({map_file: text, style_file: style})
    engine = Engine(pages.engine.program, None, style_file, map_file)
    return engine, Pages(engine, None, "--style", style_file)


def _told(browser: Browser, text: str) -> None:
    browser.wait(f"{NOTE}.includes({json.dumps(text)})", f"the page says: {text}")


def cut_off(pages: Pages, folder: str, made: Path) -> None:
    """An index, and a piece, that was cut off on its way; one that is not there; a file that is no
    export.
    """
    own = made / "site"
    make_site(pages.engine.program, own, "--zooms", "2-8", STYLE, WORLD)
    index, piece = own / "names" / "index.json", own / "names" / "n.json"
    whole, packed = index.read_bytes(), (own / "names" / "n.json.gz").read_bytes()
    with Files(own) as served:
        for data, text in (
            (whole[:2000], "names/index.json was cut off"),
            (b'{"type": "Topology"}', "names/index.json is no export of names"),
        ):
            index.write_bytes(data)
            _site_says(served, text, folder)
        index.unlink()
        _site_says(served, "status 404", folder)
        index.write_bytes(whole)
        (own / "names" / "n.json.gz").write_bytes(packed[: len(packed) // 2])
        _site_says(served, "names/n.json", folder)
        (own / "names" / "n.json.gz").unlink()
        piece.write_bytes(piece.read_bytes()[:500])
        _site_says(served, "was cut off", folder)
    print("bad: exports that are cut off, missing or of another form are told")


def _site_says(served: Files, text: str, folder: str) -> None:
    with Browser(900, 500) as browser:
        browser.open(served.base + "/index.html")
        browser.wait("typeof page !== 'undefined' && !!page", "the page is there")
        _told(browser, text)
        browser.picture(f"{folder}/bad-export.png")


def host_gone(pages: Pages, folder: str, made: Path) -> None:
    """A host of files that goes is told, with what is drawn kept; once it is back the page goes on
    by itself.
    """
    own = made / "site"
    make_site(pages.engine.program, own, STYLE, WORLD)
    with Browser(900, 500) as browser:
        with Files(own) as served:
            browser.open(served.base + "/index.html#lat=48&lng=10&z=3")
            browser.wait(SHOWN, "the names have come")
        browser.tell("page.source.names.clear(); page.source.fetched.clear(); void 0")
        browser.tell("page.leaflet.setView([48, 10], 6, { animate: false }); void 0")
        _told(browser, "does not answer: asked again in")
        kept = browser.tell("page.names.drawn().length")
        browser.picture(f"{folder}/bad-host.png")
        with Files(own, served.port):
            browser.wait(SHOWN + ' && page.source.state === "good"', "the page goes on", 40)
            _told(browser, "The server is back")
            back = browser.tell("page.names.drawn().map(one => one.text)")
    if not kept or "Vaduz" not in back:
        raise Fault(f"{kept} names stay while the host is gone, and then there are {back}")
    print(f"bad: a host of files that goes is told, {kept} names stay, and it goes on by itself")


def without_names(pages: Pages, folder: str, made: Path) -> None:
    engine, own = _served(pages, made, [_town("a", "")], _style("Liberation Serif", 500))
    with engine, own, Browser(900, 500) as browser:
        for address in ("mercator.html", "plain.html"):
            browser.open(f"{own.base}/{address}")
            browser.wait("typeof page !== 'undefined' && !!page", "the page is there")
            _told(browser, "This map has no names")
        site = made / "empty"
        make_site(pages.engine.program, site, made / "bad.toml", made / "bad.geojson")
        with Files(site) as served:
            _site_says(served, "This map has no names", folder)
    print("bad: a map without names is told, served and as a site")


def strange_ids(pages: Pages, folder: str, made: Path) -> None:
    """Ids and names with quotes and angle brackets are letters, and no code."""
    own, name = '<img src=x onerror="bad=1">\'&', '<b>O\'Neill & "sons"</b><script>bad=1</script>'
    engine, served = _served(pages, made, [_town(own, name)], _style("Liberation Serif", 400))
    with engine, served, Browser(900, 500) as browser:
        for words in ("?explain", ""):
            browser.open(f"{served.base}/mercator.html{words}#lat=48&lng=10&z=9")
            browser.wait(SHOWN, "the name has come")
            browser.wait("page.names.drawn().length === 1", "the name is drawn")
            one = browser.tell("page.names.drawn()[0]")
            browser.click(one["x"], one["y"])
            browser.wait("!page.panel.card.hidden", "a card")
            text = browser.tell("page.panel.card.innerText")
            if name not in text or (own in text) != bool(words):
                raise Fault(f"the card says: {text}")
            browser.tell("page.panel.field.focus(); void 0")
            browser.type_text("neill")
            browser.wait("page.panel.list.innerText.includes('Neill')", "the name is found")
            browser.picture(f"{folder}/bad-ids.png")
            browser.tell("new Promise(done => setTimeout(done, 500))")
            if browser.tell(
                "typeof bad !== 'undefined' || document.querySelectorAll('.ml-panel img, .ml-panel"
                " b').length"
            ):
                raise Fault("an id or a name has become code")
    site = made / "strange"
    make_site(
        pages.engine.program,
        site,
        "--title",
        "</script><script>bad=1</script>",
        made / "bad.toml",
        made / "bad.geojson",
    )
    with Files(site) as files, Browser(900, 500) as browser:
        browser.open(files.base + "/index.html#lat=48&lng=10&z=9")
        browser.wait(SHOWN, "the site has its name")
        if (
            browser.tell("typeof bad !== 'undefined'")
            or browser.tell("document.title") != "</script><script>bad=1</script>"
        ):
            raise Fault("the title of a site has become code")
    print("bad: ids, names and titles with quotes and angle brackets stay letters")


def other_font(pages: Pages, folder: str, made: Path) -> None:
    """A style that was measured with a font which the browser lacks is told, on the page and in the
    console.
    """
    engine, own = _served(pages, made, [_town("a", "abcdef")], _style("No Such Font", 300))
    with engine, own, Browser(900, 500) as browser:
        browser.open(own.base + "/mercator.html#lat=48&lng=10&z=9")
        browser.wait("typeof page !== 'undefined' && !!page", "the page is there")
        _told(browser, "No Such Font")
        browser.picture(f"{folder}/bad-font.png")
        if not any("No Such Font" in one for one in browser.heard):
            raise Fault(f"the console says nothing of the font: {browser.heard}")
    with Pages(pages.engine, None, "--style", STYLE) as right, Browser(900, 500) as browser:
        browser.open(right.base + "/mercator.html#lat=48&lng=10&z=5")
        browser.wait(SHOWN + " && page.shapes", "the names have come")
        if browser.tell(NOTE) or browser.heard:
            raise Fault(f"of the right font is said: {browser.tell(NOTE)} {browser.heard}")
    print("bad: another font than that of the style is told, and the right one is not")


def bad(pages: Pages, folder: str) -> None:
    """(A server that goes and comes back is told too: see the part `gone`.)"""
    for part in (cut_off, host_gone, without_names, strange_ids, other_font):
        with tempfile.TemporaryDirectory() as made:
            part(pages, folder, Path(made))
