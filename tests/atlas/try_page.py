"""A published atlas as a map in Chromium: no name overlaps another or jumps, however one moves.

The names come out of a table, as pg_tileserv and martin serve its function, and from a folder of
tiles. What is looked at, and how, is as for the pages of web/ (tests/browser/steady.py)."""

import importlib
import os
import shutil
import sys
import tempfile
from collections.abc import Iterator
from contextlib import contextmanager
from http.server import SimpleHTTPRequestHandler, ThreadingHTTPServer
from pathlib import Path
from threading import Thread, local
from typing import Any
from urllib.parse import quote

import psycopg

from database import Database
from stage import COMMAND, atlas, folder, layer, say

sys.path.append(str(Path(__file__).resolve().parent.parent / "browser"))
steady: Any = importlib.import_module("steady")
chromium: Any = importlib.import_module("chromium")

PLACES, ZOOMS = 100_000, (0, 8)
WEB, LEAFLET = COMMAND.parents[1] / "web", Path("/usr/share/javascript/leaflet")
VIEWS = ("lat=48&lng=10&z=5", "lat=40&lng=-3&z=8.3", "lat=35&lng=139&z=10.6")
PICTURES = Path(tempfile.gettempdir()) / "atlas-pictures"


class Handler(SimpleHTTPRequestHandler):
    """Files of a site, and tiles of a function at the address that pg_tileserv has for it."""

    words = ""
    links = local()

    def do_GET(self) -> None:
        """Answers a request."""
        parts = self.path.split("?")[0].strip("/").split("/")
        if len(parts) == 4 and parts[0] == "public.names_tile":
            self._tile(*(int(part.removesuffix(".pbf")) for part in parts[1:]))
        else:
            super().do_GET()

    def _tile(self, z: int, x: int, y: int) -> None:
        if not hasattr(self.links, "link"):
            self.links.link = psycopg.connect(self.words, autocommit=True)
        row = self.links.link.execute("SELECT names_tile(%s, %s, %s)", [z, x, y]).fetchone()
        self.send_response(200)
        self.send_header("Content-Type", "application/vnd.mapbox-vector-tile")
        self.send_header("Content-Length", str(len(row[0])))
        self.end_headers()
        self.wfile.write(row[0])

    def log_message(self, *_: object) -> None:
        """Says nothing."""


@contextmanager
def serving(site: Path, words: str) -> Iterator[str]:
    """A server of a site and of a table, at a free port."""

    class Here(Handler):
        """The handler of this site."""

        def __init__(self, *told: Any, **more: Any) -> None:
            super().__init__(*told, directory=str(site), **more)

    Here.words = words
    with ThreadingHTTPServer(("127.0.0.1", 0), Here) as server:
        Thread(target=server.serve_forever, daemon=True).start()
        yield f"http://127.0.0.1:{server.server_address[1]}"
        server.shutdown()


def site_of(at: Path) -> Path:
    """The page with what it loads."""
    site = at / "site"
    site.mkdir()
    shutil.copy(COMMAND.parent / "page.html", site / "index.html")
    for path in (
        WEB / "maplabel.js",
        WEB / "maplabel.css",
        LEAFLET / "leaflet.js",
        LEAFLET / "leaflet.css",
    ):
        shutil.copy(path, site)
    return site


def moves(address: str, what: str) -> int:
    """Drags and zooms a page, and looks at each step; says how many names were looked at."""
    names = 0
    with chromium.Browser() as browser:
        browser.open(address)
        browser.wait(steady.SETTLED, "the names have come", 60)
        for kind, act in (("drag", steady.drag), ("zoom", steady.zoom)):
            watch, anchor = steady.Watch(f"{what}, {kind}"), steady.Mercator()
            watch.look(browser, anchor, -1)
            act(browser, watch, anchor, lambda step: None)
            browser.wait(steady.SETTLED, "the names have come", 60)
            browser.picture(str(PICTURES / f"{what.replace(' ', '-')}-{kind}.png"))
            names += watch.names
        heard = [line for line in browser.heard if "uncaught" in line or "Error" in line]
        assert not heard, f"{what}: {heard[:3]}"
    return names


def given(at: Path, engine: Path) -> tuple[Path, str]:
    """The atlas that is looked at, and how it is called: that of the variable, or a new one."""
    if told := os.environ.get("ATLAS"):
        return Path(told), told
    made = layer(at, PLACES)
    atlas(engine, "make", made.places, made.six, at / "atlas")
    return at / "atlas", f"{PLACES:,} places"


def run(engine: Path) -> str:
    """Looks at the map from both sources. The variable ATLAS may name a large atlas that is
    there.
    """
    PICTURES.mkdir(exist_ok=True)
    with folder() as at, Database(at) as database:
        out, called = given(at, engine)
        site = site_of(at)
        atlas(engine, "publish", out, "--postgis", database.words())
        sources = [("table", f"names={quote('/public.names_tile/{z}/{x}/{y}.pbf', safe='')}&")]
        if "ATLAS" not in os.environ:
            atlas(engine, "publish", out, "--tiles", site / "names", "--zooms", *ZOOMS)
            sources.append(("folder", ""))
        say(f"{called} is published")
        told = []
        with serving(site, database.words()) as base:
            for name, word in sources:
                count = sum(
                    moves(f"{base}/#{word}{view}", f"{name} {k}") for k, view in enumerate(VIEWS)
                )
                told.append(f"{count:,} names out of the {name}")
        return f"{called}: {', '.join(told)}: no pair overlaps, none jumps"
