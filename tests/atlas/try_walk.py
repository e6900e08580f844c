"""The way of a reader: the commands of docs/SCALE.md as they stand, from a file to a page.

Each block of "From a file to a page" that ends with a web server is run, line by line, in a folder
of its own; then the page is opened in Chromium. Changed are the port, and how many places are
generated (the variable PLACES may tell another number)."""

import importlib
import os
import re
import subprocess
import sys
import time
from pathlib import Path
from typing import Any

from maplabel_kit.ports import free_port, holder
from maplabel_kit.server import Child

from stage import COMMAND, environment, folder, layer, say

sys.path.append(str(Path(__file__).resolve().parent.parent / "browser"))
steady: Any = importlib.import_module("steady")
chromium: Any = importlib.import_module("chromium")

TOP = COMMAND.parents[1]
PAGE, SECTION = TOP / "docs" / "SCALE.md", "\n### From a file to a page\n"
BLOCK = re.compile(r"^```\n(.*?)^```$", re.DOTALL | re.MULTILINE)
SERVER, TOLD_PORT = "python3 -m http.server", "8000"
# How many places the page tells to generate, and how many are generated here.
TOLD, PLACES, PREPARED = "1000000", "20000", 2_000
# Views, and how many names there are at least: in the last, behind the zooms of the tiles, it
# depends on how many places there are.
VIEWS = (("", 5), ("#lat=48&lng=10&z=5", 5), ("#lat=35.7&lng=139.7&z=11.5", 0))


def blocks() -> list[list[str]]:
    """The blocks of commands that end with a web server."""
    text = PAGE.read_text(encoding="utf-8").partition(SECTION)[2].partition("\n### ")[0]
    found = [block.strip().splitlines() for block in BLOCK.findall(text)]
    return [lines for lines in found if lines[-1].startswith(SERVER)]


def prepare(at: Path) -> None:
    """A folder in which a reader stands: the checkout, a GeoPackage whose ids are in the column
    `number`, and its style.
    """
    for name in ("atlas", "bench", "web", "python", "crates"):
        (at / name).symlink_to(TOP / name)
    made = layer(at, PREPARED)
    made.six.rename(at / "style.toml")
    fields = "SELECT *, CAST(id AS character) AS number FROM places"
    words = ["ogr2ogr", "-f", "GPKG", "places.gpkg", f"GeoJSONSeq:{made.places}", "-sql", fields]
    subprocess.run([*words, "-nln", "places"], cwd=at, check=True, capture_output=True)
    made.places.unlink()


def names_on(address: str) -> str:
    """Opens a page, and says how many names it draws, far out and nearer; none may overlap."""
    told: list[str] = []
    with chromium.Browser() as browser:
        for view, fewest in VIEWS:
            browser.open(address + view)
            browser.wait(steady.SETTLED, "the names have come", 120)
            browser.tell(steady.AT_REST)
            found = browser.tell(steady.OVERLAPS)
            assert not found["found"], f"{address}{view}: these overlap: {found['found'][:3]}"
            assert found["count"] >= fewest, f"{address}{view}: {found['count']} names"
            told.append(str(found["count"]))
        heard = [line for line in browser.heard if "uncaught" in line or "Error" in line]
        assert not heard, f"{address}: {heard[:3]}"
    return ", ".join(told)


def walk(lines: list[str], engine: Path) -> str:
    """Does what a block says, and looks at the page."""
    places = os.environ.get("PLACES", PLACES)
    with folder() as at:
        prepare(at)
        for line in lines[:-1]:
            say(f"$ {line}")
            run = subprocess.run(
                ["sh", "-e", "-c", line.replace(TOLD, places)],
                cwd=at,
                env=environment(engine),
                capture_output=True,
                text=True,
                check=False,
            )
            assert run.returncode == 0, f"`{line}` ended with {run.returncode}: {run.stderr}"
        count = served(lines[-1], at)
    is_generated = any(TOLD in line for line in lines)
    return f"{int(places) if is_generated else PREPARED:,} places: {count} names in three views"


def served(line: str, at: Path) -> str:
    """Starts the web server at a free port, and says how many names the page draws."""
    say(f"$ {line}")
    port = free_port()
    with Child(line.replace(TOLD_PORT, str(port)).split(), cwd=at) as server:
        while holder(port) is None:
            assert server.is_running(), "the web server has ended"
            time.sleep(0.1)
        return names_on(f"http://127.0.0.1:{port}/")


def run(engine: Path) -> str:
    """Walks each way."""
    found = blocks()
    assert found, f"{PAGE.name} has no way from a file to a page"
    return "; ".join(walk(lines, engine) for lines in found)
