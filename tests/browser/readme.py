"""The commands of web/README.md that make a site, run as they stand there, in a folder with a map
of towns. The first one builds the program, which is there already.
"""

import json
import random
import re
import shlex
import subprocess
import tempfile
from pathlib import Path

from chromium import Browser, Fault
from maplabel_kit.files import TOP, write_whole
from maplabel_kit.ports import free_port
from maplabel_kit.server import Child
from servers import TRIES, WEB, Pages, answers
from site_pages import SHOWN
from steady import AT_REST, OVERLAPS

MOST = 5
BLOCK = re.compile(r"^## A site\n.*?^```\n(.*?)^```$", re.MULTILINE | re.DOTALL)
BUILD = "./maplabel --build"


def commands() -> list[str]:
    """The commands of the first block of the chapter."""
    found = BLOCK.search((WEB / "README.md").read_text(encoding="utf-8"))
    if not found:
        raise Fault("web/README.md has no commands for a site")
    return found[1].splitlines()


def towns(path: Path) -> int:
    """A map of towns as a reader may have it, in the north of Italy."""
    dice, features = random.Random(8), []
    for _ in range(400):
        name = dice.choice("Bra Carmo Mon Pina Val Ver".split()) + dice.choice(
            "celli gnola lia ndola rolo tona zano".split()
        )
        place = [round(dice.uniform(7, 12), 5), round(dice.uniform(44, 46), 5)]
        features.append(
            {
                "type": "Feature",
                "properties": {"name": name, "pop": dice.randrange(500, 200_000)},
                "geometry": {"type": "Point", "coordinates": place},
            }
        )
    write_whole({path: json.dumps({"type": "FeatureCollection", "features": features})})
    return len(features)


def readme(pages: Pages, folder: str) -> None:
    """A map file becomes a site, whose page says nothing of what is wrong."""
    first, *others, last = commands()
    if len(others) + 2 > MOST or first != BUILD:
        raise Fault(f"{len(others) + 2} commands make a site; the first is {first}")
    with tempfile.TemporaryDirectory() as made, Browser(900, 600) as browser:
        count = towns(Path(made, "towns.geojson"))
        for one in others:
            tool, *words = shlex.split(one)
            called = [str(TOP / tool), "--program", pages.engine.program, *words]
            done = subprocess.run(called, cwd=made, capture_output=True, text=True, check=False)
            if done.returncode or done.stderr:
                raise Fault(f"{one}: {done.stderr}")
        served, base = hosted(shlex.split(last), Path(made))
        with served:
            browser.open(base + "/")
            browser.wait(SHOWN + " && !!page.shapes", "the names have come")
            browser.tell(AT_REST)
            over = browser.tell(OVERLAPS)
            title, note = browser.tell("[document.title, page.panel.note.textContent]")
            credit = browser.tell(
                "document.querySelector('.leaflet-control-attribution').innerText"
            )
            browser.picture(f"{folder}/readme.png")
        if not over["count"] > 20 or over["found"] or note or browser.heard:
            raise Fault(f"the site shows {over}, and says {note} {browser.heard}")
        if title != "Towns" or "Whose data it is" not in credit:
            raise Fault(f"the site is called {title}, of {credit}")
    print(f"readme: {len(others) + 2} commands, {count} towns, {over['count']} names at first")


def hosted(words: list[str], folder: Path) -> tuple[Child, str]:
    """The host of files that the last command starts, at a free port, and its address."""
    for _ in range(TRIES):
        port = free_port()
        base = f"http://127.0.0.1:{port}"
        child = Child([*words[:-1], folder / words[-1], port])
        if answers(child, base + "/"):
            return child, base
    raise Fault("the host of files does not answer")
