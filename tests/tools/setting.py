"""What the tests share: the program, the tools, and small maps and styles."""

import json
import os
import subprocess
import tempfile
import unittest
from collections.abc import Sequence
from pathlib import Path
from typing import Any

from maplabel_kit.files import TOP as TOP

TOOLS = TOP / "tools"
SAMPLE = TOP / "crates" / "maplabel" / "data"
PROGRAM = os.environ.get("MAPLABEL", "")
SERIF = "/usr/share/fonts/truetype/liberation/LiberationSerif-Regular.ttf"
STYLE = """version = 2
name = "name"
rank = "pop"

[fonts.sans]
units = 1000
default = 500
[fonts.sans.advances]
"i" = 250

[[class]]
geometry = "point"
key = "place"
value = "city"
font = "sans"
size = 20
priority = 1
min = "0"
max = "1000000"
margin = 2
"""
Value = dict[str, Any]


def run(tool: str | Path, *words: object) -> tuple[int, str, str]:
    """A run of a tool: its status, standard output and standard error."""
    done = subprocess.run(
        [str(TOOLS / tool), *map(str, words)],
        capture_output=True,
        text=True,
        check=False,
        env=dict(os.environ, MAPLABEL=PROGRAM),
    )
    return done.returncode, done.stdout, done.stderr


def point(own: str | None, x: float, y: float, **properties: Any) -> Value:
    """A feature of a point, with an id unless that is none."""
    geometry = {"type": "Point", "coordinates": [x, y]}
    made = {"type": "Feature", "properties": properties, "geometry": geometry}
    return made if own is None else {**made, "id": own}


def line(own: str, places: Sequence[Sequence[float]], **properties: Any) -> Value:
    """A feature of a line."""
    geometry = {"type": "LineString", "coordinates": places}
    return {"type": "Feature", "id": own, "properties": properties, "geometry": geometry}


def collection(features: Sequence[Value]) -> str:
    """The text of a map."""
    return json.dumps({"type": "FeatureCollection", "features": features}, ensure_ascii=False)


class Folder(unittest.TestCase):
    """A test with a folder of its own, a style and a map in it."""

    def setUp(self) -> None:
        made = tempfile.TemporaryDirectory()
        self.addCleanup(made.cleanup)
        self.at = Path(made.name)
        self.style, self.map = self.at / "style.toml", self.at / "map.geojson"

    def write(self, features: Sequence[Value], style: str = STYLE) -> None:
        """Writes the map and the style."""
        self.style.write_text(style, "utf-8")
        self.map.write_text(collection(features), "utf-8")
