"""A server of a test: its process, what it is asked, and what its state is judged by the program
itself."""

import json
import os
import signal
import subprocess
from pathlib import Path
from typing import Any

from maplabel_kit import program as kit_program
from maplabel_kit.client import Client, get
from maplabel_kit.faults import Fault
from maplabel_kit.files import TOP
from maplabel_kit.ports import free_port
from maplabel_kit.server import Server

DEPLOY = TOP / "deploy"
STYLE = """version = 2
rank = "pop"

[fonts.sans]
units = 1000
default = 500

[[class]]
geometry = "point"
font = "sans"
size = 20
priority = 1
min = "0"
max = "%d"

[[class]]
geometry = "line"
font = "sans"
size = 20
priority = 2
ref = 1000
min = "0"
max = "%d"
"""


def expect(got: object, want: object, what: str) -> None:
    """Ends the test where something is another than it should be."""
    if got != want:
        raise Fault(f"{what}: {got!r} in place of {want!r}")


def write(folder: Path, name: str, text: str) -> Path:
    """A file of a folder with a text."""
    path = folder / name
    path.write_text(text, encoding="utf-8", newline="")
    return path


def style(folder: Path, most: int = 30000) -> Path:
    """The file of a style for points and lines whose names are shown below the scale `most`."""
    return write(folder, "style.toml", STYLE % (most, most))


def town(name: str, x: int, y: int, pop: int = 0, text: str = "Town") -> str:
    """The text of a town at a place in world units."""
    return json.dumps(
        {
            "type": "Feature",
            "id": name,
            "properties": {"name": text, "pop": pop},
            "geometry": {"type": "Point", "coordinates": [x / 1e7, y / 1e7]},
        }
    )


def collection(features: Any) -> str:
    """The text of a map file of some features."""
    return '{"type":"FeatureCollection","features":[%s]}' % ",\n".join(features)


class Served:
    """`maplabel serve` at a port, which can be killed and started again."""

    def __init__(self, program: str, folder: Path, style_file: Path, map_file: Path) -> None:
        self.port = free_port()
        self.program, self.style, self.map = program, style_file, map_file
        self.address = f"http://127.0.0.1:{self.port}"
        self.lines = folder / f"lines.{self.port}"
        self.start()

    def start(self, map_file: Path | None = None) -> None:
        """Starts it, again at the same port."""
        self.map = map_file or self.map
        with open(self.lines, "ab") as lines:
            self.server = Server(
                self.program, self.style, self.map, self.port, patience=60, said=lines
            )

    def processor_seconds(self) -> float:
        """What the process took of a processor so far."""
        text = Path(f"/proc/{self.server.pid}/stat").read_text()
        return sum(map(int, text.rpartition(")")[2].split()[11:13])) / os.sysconf("SC_CLK_TCK")

    def kill(self) -> None:
        """Ends it at once."""
        self.server.client.close()
        self.server.child.end(signal.SIGKILL)

    def get(self, target: str) -> bytes:
        """The body of a reply over a connection of its own, which must be good."""
        with Client(self.port, 60) as client:
            reply = client.one(get(target))
        if reply.status != 200:
            raise Fault(f"{target} was answered with {reply.status} {reply.body[:200]!r}")
        return reply.body

    def rev(self) -> int:
        """The revision."""
        return int(json.loads(self.get("/rev"))["rev"])

    def features(self) -> dict[str, Any]:
        """The features of the map, by their ids."""
        return {feature["id"]: feature for feature in json.loads(self.get("/map"))["features"]}


def judge(program: str, folder: Path, state: bytes) -> tuple[str, str]:
    """What the commands `follow` and `check` print of a state whose labels have no margin and
    plain ids."""
    states = write(folder, "judged.states", state.decode())
    followed = kit_program.run(program, "follow", states).text()
    rows = [line.split(" ") for line in state.decode().splitlines()[1:]]
    table = "".join(" ".join(row[:5] + row[8:]) + "\n" for row in rows)
    slots = "".join(
        f"{row[0]} {row[6]} {'-' if row[7] == '-' else rows[int(row[7])][0]}\n" for row in rows
    )
    checked = kit_program.run(
        program,
        "check",
        write(folder, "judged.table", table),
        write(folder, "judged.slots", slots),
    )
    return followed.splitlines()[0], checked.line()


def run_script(*words: object, seconds: float = 120) -> tuple[int, str]:
    """The status of a script that ends by itself, and what it says."""
    done = subprocess.run(
        [str(word) for word in words],
        stdout=subprocess.PIPE,
        stderr=subprocess.STDOUT,
        timeout=seconds,
        check=False,
    )
    return done.returncode, done.stdout.decode()
