"""The database, the server and the follower of a trial."""

import contextlib
import os
import signal
import subprocess
import tempfile
import time
from collections.abc import Callable, Iterator
from pathlib import Path
from typing import Any

from database import Database
from maplabel_kit import program
from maplabel_kit.faults import Fault
from maplabel_kit.server import Child
from served import DEPLOY, Served, collection, judge, run_script, style, write
from writers import SIDE

FOLLOW = DEPLOY / "postgis" / "follow.py"
LONG = 180.0  # seconds that a busy machine may take


class Settings:
    """What the command line says."""

    seconds, towns = 60, 5000


def until(what: str, get: Callable[[], object], want: object, seconds: float = LONG) -> None:
    """Waits until it is so; for long, since the machine may be busy."""
    end = time.monotonic() + seconds
    while (got := get()) != want:
        if time.monotonic() > end:
            raise Fault(f"{what}: {got!r} in place of {want!r}")
        time.sleep(0.05)


class Stage:
    """The database, the server and the follower of a trial."""

    def __init__(self, folder: Path, towns: int) -> None:
        self.program, self.folder, self.towns = str(program.find()), folder, towns
        self.database = Database(folder)
        self.style = style(folder)
        self.empty = write(folder, "empty.geojson", collection([]))
        self.server = Served(self.program, folder, self.style, self.empty)
        self.follower: Child | None = None

    def make_table(self) -> None:
        """A table of towns that is attached, and roles that write it and follow it."""
        execute = self.database.execute
        execute("CREATE TABLE towns (id bigint PRIMARY KEY, geom geometry, name text, pop int)")
        execute(
            "INSERT INTO towns SELECT i, ST_SetSRID(ST_MakePoint("
            f"i * 7919 % {SIDE} / 1e4, i * 104729 % {SIDE} / 1e4), 4326), "
            f"'Town ' || i, i % 1000 FROM generate_series(1, {self.towns}) i"
        )
        execute("SELECT maplabel.attach('towns', 'id', 'geom')")
        execute(
            "CREATE ROLE writer LOGIN; GRANT SELECT, INSERT, UPDATE, DELETE ON towns TO writer; "
            "CREATE ROLE follower LOGIN; GRANT SELECT ON towns TO follower; "
            "GRANT USAGE ON SCHEMA maplabel TO follower; "
            "GRANT SELECT ON maplabel.sources, maplabel.changes TO follower; "
            "GRANT SELECT, INSERT, UPDATE, DELETE ON maplabel.refusals TO follower"
        )

    def follow_once(self, *words: object) -> tuple[int, str]:
        """The status and the words of a follower that is to give up by itself."""
        status, said = run_script(FOLLOW, *words, seconds=60)
        return status, said

    def start_follower(self, *options: object) -> None:
        """Has the server follow the table."""
        self.follower = self.follower_of(self.server, *options)

    def said(self, server: Served) -> Path:
        """The file of what the follower into a server says."""
        return self.folder / f"said.{server.port}"

    def follower_of(self, server: Served, *options: object) -> Child:
        """A follower into a server."""
        with open(self.said(server), "wb") as said:
            words = [FOLLOW, server.address, self.database.words("follower"), "towns", *options]
            return Child(words, stdout=subprocess.DEVNULL, stderr=said)

    def table(self) -> dict[str, Any]:
        """The features that the table should give, read from its columns and not by what
        setup.sql made."""
        rows = self.database.rows("SELECT id, ST_X(geom), ST_Y(geom), name, pop FROM towns")
        return {str(row[0]): [round(row[1], 7), round(row[2], 7), row[3], row[4]] for row in rows}

    def map(self) -> dict[str, Any]:
        """The same of the map."""
        return {
            name: [
                *one["geometry"]["coordinates"],
                one["properties"]["name"],
                one["properties"]["pop"],
            ]
            for name, one in self.server.features().items()
        }

    def names(self) -> dict[str, str]:
        """The names of the map's features."""
        return {name: one["properties"]["name"] for name, one in self.server.features().items()}

    def settle(self, seconds: float = LONG) -> float:
        """How long it takes until the map holds the features of the table."""
        begin = time.monotonic()
        while self.map() != self.table():
            if self.follower is None or not self.follower.is_running():
                raise Fault(f"the follower ended: {self.said(self.server).read_text()}")
            if time.monotonic() > begin + seconds:
                there, wanted = len(self.map()), len(self.table())
                raise Fault(f"after {seconds} s the map has {there} features, the table {wanted}")
            time.sleep(0.1)
        return time.monotonic() - begin

    def judge(self) -> str:
        """The program's own judgement of the state that is served."""
        adopted, best = judge(self.program, self.folder, self.server.get("/state"))
        if not adopted.startswith("adopted ") or best != "Best":
            raise Fault(f"follow says {adopted}, and check says {best}")
        return f"{adopted}, {best}"

    def end(self) -> None:
        """Ends all."""
        if self.follower is not None:
            self.follower.end(signal.SIGKILL)
        with contextlib.suppress(Exception):
            self.server.kill()
        self.database.stop()


@contextlib.contextmanager
def staged(towns: int = 200, *options: object, is_followed: bool = True) -> Iterator[Stage]:
    """A table of so many towns that a server follows, unless told otherwise."""
    with tempfile.TemporaryDirectory() as name:
        os.chmod(name, 0o755)
        stage = Stage(Path(name), towns)
        try:
            stage.make_table()
            if is_followed:
                stage.start_follower(*options)
                stage.settle()
            yield stage
        finally:
            stage.end()
