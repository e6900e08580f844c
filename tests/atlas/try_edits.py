"""Edits of an atlas: by files, and by the log of changes of a table; what a reader gets
meanwhile.
"""

import json
import random
import signal
import subprocess
import threading
import time
from pathlib import Path
from typing import Any

import psycopg

from database import Database
from maplabel_atlas.engine import Engine, engine_at
from maplabel_atlas.store import Store
from maplabel_kit import client
from stage import COMMAND, Layer, atlas, environment, folder, layer
from whole import Differs, Whole

PLACES, WRITERS = 4_000, 40
PATIENCE = 300


class Stage:
    """A layer, its atlas, and what the engine says of the layer as it is now."""

    def __init__(self, path: Path, at: Path) -> None:
        self.path, self.at = path, at
        self.engine: Engine = engine_at(path)
        self.layer: Layer = layer(at, PLACES)
        self.features: dict[str, Any] = {}
        self.restore()
        self.style = self.layer.six.read_text(encoding="utf-8")

    def restore(self) -> None:
        """The features are those of the layer."""
        self.features = {one["id"]: one for one in map(json.loads, self.layer.lines())}

    def whole(self) -> Whole:
        """One process over the features as they are now."""
        return Whole(self.engine, self.style, [json.dumps(one) for one in self.features.values()])


def published(database: Database, table: str, whole: Whole, what: str) -> None:
    """Compares a published table with the whole: all names that are shown, with ends and
    blockers.
    """
    rows = database.rows(f"SELECT id, until_n, until_d, blocker FROM {table}")
    found = {row[0]: row[1:] for row in rows}
    wanted = {
        one.id: (*one.until.as_integer_ratio(), one.blocker)
        for one in whole.labels
        if not one.is_never_shown()
    }
    if found != wanted:
        raise Differs(f"{what}: the published names are not those of the whole")


def by_files(stage: Stage, database: Database) -> str:
    """Features are put in, replaced and removed by the command, and the table is brought to it."""
    out, chance = stage.at / "atlas", random.Random(9)
    atlas(stage.path, "make", stage.layer.places, stage.layer.six, out, "--workers", 2)
    to = ("--postgis", database.words(), "--table", "edited")
    atlas(stage.path, "publish", out, *to)
    before = {row[0]: row[1] for row in database.rows("SELECT id, xmin::text FROM edited")}
    one = dict(stage.features["p77"])
    one["geometry"] = {"type": "Point", "coordinates": [10.5, 47.25]}
    new = {**stage.features["p99"], "id": "new"}
    bare = {**stage.features["p98"], "id": "bare", "properties": {"name": " ", "place": "town"}}
    texts = [json.dumps(feature) for feature in (one, new, bare)]
    (stage.at / "edit.geojsonl").write_text("\n".join(texts) + "\n", encoding="utf-8")
    gone = chance.choice([own for own in stage.features if own not in ("p77", "p99", "p98")])
    said = atlas(
        stage.path, "edit", out, stage.at / "edit.geojsonl", "--remove", gone, "--remove", "nobody"
    ).said
    assert "there is no feature nobody" in said, said
    stage.features.update({"p77": one, "new": new, "bare": bare})
    del stage.features[gone]
    whole = stage.whole()
    whole.compare(Store(out).load().state, "after an edit")
    told = atlas(stage.path, "publish", out, *to).said
    published(database, "edited", whole, "after an edit")
    after = {row[0]: row[1] for row in database.rows("SELECT id, xmin::text FROM edited")}
    written = sum(before.get(own) != version for own, version in after.items())
    assert 1 <= written < 60, f"{written} rows were written for an edit of four features: {told}"
    atlas(stage.path, "publish", out, *to)
    again = {row[0]: row[1] for row in database.rows("SELECT id, xmin::text FROM edited")}
    assert again == after, "publish writes rows though nothing has changed"
    why(stage, out, whole)
    return f"an edit of four features wrote {written} of {len(after)} rows"


def why(stage: Stage, out: Path, whole: Whole) -> None:
    """`why` prints what the engine's /why does, for labels and for features without one."""
    ids = ["p77", "new", "bare", "p3", "p3999"]
    printed = atlas(stage.path, "why", out, *ids).out.splitlines()
    asked = whole.bodies([client.get("/why", id=own) for own in ids])
    assert [line.encode() for line in printed] == asked, f"{printed} and not {asked}"
    listed = atlas(stage.path, "why", out, "--reason", "NoName").out.split()
    assert listed == ["bare"], f"without a name are {listed}"
    counts = json.loads(atlas(stage.path, "why", out).out)
    assert counts["without"] == {"NoName": 1}, f"counted are {counts}"
    atlas(stage.path, "why", out, "nobody", status=1)


def fill(database: Database, stage: Stage) -> None:
    """The layer as an attached table."""
    database.set_up()
    database.rows(
        "CREATE TABLE towns (id text PRIMARY KEY, geom geometry, name text, place text, pop bigint)"
    )
    with psycopg.connect(database.words()) as link, link.cursor() as cursor:
        with cursor.copy("COPY towns FROM STDIN") as copy:
            for own, one in stage.features.items():
                x, y = one["geometry"]["coordinates"]
                told = one["properties"]
                row = own, f"SRID=4326;POINT({x} {y})", told["name"], told["place"], told["pop"]
                copy.write_row(row)
    database.rows("SELECT maplabel.attach('towns', 'id', 'geom')")


def rows_of(database: Database) -> dict[str, Any]:
    """The features of the table, read from its columns."""
    found = {}
    for own, x, y, name, place, pop in database.rows(
        "SELECT id, ST_X(geom), ST_Y(geom), name, place, pop FROM towns"
    ):
        geometry = {"type": "Point", "coordinates": [round(x, 7), round(y, 7)]}
        told = {"name": name, "place": place, "pop": pop}
        found[own] = {"type": "Feature", "id": own, "geometry": geometry, "properties": told}
    return found


class Reader(threading.Thread):
    """Reads the same view again and again, with the generation of the atlas that it belongs to."""

    def __init__(self, database: Database) -> None:
        super().__init__()
        self._words = database.words()
        self.seen: dict[int, set[str]] = {}
        self.count = 0
        self.is_ended = threading.Event()

    def run(self) -> None:
        """Reads until it is ended."""
        statement = (
            "SELECT generation, followed_text(0, 0, 4096, 4096, 878907, 1) FROM followed_about"
        )
        with psycopg.connect(self._words, autocommit=True) as link:
            while not self.is_ended.is_set():
                row = link.execute(statement).fetchone()
                assert row is not None
                self.seen.setdefault(row[0], set()).add(row[1])
                self.count += 1


def followed(stage: Stage, database: Database) -> str:
    """An atlas of the table follows it while writers edit it; a reader sees no mixture."""
    stage.restore()
    fill(database, stage)
    out, chance = stage.at / "followed", random.Random(4)
    source = (f"PG:{database.words()}", stage.layer.six, out, "--layer", "towns", "--workers", 2)
    atlas(stage.path, "make", *source)
    to = ("--postgis", database.words(), "--table", "followed")
    atlas(stage.path, "publish", out, *to)
    said = atlas(stage.path, "edit", out, "--follow").said
    assert "nothing has changed" in said, said
    with psycopg.connect(database.words()) as held:
        held.execute("UPDATE towns SET pop = pop + 1000000 WHERE id = 'p500'")
        database.rows(
            "UPDATE towns SET geom = ST_Translate(geom, 0.2, 0) WHERE id IN ('p600', 'p601')"
        )
        atlas(stage.path, "edit", out, "--follow", *to)
        held.commit()  # it was begun before the last reading, and is read by the next one
    atlas(stage.path, "edit", out, "--follow", *to)
    stage.features = rows_of(database)
    published(database, "followed", stage.whole(), "behind a transaction that was open")
    reader = Reader(database)
    reader.start()
    words = [str(COMMAND), "edit", str(out), "--follow", "--watch", "1", *to]
    run = subprocess.Popen(words, env=environment(stage.path), stderr=subprocess.PIPE, text=True)
    try:
        for number in range(WRITERS):
            _write(database, chance, number)
        # A notification of whoever likes is a hint, and changes nothing.
        database.rows(
            "SELECT pg_notify('maplabel_' || 'towns'::regclass::oid,"
            ' \'{"id":"p1","feature":null}\')'
        )
        stage.features = rows_of(database)
        late = _settle(stage, database, run)
    finally:
        reader.is_ended.set()
        reader.join()
        run.send_signal(signal.SIGTERM)
        said = run.communicate(timeout=PATIENCE)[1]
    assert "Traceback" not in said and run.returncode == 143, said
    _no_mixture(reader)
    readings = f"{reader.count} readings of {len(reader.seen)} generations"
    return f"{WRITERS} transactions followed, held {late:.1f} s behind the last; {readings}"


def _write(database: Database, chance: random.Random, number: int) -> None:
    """A transaction of some rows."""
    own = f"p{chance.randrange(PLACES)}"
    if number % 4 == 0:
        database.rows("DELETE FROM towns WHERE id = %s", [own])
    elif number % 4 == 1:
        values = [
            f"w{number}",
            chance.uniform(-20, 20),
            chance.uniform(40, 60),
            chance.randrange(10**6),
        ]
        database.rows(
            (
                "INSERT INTO towns VALUES (%s, ST_SetSRID(ST_MakePoint(%s, %s), 4326), 'Neu',"
                " 'city', %s)"
            ),
            values,
        )
    else:
        database.rows(
            "UPDATE towns SET geom = ST_Translate(geom, 0.3, 0.1), pop = pop * 2 WHERE id = %s",
            [own],
        )


def _settle(stage: Stage, database: Database, run: subprocess.Popen[str]) -> float:
    """How long it takes until the published names are those of the table."""
    whole, begin = stage.whole(), time.monotonic()
    while True:
        try:
            published(database, "followed", whole, "followed")
            return time.monotonic() - begin
        except Differs:
            assert run.poll() is None, f"the command ended: {run.communicate()[1]}"
            if time.monotonic() > begin + PATIENCE:
                raise
            time.sleep(0.2)


def _no_mixture(reader: Reader) -> None:
    """All readings of one generation are alike, and there were several generations."""
    assert len(reader.seen) > 2, f"the reader saw the generations {sorted(reader.seen)}"
    mixed = [number for number, texts in reader.seen.items() if len(texts) > 1]
    if mixed:
        raise Differs(f"readers got several views of the generations {mixed}")
    assert len(set.union(*reader.seen.values())) > 1, "no edit changed what the reader reads"


def lost_log(stage: Stage, database: Database) -> str:
    """What the log cannot tell any more is said, and what to do."""
    out = stage.at / "followed"
    database.rows("TRUNCATE towns")
    said = atlas(stage.path, "edit", out, "--follow", status=1).said
    assert "was emptied or attached anew" in said and "make the atlas anew" in said, said
    database.rows("INSERT INTO maplabel.forgotten VALUES (pg_current_xact_id())")
    said = atlas(stage.path, "edit", out, "--follow", status=1).said
    assert "does not reach back" in said, said
    database.rows("SELECT maplabel.detach('towns')")
    said = atlas(stage.path, "edit", out, "--follow", status=1).said
    assert "is not attached any more" in said, said
    said = atlas(stage.path, "edit", stage.at / "atlas", "--follow", status=1).said
    assert "was not made of a table" in said, said
    return "a log that was lost is told"


def changing(stage: Stage, database: Database) -> str:
    """A table that is not attached and changes while it is read."""
    stage.restore()
    database.rows("DROP TABLE towns")
    fill(database, stage)
    database.rows("SELECT maplabel.detach('towns')")
    is_ended = threading.Event()

    def change() -> None:
        while not is_ended.wait(0.02):
            database.rows("UPDATE towns SET pop = pop + 1 WHERE id = 'p5'")

    writer = threading.Thread(target=change)
    writer.start()
    try:
        words = (
            f"PG:{database.words()}",
            stage.layer.six,
            stage.at / "x",
            "--layer",
            "towns",
            "--id-field",
            "id",
        )
        said = atlas(stage.path, "make", *words, "--workers", 2, status=1).said
        assert "the table towns was changed while it was read" in said, said
    finally:
        is_ended.set()
        writer.join()
    return "a table that changes while it is read is told"


def run(engine: Path) -> str:
    """Tries edits of all kinds."""
    with folder() as at, Database(at) as database:
        stage = Stage(engine, at)
        tries = by_files, followed, lost_log, changing
        return "; ".join(one(stage, database) for one in tries)
