"""Layers that one process can hold, compared with it: ends, blockers, and views out of PostGIS."""

import random
from pathlib import Path

import psycopg
from maplabel_kit import client
from numpy.typing import NDArray
import numpy as np

from database import Database
from maplabel_atlas.engine import engine_at
from maplabel_atlas.store import Store
from stage import atlas, folder, layer
from whole import Differs, Whole

PLACES, VIEWS = 30_000, 999
View = tuple[int, int, int, int, int, int]


def views(place: NDArray[np.int64], count: int) -> list[View]:
    """Views about places of labels, at scales of all sizes, whole and broken."""
    chance, found = random.Random(5), []
    for _ in range(count):
        x, y = place[chance.randrange(len(place))].tolist()
        d = chance.choice((1, 1, 3, 1000))
        n = min(max(1, int(d * 2 ** chance.uniform(3, 24))), 2**32)
        wide, high = 2 * chance.randrange(1, 1000), 2 * chance.randrange(1, 600)
        found.append((x + chance.randrange(-1000, 1000), y, wide, high, n, d))
    return found


def compare_views(database: Database, table: str, whole: Whole, wanted: list[View]) -> int:
    """Compares views byte for byte, and says how many names stood in them."""
    asked = [
        client.get("/view", cx=cx, cy=cy, w=w, h=h, s=f"{n}/{d}") for cx, cy, w, h, n, d in wanted
    ]
    names = 0
    statement = (
        f"SELECT {table}_text(%s::bigint, %s::bigint, %s::int, %s::int, %s::bigint, %s::bigint)"
    )
    with psycopg.connect(database.words()) as link:
        for view, body in zip(wanted, whole.bodies(asked)):
            row = link.execute(statement, view).fetchone()
            names += body.count(b'"until"')
            if row is None or row[0].encode() != body:
                raise Differs(f"the view {view} out of {table} is not that of the engine")
    return names


def spoilt_end(engine: Path, out: Path) -> None:
    """One end that was changed by hand is found by `audit`, and that label is named."""
    said = atlas(engine, "audit", out).said
    assert f"{PLACES:,} of {PLACES:,} labels looked over, 0 are wrong" in said, said
    store = Store(out)
    atlas_now = store.load()
    row = int(np.flatnonzero(atlas_now.state.blocker >= 0)[1234])
    atlas_now.state.until[row, 0] += 1
    store.save(atlas_now)
    run = atlas(engine, "audit", out, status=1)
    name = atlas_now.state.labels.ids[row].decode()
    assert f"{name} at longitude" in run.out, f"{name} is not named: {run.out}"
    assert "1 are wrong" in run.said or "labels do not end" in run.said, run.said


def run(engine: Path) -> str:
    """Compares both styles."""
    told = []
    with folder() as at, Database(at) as database:
        made = layer(at, PLACES)
        for name, style in (("six", made.six), ("one", made.one)):
            atlas(engine, "make", made.places, style, at / name)
            atlas(engine, "publish", at / name, "--postgis", database.words(), "--table", name)
            state = Store(at / name).load().state
            whole = Whole(engine_at(engine), style.read_text(encoding="utf-8"), made.lines())
            whole.compare(state, f"{PLACES} places, {name}")
            wanted = views(state.labels.place, VIEWS)
            count = compare_views(database, name, whole, wanted)
            first = atlas(
                engine,
                "view",
                database.words(),
                name,
                *wanted[0][:4],
                f"{wanted[0][4]}/{wanted[0][5]}",
            )
            asked = client.get(
                "/view",
                **dict(zip(("cx", "cy", "w", "h"), wanted[0])),
                s=f"{wanted[0][4]}/{wanted[0][5]}",
            )
            assert (
                first.out.encode() == whole.bodies([asked])[0] + b"\n"
            ), "`view` prints something else"
            if name == "six":
                spoilt_end(engine, at / name)
            told.append(f"{name}: {count:,} names in {VIEWS} views")
    return (
        f"{PLACES:,} places as one process has them; an audit finds the end that was changed; "
        + "; ".join(told)
    )
