"""What is published, in all its forms, against one another and against the atlas."""

import gzip
import json
import math
import sqlite3
import subprocess
from fractions import Fraction
from pathlib import Path
from typing import Any

import psycopg

from database import Database
from maplabel_atlas.names import Name, Names
from maplabel_atlas.store import Store
from maplabel_kit.zooms import scale_of
from stage import atlas, folder, layer

PLACES, LAST = 5_000, 7
HERE = Path(__file__).resolve().parent
Tiles = dict[str, list[list[Any]]]


def decoded(at: Path) -> Tiles:
    """The names of the tiles of a folder, as the pages read them."""
    words = ["node", str(HERE / "tiles.mjs"), str(at)]
    done = subprocess.run(words, check=True, capture_output=True, text=True)
    found: Tiles = json.loads(done.stdout)
    return {tile: names for tile, names in found.items() if names}


def tile_of(name: Name, zoom: int) -> str:
    """The tile of Web Mercator in which a name's place lies."""
    count, latitude = 2**zoom, math.radians(name.place[1] / 1e7)
    x = math.floor((name.place[0] / 3.6e9 + 0.5) * count)
    y = math.floor((0.5 - math.asinh(math.tan(latitude)) / (2 * math.pi)) * count)
    return f"{zoom}/{min(x, count - 1)}/{y}"


def wanted(names: Names, is_table: bool) -> Tiles:
    """The names that each tile should hold, by the definition; the last zoom of files holds all
    behind it.
    """
    found: Tiles = {}
    for name in names.of(names.shown()):
        least, until = Fraction(*name.least), Fraction(*name.until)
        row = [name.id, name.text, name.number, *name.place, name.boxes_text()]
        row += ["%d/%d" % name.least, "%d/%d" % name.until]
        for zoom in range(LAST + 1):
            is_behind = zoom == LAST and not is_table
            if (
                name.is_level
                and least <= scale_of(zoom)
                and (is_behind or until > scale_of(zoom + 1))
            ):
                found.setdefault(tile_of(name, zoom), []).append(row)
    return {tile: sorted(rows, key=lambda row: str(row[0])) for tile, rows in found.items()}


def of_mbtiles(path: Path, at: Path) -> Tiles:
    """The names of the tiles of a file of MBTiles, whose rows count from the south."""
    with sqlite3.connect(path) as link:
        for z, x, row, data in link.execute(
            "SELECT zoom_level, tile_column, tile_row, tile_data FROM tiles"
        ):
            put(at, f"{z}/{x}/{2 ** z - 1 - row}", gzip.decompress(data))
    return decoded(at)


def of_table(database: Database, table: str, tiles: list[str], at: Path) -> Tiles:
    """The names of tiles out of a table, as pg_tileserv and martin ask for them."""
    with psycopg.connect(database.words()) as link:
        for tile in tiles:
            row = link.execute(
                f"SELECT {table}_tile(%s, %s, %s)", list(map(int, tile.split("/")))
            ).fetchone()
            assert row is not None
            put(at, tile, row[0])
    return decoded(at)


def put(at: Path, tile: str, data: bytes) -> None:
    """Writes a tile into a folder."""
    path = at / f"{tile}.pbf"
    path.parent.mkdir(parents=True, exist_ok=True)
    path.write_bytes(data)


def compare(what: str, found: Tiles, due: Tiles) -> None:
    """Sees that tiles hold the names that they should."""
    for tile in sorted(set(found) | set(due)):
        one, two = found.get(tile, []), due.get(tile, [])
        assert (
            one == two
        ), f"{what}, tile {tile}: {one[:2]} .. and not {two[:2]} .. ({len(one)}, {len(two)})"


def run(engine: Path) -> str:
    """Publishes an atlas in all forms."""
    with folder() as at, Database(at) as database:
        made = layer(at, PLACES)
        out, files = at / "atlas", [
            at / name for name in ("n.geojsonl", "n.gpkg", "n.mbtiles", "tiles")
        ]
        atlas(engine, "make", made.places, made.six, out, "--workers", 2)
        words = [
            "--lines",
            files[0],
            "--geopackage",
            files[1],
            "--mbtiles",
            files[2],
            "--tiles",
            files[3],
        ]
        atlas(engine, "publish", out, *words, "--zooms", 0, LAST)
        atlas(engine, "publish", out, "--postgis", database.words())
        names = Names(Store(out).load().state)
        due, of_files = wanted(names, True), wanted(names, False)
        compare("the folder", decoded(files[3]), of_files)
        compare("MBTiles", of_mbtiles(files[2], at / "mbtiles"), of_files)
        empty = [f"{LAST}/{x}/0" for x in range(3)]
        compare("the table", of_table(database, "names", [*due, *empty], at / "table"), due)
        lines = [json.loads(line) for line in files[0].read_text(encoding="utf-8").splitlines()]
        shown = [name for name in names.of(names.shown()) if name.zooms is not None]
        assert [one["properties"]["id"] for one in lines] == [name.id for name in shown]
        with sqlite3.connect(files[1]) as link:
            (count,) = link.execute("SELECT count(*) FROM names").fetchone()
        assert count == len(shown), f"the GeoPackage has {count} names"
        said = atlas(
            engine,
            "publish",
            out,
            "--postgis",
            database.words(),
            "--table",
            "spatial_ref_sys",
            status=1,
        ).said
        assert "is none of an atlas" in said, said
        said = atlas(engine, "view", database.words(), "nowhere", 0, 0, 2, 2, 1, status=1).said
        assert "there is no table" in said, said
        return (
            f"{len(shown):,} names in {len(due)} tiles of a table, {len(of_files)} of files, lines,"
            " a GeoPackage"
        )
