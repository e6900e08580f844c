"""Publishing an atlas: into a table of PostGIS, and into files."""

import tempfile
from dataclasses import dataclass
from pathlib import Path

from maplabel_atlas.exports import Exports, Tiles
from maplabel_atlas.faults import Fault
from maplabel_atlas.names import Names
from maplabel_atlas.postgis import NamesTable
from maplabel_atlas.store import Atlas, Store
from maplabel_atlas.telling import Teller


@dataclass(frozen=True)
class Files:
    """The files that are wanted: lines of GeoJSON, a GeoPackage, vector tiles."""

    lines: Path | None
    geopackage: Path | None
    tiles: tuple[Tiles, ...]

    def paths(self) -> list[Path]:
        """Where these files are to stand."""
        told = (self.lines, self.geopackage, *(one.path for one in self.tiles))
        return [path for path in told if path is not None]


def to_postgis(store: Store, atlas: Atlas, database: str, name: str, teller: Teller) -> None:
    """Brings a table to what the atlas holds. Where the table holds an earlier generation, only
    what changed is read.
    """
    table = NamesTable(database, name)
    was = table.published()
    changed = None if was is None else store.changes_since(was[0], was[1])
    if changed is not None and len(changed) == 0:
        return
    names = Names(atlas.state, was[2] if was is not None and changed is not None else None)
    done = table.write(names, atlas.about, changed)
    if done.is_new:
        teller.say(f"the table {name} is made, with {done.changed:,} names")
    else:
        teller.say(
            f"the table {name}: {done.changed:,} names are new or changed, {done.removed:,} gone"
        )


def to_files(atlas: Atlas, wanted: Files, teller: Teller) -> None:
    """Writes files, each of which is there as a whole or not at all."""
    for path in wanted.paths():
        if not path.resolve().parent.is_dir():
            raise Fault(f"there is no folder {path.parent} for {path.name}; make it first")
    names = Names(atlas.state)
    beside = wanted.paths()[0].resolve().parent
    with tempfile.TemporaryDirectory(prefix=".atlas-", dir=beside) as folder:
        exports = Exports(names, Path(folder))
        if wanted.lines is not None:
            exports.lines(wanted.lines)
            teller.say(f"{wanted.lines}: {exports.count:,} names")
        if wanted.geopackage is not None:
            exports.package(wanted.geopackage)
            teller.say(f"{wanted.geopackage} is made")
        for one in wanted.tiles:
            exports.tiles(one)
            teller.say(f"{one.path}: vector tiles of the zooms {one.first} to {one.last}")
