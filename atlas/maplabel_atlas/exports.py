"""The names of an atlas as files: GeoJSON lines, a GeoPackage, and vector tiles as MBTiles or a
folder, by GDAL.
"""

import json
import os
import shutil
import subprocess
from collections.abc import Iterator
from dataclasses import dataclass
from pathlib import Path

from maplabel_kit import files, geojson

from maplabel_atlas.faults import Fault
from maplabel_atlas.names import Name, Names

LAYER = "names"
# GDAL leaves names out of tiles that are larger: none is.
MOST_FEATURES, MOST_BYTES = 10_000_000, 500_000_000
SOURCE = (
    '<OGRVRTLayer name="z{zoom}"><SrcDataSource>{package}</SrcDataSource>'
    "<SrcSQL>SELECT * FROM names WHERE level = 1 AND maxzoom &gt;= {zoom} "
    "{least}</SrcSQL></OGRVRTLayer>"
)


@dataclass(frozen=True)
class Tiles:
    """Vector tiles that are wanted: a file of MBTiles or a folder, and their zooms."""

    kind: str
    path: Path
    first: int
    last: int


def feature_of(name: Name) -> str | None:
    """A name as a line of GeoJSON, none where it is shown at no zoom of web maps."""
    if name.zooms is None:
        return None
    (x, y), (low, high) = name.place, name.zooms
    properties = {
        "id": name.id,
        "text": name.text,
        "class": name.number,
        "x": x,
        "y": y,
        "boxes": name.boxes_text(),
        "min": "%d/%d" % name.least,
        "until": "%d/%d" % name.until,
        "minzoom": low,
        "maxzoom": high,
        "level": int(name.is_level),
    }
    return geojson.feature_text(
        None, {"type": "Point", "coordinates": [x / 1e7, y / 1e7]}, properties
    )


def lines(names: Names) -> Iterator[str]:
    """All names that are shown at some zoom, in priority order."""
    for name in names.of(names.shown()):
        if (line := feature_of(name)) is not None:
            yield line


def write_lines(names: Names, path: Path) -> int:
    """Writes the names as lines of GeoJSON, and says how many."""
    part, count = path.with_name(path.name + ".part"), 0
    try:
        with part.open("w", encoding="utf-8") as out:
            for line in lines(names):
                out.write(line + "\n")
                count += 1
        os.replace(part, path)
    except OSError as error:
        part.unlink(missing_ok=True)
        raise Fault(f"{path} cannot be written: {error.strerror}") from None
    return count


class Exports:
    """Files that are made of names, each of which is made once where several need it."""

    def __init__(self, names: Names, folder: Path) -> None:
        self._names, self._folder = names, folder
        self._lines: Path | None = None
        self._package: Path | None = None
        self.count = 0

    def lines(self, path: Path | None = None) -> Path:
        """The lines of GeoJSON, at a path that is told or anywhere."""
        if self._lines is None:
            self._lines = path or self._folder / "names.geojsonl"
            self.count = write_lines(self._names, self._lines)
        elif path is not None:
            shutil.copyfile(self._lines, path)
        return self._lines

    def package(self, path: Path | None = None) -> Path:
        """The GeoPackage."""
        if self._package is None:
            self._package = path or self._folder / "names.gpkg"
            part = self._package.with_name("part-" + self._package.name)
            part.unlink(missing_ok=True)
            _gdal(
                "ogr2ogr",
                "-f",
                "GPKG",
                part,
                self._seq(),
                "-nln",
                LAYER,
                "-a_srs",
                "EPSG:4326",
                "-gt",
                100_000,
            )
            _gdal(
                "ogrinfo",
                "-q",
                part,
                "-sql",
                "CREATE INDEX names_zooms ON names (minzoom, maxzoom)",
            )
            os.replace(part, self._package)
        elif path is not None:
            shutil.copyfile(self._package, path)
        return self._package

    def _seq(self) -> str:
        return f"GeoJSONSeq:{self.lines()}"

    def tiles(self, wanted: Tiles) -> None:
        """Vector tiles: a layer for each zoom, all under the name `names`. The last zoom has all
        that come behind it.
        """
        every = range(wanted.first, wanted.last + 1)
        source = self._folder / "tiles.vrt"
        layers = "".join(self._layer(zoom, zoom == wanted.last) for zoom in every)
        files.write_whole({source: f"<OGRVRTDataSource>{layers}</OGRVRTDataSource>"})
        plan = {
            f"z{zoom}": {"target_name": LAYER, "minzoom": zoom, "maxzoom": zoom} for zoom in every
        }
        options = {
            "CONF": json.dumps(plan),
            "MINZOOM": wanted.first,
            "MAXZOOM": wanted.last,
            "MAX_FEATURES": MOST_FEATURES,
            "MAX_SIZE": MOST_BYTES,
            "BUFFER": 0,
            **({"COMPRESS": "NO"} if wanted.kind == "MVT" else {}),
        }
        words = [word for key, value in options.items() for word in ("-dsco", f"{key}={value}")]
        part = wanted.path.with_name("part-" + wanted.path.name)
        _remove(part)
        _gdal("ogr2ogr", "-f", wanted.kind, part, source, *words)
        _remove(wanted.path)
        os.replace(part, wanted.path)

    def _layer(self, zoom: int, is_last: bool) -> str:
        """The names of a zoom; those of the last zoom are also those of all zooms behind it."""
        least = "" if is_last else f"AND minzoom &lt; {zoom + 1}"
        return SOURCE.format(zoom=zoom, package=self.package(), least=least)


def _remove(path: Path) -> None:
    if path.is_dir():
        shutil.rmtree(path)
    else:
        path.unlink(missing_ok=True)


def _gdal(*words: object) -> None:
    if shutil.which(str(words[0])) is None:
        raise Fault(f"{words[0]} is missing, the package gdal-bin of Debian")
    run = subprocess.run(
        [str(word) for word in words],
        stdout=subprocess.DEVNULL,
        stderr=subprocess.PIPE,
        check=False,
    )
    if run.returncode != 0:
        raise Fault(f"{words[0]} failed: {run.stderr.decode('utf-8', 'replace').strip()[-300:]}")
