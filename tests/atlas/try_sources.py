"""One layer as files of all kinds and as a table of PostGIS: the same atlas each time."""

import json
import subprocess
from pathlib import Path
from typing import Any

from database import Database
from stage import Layer, atlas, columns, folder, layer

PLACES = 3_000


class Sources:
    """Makes the layer in other forms, and compares the atlases."""

    def __init__(self, engine: Path, at: Path) -> None:
        self._engine, self._at = engine, at
        self._layer: Layer = layer(at, PLACES)
        self._plain = at / "plain.geojson"
        self._write_plain()
        atlas(engine, "make", self._layer.places, self._layer.six, at / "first", "--workers", 2)
        self._wanted = columns(at / "first")
        self.told: list[str] = []

    def _write_plain(self) -> None:
        """The features as one GeoJSON file, whose column `number` holds the ids too."""
        features = []
        for line in self._layer.lines():
            one = json.loads(line)
            one["properties"]["number"] = one["id"]
            features.append(one)
        whole: dict[str, Any] = {
            "type": "FeatureCollection",
            "name": "places",
            "features": features,
        }
        self._plain.write_text(json.dumps(whole, indent=1), encoding="utf-8")

    def compare(self, name: str, source: object, *more: object) -> None:
        """Makes an atlas of a source, which must have the same bytes."""
        out = self._at / f"out-{name}"
        words = ["make", source, self._layer.six, out, "--workers", 2, *more]
        atlas(self._engine, *words)
        assert columns(out) == self._wanted, f"{name}: other bytes"
        self.told.append(name)

    def gdal(self, name: str, driver: str, suffix: str, *more: str) -> None:
        """A file that GDAL makes of the layer, and reads again."""
        path = self._at / f"places{suffix}"
        words = ["ogr2ogr", "-f", driver, *more, str(path), str(self._plain), "-nln", "places"]
        subprocess.run(words, check=True, capture_output=True)
        self.compare(name, path, "--id-field", "number")

    def projected(self) -> None:
        """A GeoPackage in another system, which GDAL turns back: as many labels, nearly at the same
        places.
        """
        path = self._at / "metres.gpkg"
        words = [
            "ogr2ogr",
            "-f",
            "GPKG",
            "-t_srs",
            "EPSG:3857",
            str(path),
            str(self._plain),
            "-nln",
            "places",
        ]
        subprocess.run(words, check=True, capture_output=True)
        self.compare("GeoPackage in metres", path, "--id-field", "number")

    def table(self, database: Database) -> None:
        """A table of PostGIS by GDAL."""
        target = f"PG:{database.words()}"
        words = ["ogr2ogr", "-f", "PostgreSQL", target, str(self._plain), "-nln", "places"]
        subprocess.run(words, check=True, capture_output=True)
        more = ("--layer", "places", "--id-field", "number")
        self.compare("PostGIS", target, *more)

    def untold(self) -> None:
        """A shapefile without its system, in metres, which --crs tells."""
        path = self._at / "bare.shp"
        words = ["ogr2ogr", "-f", "ESRI Shapefile", "-t_srs", "EPSG:3857", "-lco", "ENCODING=UTF-8"]
        subprocess.run([*words, str(path), str(self._plain)], check=True, capture_output=True)
        path.with_suffix(".prj").unlink()
        more = ("--id-field", "number", "--workers", 2)
        out = self._at / "bare"
        said = atlas(self._engine, "make", path, self._layer.six, out, *more, status=1).said
        assert "OutOfRange" in said and "--crs" in said, said
        self.compare("shapefile with --crs", path, "--id-field", "number", "--crs", "EPSG:3857")


def run(engine: Path) -> str:
    """Tries all kinds."""
    with folder() as at, Database(at) as database:
        sources = Sources(engine, at)
        sources.compare("GeoJSON", sources._plain)
        sources.gdal("GeoPackage", "GPKG", ".gpkg")
        sources.gdal("shapefile", "ESRI Shapefile", ".shp", "-lco", "ENCODING=UTF-8")
        sources.gdal("FlatGeobuf", "FlatGeobuf", ".fgb")
        sources.projected()
        sources.untold()
        sources.table(database)
        return (
            f"{PLACES:,} places as GeoJSON lines and as {', '.join(sources.told)}: the same bytes"
        )
