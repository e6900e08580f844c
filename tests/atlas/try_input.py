"""Bad input: each mistake has a sentence that says what was found, where, and what to do."""

import fcntl
import json
import os
import threading
import time
from collections.abc import Callable, Sequence
from pathlib import Path
from typing import Any

from stage import Layer, atlas, columns, folder, layer

COUNT = 300
# An edit takes at most 30,000 features.
TOO_MANY = 101
NOWHERE = "host=/nowhere dbname=gis"


class Tries:
    """Layers and styles with one mistake each."""

    def __init__(self, engine: Path, at: Path) -> None:
        self._engine, self._at = engine, at
        self._good: Layer = layer(at, COUNT)
        self._features = [json.loads(line) for line in self._good.lines()]
        self.count = 0

    def _layer(
        self, change: Callable[[int, dict[str, Any]], None], name: str = "bad.geojsonl"
    ) -> Path:
        """The good layer with a change to each feature."""
        path = self._at / name
        with path.open("w", encoding="utf-8") as out:
            for number, one in enumerate(self._features):
                feature = json.loads(json.dumps(one))
                change(number, feature)
                out.write(json.dumps(feature) + "\n")
        return path

    def _make(
        self, places: Path, style: Path, status: int, *wanted: str, more: tuple[str, ...] = ()
    ) -> None:
        """Makes an atlas; what it says must hold some texts."""
        words = ["make", places, style, self._at / "out", "--workers", "1", *more]
        self._try(words, status, *wanted)

    def _try(self, words: Sequence[object], status: int, *wanted: str) -> None:
        """Runs a command; what it says must hold some texts."""
        said = atlas(self._engine, *words, status=status).said
        for text in wanted:
            assert text in said, f"{text!r} is not in what was said of {words}: {said}"
        self.count += 1

    def _style(self, old: str, new: str) -> Path:
        text = self._good.six.read_text(encoding="utf-8")
        assert old in text, f"the style does not hold {old}"
        path = self._at / "bad.toml"
        path.write_text(text.replace(old, new), encoding="utf-8")
        return path

    def names(self) -> None:
        """A layer without names, and one whose names are in another property."""

        def unnamed(_: int, feature: dict[str, Any]) -> None:
            feature["properties"]["title"] = feature["properties"].pop("name")

        self._make(
            self._layer(unnamed), self._good.six, 1, "gets a label", "'name'", "title", "pop"
        )

        def bare(_: int, feature: dict[str, Any]) -> None:
            feature["properties"] = {"place": "town"}

        sentence = "no feature of"
        self._make(self._layer(bare), self._good.six, 1, sentence, "the properties are place")

    def geometries(self) -> None:
        """Points mixed with lines: labels for points, a sentence for lines."""

        def mixed(number: int, feature: dict[str, Any]) -> None:
            if number < 20:
                at = feature["geometry"]["coordinates"]
                feature["geometry"] = {"type": "LineString", "coordinates": [at, [0, 0]]}

        sentence = "mixes geometries (20 of the kind line, 280 of the kind point)"
        self._make(
            self._layer(mixed), self._good.six, 0, sentence, "no class for line", "20 NoClass"
        )

        def lines(number: int, feature: dict[str, Any]) -> None:
            at = feature["geometry"]["coordinates"]
            feature["geometry"] = {"type": "LineString", "coordinates": [at, [0, 0]]}

        sentence = "none fits a class of the style; the kinds are line"
        self._make(self._layer(lines), self._good.six, 1, sentence, "point place=capital")

    def ids(self) -> None:
        """Equal ids, and an id that no database holds."""

        def equal(number: int, feature: dict[str, Any]) -> None:
            feature["id"] = f"p{number % 290}"

        self._make(
            self._layer(equal),
            self._good.six,
            0,
            "10 features have an id that an earlier one has",
            "first p0 at place 290",
        )

        def hollow(number: int, feature: dict[str, Any]) -> None:
            feature["id"] += "\0" if number == 7 else ""

        self._make(self._layer(hollow), self._good.six, 1, "place 7", "U+0000")

    def systems(self) -> None:
        """Coordinates that are no degrees, with and without a CRS that says so."""

        def metres(_: int, feature: dict[str, Any]) -> None:
            x, y = feature["geometry"]["coordinates"]
            feature["geometry"]["coordinates"] = [x * 111_000, y * 111_000]

        path = self._layer(metres)
        self._make(path, self._good.six, 1, "place 0", "id p0", "OutOfRange", "degrees")
        told: dict[str, Any] = {
            "type": "name",
            "properties": {"name": "urn:ogc:def:crs:EPSG::25832"},
        }
        features = [json.loads(line) for line in path.read_text(encoding="utf-8").splitlines()]
        whole = self._at / "metres.geojson"
        collection = {
            "type": "FeatureCollection",
            "crs": told,
            "features": features,
        }
        whole.write_text(json.dumps(collection), encoding="utf-8")
        self._make(whole, self._good.six, 1, "EPSG::25832", "ogr2ogr -t_srs EPSG:4326")

    def sides(self) -> None:
        """A class that reaches further than 512 pixels with its margin."""
        style = self._style("size = 16\npriority = 0", "size = 200\ndx = 200\npriority = 0")
        style.write_text(
            style.read_text(encoding="utf-8").replace("margin = 2", "margin = 64"), encoding="utf-8"
        )
        self._make(
            self._good.places, style, 1, "512 pixels", "point place=capital", "class 0", "margin"
        )

    def styles(self) -> None:
        """A style that the engine refuses, and one without classes."""
        self._make(
            self._good.places, self._style("size = 16", "size = 1600"), 1, "4 BadClass 0 size"
        )
        empty = self._at / "empty.toml"
        empty.write_text("version = 2\n", encoding="utf-8")
        self._make(self._good.places, empty, 1, "no class")

    def files(self) -> None:
        """Layers that are not there, are empty, are no GeoJSON, or are cut off."""
        self._make(self._at / "none.gpkg", self._good.six, 1, "there is no layer", "none.gpkg")
        self._make(self._at / "none.geojsonl", self._good.six, 1, "there is no layer")
        empty = self._at / "empty.geojsonl"
        empty.write_text("\n", encoding="utf-8")
        self._make(empty, self._good.six, 1, "has no features")
        cut = self._at / "cut.geojsonl"
        cut.write_text(self._good.places.read_text(encoding="utf-8")[:-40], encoding="utf-8")
        self._make(cut, self._good.six, 1, f"place {COUNT - 1}", "NotJson")
        cut = self._at / "cut.geojson"
        lines = ",".join(self._good.lines())
        cut.write_text('{"type":"FeatureCollection","features":[' + lines, encoding="utf-8")
        self._make(cut, self._good.six, 1, "cut.geojson is no GeoJSON collection")
        other = self._at / "other.geojsonl"
        other.write_text('{"type":"Feature"}\n{"type":"Point"}\n', encoding="utf-8")
        self._make(other, self._good.six, 1, "place 1", "NotFeature")

        package = self._at / "torn.gpkg"
        package.write_bytes(b"SQLite format 3\0" + bytes(100))
        self._make(package, self._good.six, 1, "GDAL does not read", "torn.gpkg")
        kind = self._at / "kind.geojson"
        kind.write_text('{"features":[],"type":"Topology"}', encoding="utf-8")
        self._make(kind, self._good.six, 1, "of the type 'Topology' and no FeatureCollection")

    def edits(self) -> None:
        """Edits that say too little, or too much at once; the atlas stays as it was."""
        out = self._at / "edited"
        atlas(self._engine, "make", self._good.places, self._good.six, out, "--workers", "1")
        was = columns(out)

        def nameless(number: int, feature: dict[str, Any]) -> None:
            if number == 5:
                del feature["id"]

        def equal(number: int, feature: dict[str, Any]) -> None:
            feature["id"] = "p8" if number == 9 else feature["id"]

        many = self._at / "many.geojsonl"
        many.write_text(self._good.places.read_text(encoding="utf-8") * TOO_MANY, encoding="utf-8")
        cut = self._at / "cut.geojsonl"
        cut.write_text('{"type":"Feature"', encoding="utf-8")
        sentences: list[tuple[list[object], str]] = [
            ([self._layer(nameless)], "the feature at place 5 of the edit has no id"),
            ([self._layer(equal, "equal.geojsonl")], "two features of the edit have the id p8"),
            ([many], "at most 30000 features, and this one has 30300"),
            ([cut], "the feature at place 0 is refused: NotJson"),
            ([self._at / "none.geojsonl"], "there is no layer"),
            ([], "FEATURES, --remove ID or --follow"),
        ]
        for words, sentence in sentences:
            self._try(["edit", out, *words], 1, sentence)
        self._try(["edit", out, "--remove", "nobody"], 0, "there is no feature nobody")
        with (out / "lock").open("a") as lock:
            fcntl.flock(lock, fcntl.LOCK_EX)
            self._try(["edit", out, "--remove", "p3"], 1, "another command changes")
        assert columns(out) == was, "an edit that was refused changed the atlas"
        self._try(["edit", self._at / "nowhere", "--remove", "p3"], 1, "is no atlas")
        self._publish(out)

    def _publish(self, out: Path) -> None:
        """What cannot be published, and where to."""
        tried: list[tuple[list[object], str]] = [
            ([], "--postgis, --lines, --geopackage, --mbtiles or --tiles tells it"),
            (["--tiles", self._at / "t", "--zooms", 5, 3], "--zooms 5 3 are no zooms"),
            (["--postgis", NOWHERE, "--table", "a.b.c"], "a.b.c is no name of a table"),
            (["--postgis", NOWHERE], "the database does not answer"),
            (["--lines", self._at / "none" / "x"], "there is no folder"),
            (["--lines", self._at], "cannot be written"),
        ]
        for words, sentence in tried:
            self._try(["publish", out, *words], 1, sentence)

    def tables(self) -> None:
        """A table that is not told, and a database that does not answer."""
        words = ["make", f"PG:{NOWHERE}", self._good.six, self._at / "out"]
        self._try(words, 1, "which table of", "--layer TABLE tells it")
        self._try([*words, "--layer", "towns"], 1, "the database does not answer")

    def changing(self) -> None:
        """A layer that changes while it is read."""
        path = self._at / "changing.geojsonl"
        path.write_text(self._good.places.read_text(encoding="utf-8") * 400, encoding="utf-8")
        is_ended = threading.Event()

        def change() -> None:
            while not is_ended.wait(0.05):
                os.utime(path, ns=(time.time_ns(), time.time_ns()))

        writer = threading.Thread(target=change)
        writer.start()
        try:
            self._make(
                path, self._good.six, 1, "was changed while it was read", "call the command again"
            )
        finally:
            is_ended.set()
            writer.join()


def run(engine: Path) -> str:
    """Makes each mistake."""
    with folder() as at:
        tries = Tries(engine, at)
        for one in (
            tries.names,
            tries.geometries,
            tries.ids,
            tries.systems,
            tries.sides,
            tries.styles,
            tries.files,
            tries.edits,
            tries.tables,
            tries.changing,
        ):
            one()
        return f"{tries.count} mistakes, each with its sentence"
