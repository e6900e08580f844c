"""Layers of all kinds that tools/merge puts together."""

import json
import subprocess

import setting
from setting import Value, line, point

OSM = """<?xml version="1.0" encoding="UTF-8"?>
<osm version="0.6">
  <node id="1" lat="47.37" lon="8.54"><tag k="name" v="Zurich"/><tag k="place" v="city"/>
    <tag k="population" v="402762"/></node>
  <node id="2" lat="47.4" lon="8.6"><tag k="place" v="hamlet"/></node>
  <node id="3" lat="47.3" lon="8.5"/><node id="4" lat="47.5" lon="8.7"/>
  <way id="7"><nd ref="3"/><nd ref="4"/><tag k="name" v="Sihl"/><tag k="waterway" v="river"/></way>
</osm>
"""


class Merge(setting.Folder):
    """Layers become one map file."""

    def merged(self, *words: object) -> dict[str, Value]:
        """The features of the file that is made, by their ids."""
        out = self.at / "out.geojson"
        status, self.said, error = setting.run("merge", *words, "-o", out)
        self.assertEqual((status, error), (0, ""))
        features = json.loads(out.read_text("utf-8"))["features"]
        found = {one["id"]: one for one in features}
        self.assertEqual(len(found), len(features))
        return found

    def test_kinds_of_files_in_metres_and_degrees(self) -> None:
        source = self.at / "towns.geojson"
        towns = [point(None, 8.5, 47.25, name=" Bern ", people="7"), point(None, 9, 48, people="8")]
        source.write_text(setting.collection(towns), "utf-8")
        for form, name in (
            ("ESRI Shapefile", "a.shp"),
            ("GPKG", "a.gpkg"),
            ("GeoJSONSeq", "a.geojsonl"),
            ("FlatGeobuf", "a.fgb"),
        ):
            system = "EPSG:4326" if form == "GeoJSONSeq" else "EPSG:3857"
            words = ["ogr2ogr", "-f", form, "-t_srs", system, str(self.at / name), str(source)]
            subprocess.run(words, check=True, capture_output=True)
            (one,) = self.merged(self.at / name, "--rank", "people").values()
            self.assertEqual(one["geometry"]["coordinates"], [8.5, 47.25])
            self.assertEqual(one["properties"], {"name": "Bern", "people": 7})
            self.assertIn("2 read, 1 taken, 1 without a name", self.said)

    def test_an_extract_of_openstreetmap(self) -> None:
        source = self.at / "town.osm"
        source.write_text(OSM)
        found = self.merged(source, "--rank", "population", "--keep", "place")
        self.assertEqual(list(found), ["points-1", "lines-7"])
        told = {"name": "Zurich", "population": 402762, "place": "city"}
        self.assertEqual(found["points-1"]["properties"], told)
        self.assertEqual(found["lines-7"]["geometry"]["type"], "LineString")

    def test_ids_differ_and_last(self) -> None:
        for name in ("a", "b"):
            text = setting.collection(
                [point("x1", 8, 47, name=name), point("x2", 9, 47, name=name)]
            )
            (self.at / f"{name}.geojson").write_text(text)
        found = self.merged(self.at / "a.geojson", self.at / "b.geojson")
        self.assertEqual(list(found), ["a-x1", "a-x2", "b-x1", "b-x2"])
        self.assertEqual(list(self.merged(self.at / "a.geojson")), ["x1", "x2"])

    def test_collections_by_their_parts(self) -> None:
        parts = [
            {"type": "Point", "coordinates": [8, 47]},
            {"type": "LineString", "coordinates": [[8, 47], [9, 48]]},
        ]
        mixed = line("m", [], name="M") | {
            "geometry": {"type": "GeometryCollection", "geometries": parts}
        }
        source = self.at / "mixed.geojson"
        source.write_text(setting.collection([mixed]))
        (one,) = self.merged(source).values()
        self.assertEqual(one["geometry"]["coordinates"], [[[8, 47], [9, 48]]])
        self.assertIn("1 collections taken by their parts", self.said)

    def test_what_cannot_be_taken_is_told(self) -> None:
        named = self.at / "named.geojson"
        named.write_text(setting.collection([point("a", 8, 47, naam="A")]))
        table = self.at / "table.csv"
        table.write_text("name,people\nA,1\n")
        plain = self.at / "metres.csv"
        plain.write_text('name,WKT\nA,"POINT (950000 6000000)"\n')
        for words, sentence in (
            ((named,), 'no field "name"; perhaps "naam" is meant. Its fields are: id, naam'),
            ((named, "--crs", "moon", "--name", "naam"), "moon is no coordinate system"),
            ((f"{named}:towns",), "has no layer towns; it has named"),
            ((table,), "has no column of geometries"),
            ((plain,), "tells no coordinate system, and its numbers are not degrees"),
            ((self.at / "none.shp",), "there is no file"),
            ((self.at / "run.py",), "there is no file"),
        ):
            out = self.at / "out.geojson"
            status, _, said = setting.run("merge", *words, "-o", out)
            self.assertEqual((status, said.count("\n")), (1, 1), said)
            self.assertIn(sentence, said)
            self.assertFalse(out.exists())

    def test_more_than_a_map_may_have(self) -> None:
        many = [point(None, k % 300 / 2 - 75, k / 600 - 30, name="A", n=k) for k in range(32_770)]
        source = self.at / "many.geojson"
        source.write_text(setting.collection(many))
        status, _, said = setting.run("merge", source, "-o", self.at / "out.geojson")
        self.assertEqual(status, 1)
        self.assertIn("there are 32,770 features, and the engine takes at most 32,768", said)
        self.assertIn("atlas/atlas make", said)
        found = self.merged(source, "--rank", "n", "--most", "100")
        self.assertEqual(
            {one["properties"]["n"] for one in found.values()}, set(range(32670, 32770))
        )
        self.assertIn("32,670 of the least rank are left out", self.said)
