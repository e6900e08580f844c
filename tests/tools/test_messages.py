"""What is told of each common mistake: the file, the place, what was found and what to do."""

import gzip
import json
import os
import socket
import subprocess
import tempfile
from pathlib import Path

import setting
from maplabel_kit import explain, ports
from maplabel_kit.faults import Fault
from maplabel_kit.server import Server
from setting import point

OGR = "ogr2ogr -f GeoJSON -t_srs EPSG:4326"
WEB = setting.TOOLS.parent / "web"


class OfMaps(setting.Folder):
    """Files that are given as maps and are none."""

    def told(self, data: bytes, name: str = "map.geojson") -> str:
        """What tools/report tells of a file under a good style, with the program's status."""
        self.write([])
        path = self.at / name
        path.write_bytes(data)
        status, out, said = setting.run("report", self.style, path)
        self.assertEqual((status, said), (4, ""))
        self.assertTrue(out.startswith("map refused: "), out)
        self.assertIn(str(path), out)
        return out

    def test_packed(self) -> None:
        told = self.told(gzip.compress(b'{"type":"FeatureCollection","features":[]}'))
        self.assertIn("this is a file packed by gzip", told)
        self.assertIn("gunzip -k", told)

    def test_files_of_gdal_by_their_names(self) -> None:
        good = self.at / "good.geojson"
        good.write_text(setting.collection([point("a", 8, 47, name="A")]), "utf-8")
        for form, name, kind in (
            ("ESRI Shapefile", "a.shp", "a shapefile"),
            ("GPKG", "a.gpkg", "a GeoPackage"),
            ("FlatGeobuf", "a.fgb", "a FlatGeobuf file"),
        ):
            subprocess.run(["ogr2ogr", "-f", form, self.at / name, good], check=True)
            told = self.told((self.at / name).read_bytes(), name)
            self.assertIn(f"this is {kind}", told)
            self.assertIn(f"{OGR} a.map.geojson {self.at / name}", told)

    def test_the_command_that_is_told_turns_it(self) -> None:
        lines = "\n".join(json.dumps(point(None, x, 47, name="A")) for x in (8, 9))
        told = self.told(lines.encode(), "a.geojson")
        self.assertIn("this is GeoJSON lines", told)
        command = told.partition("turn it: ")[2].strip()
        subprocess.run(["bash", "-c", command], cwd=self.at, check=True)
        status, _, _ = setting.run("report", self.style, self.at / "a.map.geojson")
        self.assertEqual(status, 0)

    def test_other_json(self) -> None:
        topology = b'{"type":"Topology","objects":{},"arcs":[]}'
        self.assertIn("this is TopoJSON", self.told(topology))
        told = self.told(b'{"type":"Point","coordinates":[8,47]}', "bare.geojson")
        self.assertIn("this is a bare geometry (Point)", told)
        command = told.partition("turn it: ")[2].strip()
        subprocess.run(["bash", "-c", command], cwd=self.at, check=True)
        made = json.loads((self.at / "bare.map.geojson").read_text())
        self.assertEqual((made["type"], made["geometry"]["type"]), ("Feature", "Point"))

    def test_too_many_features(self) -> None:
        feature = '{"type":"Feature","geometry":null}'
        many = '{"type":"FeatureCollection","features":[' + ",".join([feature] * 32769) + "]}"
        told = self.told(many.encode())
        self.assertIn("there are 32,769 features", told)
        self.assertIn("at most 32,768", told)
        self.assertIn("atlas/atlas make", told)

    def test_a_geometry_of_another_form(self) -> None:
        self.assertIn(
            'its geometry has the type "Pont"; perhaps "Point" is meant',
            self.told(setting.collection([point("a", 8, 47)]).replace("Point", "Pont").encode()),
        )
        told = self.told(
            setting.collection([point("a", 8, 47)]).replace("Point", "Polygon").encode()
        )
        self.assertIn("its Polygon has coordinates of 1 lists within one another", told)


class OfStyles(setting.Folder):
    """Mistakes in styles."""

    def told(self, style: str, *parts: str) -> None:
        """What is told of a style that is refused has these parts."""
        self.write([point("a", 8, 47, name="A", place="city")], style)
        status, out, _ = setting.run("report", self.style, self.map)
        self.assertEqual(status, 3, out)
        for part in parts:
            self.assertIn(part, out)

    def test_what_the_value_looks_like(self) -> None:
        style = setting.STYLE
        self.told(
            style.replace('min = "0"', "min = 0"),
            "style refused: 4 BadClass 0 min",
            "line 18, column 1:\n    min = 0\n    ^",
            "it is the number 0",
            "it may be a text",
            'write min = "0"',
        )
        self.told(
            style.replace("size = 20", "size = 14.5"),
            "style refused: 4 BadClass 0 size",
            "it is 14.5, a number that is not whole",
            "a whole number from 1 to 256",
        )
        self.told(
            style.replace("[[class]]", "[class]"),
            "style refused: 4 BadClass 0 class",
            "line 11, column 1:\n    [class]\n    ^",
            "write each class as [[class]], with two brackets",
        )
        self.told(
            style.replace('"sans"', '"snas"'),
            "style refused: 5 UnknownFont 0",
            'class 0 asks for the font "snas", which is not there; perhaps "sans" is meant',
            "the fonts that are there: sans",
        )
        self.told(style.replace("units = 1000", 'units = "1000"'), 'is the text "1000"')
        self.told(style.replace('max = "1000000"', 'max = "0/5"'), "`max` of class 0")
        self.told(style.replace('min = "0"', 'min = "2000000"'), "min is below max")

    def test_a_misspelt_key(self) -> None:
        self.write(
            [point("a", 8, 47, name="A", place="city", pop=1)],
            setting.STYLE.replace("margin = 2", "margins = 2"),
        )
        status, out, _ = setting.run("report", self.style, self.map)
        self.assertEqual(status, 0)
        self.assertIn('the key "margins" of class 0 (line 20) has no meaning', out)
        self.assertIn('perhaps "margin" is meant', out)


class OfFeatures(setting.Folder):
    """What the program passes over, which tools/report tells with the ids."""

    def warned(self, part: str, *more: str) -> None:
        """The one warning with a part has these further ones."""
        status, out, said = setting.run("report", self.style, self.map, "--json")
        self.assertEqual(status, 0, out + said)
        found = [one for one in json.loads(out)["warnings"] if part in one]
        self.assertEqual(len(found), 1, out)
        for one in more:
            self.assertIn(one, found[0])

    def test_places_ranks_and_names(self) -> None:
        self.write(
            [
                point("east", 181, 47, name="A", place="city", pop=1),
                point("debt", 8, 48, name="B", place="city", pop=-3),
                point("nil", 8, 49, name=None, place="city", pop=2),
                point("blank", 8, 50, name=" ", place="city", pop=2),
            ]
        )
        self.warned("longitude beyond 180", "1, as east.", "-wrapdateline")
        self.warned("below 0, which counts as 0", "1, as debt.")
        self.warned("without a name", "2, as nil, blank.")

    def test_a_member_crs(self) -> None:
        self.write([point("a", 8, 47, name="A", place="city", pop=1)])
        value = json.loads(self.map.read_text())
        for name, is_told in (("urn:ogc:def:crs:EPSG::3857", True), ("EPSG:4326", False)):
            value["crs"] = {"type": "name", "properties": {"name": name}}
            self.map.write_text(json.dumps(value))
            _, out, _ = setting.run("report", self.style, self.map)
            self.assertEqual("a member `crs`" in out, is_told)
            self.assertEqual(f'"{name}"' in out, is_told)

    def test_too_wide_and_collections(self) -> None:
        shape = {"type": "GeometryCollection", "geometries": []}
        self.write(
            [
                point("wide", 8, 47, name="x" * 400, place="city", pop=1),
                {"type": "Feature", "id": "mix", "properties": {"name": "M"}, "geometry": shape},
                {"type": "Feature", "id": "bare", "properties": {"name": "N"}, "geometry": None},
                point("ok", 8, 47, name="A", place="city", pop=1),
            ]
        )
        # 400 characters of 500 units of 1000 at 20 pixels are 4000 pixels wide.
        self.warned("TooWide", "1, as wide", "(4000 px)", "lesser size")
        self.warned("GeometryCollection", "1, as mix.", "-explodecollections")
        self.warned("features without a geometry", "1, as bare.")

    def test_no_label_at_all(self) -> None:
        self.write([point("a", 8, 47, name="A", place="town", pop=1)])
        status, out, _ = setting.run("report", self.style, self.map)
        self.assertEqual(status, 0)
        self.assertIn("There is no label: none of 1 features gets one (NoClass 1).", out)
        self.assertNotIn("Every label", out)
        self.assertEqual(setting.run("report", self.style, self.map, "--strict")[0], 1)
        self.write([point("a", 8, 47, name="A", place="city", pop=1)])
        self.assertEqual(setting.run("report", self.style, self.map, "--strict")[0], 0)

    def test_scripts_along_lines(self) -> None:
        style = setting.STYLE.replace('"point"', '"line"').replace(
            'key = "place"\nvalue = "city"', "ref = 100000"
        )
        names = {"ar": "دجلة", "he": "ירדן", "hi": "गंगा", "zh": "長江", "de": "Rhein"}
        lines = [
            setting.line(own, [[8, 40 + k], [12, 40.5 + k]], name=name, pop=1)
            for k, (own, name) in enumerate(names.items())
        ]
        self.write(lines, style)
        self.warned("along lines in the script arabic", "1, as ar", "from right to left")
        self.warned("along lines in the script hebrew", "1, as he", "from right to left")
        self.warned("along lines in the script devanagari", "1, as hi", "change with their neigh")
        self.warned("along lines in the script cjk", "1, as zh", "stand upright")
        _, out, _ = setting.run("report", self.style, self.map)
        self.assertNotIn("script latin", out)


class OfOtherTools(setting.Folder):
    """The explanation and the file come from each tool."""

    def test_bad_input_of_each_tool(self) -> None:
        self.write([point("a", 950000, 47, name="A", place="city")])
        out = self.at / "o.toml", self.at / "o.geojson"
        runs: tuple[tuple[str | Path, str, tuple[object, ...]], ...] = (
            ("style", "style", (self.map, setting.SERIF, "-o", out[0])),
            ("sides", "sides", (self.style, self.map, "-o", *out)),
            ("lines", "lines", (self.style, self.map, "--zooms", "4-6", "-o", *out)),
            (WEB / "export", "web/export", (self.style, self.map, out[1])),
            (WEB / "export", "web/export", ("--site", self.at / "o", self.style, self.map)),
            (WEB / "serve", "web/serve", (self.style, self.map)),
        )
        for tool, called, words in runs:
            status, _, said = setting.run(tool, *words)
            self.assertEqual(status, 1)
            self.assertIn(f"{called}: {self.map}: map refused: 6 OutOfRange 0", said)
            self.assertIn("its position 950000, 47 is beyond 200 degrees", said)
            self.assertIn("it looks like metres", said)

    def test_web_project_on_metres(self) -> None:
        """Web Mercator is made of degrees alone."""
        out = self.at / "o.geojson"
        for x, y in ((950000, 6000000), (950000, 47), (8, 120)):
            self.write([point("a", x, y, name="A")])
            status, _, said = setting.run(WEB / "project", self.map, out)
            self.assertEqual((status, out.exists()), (1, False), (x, y))
            self.assertIn(f"web/project: {self.map}: ", said)
            self.assertIn("-t_srs EPSG:4326", said)

    def test_a_key_of_style_that_no_feature_has(self) -> None:
        self.write([point("a", 8, 47, name="A", place="city", pop=1)])
        out = self.at / "o.toml"
        for words, sentence in (
            (("--class", "plase"), 'no feature has the property "plase", which is the class'),
            (("--rank", "people"), 'no feature has the property "people", which is the rank'),
            (("--name", "title"), 'no feature has the property "title", which is the name'),
        ):
            status, _, said = setting.run("style", self.map, setting.SERIF, *words, "-o", out)
            self.assertEqual(status, 1)
            self.assertIn(sentence, said)
            self.assertIn("Properties there are: name (1), place (1), pop (1).", said)
            self.assertFalse(out.exists())
        status, _, said = setting.run("style", self.map, setting.SERIF, "-o", out)
        self.assertEqual(status, 0)
        self.assertIn('no feature has the property "rank"', said)

    def test_a_port_in_use(self) -> None:
        with socket.socket() as door:
            door.bind((ports.HOST, 0))
            door.listen()
            port = door.getsockname()[1]
            with self.assertRaises(Fault) as caught:
                Server(
                    setting.PROGRAM,
                    setting.SAMPLE / "world.toml",
                    setting.SAMPLE / "world.geojson",
                    port,
                )
        told = str(caught.exception)
        self.assertRegex(told, rf"port {port} is in use by .* \(process {os.getpid()}\);")
        self.assertIn("tell another port", told)

    def test_each_status_has_a_sentence(self) -> None:
        for status in (2, 5, 6, 7, 8, 9, 10, 11, -9):
            self.assertTrue(explain.lines("", status), status)
        with tempfile.TemporaryDirectory() as folder:
            there, gone = Path(folder, "a.toml"), Path(folder, "b.geojson")
            there.write_text("")
            told = explain.lines("file fault", 5, there, gone)
        self.assertEqual(told, [f"  {gone} cannot be read: No such file or directory"])
