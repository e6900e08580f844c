"""From a layer to a page by tools/make: on a shapefile and on an extract of OpenStreetMap."""

import json
import os
import subprocess
import unittest
from pathlib import Path

import setting
import towns
from chromium import Browser
from maplabel_kit import ports
from maplabel_kit.server import Child
from setting import line, point

STEPS = "merge", "style", "sides", "report", "export"
DRAWN = 'typeof page !== "undefined" && page && page.names.drawn().length > 0'
EXPORT = setting.TOOLS.parent / "web" / "export"
HAS_SITE = "--site" in subprocess.run([EXPORT, "--help"], capture_output=True, text=True).stdout


@unittest.skipUnless(HAS_SITE, "web/export writes no site here")
class Make(setting.Folder):
    """Maps that are made in one go."""

    def made(self, *words: object) -> str:
        """What is told while a map is made in the folder `out`."""
        status, told, said = setting.run("make", *words, self.at / "out")
        self.assertEqual(status, 0, told + said)
        return told

    def shapefile(self, count: int) -> Path:
        """A shapefile of towns, in metres."""
        source, made = self.at / "towns.geojson", self.at / "towns.shp"
        source.write_text(setting.collection(towns.features_of(count, 2)), "utf-8")
        more = "-t_srs", "EPSG:3857", "-lco", "ENCODING=UTF-8"
        words = ["ogr2ogr", *more, str(made), str(source)]
        subprocess.run(words, check=True, capture_output=True)
        return made

    def commands(self, told: str) -> list[str]:
        """The tools of the commands that were told."""
        lines = [one for one in told.splitlines() if one.startswith("$ ")]
        return [os.path.basename(one.split(" ")[1]) for one in lines]

    def test_a_shapefile(self) -> None:
        words = self.shapefile(400), "--name", "name", "--rank", "pop", "--class", "place"
        told = self.made(*words)
        self.assertEqual(self.commands(told), list(STEPS))
        self.assertIn("400 read, 400 taken", told)
        self.assertRegex(told, r"400 features: [\d,]+ names are shown at some zoom")
        self.assertTrue((self.at / "out" / "report.html").exists())
        again = self.made(*words)
        self.assertEqual(again.count("  as it was"), len(STEPS))
        self.page()

    def page(self) -> None:
        """The page shows names in a browser, from its files alone."""
        port, site = ports.free_port(), self.at / "out" / "site"
        words = "/usr/bin/python3", "-m", "http.server", "-b", ports.HOST, "-d", site, port
        with Child(words), Browser(1024, 768) as browser:
            browser.open(f"http://{ports.HOST}:{port}/")
            browser.wait(DRAWN, "names are drawn", 60)
            drawn = {one["text"] for one in browser.tell("page.names.drawn()")}
        value = json.loads((self.at / "out" / "map.geojson").read_text("utf-8"))
        self.assertLessEqual(drawn, {one["properties"]["name"] for one in value["features"]})

    def test_only_what_is_new_is_done_again(self) -> None:
        words = self.shapefile(60), "--name", "name", "--rank", "pop"
        self.made(*words)
        style = self.at / "out" / "style.toml"
        style.write_text(style.read_text().replace("size = 17", "size = 21"))
        told = self.made(*words)
        # The style that was changed by hand stays, and what rests on it is made anew.
        self.assertIn("style.toml was changed by hand and stays", told)
        self.assertIn("size = 21", (self.at / "out" / "placed.toml").read_text())
        self.shapefile(61)
        told = self.made(*words)
        self.assertIn("61 read, 61 taken", told)

    def test_an_extract_of_openstreetmap(self) -> None:
        source = self.at / "land.osm"
        source.write_text(osm(), "utf-8")
        words = "--name", "name", "--rank", "population", "--class", "place", "--zooms", "6-11"
        told = self.made(source, *words)
        self.assertEqual(self.commands(told), [*STEPS[:3], "lines", *STEPS[3:]])
        self.assertIn("layer points: 41 read, 40 taken, 1 without a name", told)
        self.assertRegex(told, r"  \d+ are lines whose names are features of their own")
        self.assertNotIn("NoClass", told)
        self.assertNotIn("that no class takes", told)
        names = json.loads((self.at / "out" / "lines.geojson").read_text("utf-8"))["features"]
        kinds = {one["geometry"]["type"] for one in names}
        self.assertLessEqual({"Point", "LineString"}, kinds)

    def test_bad_words_are_told(self) -> None:
        good = self.at / "good.geojson"
        good.write_text(setting.collection([point("a", 8, 47, name="A"), line("l", [[1, 2]])]))
        for words, sentence in (
            ((good, "--name", "title"), 'has no field "title"'),
            ((good, "--name", "name", "--zooms", "far"), "zooms are told as 4-12"),
            ((good, "--name", "name", "--font", "none.ttf"), "the font none.ttf cannot be read"),
            ((self.at / "none.shp", "--name", "name"), "there is no file"),
        ):
            status, _, said = setting.run("make", *words, self.at / "other")
            self.assertNotEqual(status, 0)
            self.assertIn(sentence, said)
            self.assertNotIn("Traceback", said)


def osm() -> str:
    """An extract with 40 villages, one place without a name, a river and a lake."""
    rows = []
    for k in range(40):
        tags = f'<tag k="name" v="Dorf {k}"/><tag k="place" v="village"/>'
        people = f'<tag k="population" v="{5000 - 100 * k}"/>'
        lat, lon = 47 + k % 8 / 8, 8 + k // 8 / 5
        rows.append(f'<node id="{k + 1}" lat="{lat}" lon="{lon}">{tags}{people}</node>')
    rows.append('<node id="50" lat="47" lon="9"><tag k="place" v="isolated_dwelling"/></node>')
    places = [(47.05 + 0.02 * (k % 3), 8 + k / 20) for k in range(21)]
    rows += [f'<node id="{100 + k}" lat="{a}" lon="{b}"/>' for k, (a, b) in enumerate(places)]
    nodes = "".join(f'<nd ref="{100 + k}"/>' for k in range(21))
    tags = '<tag k="name" v="Aabach"/><tag k="waterway" v="river"/>'
    rows.append(f'<way id="200">{nodes}{tags}</way>')
    shore = [(47.4, 8.4), (47.4, 8.5), (47.5, 8.5), (47.5, 8.4)]
    rows += [f'<node id="{300 + k}" lat="{a}" lon="{b}"/>' for k, (a, b) in enumerate(shore)]
    ring = "".join(f'<nd ref="{300 + k % 4}"/>' for k in range(5))
    tags = '<tag k="name" v="Weiher"/><tag k="natural" v="water"/>'
    rows.append(f'<way id="400">{ring}{tags}</way>')
    rows.sort(key=lambda row: row.startswith("<way"))
    return '<?xml version="1.0"?><osm version="0.6">' + "\n".join(rows) + "</osm>"
