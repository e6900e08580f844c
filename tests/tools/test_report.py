"""What tools/report tells of small maps, each of which has one thing that is otherwise passed over
without a word.
"""

import json
import re
import subprocess

import setting
from setting import SAMPLE, Value, point


class Report(setting.Folder):
    """Reports on small maps."""

    def value(self, *words: object) -> Value:
        """The report as a value."""
        status, out, said = setting.run("report", self.style, self.map, "--json", *words)
        self.assertEqual(status, 0, out + said)
        found: Value = json.loads(out)
        return found

    def warned(self, part: str, *words: object) -> str:
        """The one warning with this part."""
        found = [one for one in self.value(*words)["warnings"] if part in one]
        self.assertEqual(len(found), 1, found)
        return str(found[0])

    def test_reasons_by_class_and_kind(self) -> None:
        line = {
            "type": "Feature",
            "id": "l",
            "properties": {"name": "L"},
            "geometry": {"type": "LineString", "coordinates": [[8, 47], [9, 47]]},
        }
        self.write(
            [
                point("a", 8, 47, name="A", place="city"),
                point("b", 8, 48, name=" ", place="city"),
                point("c", 8, 49, name="x" * 400, place="city"),
                point("d", 8, 46, name="D"),
                line,
                {"type": "Feature", "id": "e", "properties": {"name": "E"}, "geometry": None},
            ]
        )
        classes = self.value()["classes"]
        self.assertEqual(
            [
                (one["class"], one["title"], one["features"], one["labels"], one["reasons"])
                for one in classes
            ],
            [
                (0, "point place=city", 3, 1, {"NoName": 1, "TooWide": 1}),
                (None, "line, no class", 1, 0, {"NoClass": 1}),
                (None, "no geometry, no class", 1, 0, {"NoGeometry": 1}),
                (None, "point, no class", 1, 0, {"NoClass": 1}),
            ],
        )

    def test_what_is_never_shown_and_what_blocks_it(self) -> None:
        self.write(
            [
                point("a", 8, 47, name="A", place="city", pop=3),
                point("b", 8, 47, name="B", place="city", pop=2),
                point("c", 8, 47, name="C", place="city", pop=1),
                point("d", 50, 7, name="D", place="city"),
            ]
        )
        value = self.value()
        self.assertEqual((value["never"], value["classes"][0]["never"]), (2, 2))
        self.assertEqual(value["blockers"], [{"id": "a", "name": "A", "blocks": 2}])
        self.assertIn(
            "places with two labels or more: 1, with one name twice: 0. "
            "They are, the fullest first: a A, b B, c C.",
            self.warned("places with"),
        )

    def test_names_by_zoom(self) -> None:
        # Two towns 0.01 degrees apart, names 10 pixels wide with margins of 2: they touch at 100000
        # / 14 units a pixel.
        self.write(
            [
                point("a", 8, 47, name="A", place="city", pop=3),
                point("b", 8.01, 47, name="B", place="city"),
            ]
        )
        active = {one["zoom"]: one["active"] for one in self.value()["zooms"]}
        for zoom, count in active.items():
            scale = 14062500 / 2**zoom
            self.assertEqual(
                count, 0 if scale >= 1000000 else 2 if scale < 100000 / 14 else 1, zoom
            )
        self.assertIn(10, active)
        self.assertIn(11, active)

    def test_windows_show_what_view_tells(self) -> None:
        self.style, self.map = SAMPLE / "world.toml", SAMPLE / "world.geojson"
        value = self.value()
        row = next(one for one in value["zooms"] if one["zoom"] == 1)
        done = subprocess.run(
            [setting.PROGRAM, "view", self.style, self.map, "0", "0", "2048", "1024", row["scale"]],
            capture_output=True,
            check=True,
        )
        self.assertEqual(row["active"], len(json.loads(done.stdout)["labels"]))

    def test_keys_that_no_feature_has(self) -> None:
        self.write([point("a", 8, 47, NAME="A", population=5, place="city")])
        self.assertIn('perhaps "NAME" is meant', self.warned('property "name"'))
        self.assertIn('perhaps "population" is meant', self.warned('property "pop"'))

    def test_values_that_no_feature_has_and_the_nearest(self) -> None:
        self.write(
            [
                point("a", 8, 47, name="A", place="City", pop=1),
                point("b", 8, 48, name="B", place="hamlet", pop=1),
            ]
        )
        self.assertIn(
            "class 0 (point place=city) takes no feature: no point has place=city; "
            'perhaps "City" is meant',
            self.warned("class 0"),
        )
        self.assertIn(
            "features of the kind point that no class takes: 2. "
            "Their values of place: City (1), hamlet (1); classes want city",
            self.warned("no class takes"),
        )

    def test_ranks_that_are_texts(self) -> None:
        self.write([point("a", 8, 47, name="A", place="city", pop="5")])
        self.assertIn(
            'features whose rank "pop" is a text, which counts as 0: 1.', self.warned("rank")
        )

    def test_ids_that_are_missing_or_stand_twice(self) -> None:
        self.write(
            [
                point(None, 8, 47, name="A", place="city", pop=1),
                point("b", 8, 48, name="B", place="city"),
                point("b", 8, 49, name="C", place="city"),
            ]
        )
        self.assertIn("features without an id: 1 of 3.", self.warned("without an id"))
        self.assertIn(
            "of which only the first feature keeps each: b (2)", self.warned("more than once")
        )

    def test_characters_that_the_font_lacks(self) -> None:
        self.write(
            [
                point("a", 8, 47, name="北京 Bi", place="city", pop=1),
                point("b", 8, 48, name="ก", place="city"),
            ]
        )
        self.assertIn(
            "the font file lacks 3 characters of the names, by script: cjk (2), thai (1)",
            self.warned("font", "--font", f"sans={setting.SERIF}"),
        )
        self.assertIn("the style lists no width for 3 characters", self.warned("font"))

    def test_latitude_first(self) -> None:
        towns = [(52.5, 13.4), (48.1, 11.6), (41.9, 12.5), (40.4, -3.7), (48.9, 2.4), (52.2, 21.0)]
        self.write(
            [point(str(k), x, y, name="A", place="city", pop=1) for k, (x, y) in enumerate(towns)]
        )
        self.assertIn("perhaps latitude stands first", self.warned("latitude"))
        self.write(
            [point(str(k), y, x, name="A", place="city", pop=1) for k, (x, y) in enumerate(towns)]
        )
        self.assertEqual([one for one in self.value()["warnings"] if "latitude" in one], [])
        self.write([point("a", 47, 139, name="A", place="city", pop=1)])
        self.assertIn("latitude beyond 90", self.warned("latitude"))

    def test_stretched_maps_by_the_style(self) -> None:
        two = setting.STYLE + setting.STYLE[setting.STYLE.index("[[class]]") :].replace(
            '"city"', '"town"'
        )
        towns = [
            point("a", 8, 47, name="A", place="city", pop=1),
            point("b", 9, 47, name="B", place="town"),
        ]
        self.write(towns, two)
        self.assertEqual(
            self.value()["stretched"]["style"], "yes: the boxes of all classes reach the height 0"
        )
        # With margins one box goes from -12 to 12 and the other from 13 to 37: no height is common
        # to both.
        self.write(towns, two.replace("margin = 2", "margin = 2\ndy = 25", 1))
        self.assertIn(
            "boxes of class 0 begin at 13 and those of class 1 end at 12",
            self.value()["stretched"]["style"],
        )
        self.write(towns, two.replace("margin = 2", "margin = 2\ndy = 24", 1))
        self.assertEqual(
            self.value()["stretched"]["style"], "yes: the boxes of all classes reach the height 12"
        )
        river = setting.STYLE.replace('"point"', '"line"').replace(
            'key = "place"\nvalue = "city"', "ref = 1000"
        )
        self.write(towns, river)
        self.assertIn("not surely: class 0 is of lines", self.value()["stretched"]["style"])

    def test_the_page_has_pictures_and_a_chart(self) -> None:
        self.style, self.map = SAMPLE / "world.toml", SAMPLE / "world.geojson"
        page = self.at / "page.html"
        status, out, _ = setting.run("report", self.style, self.map, "--html", page)
        self.assertEqual(status, 0)
        self.assertIn("Names by zoom", out)
        text = page.read_text("utf-8")
        self.assertEqual(text.count("<figcaption>"), 4)
        self.assertEqual(
            text.count('fill="#4a7ba6"'), len(re.findall(r"^\d+ +[\d.e+]+ +\d+ ", out, re.M))
        )
        self.assertIn(">China</text>", text)

    def refused(self, features: str | bytes | None, style: str, *parts: str) -> None:
        """A refusal: the program's own line first, its status, and these parts behind."""
        self.style.write_text(style, "utf-8")
        if features is not None:
            self.map.write_bytes(
                features if isinstance(features, bytes) else features.encode("utf-8")
            )
        program = subprocess.run(
            [setting.PROGRAM, "view", self.style, self.map, "0", "0", "2", "2", "1"],
            capture_output=True,
            text=True,
            check=False,
        )
        status, out, said = setting.run(
            "report", self.style, self.map, "--html", self.at / "page.html"
        )
        self.assertIn(status, (3, 4))
        self.assertEqual(
            (status, out.split("\n")[0] + "\n", said), (program.returncode, program.stdout, "")
        )
        for part in parts:
            self.assertIn(part, out)
        self.assertFalse((self.at / "page.html").exists())

    def test_refusals_are_passed_on_with_their_places(self) -> None:
        good = setting.collection([point("a", 8, 47, name="A")])
        self.refused(
            good,
            setting.STYLE.replace("size = 20", "size = 0"),
            "style.toml, line 16, column 1",
            "size = 0",
        )
        self.refused(good, setting.STYLE.replace("size = 20\n", ""), "line 11", "it is not there")
        self.refused(
            good, setting.STYLE.replace('"sans"', '"serif"'), "line 15, column 1", 'font = "serif"'
        )
        self.refused(good, setting.STYLE.replace("version = 2", "version = 9"), "line 1, column 1")
        self.refused(good, setting.STYLE.replace('"city"', '"city'), "line 14")
        self.refused(
            good,
            setting.STYLE.replace("units = 1000", "units = 0"),
            "line 5, column 1",
            "[fonts.sans]",
        )
        self.refused(good[:-3], setting.STYLE, "the file ends here")
        self.refused("[\n1,,2]", setting.STYLE, "line 2, column 3", "1,,2]\n      ^")
        self.refused(
            good.encode().replace(b'"A"', b'"\xc4"'), setting.STYLE, "these bytes are no UTF-8"
        )
        self.refused(
            setting.collection([point("a", 8, 47), point("b", 950000, 6000000, name="B")]),
            setting.STYLE,
            "feature 1, id b",
            "its position 950000, 6000000 is beyond 200 degrees",
        )

    def test_bad_input_is_told(self) -> None:
        self.write([point("a", 8, 47, name="A", place="city")])
        for words, sentence in (
            ((self.at / "none", self.map), "the style"),
            ((self.style, self.at / "none"), "the map"),
            ((self.style, self.map, "--font", "sans"), "NAME=FILE"),
            ((self.style, self.map, "--html", "/nowhere/page"), "cannot be written"),
            ((self.style, self.map, "--program", "no-such-program"), "there is no program"),
        ):
            status, out, said = setting.run("report", *words)
            self.assertEqual((status, out), (1, ""))
            self.assertIn(sentence, said)
