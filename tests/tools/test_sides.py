"""Places that tools/sides chooses, on small maps that are worked out by hand."""

import json
import os
import re
import subprocess
import time
import tomllib
import unittest
from fractions import Fraction
from pathlib import Path

import setting
import towns
from maplabel_kit.labels import Label, read_state
from maplabel_tools import sidedots
from setting import line, point

# As if there were no dots: names begin 2 pixels beside their anchors.
BARE = "--gap", "2", "--dot", "0"


class Sides(setting.Folder):
    """Places on small maps."""

    def setUp(self) -> None:
        super().setUp()
        self.out = self.at / "placed.toml", self.at / "placed.geojson"

    def placed(self, *words: object) -> dict[str, str | None]:
        """The side of each feature, by its id."""
        status, out, said = setting.run("sides", self.style, self.map, "-o", *self.out, *words)
        self.assertEqual(status, 0, out + said)
        made = json.loads(self.out[1].read_text("utf-8"))["features"]
        return {one["id"]: one["properties"].get("label_place") for one in made}

    def label(self, own: str) -> tuple[setting.Value, list[str]]:
        """How a label stands, by the program, under what was written."""
        asked = (
            f"GET /why?id={own} HTTP/1.1\r\nHost: a\r\n\r\nGET /state HTTP/1.1\r\nHost: a\r\n\r\n"
        )
        done = subprocess.run(
            [setting.PROGRAM, "pipe", *self.out],
            input=asked.encode(),
            capture_output=True,
            check=True,
        )
        text = done.stdout.decode()
        why = re.search(r"^\{.*?\}", text, re.M)
        state = re.search(rf"^{own} .*$", text, re.M)
        assert why and state
        return json.loads(why[0]), state[0].split(" ")

    def test_two_towns_side_by_side_are_put_apart(self) -> None:
        # Names of 100 and 50 pixels, one to the right of the other: they are apart at all scales
        # where the left town has
        # its name to the left, and the right one to the right.
        self.write(
            [
                point("a", 8, 47, name="abcdefgh" + "ab", place="city", pop=2),
                point("b", 8.1, 47, name="abcde", place="city", pop=1),
            ]
        )
        sides = self.placed(*BARE, "--scales", "400000")
        self.assertEqual((sides["a"], sides["b"]), ("0 left -52", "0 right 27"))
        why, state = self.label("b")
        self.assertEqual((why["until"], why["blocker"]), ("1000000/1", None))
        # The box begins 2 pixels to the right of the dot and is 50 by 20 pixels.
        self.assertEqual(state[8], "2,-10,52,10")
        self.assertEqual(self.label("a")[1][8], "-102,-10,-2,10")

    def test_places_above_and_below(self) -> None:
        # Four towns at nearly one place: with 20 pixels from the dot, names of 100 by 20 pixels on
        # its four sides are apart
        # at all scales, and two on one side never are.
        spots = (8, 47), (8.000001, 47), (8, 47.000001), (8.000001, 47.000001)
        self.write(
            [
                point(str(k), *spot, name="a" * 10, place="city", pop=9 - k)
                for k, spot in enumerate(spots)
            ]
        )
        sides = self.placed("--gap", "20", "--dot", "0", "--scales", "400000")
        self.assertEqual(
            {(one or "").split(" ")[1] for one in sides.values()},
            {"left", "right", "above", "below"},
        )
        for own in sides:
            self.assertEqual(self.label(own)[0]["until"], "1000000/1")

    def test_other_features_stay_as_they_are(self) -> None:
        self.write(
            [
                point("a", 8, 47, name="A", place="city"),
                point("b", 8, 48, name="B", place="town"),
                point("c", 8, 49, place="city"),
                line("l", [[8, 47], [9, 47]], name="L"),
            ]
        )
        sides = self.placed()
        self.assertEqual((sides["b"], sides["c"], sides["l"]), (None, None, None))
        self.assertRegex(sides["a"] or "", "^0 (left|right|above|below)")
        made = tomllib.loads(self.out[0].read_text("utf-8"))
        self.assertEqual(made["class"][-1], tomllib.loads(setting.STYLE)["class"][0])

    def test_bad_input_is_told_and_nothing_is_written(self) -> None:
        self.write([point("a", 8, 47, name="A", place="city")])
        other = self.at / "bad.toml"
        for style, words, sentence in (
            (setting.STYLE, ("--gap", "99"), "a gap and a dot are"),
            (setting.STYLE, ("--at", "north"), "a place is told as LAT,LNG"),
            (setting.STYLE, ("--zooms", "9-5"), "zooms are told as 5-9"),
            (setting.STYLE, ("--window", "1,2"), "a window"),
            ("version = 1", (), "nothing to choose"),
            ("x", (), "style refused: 1 NotToml"),
            (
                setting.STYLE.replace('"place"', '"label_place"').replace('"city"', '"A"'),
                (),
                "was made by tools/sides",
            ),
            (setting.STYLE, ("--program", "false"), "is not maplabel"),
        ):
            other.write_text(style, "utf-8")
            status, out, said = setting.run("sides", other, self.map, "-o", *self.out, *words)
            self.assertEqual((status, said.count("Traceback")), (1, 0), out + said)
            self.assertIn(sentence, said)
            self.assertFalse(self.out[0].exists() or self.out[1].exists())

    def test_a_tool_that_is_ended_leaves_nothing(self) -> None:
        self.write(
            towns.features_of(3000, 1), setting.STYLE.replace('key = "place"\nvalue = "city"\n', "")
        )
        tool = subprocess.Popen(
            [setting.TOOLS / "sides", self.style, self.map, "-o", *self.out],
            start_new_session=True,
            stdout=subprocess.PIPE,
            env=dict(os.environ, MAPLABEL=setting.PROGRAM),
        )
        while not (servers := self.children(tool.pid)):
            time.sleep(0.05)
        tool.terminate()
        self.assertEqual(tool.wait(30), 143)
        assert tool.stdout
        tool.stdout.close()
        self.assertFalse(any(Path(f"/proc/{one}").exists() for one in servers))
        self.assertFalse(self.out[0].exists() or self.out[1].exists())

    def children(self, process: int) -> list[str]:
        """The servers that a process has started."""
        found = Path(f"/proc/{process}/task/{process}/children").read_text().split()
        return [one for one in found if b"serve" in Path(f"/proc/{one}/cmdline").read_bytes()]

    def test_a_name_ends_where_its_dot_would_touch_another(self) -> None:
        # Names of 100 and 50 pixels to the two sides of two dots that are 1,000,000 units apart:
        # dots 5 pixels wide touch at 200,000 units a pixel, which is where the lesser name ends.
        self.write(
            [
                point("a", 8, 47, name="abcdefghab", place="city", pop=2),
                point("b", 8.1, 47, name="abcde", place="city", pop=1),
            ]
        )
        self.placed("--scales", "400000")
        self.assertEqual(self.label("a")[0]["until"], "1000000/1")
        self.assertEqual(self.label("b")[0]["until"], "200000/1")

    def test_no_dot_lies_under_a_name_and_no_two_touch(self) -> None:
        everywhere = setting.STYLE.replace('key = "place"\nvalue = "city"\n', "")
        self.write(towns.features_of(500, 3), everywhere)
        self.placed("--zooms", "5-7", "--passes", "1")
        for zoom in range(4, 11):
            scale = Fraction(14062500, 2**zoom)
            shown = [one for one in self.labels() if one.least <= scale < one.until]
            self.assertGreater(len(shown), 20)
            self.assertEqual(self.covered(shown, scale), [])

    def labels(self) -> list[Label]:
        """All labels of what was written, as the program tells them."""
        asked = b"GET /state HTTP/1.0\r\n\r\n"
        words = [setting.PROGRAM, "pipe", *map(str, self.out)]
        done = subprocess.run(words, input=asked, capture_output=True, check=True)
        return read_state(done.stdout.partition(b"\r\n\r\n")[2].decode())

    def covered(self, shown: list[Label], scale: Fraction) -> list[tuple[str, str]]:
        """Pairs of names of which the dot of one, 5 pixels across, meets the other or its dot."""
        half, found = 2.5 - 1e-6, []
        spots = [(one.x / float(scale), one.y / float(scale)) for one in shown]
        for one, (x, y) in zip(shown, spots):
            for other, (u, v) in zip(shown, spots):
                left, bottom, right, top = other.boxes[0]
                across = u + left < x + half and x - half < u + right
                along = v + bottom < y + half and y - half < v + top
                touch = abs(x - u) < 2 * half and abs(y - v) < 2 * half
                if one is not other and (across and along or touch):
                    found.append((one.id, other.id))
        return found

    def test_names_tried_together_make_no_difference(self) -> None:
        """With one, two and four servers the same files are written, of a map with many names that
        are far from one another.
        """
        style = setting.STYLE.replace('key = "place"\nvalue = "city"\n', "")
        self.write(towns.features_of(150, 5), style)
        made = []
        for jobs in (1, 2, 4):
            self.placed("--jobs", jobs)
            made.append([one.read_bytes() for one in self.out])
        self.assertEqual(made[1:], made[:1] * 2)

    def test_it_looks_where_names_are_densest(self) -> None:
        # Thirty towns in two degrees about 8.5 E, 47 N, and one by one far away.
        here = [
            point(f"h{k}", 8 + k % 6 / 6, 46.5 + k // 6 / 5, name="Abcde", place="city", pop=k)
            for k in range(30)
        ]
        far = [point(f"f{k}", 20 * k - 160, -60, name="F", place="city") for k in range(16)]
        self.write(far + here)
        status, out, said = setting.run("sides", self.style, self.map, "-o", *self.out)
        self.assertEqual((status, said), (0, ""))
        found = re.search(r"about (-?[\d.]+), (-?[\d.]+) at zoom", out)
        assert found
        self.assertTrue(46 < float(found[1]) < 48 and 7.5 < float(found[2]) < 9.5, out)
        before = re.search(r"names before: (.*)", out)
        assert before
        self.assertGreaterEqual(max(map(int, before[1].split(", "))), 20)

    def test_the_place_and_the_zooms_may_be_told(self) -> None:
        self.write([point(f"a{k}", 8 + k, 47, name="A", place="city") for k in range(30)])
        words = self.style, self.map, "-o", *self.out, "--at", "47,10", "--zooms", "5-7"
        status, out, _ = setting.run("sides", *words)
        self.assertEqual(status, 0)
        self.assertIn("about 47.0000, 10.0000 at zoom 5, zoom 6, zoom 7", out)
        # At zoom z a degree is 256 * 2^z / 360 pixels, and names are 640 pixels to each side.
        status, _, said = setting.run("sides", *words[:5], "--at=-40,-100", "--zooms", "5-7")
        self.assertIn("this window shows 0 names at the most, of 30", said)

    def test_classes_have_names(self) -> None:
        self.write([point("a", 8, 47, name="abcdefgh", place="city", pop=1)])
        self.placed("--gap", "3")
        titles = [one.get("title") for one in tomllib.loads(self.out[0].read_text())["class"]]
        self.assertRegex(str(titles[0]), "^point place=city, (right|left|above|below)")
        _, out, _ = setting.run("report", *self.out)
        self.assertIn("point place=city, placed by sides, 20 px", out)


class Meetings(unittest.TestCase):
    """Scales at which two boxes overlap."""

    def test_intervals(self) -> None:
        dot = (-5, -5, 5, 5)
        # Two dots of 5 pixels, 100 units apart: they overlap from 20 units a pixel on.
        self.assertEqual(sidedots.overlap(dot, dot, 100, 0), (20, sidedots.NEVER))
        # A box from 3 to 53 pixels to the right of a dot covers one 280 units to the right from
        # 280 / (53 + 2.5) on, until the dot lies left of it at 280 / (3 - 2.5).
        box = (6, -20, 106, 20)
        met = sidedots.overlap(box, dot, 280, 0)
        self.assertEqual(met, (Fraction(560, 111), 560))
        self.assertIsNone(sidedots.overlap(box, dot, -280, 0))
