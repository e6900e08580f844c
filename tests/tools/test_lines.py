"""tools/lines: names along rivers and streets, what the engine makes of them, and what the tool
says.

What is expected is told by definitions: a name is drawn at the height that was told, its neighbours
turn by 15 degrees at most, a place is shown in one range of scales, towns stay as they were.
"""

import itertools
import json
import math
import os
import resource
import subprocess
import tomllib
import unittest
from collections import Counter, defaultdict
from fractions import Fraction
from pathlib import Path
from typing import Any

import line_maps
import setting
from maplabel_kit import files, geojson, labels, program
from maplabel_kit.along import Face, lay, wanted
from maplabel_kit.client import get
from maplabel_kit.files import TOP
from maplabel_kit.style import Style, read
from maplabel_tools.lines import making, report
from maplabel_tools.lines.joining import joined
from maplabel_tools.lines.wish import Wish

PROJECT = TOP / "web" / "project"
FACE = Face.read(setting.SERIF)
ZOOM_0 = 7_031_250
STREETS = ("--zooms", "14-18", "--side", "on", "--spacing", "250")
RIVERS = ("--zooms", "4-10", "--spacing", "240", "--snap", "600000")
BENDS = ("--zooms", "6-9")
Wide = tuple[float, float, float, float]
LINE_CLASS = line_maps.one_class("line", 14, 5, 1_800_000, "ref = 50000\n")


class Made:
    """A map before and after tools/lines, projected, and what the engine says of both."""

    def __init__(self, folder: Path, features: list[dict[str, Any]], style: str, *words: str):
        self.before = folder / "before.toml", folder / "before.geojson"
        self.after = folder / "after.toml", folder / "after.geojson"
        given = folder / "given.toml", folder / "given.geojson"
        given[0].write_text(style, "utf-8")
        given[1].write_text(line_maps.collection(features), "utf-8")
        subprocess.run([PROJECT, given[1], self.before[1]], check=True)
        subprocess.run([PROJECT, "--style", given[0], self.before[0]], check=True)
        told = words.index("--spacing") if "--spacing" in words else None
        self.spacing = 300 if told is None else int(words[told + 1])
        start = resource.getrusage(resource.RUSAGE_CHILDREN).ru_utime
        self.status, self.said, self.fault = setting.run(
            "lines", *self.before, "--projected", *words, "-o", *self.after
        )
        self.seconds = resource.getrusage(resource.RUSAGE_CHILDREN).ru_utime - start
        if self.status:
            raise AssertionError(self.fault)
        self.style: Style = read(self.after[0])
        engine = setting.PROGRAM
        world, state = program.pipe(engine, *self.after, [get("/map"), get("/state")])
        self.features = {one.id: one for one in geojson.features_of(world.text())}
        self.labels = labels.read_state(state.text())
        (old,) = program.pipe(engine, *self.before, [get("/state")])
        self.old_labels = labels.read_state(old.text())

    def names(self) -> list[tuple[labels.Label, geojson.Feature]]:
        """The labels that tools/lines made, with their features."""
        found = [(one, self.features[one.id]) for one in self.labels]
        return [(label, one) for label, one in found if "line_label" in one.properties]

    def places(self) -> dict[tuple[str, int, int], list[labels.Label]]:
        """The labels of each name and place."""
        found: dict[tuple[str, int, int], list[labels.Label]] = defaultdict(list)
        for label, feature in self.names():
            found[str(feature.properties["name"]).strip(), label.x, label.y].append(label)
        return found

    def view(self, lat: float, lng: float, zoom: float, size: int = 2000) -> list[dict[str, Any]]:
        """The labels of a window."""
        x, y = lng / 2, math.degrees(math.asinh(math.tan(math.radians(lat)))) / 2
        cx, cy, scale = round(x * 1e7), round(y * 1e7), round(16 * ZOOM_0 / 2**zoom)
        request = get("/view", cx=cx, cy=cy, w=size, h=size, s=f"{scale}/16")
        (reply,) = program.pipe(setting.PROGRAM, *self.after, [request])
        found: list[dict[str, Any]] = reply.json()["labels"]
        return found


class Laws:
    """What holds of every map. A class that is tested has `made` and is a TestCase."""

    made: Made
    # How many pairs of names of one text there are at least that begin at one zoom.
    least_pairs = 5

    def test_all_are_drawn_turned_at_full_height(self) -> None:
        """No name is drawn smaller than told and none upright; drawn neighbours turn by 15 degrees
        at most.
        """
        assert isinstance(self, unittest.TestCase)
        self.assertGreater(len(self.made.names()), 50)
        for label, feature in self.made.names():
            text = str(feature.properties["name"])
            height, spacing = wanted(feature.properties, 1000)
            drawn = lay(text, label.boxes, FACE, height, spacing)
            assert drawn is not None, (label.id, label.boxes)
            self.assertEqual(drawn.height, height, label.id)
            angles = [math.degrees(one.angle) for one in drawn.letters]
            turns = [abs(b - a) for a, b in itertools.pairwise(angles)]
            self.assertLessEqual(max(turns, default=0), 15, label.id)

    def test_no_two_overlap(self) -> None:
        """At many scales no boxes of two labels that are shown, widened by their margins,
        overlap.
        """
        assert isinstance(self, unittest.TestCase)
        counted = 0
        for zoom in (4, 5.3, 6, 7.5, 8, 9.7, 14, 15.2, 16, 17.6):
            scale = Fraction(round(16 * ZOOM_0 / 2**zoom), 16)
            active = [one for one in self.made.labels if one.is_active(scale)]
            counted += len(active)
            self.assertEqual(overlaps(active, scale), [], zoom)
        self.assertGreater(counted, 100)

    def test_each_place_is_shown_in_one_range(self) -> None:
        assert isinstance(self, unittest.TestCase)
        for place, members in self.made.places().items():
            ranges = sorted((one.least, one.until) for one in members)
            self.assertTrue(all(least < until for least, until in ranges), place)
            for (_, end), (begin, _) in itertools.pairwise(ranges):
                self.assertEqual(end, begin, place)

    def test_other_names_are_as_before(self) -> None:
        """Each name that is no line's is shown at the same scales as without names along lines."""
        assert isinstance(self, unittest.TestCase)
        kinds = {own: one.kind for own, one in self.made.features.items()}
        before, after = (
            {one.id: (one.least, one.until) for one in found if kinds[one.id] != "line"}
            for found in (self.made.old_labels, self.made.labels)
        )
        self.assertEqual(before, after)

    def test_anchors_lie_on_the_lines(self) -> None:
        """A name's anchor is a place of a line with that name, to a unit in rounding."""
        assert isinstance(self, unittest.TestCase)
        lines: dict[str, list[Any]] = defaultdict(list)
        for one in self.made.features.values():
            if one.kind == "line" and "line_label" not in one.properties and one.geometry:
                lines[str(one.properties["name"])].append(one.geometry["coordinates"])
        for (name, x, y), _ in self.made.places().items():
            self.assertLess(min(distance(x, y, line) for line in lines[name]), 2, name)

    def test_names_of_one_text_keep_apart(self) -> None:
        """Names that begin at one zoom stand as far apart as told, growing with the zoom."""
        assert isinstance(self, unittest.TestCase)
        begins: dict[str, list[tuple[float, int, int]]] = defaultdict(list)
        for (name, x, y), members in self.made.places().items():
            begins[name].append((max(float(one.most) for one in members), x, y))
        outermost = max(most for places in begins.values() for most, _, _ in places)
        counted = 0
        for name, places in begins.items():
            for (most, x, y), (other, a, b) in itertools.combinations(places, 2):
                if most == other:
                    level = round(math.log2(outermost / most))
                    far = math.dist((x, y), (a, b)) / most * math.sqrt(2)
                    self.assertGreaterEqual(far, self.made.spacing * 1.26**level * 0.99, name)
                    counted += 1
        self.assertGreaterEqual(counted, self.least_pairs)

    def test_the_deepest_zoom_is_not_half_of_all(self) -> None:
        assert isinstance(self, unittest.TestCase)
        first = [max(one.most for one in members) for members in self.made.places().values()]
        self.assertLess(first.count(min(first)), len(first) / 2)

    def test_classes_have_room_for_a_halo_and_stand_last(self) -> None:
        assert isinstance(self, unittest.TestCase)
        lines = [one for one in self.made.style.classes if one.kind == "line"]
        others = [one for one in self.made.style.classes if one.kind != "line"]
        last = max((one.priority for one in others), default=-1)
        self.assertTrue(lines)
        for one in lines:
            self.assertGreaterEqual(one.margin, 2)
            self.assertGreater(one.priority, last)
            self.assertEqual(one.key, "line_label")


def overlaps(active: list[labels.Label], scale: Fraction) -> list[tuple[str, str]]:
    """Pairs of labels of which widened boxes overlap, found cell by cell."""
    cells: dict[tuple[int, int], list[tuple[labels.Label, list[Wide]]]] = {}
    found = []
    for one in active:
        x, y, m = one.x / float(scale), one.y / float(scale), one.margin
        boxes = [(x + p[0] - m, y + p[1] - m, x + p[2] + m, y + p[3] + m) for p in one.boxes]
        for key in {
            (i, j)
            for left, bottom, right, top in boxes
            for i in range(math.floor(left / 128), math.floor(right / 128) + 1)
            for j in range(math.floor(bottom / 128), math.floor(top / 128) + 1)
        }:
            for other, theirs in cells.setdefault(key, []):
                if any(meet(p, q) for p in boxes for q in theirs):
                    found.append((one.id, other.id))
            cells[key].append((one, boxes))
    return found


def meet(p: Wide, q: Wide) -> bool:
    """Whether two boxes have a place in common, to the rounding of numbers."""
    near = 1e-6
    return p[0] + near < q[2] and q[0] + near < p[2] and p[1] + near < q[3] and q[1] + near < p[3]


def distance(x: int, y: int, line: list[Any]) -> float:
    """How many units a place is from a line."""
    points = [(float(a) * 1e7, float(b) * 1e7) for a, b in line]
    most = math.inf
    for (ax, ay), (bx, by) in itertools.pairwise(points):
        length = math.dist((ax, ay), (bx, by)) or 1.0
        part = ((x - ax) * (bx - ax) + (y - ay) * (by - ay)) / length**2
        part = min(max(part, 0.0), 1.0)
        most = min(most, math.dist((x, y), (ax + part * (bx - ax), ay + part * (by - ay))))
    return most


class OnMap(unittest.TestCase):
    """A test over one map, which is made once."""

    made: Made
    features: list[dict[str, Any]] = []
    style = line_maps.style(line_maps.TOWNS)
    words: tuple[str, ...] = ()

    @classmethod
    def setUpClass(cls) -> None:
        folder = cls.enterClassContext(files.folder())
        cls.made = Made(folder, cls.features, cls.style, *cls.words)


class Streets(Laws, OnMap):
    features = line_maps.streets(150)
    style = line_maps.style()
    words = STREETS

    def test_a_second_run_writes_the_same_bytes(self) -> None:
        with files.folder() as folder:
            again = folder / "again.toml", folder / "again.geojson"
            words = (*self.made.before, "--projected", *STREETS, "-o", *again)
            seed = {"PYTHONHASHSEED": "7"}
            environment = dict(os.environ, MAPLABEL=setting.PROGRAM) | seed
            tool = setting.TOOLS / "lines"
            subprocess.run([tool, *words], check=True, env=environment, stdout=subprocess.DEVNULL)
            for one, other in zip(self.made.after, again):
                self.assertEqual(one.read_bytes(), other.read_bytes())

    def test_boxes_are_as_planned(self) -> None:
        """The engine makes just the boxes that the tool reckons with."""
        told = Wish(tuple(range(14, 19)), Fraction(ZOOM_0), "on", 250, 1.0, 2, 0, 10)
        base = making.read(Path(setting.PROGRAM), *map(str, self.made.before))
        planned = {one.id: one for one in making.made_features(base, FACE, None, told)[0]}
        for label, _ in self.made.names():
            self.assertEqual(label.boxes, planned[label.id].label.chain.boxes, label.id)

    def test_parts_of_a_street_are_joined(self) -> None:
        """The names of a street that is cut into many parts are no more than its length has room
        for.
        """
        names = Counter(name for name, *_ in self.made.places())
        self.assertGreater(len(names), 140)
        self.assertLess(max(names.values()), 12)


class Rivers(Laws, OnMap):
    features = line_maps.rivers()
    words = RIVERS

    def test_each_river_has_a_name(self) -> None:
        rivers = {
            str(one["properties"]["name"]) for one in line_maps.rivers() if one["id"][0] == "r"
        }
        self.assertEqual({name for name, *_ in self.made.places()}, rivers)

    def test_names_stand_beside_the_river(self) -> None:
        """No letter's middle is nearer to the anchor's line than half a letter's height."""
        for label, feature in self.made.names():
            drawn = lay(str(feature.properties["name"]), label.boxes, FACE, 12)
            assert drawn is not None
            middles = [
                (one.x - 3.5 * math.sin(one.angle), one.y + 3.5 * math.cos(one.angle))
                for one in drawn.letters
            ]
            self.assertGreater(min(math.hypot(x, y) for x, y in middles), 6, label.id)


class Bends(Laws, OnMap):
    features = line_maps.bends(120)
    least_pairs = 0
    words = BENDS


class Dense(OnMap):
    features = line_maps.rivers() + line_maps.dense_towns(500)
    words = RIVERS

    def test_the_rhine_has_a_name_among_towns(self) -> None:
        """At zooms 6, 7 and 8 the Rhine has a name, though towns stand close about it."""
        for zoom in (6, 7, 8):
            seen = self.made.view(49.5, 7, zoom)
            names = [one["text"] for one in seen if len(one["boxes"]) > 1]
            self.assertIn("Rhine", names, zoom)
            self.assertGreater(len([one for one in seen if len(one["boxes"]) == 1]), 60, zoom)


class Steep(OnMap):
    """Lines that run straight up, which a name stands beside, and scripts that are one run."""

    features = [
        line_maps.feature("v", "LineString", [[0, k / 50 - 1] for k in range(101)], name="North"),
        line_maps.feature("p", "LineString", [[1, k / 50 - 1] for k in range(101)], name="Po"),
        line_maps.feature("h", "LineString", [[k / 50, 0.2] for k in range(40)], name="נהר הירדן"),
        line_maps.feature("a", "LineString", [[k / 50, -0.2] for k in range(40)], name="نهر النيل"),
    ]
    words = ("--zooms", "8-9")

    def test_upright_names_stand_beside_their_lines(self) -> None:
        found = {}
        for label, feature in self.made.names():
            name = str(feature.properties["name"])
            drawn = lay(name, label.boxes, FACE, 12)
            assert drawn is not None
            self.assertEqual(drawn.height, 12)
            found[name.strip()] = drawn
        self.assertEqual(set(found), {"North", "Po", "נהר הירדן", "نهر النيل"})
        for name in ("North", "Po"):
            for letter in found[name].letters:
                self.assertAlmostEqual(math.degrees(letter.angle), 90, 6)
                # The base line is nearer to the line than the letters' tops, and clear of it.
                self.assertTrue(-9 < letter.x < -2, letter)
        for name in ("נהר הירדן", "نهر النيل"):
            self.assertTrue(found[name].is_run)
            self.assertEqual(len(found[name].letters), 1)


class Spaced(OnMap):
    features = line_maps.rivers()
    words = (*RIVERS, "--letter-spacing", "4", "--height", "14")

    def test_letters_are_spaced_and_as_high_as_told(self) -> None:
        """Where a stretch is long enough, letters stand four pixels further apart than the font has
        them.
        """
        spaced = 0
        for label, feature in self.made.names():
            text = str(feature.properties["name"])
            height, spacing = wanted(feature.properties, 1000)
            self.assertEqual(height, 14)
            self.assertIn(spacing, (0.0, 4.0))
            drawn = lay(text, label.boxes, FACE, height, spacing)
            assert drawn is not None
            self.assertEqual(drawn.height, 14)
            if drawn.is_straight and spacing:
                spaced += 1
                a, b = drawn.letters[:2]
                far = math.dist((a.x, a.y), (b.x, b.y))
                self.assertAlmostEqual(far, FACE.advance(text.strip()[0]) * 14 + 4, 6)
        self.assertGreater(spaced, 20)


class Joining(unittest.TestCase):
    """Lines whose ends meet become one."""

    def test_parts_become_the_whole(self) -> None:
        """A line that is cut in three, one part turned round, is the line again."""
        whole = [(float(k * 100), float(k * k)) for k in range(12)]
        parts = [whole[7:], whole[3:8][::-1], whole[:4]]
        (found,) = joined(parts, 10)
        self.assertIn(found, (whole, whole[::-1]))

    def test_at_a_junction_the_straightest_go_on(self) -> None:
        """Of three lines that meet, the two that go straight on are joined; a line that comes back
        sharply is not.
        """
        west, east, north = (
            ((-900.0, 0.0), (0.0, 0.0)),
            ((4.0, 0.0), (900.0, 90.0)),
            ((0.0, 0.0), (500.0, 800.0)),
        )
        found = joined([north, east, west], 10)
        self.assertEqual(sorted(map(len, found)), [2, 3])
        self.assertIn(list(north), found)
        back = ((0.0, 0.0), (-900.0, 90.0))
        self.assertEqual(len(joined([west, back], 10)), 2)


class Words(setting.Folder):
    """What the tool takes from a style, and what it says of what it cannot use."""

    def lines(
        self, features: list[dict[str, Any]], style: str, *words: str
    ) -> tuple[int, str, str]:
        self.write(features, style)
        out = self.at / "out.toml", self.at / "out.geojson"
        return setting.run("lines", self.style, self.map, "--zooms", "7-9", *words, "-o", *out)

    def out(self) -> tuple[dict[str, Any], dict[str, Any]]:
        style = tomllib.loads((self.at / "out.toml").read_text("utf-8"))
        return style, json.loads((self.at / "out.geojson").read_text("utf-8"))

    def test_own_classes_of_lines_are_replaced(self) -> None:
        """They tell the height of letters; comments and other classes stay as they stand."""
        style = "# A comment of mine.\n" + line_maps.style(line_maps.TOWNS, LINE_CLASS)
        status, _, fault = self.lines(line_maps.rivers(), style)
        self.assertEqual((status, fault), (0, ""))
        text, (made, world) = (self.at / "out.toml").read_text("utf-8"), self.out()
        self.assertTrue(text.startswith("# A comment of mine.\n"))
        points = [one for one in made["class"] if one["geometry"] == "point"]
        self.assertEqual(points, tomllib.loads(line_maps.style(line_maps.TOWNS))["class"])
        own = [one for one in made["class"] if one["geometry"] == "line"]
        self.assertTrue(own and all(one["key"] == "line_label" for one in own))
        heights = {one["properties"].get("line_height") for one in world["features"]}
        self.assertEqual(heights, {None, 14})

    def test_lines_without_a_class_are_left(self) -> None:
        """Where the style has classes of lines, other lines get no names."""
        rivers = LINE_CLASS.replace('"line"\n', '"line"\nkey = "kind"\nvalue = "canal"\n')
        features = line_maps.rivers()
        features[0]["properties"]["kind"] = "canal"
        self.lines(features, line_maps.style(rivers))
        names = {
            one["properties"]["name"]
            for one in self.out()[1]["features"]
            if "line_label" in one["properties"]
        }
        self.assertEqual(names, {features[0]["properties"]["name"]})

    def test_names_carry_what_their_lines_share(self) -> None:
        """`kind` and keys of classes of lines, with one value on all lines of the name; no more."""
        rivers = LINE_CLASS.replace('"line"\n', '"line"\nkey = "use"\nvalue = "water"\n')
        features = line_maps.rivers()[:4]
        for one, kind in zip(features, ("river", "canal", "river", "river")):
            one["properties"] |= {"kind": kind, "use": "water", "source": "drawn"}
        mixed, plain = (features[k]["properties"]["name"] for k in (0, 2))
        features[1]["properties"]["name"], features[3]["properties"]["name"] = mixed, plain
        self.lines(features, line_maps.style(rivers), "--zooms", "5-9", "--spacing", "100")
        made = [one["properties"] for one in self.out()[1]["features"]]
        made = [one for one in made if "line_label" in one]
        self.assertEqual({one["name"].strip("\u2009") for one in made}, {mixed, plain})
        for one in made:
            is_plain = one["name"].strip("\u2009") == plain
            self.assertEqual(one.get("kind"), "river" if is_plain else None)
            self.assertEqual((one["use"], one.get("source")), ("water", None))

    def test_priority_is_for_names_that_stay(self) -> None:
        """Names that end before the last zoom stand behind all classes in any case."""
        words = ("--zooms", "4-9", "--priority", "0")
        self.lines(line_maps.rivers(), line_maps.style(line_maps.TOWNS), *words)
        found = [one for one in self.out()[0]["class"] if one["geometry"] == "line"]
        self.assertEqual({one["min"] == "0" for one in found}, {True, False})
        for one in found:
            self.assertEqual(one["priority"], 0 if one["min"] == "0" else 2, one)

    def test_what_cannot_be_used(self) -> None:
        line = line_maps.rivers()[:1]
        bare = [dict(line[0], properties={})]
        made = [dict(line[0], properties={"name": "a", "line_label": "x"})]
        inline = "version = 2\nclass = []\nfonts = {}\n"
        for features, style, words, said in (
            (bare, line_maps.style(), (), 'no line with a name in the property "name"'),
            (made, line_maps.style(), (), "has features that tools/lines made"),
            (line, inline, (), "no classes can be added to the style"),
            (line, line_maps.style(), ("--font", "/dev/null"), "/dev/null"),
            (line, "version = 9\n", (), "style refused: 2 Version"),
        ):
            status, out, fault = self.lines(features, style, *words)
            self.assertNotEqual(status, 0, said)
            self.assertIn(said, fault)
            self.assertNotIn("Traceback", fault)
            self.assertFalse((self.at / "out.toml").exists())

    def test_names_without_ink_are_left(self) -> None:
        """A name of a space that breaks no line, of a mark alone, or longer than 64 letters."""
        lines = line_maps.rivers()[:3]
        for one, name in zip(lines, ("\u00a0", "\u0301", "a" * 65)):
            one["properties"] = {"name": name}
        status, out, fault = self.lines(lines, line_maps.style())
        self.assertEqual((status, fault), (0, ""))
        self.assertIn("0 features for 3 names", out)

    def test_wrong_words(self) -> None:
        for words in (("--zooms", "9-7"), ("--zooms", "x"), ("--height", "3")):
            status, _, fault = self.lines(line_maps.rivers()[:1], line_maps.style(), *words)
            self.assertEqual(status, 2)
            self.assertNotIn("Traceback", fault)


class Report(unittest.TestCase):
    """What is said of the lines of a map as it stands."""

    def test_counts(self) -> None:
        """Of four lines one is straight and level, one zigzags, one is too short, and one has
        Hebrew letters.
        """
        level = [[0, 0], [4, 0]]
        zigzag = [[k * 0.05, 1 + 0.06 * (k % 2)] for k in range(60)]
        features = [
            line_maps.feature("a", "LineString", level, name="Danube"),
            line_maps.feature("b", "LineString", zigzag, name="Crooked River"),
            line_maps.feature("c", "LineString", [[0, 2], [0.001, 2]], name="Short"),
            line_maps.feature("d", "LineString", [[0, 3], [4, 3.2]], name="הירדן"),
        ]
        with files.folder() as folder:
            style, world = folder / "style.toml", folder / "map.geojson"
            text = line_maps.style(line_maps.TOWNS, LINE_CLASS.replace("size = 14", "size = 16"))
            style.write_text(text.replace("margin = 2\nref", "margin = 1\nref"), "utf-8")
            world.write_text(line_maps.collection(features), "utf-8")
            replies = program.pipe(setting.PROGRAM, style, world, [get("/map"), get("/state")])
            shown = geojson.features_of(replies[0].text()), labels.read_state(replies[1].text())
            found = report.figures(*shown, read(style), FACE)
            told = report.warnings(*shown, read(style), FACE)
        self.assertEqual((found.labels, found.level, found.chains()), (4, 1, 3))
        self.assertEqual((found.bent, found.runs, found.upright), (1, 1, 1))
        self.assertEqual(found.full + found.smaller, 2)
        self.assertIn("4; 1 of them stand level in one box", told[0])
        self.assertIn("tools/lines makes names", told[0])
        self.assertIn("class 1 (line (all others)) has the margin 1", told[1])

    def test_classes_that_hide_others_for_good(self) -> None:
        """A class of lines with a min above 0 is told of where any other class stands behind it."""
        banded = LINE_CLASS.replace('min = "0"', 'min = "100"')
        for priority, count in ((1, 1), (2, 1), (3, 0)):
            line = banded.replace("priority = 5", f"priority = {priority}")
            town = line_maps.one_class("point", 12, 2, 1000)
            with files.folder() as folder:
                path = folder / "style.toml"
                path.write_text(line_maps.style(line, town), "utf-8")
                told = report.warnings([], [], read(path), None)
            self.assertEqual(len(told), count, priority)
            self.assertTrue(all("for good" in one for one in told))


class Large(unittest.TestCase):
    def test_800_streets_take_less_than_20_seconds(self) -> None:
        """A town of 800 streets with some 3,500 names, in seconds of one core."""
        load = os.getloadavg()[0] / (os.cpu_count() or 1)
        if load > 2:
            self.skipTest(f"the machine is too busy to measure: {load:.1f} processes a core")
        with files.folder() as folder:
            words = ("--zooms", "14-18", "--side", "on", "--spacing", "75")
            made = Made(folder, line_maps.streets(800), line_maps.style(), *words)
            self.assertGreater(len(made.names()), 3500)
            self.assertLess(made.seconds, 20)
            print(f"{len(made.names())} features in {made.seconds:.1f} s of one core", end=" ")


if __name__ == "__main__":
    unittest.main()
