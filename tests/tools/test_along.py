"""Names along lines: the curve of boxes, the room that letters have in them, and how letters lie.

The expected places come from the definitions: circles and straight lines whose boxes are made here,
and unions of boxes that are tried point by point.
"""

import json
import math
import random
import subprocess
import unicodedata
import unittest

import setting
from maplabel_kit import geojson
from maplabel_kit.along import (
    Box,
    Face,
    Room,
    clusters,
    curve_of,
    is_whole,
    lay,
    wanted,
    whole_scripts,
)
from maplabel_kit.files import TOP

FACE = Face.read(setting.SERIF)
MODULE = TOP / "web" / "maplabel" / "along.js"
HEBREW, ARABIC = "נהר הירדן", "نهر النيل"


def boxes_along(text: str, height: int, size: int, angle: float, radius: float) -> list[Box]:
    """Boxes for letters on an arc whose chord has an angle in degrees; a radius of 0 is a straight
    line. Middles are rounded to whole pixels, as the engine does.
    """
    found: list[Box] = []
    wides = [FACE.letter(one).wide * height for one in clusters(text)]
    at = -sum(wides) / 2
    for wide in wides:
        left, _ = on_arc(at, angle, radius)
        right, _ = on_arc(at + wide, angle, radius)
        _, y = on_arc(at + wide / 2, angle, radius)
        bottom = math.floor(y + 0.5) - size // 2
        found.append((math.floor(left) - 2, bottom, math.ceil(right) + 2, bottom + size))
        at += wide
    return found


def on_arc(length: float, angle: float, radius: float) -> tuple[float, float]:
    """A point of the arc, so far from its middle."""
    turn = math.radians(angle)
    if radius == 0:
        return length * math.cos(turn), length * math.sin(turn)
    part = length / radius
    u, w = radius * math.sin(part), radius * (math.cos(part) - 1)
    return u * math.cos(turn) - w * math.sin(turn), u * math.sin(turn) + w * math.cos(turn)


class Rooms(unittest.TestCase):
    def test_lack_is_that_of_the_points(self) -> None:
        """A turned rectangle is within a union where all of its points are, and lacks as much as
        the furthest of those points of its edge that are tried.
        """
        dice, counts = random.Random(3), [0, 0]
        for _ in range(400):
            boxes = [self.box(dice, k) for k in range(4)]
            shape = self.rectangle(dice)
            lack, outside = Room(boxes).lack(shape), self.outside(shape, boxes)
            counts[outside > 0] += 1
            self.assertEqual(Room(boxes).has(shape), lack <= 1e-9, (shape, boxes))
            self.assertTrue(lack > 1e-9 or outside == 0, (shape, boxes))
            self.assertAlmostEqual(lack, outside, delta=0.15)
        self.assertGreater(min(counts), 60)

    def box(self, dice: random.Random, k: int) -> Box:
        bottom = dice.randint(-6, 2)
        return k * 6 - 12, bottom, k * 6 - 6, bottom + dice.randint(8, 14)

    def rectangle(self, dice: random.Random) -> list[tuple[float, float]]:
        x, y, turn = dice.uniform(-11, 11), dice.uniform(-1, 6), dice.uniform(-1, 1)
        wide, high = dice.uniform(1, 4), dice.uniform(1, 4)
        cos, sin = math.cos(turn), math.sin(turn)
        flat = ((-wide, -high), (wide, -high), (wide, high), (-wide, high))
        return [(x + u * cos - w * sin, y + u * sin + w * cos) for u, w in flat]

    def outside(self, shape: list[tuple[float, float]], boxes: list[Box]) -> float:
        """By how much a point of the shape's edge is above, below or beside all boxes at its x."""
        most = 0.0
        for (ax, ay), (bx, by) in zip(shape, shape[1:] + shape[:1]):
            for k in range(60):
                x, y = ax + (bx - ax) * k / 60, ay + (by - ay) * k / 60
                over = [box for box in boxes if box[0] <= x <= box[2]]
                reaches = [max(0.0, box[1] - y, y - box[3]) for box in over]
                beside = max(boxes[0][0] - x, x - boxes[-1][2])
                most = max(most, min(reaches, default=beside))
        return most if most > 1e-3 else 0.0


class Curves(unittest.TestCase):
    def test_a_straight_line_has_its_angle(self) -> None:
        for angle in (-60, -20, 0, 35, 70):
            boxes = boxes_along("Feldkircher Strasse", 12, 30, angle, 0)
            shape = curve_of(boxes)
            assert shape is not None
            self.assertTrue(shape.is_straight)
            self.assertAlmostEqual(math.degrees(shape.curve.angle), angle, delta=1.2)

    def test_an_arc_is_followed(self) -> None:
        """Letters lie on the circle of their boxes, to the pixel to which boxes are rounded."""
        text = "Feldkircher Strasse"
        found = lay(text, boxes_along(text, 12, 34, 10, 130), FACE, 12)
        assert found is not None
        self.assertEqual((found.height, found.is_straight), (12, False))
        centre = on_arc(0, 10, 0)[0] + 130 * math.sin(math.radians(10)), -130 * math.cos(
            math.radians(10)
        )
        for letter in found.letters:
            middle = (
                letter.x - 0.29 * 12 * math.sin(letter.angle),
                letter.y + 0.29 * 12 * math.cos(letter.angle),
            )
            self.assertAlmostEqual(math.dist(middle, centre), 130, delta=1.5)

    def test_letters_stand_evenly(self) -> None:
        """The distance of letters along a straight line is the font's advance, whatever the boxes'
        rounding.
        """
        text = "Liechtenstein"
        found = lay(text, boxes_along(text, 12, 26, 33, 0), FACE, 12)
        assert found is not None
        for a, b, one in zip(found.letters, found.letters[1:], text):
            self.assertAlmostEqual(math.dist((a.x, a.y), (b.x, b.y)), FACE.advance(one) * 12, 9)

    def test_a_zigzag_has_no_curve(self) -> None:
        boxes: list[Box] = [(6 * k, 5 * (k % 2), 6 * k + 6, 12 + 5 * (k % 2)) for k in range(12)]
        self.assertIsNone(curve_of(boxes))
        self.assertIsNone(lay("abcdefghijkl", boxes, FACE, 12))

    def test_a_column_is_upright(self) -> None:
        boxes: list[Box] = [(k, -40, k + 1, 40) for k in range(-7, 7)]
        found = lay("Landstrasse", boxes, FACE, 12)
        assert found is not None
        self.assertEqual({round(math.degrees(one.angle)) for one in found.letters}, {90})


class Heights(unittest.TestCase):
    def test_the_greatest_height_that_fits(self) -> None:
        """Boxes as high as the letters' ink take that height, and lower ones a lower one."""
        text = "Danube"
        for size, most in ((18, 12), (12, 12), (8, 12)):
            boxes: list[Box] = [(8 * k - 24, -size // 2, 8 * k - 16, size // 2) for k in range(6)]
            found = lay(text, boxes, FACE, most)
            assert found is not None
            inks = [FACE.letter(one).ink for one in text]
            tops = [ink[3] for ink in inks if ink]
            bottoms = [ink[1] for ink in inks if ink]
            fitting = [
                height
                for height in range(1, most + 1)
                if (max(tops) - 0.29) * height <= size / 2
                and (min(bottoms) - 0.29) * height >= -size / 2
            ]
            self.assertEqual(found.height, max(fitting))

    def test_too_small_is_none(self) -> None:
        boxes: list[Box] = [(8 * k - 24, -3, 8 * k - 16, 3) for k in range(6)]
        self.assertIsNone(lay("Danube", boxes, FACE, 12))

    def test_a_turn_of_more_than_15_degrees_is_none(self) -> None:
        """On a small circle letters would be turned by more than 15 degrees against one another."""
        text = "wwwwww"
        pitch = FACE.letter("w").wide * 12
        for degrees, is_drawn in ((12, True), (19, False)):
            radius = pitch / math.radians(degrees)
            found = lay(text, boxes_along(text, 12, 40, 0, radius), FACE, 12)
            self.assertEqual(found is not None, is_drawn, degrees)

    def test_spaces_beside_a_name_take_no_part(self) -> None:
        """A box of a space beside a column moves the column's middle, and nothing else."""
        boxes: list[Box] = [(k, -40, k + 1, 40) for k in range(-7, 7)]
        name = "Landstrasse ab"
        plain = lay(name, boxes, FACE, 12)
        padded = lay(name + "\u2009", [*boxes, (7, -40, 24, 40)], FACE, 12)
        assert plain is not None and padded is not None
        self.assertEqual([one.x for one in plain.letters], [one.x for one in padded.letters])

    def test_what_a_feature_tells(self) -> None:
        number = geojson.Number
        self.assertEqual(wanted({}, 30), (12, 0.0))
        self.assertEqual(wanted({"line_height": number("14")}, 30), (14, 0.0))
        self.assertEqual(wanted({"line_height": 14, "line_spacing": number("3")}, 12), (12, 3.0))
        self.assertEqual(wanted({"line_height": "14", "line_spacing": True}, 30), (12, 0.0))


class Scripts(unittest.TestCase):
    def test_runs_that_are_written_whole(self) -> None:
        for text in (HEBREW, ARABIC):
            boxes = boxes_along(text, 12, 24, 15, 0)
            found = lay(text, boxes, FACE, 12)
            assert found is not None
            self.assertTrue(found.is_run)
            self.assertEqual([one.text for one in found.letters], [text])
            self.assertAlmostEqual(math.degrees(found.letters[0].angle), 15, delta=1.5)
        self.assertEqual(whole_scripts(HEBREW + ARABIC), {"HEBREW", "ARABIC"})
        self.assertFalse(is_whole("Zürich Москва 東京"))

    def test_the_page_has_the_same_scripts(self) -> None:
        """Each letter of Unicode is of such a script here where it is in a browser."""
        codes = [k for k in range(0x110000) if unicodedata.category(chr(k))[0] == "L"]
        script = (
            f"import({json.dumps(MODULE.as_uri())}).then(along => console.log(JSON.stringify("
            "JSON.parse(require('fs').readFileSync(0)).filter(k =>"
            " along.isWhole(String.fromCodePoint(k))))))"
        )
        source = subprocess.run(
            ["node", "--experimental-default-type=module", "--input-type=commonjs", "-e", script],
            input=json.dumps(codes),
            capture_output=True,
            text=True,
            check=False,
        )
        self.assertEqual(source.returncode, 0, source.stderr)
        told, own = set(json.loads(source.stdout)), {k for k in codes if is_whole(chr(k))}
        self.assertGreater(len(own), 2000)
        self.assertEqual([f"{k:x} {unicodedata.name(chr(k))}" for k in sorted(told ^ own)][:8], [])

    def test_marks_stay_with_their_letters(self) -> None:
        self.assertEqual(clusters("Zu\u0308rich"), ["Z", "u\u0308", "r", "i", "c", "h"])


if __name__ == "__main__":
    unittest.main()
