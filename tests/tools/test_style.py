"""Styles that tools/style makes: the program reads them, their widths are the font's, and Chromium
draws as wide.
"""

import json
import struct
import subprocess
from pathlib import Path
from typing import Any

import tomllib

import setting
from chromium import Browser

SAMPLE = setting.SAMPLE / "world.geojson"
# The fields of a table of a font, by their names.
Tables = dict[str, bytes]
DRAWN = """(names => {
    const pen = document.createElement('canvas').getContext('2d')
    pen.font = '%dpx "%s"'
    pen.fontKerning = 'none'
    return names.map(name => pen.measureText(name).width)
})(%s)"""


def tables_of(font: str) -> Tables:
    """The tables of a font file by their names, read from its bytes alone."""
    data = Path(font).read_bytes()
    (count,) = struct.unpack(">H", data[4:6])
    found = {}
    for k in range(count):
        name, _, at, size = struct.unpack(">4sIII", data[12 + 16 * k : 28 + 16 * k])
        found[name.decode()] = data[at : at + size]
    return found


def glyph_of(cmap: bytes, code: int) -> int:
    """The glyph of a character by the first table of format 4."""
    (count,) = struct.unpack(">H", cmap[2:4])
    starts = [struct.unpack(">HHI", cmap[4 + 8 * k : 12 + 8 * k])[2] for k in range(count)]
    table = next(cmap[at:] for at in starts if struct.unpack(">H", cmap[at : at + 2])[0] == 4)
    (twice,) = struct.unpack(">H", table[6:8])

    def part(begin: int, k: int, form: str) -> int:
        return int(struct.unpack(form, table[begin + 2 * k : begin + 2 * k + 2])[0])

    for k in range(twice // 2):
        if code <= part(14, k, ">H"):
            break
    begin, delta, offset = (
        part(16 + twice, k, ">H"),
        part(16 + 2 * twice, k, ">h"),
        part(16 + 3 * twice, k, ">H"),
    )
    if code < begin:
        return 0
    if offset == 0:
        return (code + delta) % 65536
    at = 16 + 3 * twice + 2 * k + offset + 2 * (code - begin)
    (glyph,) = struct.unpack(">H", table[at : at + 2])
    return (int(glyph) + delta) % 65536 if glyph else 0


def advance_of(tables: Tables, code: int) -> int:
    """The advance of a character by the font's own tables."""
    last = struct.unpack(">H", tables["hhea"][34:36])[0] - 1
    glyph = min(glyph_of(tables["cmap"], code), last)
    return int(struct.unpack(">H", tables["hmtx"][4 * glyph : 4 * glyph + 2])[0])


def measured(names: list[str], family: str, size: int) -> list[float]:
    """How wide Chromium draws names."""
    with Browser() as browser:
        browser.open("about:blank")
        found: list[float] = browser.tell(DRAWN % (size, family, json.dumps(names)))
        return found


class Style(setting.Folder):
    """Styles of small maps, and one of the sample."""

    def put(self, *features: setting.Value) -> None:
        """Writes the map."""
        self.write(features)

    def made(self, *words: object) -> Any:
        """The style that is made for the map, read as TOML."""
        status, out, said = setting.run("style", self.map, setting.SERIF, *words)
        self.assertEqual(status, 0, said)
        return tomllib.loads(out)

    def test_classes_stand_in_the_order_told_or_by_the_median_rank(self) -> None:
        self.put(
            setting.point("a", 8, 47, name="A", place="city", pop=5),
            setting.point("b", 9, 47, name="B", place="town", pop=90),
            setting.point("c", 9, 48, name="C", place="town", pop=70),
            setting.point("d", 9, 49, name="D", pop=1),
        )
        words = "--class", "place", "--rank", "pop"

        def order(style: Any) -> list[Any]:
            return [(one.get("value"), one["priority"], one["size"]) for one in style["class"]]

        self.assertEqual(
            order(self.made(*words)), [("town", 1, 17), ("city", 2, 14), (None, 3, 12)]
        )
        self.assertEqual(
            order(self.made(*words, "--values", "city,town", "--sizes", "20,10")),
            [("city", 1, 20), ("town", 2, 10), (None, 3, 10)],
        )

    def test_a_range_of_zooms_is_one_of_scales(self) -> None:
        self.put(setting.point("a", 8, 47, name="A", place="city"))
        (one,) = self.made("--zooms", "4-12")["class"]
        # 14062500 / 2^13 is 1716.6, and 14062500 / 2^4 is 878906.25: just above each.
        self.assertEqual((one["min"], one["max"]), ("1717", "878907"))
        (one,) = self.made("--class", "place", "--zooms", "city=5-")["class"]
        self.assertEqual((one["min"], one["max"]), ("0", "439454"))

    def test_the_first_lines_make_it_anew(self) -> None:
        self.put(setting.point("a", 8, 47, name='Zürich "1"', place="city"))
        status, first, _ = setting.run(
            "style", self.map, setting.SERIF, "--class", "place", "--margin", "3"
        )
        self.assertEqual(status, 0)
        words = first.split("\n")[1].removeprefix("#   tools/style ")
        done = subprocess.run(
            ["bash", "-c", f'"$0" {words}', setting.TOOLS / "style"], capture_output=True, text=True
        )
        self.assertEqual(done.stdout, first)

    def test_widths_are_those_of_the_tables_of_the_font(self) -> None:
        names = [
            one["properties"]["name"] for one in json.loads(SAMPLE.read_text("utf-8"))["features"]
        ]
        status, out, said = setting.run("style", SAMPLE, setting.SERIF)
        self.assertEqual(status, 0, said)
        font, tables = tomllib.loads(out)["fonts"]["sans"], tables_of(setting.SERIF)
        self.assertEqual(font["units"], struct.unpack(">H", tables["head"][18:20])[0])
        used = set("".join(names))
        self.assertLessEqual(set(font["advances"]), used)
        for one in used:
            self.assertEqual(
                font["advances"].get(one, font["default"]), advance_of(tables, ord(one)), one
            )

    def test_chromium_draws_a_name_as_wide_as_its_box(self) -> None:
        names = sorted(
            {one["properties"]["name"] for one in json.loads(SAMPLE.read_text("utf-8"))["features"]}
        )
        tables = tables_of(setting.SERIF)
        for size in (11, 17):
            by_name = dict(zip(names, measured(names, "Liberation Serif", size)))
            for name, drawn in by_name.items():
                exact = sum(advance_of(tables, ord(one)) for one in name) * size / 2048
                self.assertLessEqual(abs(drawn - exact), 0.5, (name, size, drawn, exact))
            status, view = self.view_of_sample(size)
            self.assertEqual(status, 0)
            self.assertGreater(len(view), 20)
            for one in view:
                # The box is the width rounded up to whole pixels: half a pixel to each side of the
                # drawn name at the most.
                left, _, right, _ = one["boxes"][0]
                self.assertLessEqual(abs((right - left - 0.5) - by_name[one["text"]]), 0.55, one)

    def view_of_sample(self, size: int) -> tuple[int, list[Any]]:
        """The names of the whole world in one size under a style that is made for it."""
        style = self.at / "style.toml"
        status, _, _ = setting.run("style", SAMPLE, setting.SERIF, "--sizes", size, "-o", style)
        done = subprocess.run(
            [setting.PROGRAM, "view", style, SAMPLE, "0", "0", "1024", "512", "3515625"],
            capture_output=True,
            check=True,
        )
        return status, json.loads(done.stdout)["labels"]

    def test_what_the_font_lacks_is_told(self) -> None:
        self.put(
            setting.point("a", 116, 39, name="北京"), setting.point("b", 8, 47, name="Bern\u0e01")
        )
        status, out, said = setting.run("style", self.map, setting.SERIF)
        self.assertEqual(status, 0)
        self.assertIn("3 characters of the names are in no font", said)
        font = tomllib.loads(out)["fonts"]["sans"]
        # Chinese characters are an em wide where no font tells it; others get the default, the
        # least commonest of B e r n.
        self.assertEqual(
            (font["advances"]["北"], font["advances"].get("\u0e01"), font["default"]),
            (2048, None, 682),
        )

    def test_bad_input_is_told_and_nothing_is_written(self) -> None:
        self.put(setting.point("a", 8, 47, name="A", place="city"))
        broken = self.at / "broken.geojson"
        broken.write_text("{", "utf-8")
        for words, sentence in (
            ((self.at / "none", setting.SERIF), "cannot be read"),
            ((broken, setting.SERIF), "map refused: 1 NotJson 1"),
            ((self.map, self.map), "no TrueType or OpenType font"),
            ((self.map, setting.SERIF, "--name", "title"), "no feature has a name"),
            ((self.map, setting.SERIF, "--zooms", "9-4"), "zooms are told as"),
            ((self.map, setting.SERIF, "--sizes", "300"), "sizes are whole numbers"),
            (
                (self.map, setting.SERIF, "--class", "place", "--values", "town"),
                "no feature has place=town",
            ),
            ((self.map, setting.SERIF, "--program", "false"), "is not maplabel"),
        ):
            out = self.at / "out.toml"
            status, printed, said = setting.run("style", *words, "-o", out)
            self.assertEqual((status, printed), (1, ""), said)
            self.assertIn(sentence, said)
            self.assertNotIn("Traceback", said)
            self.assertFalse(out.exists())
