"""The ten steps of tools/README.md, walked in an empty folder, from a shapefile to a page in
Chromium.
"""

import json
import os
import tempfile
import unittest
from pathlib import Path

import setting
import walk
from maplabel_kit.ports import free_port

LOOK = (
    'cp towns.geojson placed.geojson page.png "$KEPT" && /usr/bin/python3 $T/tests/tools/look.py '
    '"$(cat address)#lat=46.8&lng=8.5&z=5" "$KEPT/look.png" > "$KEPT/names"'
)


class Steps(unittest.TestCase):
    """One walk."""

    def test_from_a_shapefile_to_a_page(self) -> None:
        with tempfile.TemporaryDirectory() as kept:
            faults = walk.walk(
                setting.TOOLS / "README.md",
                setting.PROGRAM,
                free_port(),
                more=[(LOOK, None)],
                KEPT=kept,
                PAGE=str(free_port()),
            )
            self.assertEqual(faults, [], "\n\n".join(faults))
            names = {
                one["properties"]["name"]
                for one in json.loads(Path(kept, "towns.geojson").read_text())["features"]
            }
            drawn = json.loads(Path(kept, "names").read_text("utf-8"))
            self.assertGreater(os.path.getsize(Path(kept, "look.png")), 10000)
        self.assertLessEqual(
            {"London", "Paris", "Berlin", "Madrid", "Rome"}, {one["text"] for one in drawn}
        )
        self.assertLessEqual({one["text"] for one in drawn}, names)
        boxes = [
            (one["x"] + left, one["y"] - top, one["x"] + right, one["y"] - bottom)
            for one in drawn
            for left, bottom, right, top in one["boxes"]
        ]
        for k, one in enumerate(boxes):
            for other in boxes[:k]:
                self.assertFalse(
                    one[0] < other[2]
                    and other[0] < one[2]
                    and one[1] < other[3]
                    and other[1] < one[3]
                )
