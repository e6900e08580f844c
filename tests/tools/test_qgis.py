"""The Processing script in QGIS, without a screen: what it draws is what `maplabel view` tells, and
nothing overlaps.
"""

import json
import os
import shutil
import subprocess
import tempfile
import unittest
from collections.abc import Sequence
from itertools import combinations
from pathlib import Path
from typing import Any, ClassVar

import setting
import towns

HERE = Path(__file__).resolve().parent
SCALES = 800000, 400000, 200000, 100000, 50000, 25000
WINDOW = 85000000, 468000000, 1024, 768
CANCELLED = """
import sys
sys.path.insert(0, sys.argv[1])
from qgis.core import QgsApplication, QgsProcessingContext, QgsProcessingFeedback
app = QgsApplication([], False)
app.initQgis()
from maplabel_labels import MaplabelLabels
algorithm, feedback = MaplabelLabels().create(), QgsProcessingFeedback()
feedback.cancel()
told = {'INPUT': sys.argv[2], 'NAME': 'name', 'OUTPUT': sys.argv[3], 'QML': sys.argv[4]}
told['FONT'] = 'Liberation Serif'
print(algorithm.run(told, QgsProcessingContext(), feedback)[1])
"""


Found = list[dict[str, Any]]


class Qgis(unittest.TestCase):
    """One folder with a layer of 2,000 towns in metres, and a home of QGIS that has the script
    linked in.
    """

    at: Path
    folder: ClassVar["tempfile.TemporaryDirectory[str]"]
    environment: dict[str, str]
    said: tuple[int, str]

    @classmethod
    def setUpClass(cls) -> None:
        cls.folder = tempfile.TemporaryDirectory()
        cls.at = Path(cls.folder.name)
        scripts = cls.at / "home/.local/share/QGIS/QGIS3/profiles/default/processing/scripts"
        scripts.mkdir(parents=True)
        (cls.at / "home").chmod(0o700)
        (scripts / "maplabel_labels.py").symlink_to(setting.TOOLS / "qgis" / "maplabel_labels.py")
        (cls.at / "towns.geojson").write_text(
            setting.collection(towns.features_of(2000, 1)), "utf-8"
        )
        subprocess.run(
            [
                "ogr2ogr",
                "-f",
                "GPKG",
                "-t_srs",
                "EPSG:3857",
                cls.at / "towns.gpkg",
                cls.at / "towns.geojson",
            ],
            check=True,
        )
        cls.environment = dict(
            os.environ,
            HOME=str(cls.at / "home"),
            XDG_RUNTIME_DIR=str(cls.at / "home"),
            QT_QPA_PLATFORM="offscreen",
        )
        cls.said = cls.process(
            NAME="name",
            RANK="pop",
            CLASS="place",
            INPUT="towns.gpkg",
            OUTPUT="labels.gpkg",
            QML="labels.qml",
            MAP="map.geojson",
            STYLE="style.toml",
        )

    @classmethod
    def tearDownClass(cls) -> None:
        cls.folder.cleanup()

    @classmethod
    def process(cls, **told: object) -> tuple[int, str]:
        """A run of the script by `qgis_process`: its status and what it said."""
        # Debian's wrapper hands on an option that the program does not know, so the program itself
        # is taken.
        program = shutil.which("qgis_process.bin") or "qgis_process"
        told = {"FONT": "Liberation Serif", **told}
        done = subprocess.run(
            [program, "run", "script:maplabellabels", "--", *(f"{k}={v}" for k, v in told.items())],
            cwd=cls.at,
            env=cls.environment,
            capture_output=True,
            text=True,
            check=False,
        )
        return done.returncode, done.stdout + done.stderr

    def drawn(self, layer: str, qml: str, crs: str, views: Sequence[Any]) -> list[Found]:
        """What QGIS draws at some views."""
        done = subprocess.run(
            [
                "/usr/bin/python3",
                HERE / "qgis_draw.py",
                layer,
                qml,
                crs,
                "picture",
                *(",".join(map(str, view)) for view in views),
            ],
            cwd=self.at,
            env=self.environment,
            capture_output=True,
            text=True,
            check=True,
        )
        found: list[Found] = json.loads(done.stdout)
        return found

    def view(self, view: Sequence[int]) -> dict[str, Any]:
        """The labels that `maplabel view` tells."""
        done = subprocess.run(
            [setting.PROGRAM, "view", "style.toml", "map.geojson", *map(str, view)],
            cwd=self.at,
            capture_output=True,
            check=True,
        )
        return {one["id"]: one for one in json.loads(done.stdout)["labels"]}

    def apart(self, labels: Found) -> None:
        """No two rectangles overlap."""
        for one, other in combinations(labels, 2):
            a, b = one["rect"], other["rect"]
            self.assertFalse(
                a[0] < b[2] and b[0] < a[2] and a[1] < b[3] and b[1] < a[3], (one, other)
            )

    def test_names_are_those_of_view_at_six_scales(self) -> None:
        self.assertEqual(self.said[0], 0, self.said[1])
        views = [(*WINDOW, scale) for scale in SCALES]
        counts = []
        for view, found in zip(views, self.drawn("labels.gpkg", "labels.qml", "EPSG:32662", views)):
            due = self.view(view)
            self.apart(found)
            near = {one["id"]: one for one in found}
            inside = {
                own for own, one in near.items() if own in due or self.meets(one["rect"], view)
            }
            self.assertEqual(inside, set(due))
            for own, one in due.items():
                self.fits(near[own]["rect"], one, view)
            counts.append(len(due))
        print("\nnames that QGIS draws at the scales", *SCALES, "are", *counts)
        self.assertGreater(min(counts), 5)

    def meets(self, rect: list[float], view: Sequence[int]) -> bool:
        """Whether a label that is drawn lies within the window, and by more than QGIS' rectangles
        are larger.
        """
        return (
            rect[0] + 1 < view[2] and rect[2] - 1 > 0 and rect[1] + 2 < view[3] and rect[3] - 2 > 0
        )

    def fits(self, rect: list[float], label: dict[str, Any], view: Sequence[int]) -> None:
        """The text is as wide as its box but for the part of a pixel by which that was rounded up,
        and in its middle.
        """
        left, bottom, right, top = label["boxes"][0]
        x = view[2] / 2 + (label["at"][0] - view[0]) / view[4]
        y = view[3] / 2 + (label["at"][1] - view[1]) / view[4]
        self.assertLess(abs((rect[0] + rect[2]) / 2 - x - (left + right) / 2), 0.5)
        self.assertLess(abs((rect[1] + rect[3]) / 2 - y - (bottom + top) / 2), 0.5)
        self.assertLess(rect[2] - rect[0], right - left + 0.5)
        self.assertGreater(rect[2] - rect[0], right - left - 1.5)

    def test_none_overlaps_on_web_mercator(self) -> None:
        views = [(*WINDOW, scale) for scale in SCALES]
        for found in self.drawn("labels.gpkg", "labels.qml", "EPSG:3857", views):
            self.assertGreater(len(found), 5)
            self.apart(found)

    def test_lines_and_areas(self) -> None:
        line = {
            "type": "Feature",
            "properties": {"name": "Rhein", "kind": "river"},
            "geometry": {
                "type": "LineString",
                "coordinates": [[7, 47.5], [8, 47.9], [9, 47.6], [10, 47.8]],
            },
        }
        (self.at / "line.geojson").write_text(setting.collection([line]), "utf-8")
        status, said = self.process(
            NAME="name", INPUT="line.geojson", OUTPUT="line.gpkg", QML="line.qml", FIRST_ZOOM=5
        )
        self.assertEqual(status, 0, said)
        (found,) = self.drawn("line.gpkg", "line.qml", "EPSG:32662", [(*WINDOW, 100000)])
        self.assertEqual(sorted(one["text"] for one in found), sorted("Rhein"))
        sample = setting.SAMPLE / "world.geojson"
        subprocess.run(
            ["ogr2ogr", "-f", "GPKG", "-where", "OGR_GEOMETRY='POLYGON'", "areas.gpkg", sample],
            cwd=self.at,
            check=True,
        )
        status, said = self.process(
            NAME="name", RANK="pop_est", INPUT="areas.gpkg", OUTPUT="areas_out.gpkg", QML="a.qml"
        )
        self.assertEqual(status, 0, said)
        (found,) = self.drawn("areas_out.gpkg", "a.qml", "EPSG:32662", [(*WINDOW, 400000)])
        self.assertIn("Germany", [one["text"] for one in found])
        self.apart(found)

    def test_bad_input_is_told_and_nothing_is_written(self) -> None:
        many = [setting.point(None, k / 200 - 80, k % 90 - 45, name="A") for k in range(32_769)]
        (self.at / "many.geojson").write_text(setting.collection(many))
        words = ["ogr2ogr", "-f", "GPKG", "many.gpkg", "many.geojson"]
        subprocess.run(words, cwd=self.at, check=True)
        for told, sentence in (
            ({"FONT": "No Such Font"}, "there is no font No Such Font"),
            ({"SIZES": "big"}, "sizes are whole numbers"),
            ({"PROGRAM": "/bin/false"}, "is not maplabel"),
            ({"NAME": "nam"}, 'the layer has no field "nam"; perhaps "name" is meant'),
            ({"INPUT": "many.gpkg"}, "there are 32,769 features, and the engine takes at most"),
        ):
            status, said = self.process(
                **{
                    "NAME": "name",
                    "INPUT": "towns.gpkg",
                    "OUTPUT": "none.gpkg",
                    "QML": "none.qml",
                    **told,
                }
            )
            self.assertNotEqual(status, 0, said)
            self.assertIn(sentence, said)
            self.assertEqual([one for one in os.listdir(self.at) if one.startswith("none")], [])

    def test_the_program_may_be_told(self) -> None:
        status, said = self.process(
            NAME="name",
            INPUT="towns.gpkg",
            OUTPUT="told.gpkg",
            QML="told.qml",
            PROGRAM=setting.PROGRAM,
        )
        self.assertEqual(status, 0, said)
        self.assertIn(f"2000 features are given to {setting.PROGRAM}", said)

    def test_it_can_be_ended(self) -> None:
        done = subprocess.run(
            [
                "/usr/bin/python3",
                "-c",
                CANCELLED,
                setting.TOOLS / "qgis",
                "towns.gpkg",
                "no.gpkg",
                "no.qml",
            ],
            cwd=self.at,
            env=self.environment,
            capture_output=True,
            text=True,
            check=False,
        )
        self.assertIn("False", done.stdout + done.stderr)
        self.assertEqual([one for one in os.listdir(self.at) if one.startswith("no.")], [])
