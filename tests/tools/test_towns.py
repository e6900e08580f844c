"""Places that tools/sides chooses for 8,000 towns, with figures."""

import json
import re
import resource
import subprocess
import time
from pathlib import Path

import setting
import towns

WINDOW = "85000000", "468000000", "1280", "800"
SCALES = "400000", "200000", "100000", "50000"
LEAST_AFTER = 380, 390, 240, 95
CLASSES = """version = 2
name = "name"
rank = "pop"

# Cities.
[[class]]
geometry = "point"
key = "place"
value = "city"
font = "serif"
size = 12
priority = 1
dy = 9
min = "0"
max = "2000000"
margin = 2

[[class]]
geometry = "point"
font = "serif"
size = 12
priority = 2
dy = 9
min = "0"
max = "1000000"
margin = 2

"""


class Towns(setting.Folder):
    """As many names as are wanted, by what the program shows before and after, with few edits."""

    def test_eight_thousand_towns(self) -> None:
        out_files = self.at / "placed.toml", self.at / "placed.geojson"
        font = setting.run("advances", setting.SERIF, "--name", "serif")[1]
        self.write(towns.features_of(8000, 1), CLASSES + font)
        begin, used = time.monotonic(), self.used()
        words = (
            "--window",
            ",".join(WINDOW),
            "--scales",
            ",".join(SCALES),
            "--gap",
            "2",
            "--dot",
            "0",
        )
        status, out, said = setting.run("sides", self.style, self.map, "-o", *out_files, *words)
        seconds, core = time.monotonic() - begin, self.used() - used
        self.assertEqual((status, said), (0, ""))
        before, after = self.shown(self.style, self.map), self.shown(*out_files)
        print(f"\n{out}{seconds:.0f} seconds on the clock, {core:.0f} of one core")
        told = [", ".join(map(str, counts)) for counts in (before, after)]
        self.assertIn(f"names before: {told[0]}\nnames after:  {told[1]}\n", out)
        self.assertLess(sum(map(int, re.findall(r"(\d+) edits", out))), 45000)
        for found, least in zip(after, LEAST_AFTER):
            self.assertGreaterEqual(found, least)

    def used(self) -> float:
        """Seconds of a core that all children have used."""
        used = resource.getrusage(resource.RUSAGE_CHILDREN)
        return used.ru_utime + used.ru_stime

    def shown(self, style: Path, map_file: Path) -> list[int]:
        """How many names `view` shows at each scale."""
        words = [setting.PROGRAM, "view", str(style), str(map_file), *WINDOW]
        runs = [subprocess.run([*words, one], capture_output=True, check=True) for one in SCALES]
        return [len(json.loads(run.stdout)["labels"]) for run in runs]
