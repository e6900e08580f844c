"""Spoilt copies of the package: each must be found by the small maps."""

import shutil
import subprocess
import sys
from concurrent.futures import ThreadPoolExecutor
from dataclasses import dataclass
from pathlib import Path

from maplabel_kit import files

from stage import say

HERE = Path(__file__).resolve().parent
TOP = HERE.parents[1]
PACKAGE, KIT = TOP / "atlas" / "maplabel_atlas", TOP / "python" / "maplabel_kit"
MAPS, AT_ONCE = 40, 4
CALL = """
import sys
from pathlib import Path
from maplabel_atlas.engine import engine_at
from small_maps import Maps
maps = Maps(engine_at(Path(sys.argv[1])))
for seed in range(int(sys.argv[2])):
    maps.one(seed)
"""
FEW_ROUNDS = "rounds.py", "MOST_ROUNDS = 500", "MOST_ROUNDS = 60"


@dataclass(frozen=True)
class Spoilt:
    """A way to spoil the package: in a file of it one text stands in the place of another."""

    what: str
    file: str
    text: str
    instead: str


SPOILT = (
    Spoilt(
        "labels that were not told are not sought",
        "seams.py",
        "for rows in (misled(ends, one), untold(ends, one, cover))",
        "for rows in (misled(ends, one),)",
    ),
    Spoilt("nothing is asked again", "tiers.py", "if len(waiting):", "if len(waiting) < 0:"),
    Spoilt(
        "ends that were told wrongly are not looked at",
        "seams.py",
        "is_wrong = (answer.told != ends.until[answer.others]).any(axis=1)",
        "is_wrong = np.zeros(len(answer.others), dtype=np.bool_)",
    ),
    Spoilt(
        "only blockers are looked at where an end was told wrongly",
        "seams.py",
        "return union([blocked, met_by(ends, longer, answer.own)])",
        "return union([blocked])",
    ),
    Spoilt(
        "the cover of a round holds ends that are a round old",
        "rounds.py",
        "rows = np.concatenate([self._before.near(area, most), moved[is_met]])",
        "rows = self._before.near(area, most)",
    ),
    Spoilt(
        "ends that have grown are not followed",
        "rounds.py",
        "for row in grown.tolist():",
        "for row in grown.tolist()[:0]:",
    ),
    Spoilt(
        "labels whose blocker has changed are not followed",
        "rounds.py",
        "found.append(self._apart(blocked, ends.blocker[blocked], home))",
        "pass",
    ),
    Spoilt(
        "margins are not widened",
        "labels.py",
        "room = np.repeat(margin, np.diff(first))[:, None]",
        "room = np.repeat(0 * margin, np.diff(first))[:, None]",
    ),
    Spoilt(
        "a cover looks half as far as labels reach",
        "cover.py",
        "reach = scale[:, None] * MORE",
        "reach = scale[:, None] * MORE / 2",
    ),
    Spoilt(
        "tiers before are not told",
        "tiers.py",
        "[before.near(area, most), np",
        "[before.near(area, most)[:0], np",
    ),
    Spoilt(
        "an edit forgets labels whose blocker is gone",
        "tiers.py",
        "settle(union([new, bereft, *met]))",
        "settle(union([new, *met]))",
    ),
    Spoilt(
        "an edit forgets labels behind a new one",
        "tiers.py",
        "settle(union([new, bereft, *met]))",
        "settle(union([new, bereft]))",
    ),
    Spoilt(
        "labels that an edit takes away stay",
        "splice.py",
        "here = row + is_gone",
        "here = row",
    ),
    Spoilt(
        "an edit puts new labels behind all others",
        "editing.py",
        "if _rank_of(labels, middle) < wanted:",
        "if wanted:",
    ),
    Spoilt(
        "of equal ids the last feature keeps it",
        "parts.py",
        "name = one if is_told and one not in taken else",
        "name = one if is_told and place % 2 == 0 and one not in taken else",
    ),
    Spoilt(
        "the audit looks at nothing",
        "audit.py",
        "return Looked(count, union(found))",
        "return Looked(count, ends.labels.place[:1, 0])",
    ),
)


def found_by(one: Spoilt | None, engine: Path) -> str | None:
    """What the small maps say of a spoilt copy, or of one that is not spoilt; none where they find
    nothing.
    """
    with files.folder() as at:
        package = at / "maplabel_atlas"
        shutil.copytree(PACKAGE, package, ignore=shutil.ignore_patterns("__pycache__"))
        for path in (HERE / "small_maps.py", HERE / "whole.py", KIT):
            (at / path.name).symlink_to(path)
        spoilt = [(one.file, one.text, one.instead)] if one else []
        for file, text, instead in (FEW_ROUNDS, *spoilt):
            path = package / file
            path.write_text(path.read_text(encoding="utf-8").replace(text, instead), "utf-8")
        (at / "call.py").write_text(CALL, encoding="utf-8")
        run = subprocess.run(
            [sys.executable, "call.py", str(engine), str(MAPS)],
            cwd=at,
            capture_output=True,
            text=True,
            check=False,
        )
        return run.stderr.strip().splitlines()[-1] if run.returncode else None


def run(engine: Path) -> str:
    """Runs all spoilt copies, and one that is not spoilt."""
    for one in SPOILT:
        text = (PACKAGE / one.file).read_text(encoding="utf-8")
        assert text.count(one.text) == 1, f"{one.file} does not hold {one.text!r} once"
    unseen = []
    with ThreadPoolExecutor(AT_ONCE) as pool:
        sound, *told = (pool.submit(found_by, one, engine) for one in (None, *SPOILT))
        for one, found in zip(SPOILT, told):
            line = found.result()
            say(f"{one.what}: {line or 'NOT FOUND'}")
            unseen += [one.what] if line is None else []
    assert sound.result() is None, f"a copy that is not spoilt fails: {sound.result()}"
    assert not unseen, "not found: " + "; ".join(unseen)
    return f"{len(SPOILT)} spoilt copies, all found"
