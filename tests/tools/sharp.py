"""Tests that are tested: in a copy of the checkout one text of a file stands in the place of
another, and the test that is named with it has to fail.
"""

import re
import shutil
import subprocess
import sys
from collections.abc import Iterable
from dataclasses import dataclass
from pathlib import Path

from maplabel_kit import files
from maplabel_kit.faults import Fault
from spoilt import SPOILT

COPIED = ("tools", "python", "web", "tests/tools", "tests/browser", "crates/maplabel/data")
LIMIT = 900


@dataclass(frozen=True)
class Spoilt:
    """A fault: the file, what stands there and what stands in its place, and the test."""

    file: str
    here: str
    there: str
    test: str

    def spoil(self, at: Path) -> None:
        """Puts the fault into a copy."""
        text = (at / self.file).read_text("utf-8")
        if text.count(self.here) < 1:
            raise Fault(f"{self.file} has no longer {self.here!r}, which was to be spoilt")
        (at / self.file).write_text(text.replace(self.here, self.there), "utf-8")


def see_all(names: Iterable[str]) -> int:
    """Runs each test over its spoilt copy, of some modules of tests or all; the status."""
    chosen = [Spoilt(*one) for one in SPOILT]
    chosen = [one for one in chosen if not names or one.test.startswith(tuple(names))]
    unseen = [one for one in chosen if not is_seen(one)]
    print(f"of {len(chosen)} spoilt copies {len(chosen) - len(unseen)} are seen")
    return 1 if unseen else 0


def is_seen(one: Spoilt) -> bool:
    """Whether a test fails over its spoilt copy, which is told."""
    with files.folder() as at:
        for name in COPIED:
            ignored = shutil.ignore_patterns("__pycache__", ".mypy_cache", "node_modules")
            shutil.copytree(files.TOP / name, at / name, ignore=ignored)
        one.spoil(at)
        done = subprocess.run(
            [sys.executable, "-m", "unittest", f"test_{one.test}"],
            cwd=at / "tests" / "tools",
            capture_output=True,
            text=True,
            check=False,
            timeout=LIMIT,
        )
    said = [line for line in done.stderr.splitlines() if re.match(r"\w*(Error|Fault)\b", line)]
    is_failed = done.returncode == 1 and "Ran 1 test" in done.stderr
    seen = (said or ["it failed"])[-1][:90] if is_failed else "NOT SEEN"
    print(f"{one.test}: {one.there or 'without ' + one.here.strip()!r}: {seen}", flush=True)
    return is_failed
