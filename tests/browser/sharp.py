"""Tests that are tested: copies of the checkout that are spoilt in one place, each of which its own
part of the tests must see, and say so in certain words.
"""

import shutil
import subprocess
import time
from collections.abc import Iterable, Sequence
from dataclasses import dataclass
from pathlib import Path

from maplabel_kit import files
from maplabel_kit.faults import Fault

FOLDERS = ("crates/maplabel/data", "deploy", "python", "tests/browser", "tests/tools", "tools")
WEB, MODULES = "web", "web/maplabel/"
LIMIT = 400  # seconds that a part may take over a spoilt copy


@dataclass(frozen=True)
class Spoilt:
    """A fault: in which file what stands is replaced, which part must see it, and words of what
    that part says.
    """

    name: str
    file: str
    here: str
    there: str
    part: str
    told: str


def chosen(spoilt: Sequence[Spoilt], names: Iterable[str]) -> list[Spoilt]:
    """The faults of some names or of some parts, all of them where none is told."""
    wanted = set(names)
    if unknown := wanted - {one.name for one in spoilt} - {one.part for one in spoilt}:
        raise Fault(f"no spoilt copy and no part is called {', '.join(sorted(unknown))}")
    return [one for one in spoilt if not wanted or one.name in wanted or one.part in wanted]


def see_all(spoilt: Sequence[Spoilt], program: Path) -> None:
    """Has each spoilt copy seen by its part; tells which are not."""
    for one in spoilt:
        spoilt_text(files.TOP, one)
    unseen = []
    for number, one in enumerate(spoilt, 1):
        begun = time.monotonic()
        said = said_of(one, program)
        is_seen = one.told in said
        took = time.monotonic() - begun
        word = "seen" if is_seen else "NOT SEEN"
        told = " ".join(said.split())[-240:] or "nothing"
        print(f"{number}. {one.name} ({one.part}), {took:.0f} s: {word}: {told}", flush=True)
        if not is_seen:
            unseen.append(one.name)
    if unseen:
        raise Fault(f"{len(unseen)} of {len(spoilt)} spoilt copies are not seen: {unseen}")
    print(f"each of {len(spoilt)} spoilt copies is seen")


def said_of(one: Spoilt, program: Path) -> str:
    """What a part says of a spoilt copy; nothing where it passes."""
    with files.folder() as at:
        copy(at)
        spoil(at, one)
        words = [at / "tests/browser/run", at / "pictures", one.part, "--program", program]
        called = [str(word) for word in words]
        try:
            done = subprocess.run(
                called, capture_output=True, text=True, timeout=LIMIT, check=False
            )
        except subprocess.TimeoutExpired:
            return f"not done within {LIMIT} seconds"
    said: str = done.stderr
    return said if done.returncode else ""


def copy(to: Path) -> None:
    """The parts of the checkout that the tests read."""
    for name in (*FOLDERS, WEB):
        ignored = shutil.ignore_patterns("__pycache__", ".mypy_cache", "*.png")
        shutil.copytree(files.TOP / name, to / name, ignore=ignored)
    to.chmod(0o755)  # the processes of nginx are others


def spoil(at: Path, one: Spoilt) -> None:
    """Replaces what stands; where it is a module, the one file of all modules is made anew."""
    (at / one.file).write_text(spoilt_text(at, one), encoding="utf-8")
    if one.file.startswith(MODULES):
        subprocess.run([at / "web/bundle"], check=True)


def spoilt_text(at: Path, one: Spoilt) -> str:
    """The text of the spoilt file; a fault where what is to be spoilt does not stand there once."""
    text = (at / one.file).read_text(encoding="utf-8")
    if text.count(one.here) != 1:
        raise Fault(
            f"{one.name}: {one.file} has {one.here!r}, which was to be spoilt,"
            f" {text.count(one.here)} times and not once"
        )
    return text.replace(one.here, one.there)
