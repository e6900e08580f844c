"""Tests that are tested: copies of the checkout that are spoilt in one place, of which each must
be seen."""

import argparse
import os
import re
import shutil
import subprocess
from collections.abc import Callable, Sequence
from dataclasses import dataclass
from pathlib import Path

from maplabel_kit import files, program
from maplabel_kit.faults import Fault

LIMIT = 420  # seconds that a trial of a spoilt copy may take


@dataclass(frozen=True)
class Spoilt:
    """A fault: in which file what stands is replaced by something else, and which trial must see
    it."""

    file: str
    here: str
    there: str
    trial: str


def add_words(parser: argparse.ArgumentParser) -> None:
    """The words of all three tests."""
    parser.add_argument("trials", metavar="TRIAL", nargs="*", help="all, if none is told")
    parser.add_argument("--list", action="store_true", help="tell the names of the trials")
    parser.add_argument(
        "--sharp",
        action="store_true",
        help="run over copies that are spoilt, and tell which are not seen",
    )


def run(
    told: argparse.Namespace,
    spoilt: Sequence[Spoilt],
    script: str,
    trials: Sequence[Callable[[], None]],
) -> None:
    """Runs the trials, or has each spoilt copy seen by its own."""
    os.environ["MAPLABEL"] = str(program.find(told.program))
    if told.sharp:
        chosen = [
            one
            for one in spoilt
            if not told.trials
            or one.trial in told.trials
            or one.trial.partition(".")[0] in told.trials
        ]
        see_all(chosen, script)
        return
    for trial in trials:
        trial()
    print("all as it should be")


def copy(to: Path) -> None:
    """All of the checkout that git knows or would take, with its links."""
    words = ["git", "-C", str(files.TOP), "ls-files", "-zco", "--exclude-standard"]
    told = subprocess.run(words, capture_output=True, text=True, check=True).stdout
    for name in told.split("\0")[:-1]:
        (to / name).parent.mkdir(parents=True, exist_ok=True)
        shutil.copy2(files.TOP / name, to / name, follow_symlinks=False)


def see_all(spoilt: Sequence[Spoilt], script: str) -> None:
    """Each spoilt copy must be seen by its trial, which must pass on a copy that is not spoilt;
    which are not is told."""
    unseen = []
    for trial in dict.fromkeys(one.trial for one in spoilt):
        if said := _fault_in_copy(script, trial):
            unseen.append(f"{trial} fails on a copy that is not spoilt: {said}")
            print(unseen[-1], flush=True)
            continue
        for one in spoilt:
            if one.trial == trial and not _is_seen(script, one):
                unseen.append(told(one))
    if unseen:
        raise Fault(f"of {len(spoilt)} spoilt copies are not seen: {'; '.join(unseen)}")
    print(f"each of {len(spoilt)} spoilt copies is seen")


def told(one: Spoilt) -> str:
    """A spoilt copy in words."""
    text = f"{one.file}: {one.there or 'nothing in the place of ' + one.here}"
    return " ".join(text.split())[:110]


def _is_seen(script: str, one: Spoilt) -> bool:
    """Whether a spoilt copy is seen, which is told."""
    said = _fault_in_copy(script, one.trial, one)
    print(f"{one.trial} of {told(one)}: {said or 'NOT SEEN'}", flush=True)
    return said != ""


def _fault_in_copy(script: str, trial: str, one: Spoilt | None = None) -> str:
    """What a trial finds in a copy, which may be spoilt."""
    with files.folder() as at:
        copy(at)
        at.chmod(0o755)
        if one is not None:
            text = (at / one.file).read_text()
            if one.here not in text:
                raise Fault(f"{one.file} has no longer {one.here!r}, which was to be spoilt")
            (at / one.file).write_text(text.replace(one.here, one.there))
        return _fault_of(at / script, trial, is_whole=one is None)


def _fault_of(script: Path, trial: str, is_whole: bool = False) -> str:
    """What the trial finds, in a sentence of its own, or nothing. That it takes too long, or breaks
    off, may be the machine's fault: of a copy that is whole that is told too, and of one that is
    spoilt it does not count as seen."""
    words = [str(script), trial, "--seconds", "12"]
    env = {"SOURCE_DATE_EPOCH": "0"} | os.environ  # in the copy there is no commit that has a time
    try:
        done = subprocess.run(
            words, capture_output=True, text=True, timeout=LIMIT, check=False, env=env
        )
    except subprocess.TimeoutExpired:
        return "it is not done in time" if is_whole else ""
    if done.returncode == 0:
        return ""
    said = re.search(rf"^tests/{script.parent.name}: (.*)", done.stderr, re.M | re.S)
    if said:
        return " ".join(said[1].split())[:160]
    return done.stderr.strip()[-160:] or f"status {done.returncode}" if is_whole else ""
