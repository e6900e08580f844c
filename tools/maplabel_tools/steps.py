"""Steps from a layer to a map: each runs a tool, is told as it is run, and is done anew only where
something that it rests on is another one.
"""

import hashlib
import json
import os
import shlex
import subprocess
import sys
import time
from collections.abc import Sequence
from dataclasses import dataclass
from pathlib import Path
from typing import Any

from maplabel_kit import files
from maplabel_kit.faults import Fault
from maplabel_kit.server import Child

MEMORY = ".maplabel-make.json"
SIDE_FILES = (".dbf", ".shx", ".prj", ".cpg", ".qix")


@dataclass(frozen=True)
class Step:
    """A step: its name, the words that are run, the files that it reads and those that it writes.

    What the tool prints goes into `printed` where that is told; else it is shown.
    """

    name: str
    words: tuple[str, ...]
    reads: tuple[Path, ...]
    writes: tuple[Path, ...]
    printed: Path | None = None

    def command(self) -> str:
        """The command as one would type it."""
        told = shlex.join(self.words)
        return f"{told} > {shlex.quote(str(self.printed))}" if self.printed else told

    def outputs(self) -> tuple[Path, ...]:
        """All that is written."""
        return self.writes + ((self.printed,) if self.printed else ())


class Steps:
    """The steps of one folder, with a memory of what each was made from and what it made."""

    def __init__(self, folder: Path) -> None:
        self._path = folder / MEMORY
        self._memory: dict[str, Any] = {}
        if self._path.exists():
            try:
                self._memory = json.loads(self._path.read_text("utf-8"))
            except ValueError:
                print(f"{self._path} cannot be read, so all is made anew")

    def run(self, step: Step) -> None:
        """Does a step where that is due."""
        print(f"$ {step.command()}", flush=True)
        rests_on = {"words": list(step.words), "reads": digests(step.reads)}
        known = self._memory.get(step.name)
        if known is not None and all(path.exists() for path in step.outputs()):
            if self._is_edited(step, known):
                return
            if known["rests_on"] == rests_on:
                print("  as it was", flush=True)
                return
        begin = time.monotonic()
        run(step)
        print(f"  {time.monotonic() - begin:.1f} seconds", flush=True)
        self._memory[step.name] = {"rests_on": rests_on, "made": digests(step.outputs())}
        files.write_whole({self._path: json.dumps(self._memory, indent=1)})

    def _is_edited(self, step: Step, known: dict[str, Any]) -> bool:
        """Whether what a step made was changed by hand since; then it stays."""
        now = digests(step.outputs())
        edited = [path for path, sum_of in now.items() if known["made"].get(path) != sum_of]
        for path in edited:
            print(f"  {path} was changed by hand and stays; remove it to have it made anew")
        return bool(edited)


def run(step: Step) -> None:
    """Runs a step's command; what it prints is shown, or goes into the step's file."""
    out = subprocess.PIPE
    with Child(step.words, stdout=out, stderr=None, stdin=subprocess.DEVNULL) as child:
        told = [line.decode("utf-8", "replace") for line in _shown(child, step.printed is None)]
        status = child.process.wait()
    if status != 0:
        raise Fault(f"the step {step.name} ended with status {status}", max(status, 1))
    if step.printed is not None:
        files.write_whole({step.printed: "".join(told)})


def _shown(child: Child, is_shown: bool) -> Sequence[bytes]:
    found = []
    for line in child.out:
        found.append(line)
        if is_shown:
            sys.stdout.write("  " + line.decode("utf-8", "replace"))
            sys.stdout.flush()
    return found


def digests(paths: Sequence[Path]) -> dict[str, str]:
    """The digests of files, and of all files of folders, by their names."""
    return {str(path): _digest(path) for path in paths}


def _digest(path: Path) -> str:
    """The digest of a file with what belongs to it, or of a folder."""
    made = hashlib.sha256()
    for one in _parts(path):
        made.update(os.fsencode(one.name))
        with one.open("rb") as file:
            while block := file.read(1 << 20):
                made.update(block)
    return made.hexdigest()


def _parts(path: Path) -> list[Path]:
    if path.is_dir():
        return sorted(one for one in path.rglob("*") if one.is_file())
    beside = [path.with_suffix(suffix) for suffix in SIDE_FILES if path.suffix.lower() == ".shp"]
    return [one for one in (path, *beside) if one.exists()]
