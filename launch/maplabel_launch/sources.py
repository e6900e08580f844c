"""The copy of the sources that crates are proved from, and what is built there.

An edit in mid-build changes no proof of that build, and what is half made never stands in a crate's
folder: what was built moves there at once, when it is whole.
"""

import fcntl
import os
import pathlib
import shutil
from collections.abc import Sequence

from maplabel_launch import compiler
from maplabel_launch.crates import Crate
from maplabel_launch.faults import Fault, tell

# Parts of a crate's folder that no proof needs.
LEFT_OUT = ("out", "must-fail")


def place_for(top: str) -> str:
    """The folder for the copy: in git's own folder, which neither git nor `rt ci` looks into, or
    else in the cache.
    """
    if os.path.isdir(f"{top}/.git"):
        return f"{top}/.git/launch"
    cache = os.environ.get("XDG_CACHE_HOME") or f"{pathlib.Path.home()}/.cache"
    return f"{cache}/maplabel{top.replace('/', '-')}"


def replace(one: str, other: str) -> None:
    """Moves a file or a folder to the place of another."""
    if os.path.isdir(other):
        shutil.rmtree(other)
    os.makedirs(os.path.dirname(other), exist_ok=True)
    shutil.move(one, other)


class Sources:
    """The copy of one checkout's sources, which one launcher at a time has."""

    def __init__(self, top: str) -> None:
        self.place = place_for(top)
        self.crates = f"{self.place}/crates"
        os.makedirs(self.place, exist_ok=True)
        self.lock = os.open(f"{self.place}/lock", os.O_RDWR | os.O_CREAT, 0o644)

    def __enter__(self) -> "Sources":
        """Waits until no other launcher builds here, nor what one that was killed began."""
        try:
            fcntl.flock(self.lock, fcntl.LOCK_EX | fcntl.LOCK_NB)
        except BlockingIOError:
            tell("maplabel: another build of this checkout is under way; waiting for its end")
            fcntl.flock(self.lock, fcntl.LOCK_EX)
        return self

    def __exit__(self, *_: object) -> None:
        shutil.rmtree(self.crates, ignore_errors=True)
        os.close(self.lock)

    def copy(self, crates: Sequence[Crate]) -> list[Crate]:
        """Copies the crates' files, but for what was built, and returns the crates as they stand in
        the copy.
        """
        shutil.rmtree(self.crates, ignore_errors=True)
        for crate in crates:
            top = crate.folder

            def ignored(at: str, _: list[str], top: str = top) -> tuple[str, ...]:
                return LEFT_OUT if at == top else ()

            shutil.copytree(crate.folder, self.folder(crate.name), ignore=ignored)
            os.makedirs(f"{self.folder(crate.name)}/{compiler.BUILT}")
        return [it._replace(folder=self.folder(it.name)) for it in crates]

    def folder(self, name: str) -> str:
        """The folder of a crate in the copy."""
        return f"{self.crates}/{name}"

    def log(self, name: str) -> str:
        """The place of what the commands of a crate say."""
        return f"{self.folder(name)}/out/build.log"

    def give(self, crate: Crate) -> None:
        """Moves what was built of a crate to its folder."""
        made = crate.name if crate.is_program else os.path.basename(compiler.BUILT)
        try:
            replace(f"{self.folder(crate.name)}/out/{made}", f"{crate.folder}/out/{made}")
        except OSError as error:
            raise Fault(
                f"what was built cannot be moved to crates/{crate.name}/out: {error.strerror}"
            ) from error
