"""What is done: beside what was built of a crate stands the sum of the text that it was proved
as.
"""

import hashlib
import os

from maplabel_launch import compiler
from maplabel_launch.crates import Crate

# What the crate's check took, in its folder.
SECONDS = "out/seconds"


def file_of(crate: Crate) -> str:
    """The place of the record."""
    return f"{crate.folder}/out/proved"


def built(crate: Crate) -> str | None:
    """What tells that nothing replaced what was built of a crate, or none where there is
    nothing.
    """
    try:
        if not crate.is_program:
            return str(os.stat(compiler.library_of(crate)).st_mtime_ns)
        with open(f"{crate.folder}/out/{crate.name}", "rb") as file:
            return hashlib.sha256(file.read()).hexdigest()
    except OSError:
        return None


def is_done(crate: Crate, digest: str) -> bool:
    """Whether what stands in the crate's out/ was built from this text."""
    made = built(crate)
    try:
        with open(file_of(crate), encoding="utf-8") as file:
            return made is not None and file.read() == f"{digest} {made}\n"
    except OSError:
        return False


def note(crate: Crate, digest: str) -> None:
    """Notes that what stands in the crate's out/ was built from this text."""
    with open(file_of(crate), "w", encoding="utf-8") as file:
        file.write(f"{digest} {built(crate)}\n")


def note_seconds(crate: Crate, seconds: float) -> None:
    """Notes how many seconds of one processor the crate's check took."""
    with open(f"{crate.folder}/{SECONDS}", "w", encoding="utf-8") as file:
        file.write(f"{seconds:.1f}\n")


def seconds(crate: Crate) -> float:
    """How many seconds of one processor the crate's check took."""
    with open(f"{crate.folder}/{SECONDS}", encoding="utf-8") as file:
        return float(file.read())
