"""Which program is asked, whether it is fresh, and one run of it.

It is that of `--program`, else of the variable MAPLABEL, else the one that the checkout has proved
and built.
"""

import argparse
import io
import os
import shutil
import subprocess
from collections.abc import Sequence
from dataclasses import dataclass
from pathlib import Path

from maplabel_kit import explain
from maplabel_kit.client import Reply, read_reply
from maplabel_kit.faults import Fault
from maplabel_kit.files import TOP

LAUNCHER = TOP / "maplabel"
BUILT = TOP / "crates" / "maplabel" / "out" / "maplabel"
HOW = (
    "`maplabel --build` in the checkout builds it, which takes about half an hour; "
    "or name a program that is built by --program or by the variable MAPLABEL"
)


@dataclass(frozen=True)
class Run:
    """What one run of the program came to: its status, its standard output and its standard
    error.
    """

    status: int
    out: bytes
    said: bytes

    def text(self) -> str:
        """Standard output as a text."""
        return self.out.decode("utf-8", "replace")

    def line(self) -> str:
        """Standard output as one line, which a refusal is."""
        return self.text().strip()


def add_option(parser: argparse.ArgumentParser) -> None:
    """Adds `--program` to a parser of arguments."""
    parser.add_argument(
        "--program",
        metavar="PROGRAM",
        help="the program that is asked (else $MAPLABEL, else the proved one of the checkout)",
    )


def find(option: str | Path | None = None) -> Path:
    """The path of the program, which has been seen to run. No build is begun: where one is due,
    that is said.
    """
    told = str(option or os.environ.get("MAPLABEL") or LAUNCHER)
    found = shutil.which(told)
    if found is None:
        raise Fault(
            f"there is no program {told}; name one by --program or by the variable MAPLABEL"
        )
    path = Path(os.path.abspath(found))
    if path.resolve() == LAUNCHER:
        path = built()
    _try(path)
    return path


def built() -> Path:
    """The proved program of the checkout, or a fault that tells how it is built."""
    if not BUILT.exists():
        raise Fault(f"the proved program is not built yet; {HOW}")
    if not is_fresh():
        raise Fault(f"the proved program is older than its sources; {HOW}")
    return BUILT


def is_fresh() -> bool:
    """Whether the program of the checkout is there, and was built after the last change of each
    source.
    """
    if not os.access(BUILT, os.X_OK):
        return False
    if (TOP / "RELEASE").is_file() and not (TOP / "crates.txt").exists():
        return True  # a release has the program and no sources
    since = BUILT.stat().st_mtime
    sources = [TOP / "crates.txt"]
    for part in ("src", "specs", "proofs"):
        for folder in (TOP / "crates").glob(f"*/{part}"):
            sources += [folder, *folder.rglob("*")]
    return all(one.lstat().st_ctime <= since for one in sources)


def run(program: str | Path, *words: object, data: bytes = b"") -> Run:
    """One run of the program on some words, with bytes for its standard input."""
    command = [str(program), *map(str, words)]
    try:
        done = subprocess.run(command, input=data, capture_output=True, check=False)
    except OSError as error:
        raise Fault(f"{program} does not run: {error.strerror}") from None
    return Run(done.returncode, done.stdout, done.stderr)


def asked(
    program: str | Path, command: str, style: str | Path, map_file: str | Path, *words: object
) -> bytes:
    """What a command over a style and a map prints; `Refused` with an explanation where it does not
    end with 0.
    """
    done = run(program, command, style, map_file, *words)
    if done.status != 0:
        raise explain.refused(done.line(), done.status, style, map_file)
    return done.out


def pipe(
    program: str | Path, style: str | Path, map_file: str | Path, requests: Sequence[bytes]
) -> list[Reply]:
    """The replies to at most a thousand requests, by a run of `pipe`."""
    done = run(program, "pipe", style, map_file, data=b"".join(requests))
    if done.status != 0:
        raise explain.refused(done.line(), done.status, style, map_file)
    stream = io.BytesIO(done.out)
    return [read_reply(stream) for _ in requests]


def _try(path: Path) -> None:
    """An empty table has no slots."""
    done = run(path, "slots", os.devnull)
    if done.status != 0 or done.out:
        raise Fault(
            f"{path} is not maplabel: "
            f"asked for the slots of an empty table it ended with {done.status}"
        )
