"""Answers from the sources as they stand, without any proof.

What was compiled is kept in the program's out/quick, under a sum of all sources of code and the
kit's name. So the second answer comes at once, and a server of it serves as the proved program
does.
"""

import fcntl
import os
import shutil
import tempfile
from collections.abc import Iterator, Sequence
from contextlib import contextmanager
from pathlib import Path

from maplabel_launch import attempt, build, crates, kit, running, trial
from maplabel_launch.attempt import Unmade
from maplabel_launch.crates import Crate
from maplabel_launch.faults import Fault, tell

# So many programs are kept, those that were made or used last.
KEPT = 4
COMPILES = (
    "maplabel: --quick: compiles the sources, which takes about a minute, and keeps what it made; "
    "nothing of what it answers is proved"
)
UNPROVED = "maplabel: --quick: nothing of what it answers is proved"
TRIES = (
    "maplabel: --quick: this kit does not make a program that can be kept ({why}); "
    "answers by `rt try`, anew each time and when the run has ended"
)


@contextmanager
def alone(folder: Path) -> Iterator[None]:
    """A block that one launcher at a time is in."""
    folder.mkdir(parents=True, exist_ok=True)
    with open(folder / "lock", "w", encoding="utf-8") as lock:
        try:
            fcntl.flock(lock, fcntl.LOCK_EX | fcntl.LOCK_NB)
        except BlockingIOError:
            tell("maplabel: another --quick compiles these sources; waiting for its end")
            fcntl.flock(lock, fcntl.LOCK_EX)
        yield


def remove_old(folder: Path) -> None:
    """Keeps the programs that were used last."""
    kept = sorted(folder.glob("*/maplabel"), key=lambda it: -it.stat().st_mtime)
    for it in kept[KEPT:]:
        shutil.rmtree(it.parent, ignore_errors=True)


def compile_to(program: Path, needed: Sequence[Crate]) -> None:
    """Compiles the sources, and puts the program in its place once it is whole."""
    with tempfile.TemporaryDirectory(prefix="room-", dir=program.parents[1]) as room:
        made = attempt.make(kit.place(), Path(room), needed)
        program.parent.mkdir(exist_ok=True)
        made.replace(program)


def program_for(top: str, needed: Sequence[Crate]) -> Path:
    """The kept program of the sources as they stand, which is made where there is none."""
    folder = Path(needed[-1].folder) / "out" / "quick"
    digest = crates.digests(needed, kit.name(), crates.CODE)[needed[-1].name]
    program = folder / digest[:32] / "maplabel"
    if not program.is_file():
        tell(COMPILES)
        with alone(folder):
            if not program.is_file():
                compile_to(program, needed)
    else:
        tell(UNPROVED)
    os.utime(program)
    remove_old(folder)
    return program


def run(top: str, words: Sequence[str]) -> int:
    """Runs the program on the caller's words, and returns its status."""
    try:
        program = program_for(top, build.needed_of(top))
    except Unmade as why:
        tell(TRIES.format(why=str(why).split("\n", 1)[0]))
        return trial.run(top, words)
    except OSError as error:
        raise Fault(f"--quick cannot keep what it makes: {error}") from error
    return running.run(str(program), words)
