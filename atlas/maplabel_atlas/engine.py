"""Asking the engine, one process for each question. What is asked here travels to workers."""

import functools
import hashlib
import os
import socket
from dataclasses import dataclass
from pathlib import Path

import numpy as np
from maplabel_kit import files, program

from maplabel_atlas.arrays import Whole
from maplabel_atlas.faults import Fault, OtherEngine
from maplabel_atlas.table import Content


@dataclass(frozen=True)
class Engine:
    """The program at one path on all machines, and its digest: what one engine found is not taken
    for another's.
    """

    path: str
    digest: str

    def look(self) -> None:
        """Sees that this machine has the same engine, before it is asked here."""
        try:
            status = os.stat(self.path)
        except OSError as error:
            raise OtherEngine(
                f"{socket.gethostname()} has no engine at {self.path}: {error.strerror}"
            ) from None
        if digest_of(self.path, status.st_mtime_ns, status.st_size) != self.digest:
            raise OtherEngine(
                f"{socket.gethostname()} has another engine at {self.path}; install the same one"
            )


@functools.lru_cache(maxsize=8)
def digest_of(path: str, _changed: int, _size: int) -> str:
    """The digest of a program, reckoned once for each of its states."""
    return hashlib.sha256(Path(path).read_bytes()).hexdigest()


def engine_at(path: Path) -> Engine:
    """The engine at a path of this machine."""
    status = os.stat(path)
    return Engine(str(path), digest_of(str(path), status.st_mtime_ns, status.st_size))


@dataclass(frozen=True)
class SlotsCall:
    """The question for the ends of a table."""

    engine: Engine
    content: Content

    def __call__(self) -> Whole:
        """The slots: a row of numerator, denominator and blocker for each line."""
        self.engine.look()
        with files.folder() as at:
            path = at / "region.table"
            path.write_bytes(self.content.text())
            done = program.run(self.engine.path, "slots", path)
        if done.status != 0:
            raise Fault(f"the engine ended with status {done.status} {done.line()[:200]}".strip())
        return slots_of(done.out)


def slots_of(text: bytes) -> Whole:
    """The slots of a table whose ids are the numbers of its lines."""
    numbers = text.replace(b"-", b"-1").replace(b"/", b" ").decode("ascii").split()
    return np.array(numbers, dtype=np.int64).reshape(-1, 4)[:, 1:]
