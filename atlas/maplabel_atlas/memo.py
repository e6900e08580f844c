"""Answers that are kept in files under what was asked.

A command that was broken off goes on from there, and a later one over a layer that has changed asks
only what is new.
"""

import os
import pickle
from pathlib import Path
from typing import Any

from maplabel_atlas.faults import Fault


# What a file that is wanting, cut off or of another make raises.
UNREADABLE = (FileNotFoundError, EOFError, pickle.UnpicklingError, AttributeError, ImportError)
FORMAT = "1"  # another one where answers have another form


class Memo:
    """Answers in a folder, each there as a whole or not at all."""

    def __init__(self, folder: Path) -> None:
        self._folder = folder / FORMAT
        self._used: set[str] = set()
        _make(self._folder)

    def get(self, key: str) -> Any:
        """The answer to a question, or none."""
        try:
            answer = pickle.loads(self._path(key).read_bytes())
        except UNREADABLE:
            return None
        self._used.add(key)
        return answer

    def put(self, key: str, answer: Any) -> None:
        """Keeps an answer."""
        path = self._path(key)
        part = path.with_suffix(".part")
        _make(path.parent)
        try:
            part.write_bytes(pickle.dumps(answer, protocol=5))
            os.replace(part, path)
        except OSError as error:
            part.unlink(missing_ok=True)
            raise _no_room(path, error) from None
        self._used.add(key)

    def sweep(self) -> int:
        """Takes away what was not used since this memo was opened; says how many answers that
        were.
        """
        count = 0
        for path in self._folder.glob("*/*"):
            if path.name not in self._used:
                path.unlink(missing_ok=True)
                count += 1
        return count

    def _path(self, key: str) -> Path:
        return self._folder / key[:2] / key


def _make(folder: Path) -> None:
    try:
        folder.mkdir(parents=True, exist_ok=True)
    except OSError as error:
        raise _no_room(folder, error) from None


def _no_room(path: Path, error: OSError) -> Fault:
    return Fault(
        f"{path} cannot be written: {error.strerror}; what was answered before is kept. "
        "Make room and call the command again: it goes on from there"
    )
