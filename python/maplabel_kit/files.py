"""Files that must be there, files that are written whole or not at all, and folders that surely
go.
"""

import contextlib
import os
import tempfile
from collections.abc import Iterator, Mapping
from pathlib import Path

from maplabel_kit.faults import Fault

TOP = Path(__file__).resolve().parents[2]


def must_read(path: str | Path, what: str) -> bytes:
    """The bytes of a file, or a fault that names it: `must_read(told.map, "the map")`."""
    try:
        return Path(path).read_bytes()
    except OSError as error:
        raise Fault(f"{what} {path} cannot be read: {error.strerror}") from None


def write_whole(texts: Mapping[str | Path, str | bytes]) -> None:
    """Writes each text of a mapping from paths to texts; where one cannot be written, none is."""
    made: list[tuple[str, str | Path]] = []
    path: str | Path = ""
    try:
        for path, text in texts.items():
            made.append((_written_beside(path, text), path))
        for _, path in made:
            if os.path.isdir(path):
                raise IsADirectoryError(21, "it is a folder", path)
        for name, path in made:
            os.replace(name, path)
        made = []
    except OSError as error:
        raise Fault(f"{path} cannot be written: {error.strerror}") from None
    finally:
        for name, _ in made:
            with contextlib.suppress(FileNotFoundError):
                os.unlink(name)


def _written_beside(path: str | Path, text: str | bytes) -> str:
    """The name of a new file with a text, in the folder of a path."""
    folder = os.path.dirname(os.path.abspath(path))
    handle, name = tempfile.mkstemp(prefix=".maplabel-", dir=folder)
    with os.fdopen(handle, "wb") as out:
        out.write(text.encode("utf-8") if isinstance(text, str) else text)
    os.chmod(name, 0o666 & ~_umask())
    return name


def _umask() -> int:
    """The mask of new files, which can only be read by setting it."""
    mask = os.umask(0)
    os.umask(mask)
    return mask


@contextlib.contextmanager
def folder() -> Iterator[Path]:
    """A folder for files of the moment, which goes with the block."""
    with tempfile.TemporaryDirectory(prefix="maplabel-") as name:
        yield Path(name)
