"""The file of the map that is served: kept whole at every moment, and loaded by the program on
trial first."""

import contextlib
import fcntl
import os
import subprocess
import time
from collections.abc import Callable, Iterator
from pathlib import Path

from maplabel_kit.client import Held
from maplabel_kit.faults import Fault, sentence_of
from maplabel_run.link import nothing

LONGEST_FILE = 67_108_864  # bytes of a file that the program reads


@contextlib.contextmanager
def told_faults(what: str) -> Iterator[None]:
    """Tells a fault of the system as one of this program, with what could not be done."""
    try:
        yield
    except OSError as error:
        raise Fault(f"{what}: {sentence_of(error)}") from error


@contextlib.contextmanager
def locked(path: str, seconds: float, on_wait: Callable[[], None] = nothing) -> Iterator[None]:
    """Holds the file's lock, so that of two who write the file the one that asked later writes
    later."""
    until = time.monotonic() + seconds
    with contextlib.ExitStack() as stack:
        with told_faults("the lock of the map cannot be had"):
            file = stack.enter_context(open(path + ".lock", "ab"))
            while not _has_lock(file.fileno()):
                if time.monotonic() > until:
                    raise Held(f"{path}.lock is held by another program")
                on_wait()
                time.sleep(0.02)
        yield


def _has_lock(file: int) -> bool:
    try:
        fcntl.flock(file, fcntl.LOCK_EX | fcntl.LOCK_NB)
    except BlockingIOError:
        return False
    return True


class Ownership:
    """The one program that keeps a map. As long as it lives, no second one begins."""

    def __init__(self, path: str, port: int) -> None:
        name = os.path.realpath(path) + ".run"
        with told_faults(f"no map can be kept in the folder of {path}"):
            self._file = open(name, "a+b")
        if not _has_lock(self._file.fileno()):
            self._file.seek(0)
            who = self._file.read().decode("utf-8", "replace").strip() or "another program"
            self._file.close()
            raise Fault(
                f"{path} is kept by {who} already; two that keep one map would undo each other's"
                " saves. End that one first, or serve a map of its own"
            )
        with told_faults(f"no map can be kept in the folder of {path}"):
            self._file.truncate(0)
            at = time.strftime("%Y-%m-%d %H:%M:%S")
            self._file.write(f"process {os.getpid()} at port {port}, since {at}\n".encode())
            self._file.flush()

    def release(self) -> None:
        """Lets another program keep the map."""
        self._file.truncate(0)
        self._file.close()


def write_beside(path: str, text: bytes) -> str:
    """The name of a file beside `path` that holds the text, on the disk."""
    new = path + ".new"
    with open(new, "wb") as file:
        file.write(text)
        file.flush()
        os.fsync(file.fileno())
    return new


def put_in_place(new: str, path: str) -> None:
    """Gives the file the name `path`; after a crash there is the old one or the new one, and
    never a part."""
    os.replace(new, path)
    folder = os.open(os.path.dirname(os.path.abspath(path)), os.O_RDONLY)
    try:
        os.fsync(folder)
    finally:
        os.close(folder)


def try_folder(path: str) -> None:
    """Sees that the map can be saved where it stands: takes the lock, and writes as many bytes
    as it has."""
    with told_faults(f"no map could be saved as {path}, so none is served"):
        text = Path(path).read_bytes()
        with locked(path, 10):
            os.remove(write_beside(path, text))


def prove(program: str, style: str, path: str, on_wait: Callable[[], None] = nothing) -> None:
    """Sees that the program loads the file under the style."""
    with subprocess.Popen(
        [program, "pipe", style, path],
        stdin=subprocess.DEVNULL,
        stdout=subprocess.PIPE,
        stderr=subprocess.DEVNULL,
    ) as tried:
        said = _all_of(tried, on_wait)
    if tried.returncode != 0:
        raise Fault(f"{path} holds the map, and is not loaded under {style}: {said}")


def _all_of(process: subprocess.Popen[bytes], on_wait: Callable[[], None]) -> str:
    """What a process prints until it ends."""
    try:
        while True:
            try:
                said, _ = process.communicate(timeout=0.2)
                return said.decode("utf-8", "replace").strip()
            except subprocess.TimeoutExpired:
                on_wait()
    except BaseException:
        process.kill()
        raise


def seen(path: str) -> tuple[int, int, int] | None:
    """Which file it is, its size and its time; where these are the same it is taken as
    unchanged."""
    try:
        told = os.stat(path)
    except OSError:
        return None
    return told.st_ino, told.st_size, told.st_mtime_ns


def keep_export(text: bytes, path: str) -> None:
    """Puts the whole map of a server in the place of the file `path`, where its style is known
    to be that of the style's file: the program loads what it exports, so that is not tried,
    which would take as long as a start."""
    if not text.endswith(b"]}") or len(text) > LONGEST_FILE:
        raise Fault(f"the map of {len(text)} bytes is none that could be loaded")
    with told_faults("the map could not be kept"):
        put_in_place(write_beside(path, text), path)


def keep(
    text: bytes, program: str, style: str, path: str, on_wait: Callable[[], None] = nothing
) -> None:
    """Puts the text of a map in the place of the file `path`, if the program loads it; else
    `path` stays."""
    with told_faults("the map could not be kept"):
        new = write_beside(path, text)
        prove(program, style, new, on_wait)
        put_in_place(new, path)


def told_age(path: str) -> str:
    """When the file was written, in words."""
    try:
        at = os.stat(path).st_mtime
    except OSError:
        return f"there is no {path}"
    clock = time.strftime("%H:%M:%S", time.localtime(at))
    return f"{path} is of {clock}, {time.time() - at:.0f} seconds ago"
