"""A `serve` process that is started, awaited and surely ended."""

import atexit
import contextlib
import ctypes
import os
import select
import signal
import subprocess
import threading
import time
from collections.abc import Callable, Iterator, Sequence
from pathlib import Path
from typing import IO, Any

from maplabel_kit import explain, files
from maplabel_kit.client import Client, Reply
from maplabel_kit.faults import Fault, unbroken
from maplabel_kit.ports import free_port, taken

MOST_CONNECTIONS = 1_000_000
DOOR_FAULT = 8
TRIES = 20
PAUSE = 0.25
PATIENCE = 10
SET_DEATH_SIGNAL = 1
_LIBC = ctypes.CDLL(None)
_RUNNING: set["Child"] = set()


class Child:
    """A process in a session of its own, which ends with `end`, with the block, and with this
    process.

    Where this process is killed without a word, the system ends the child; that holds of children
    that the main thread has started, since a thread that ends would end them too.
    """

    def __init__(
        self, words: Sequence[object], stdout: int | None = subprocess.PIPE, **more: Any
    ) -> None:
        more.setdefault("stdin", subprocess.DEVNULL)
        more.setdefault("stderr", subprocess.DEVNULL)
        if threading.current_thread() is threading.main_thread():
            more["preexec_fn"] = _end_with_parent
        with unbroken():
            try:
                self.process: subprocess.Popen[bytes] = subprocess.Popen(
                    [str(word) for word in words],
                    stdout=stdout,
                    start_new_session=True,
                    **more,
                )
            except OSError as error:
                raise Fault(f"{words[0]} does not run: {error.strerror}") from None
            _RUNNING.add(self)

    def __enter__(self) -> "Child":
        return self

    def __exit__(self, *_: object) -> None:
        self.end()

    @property
    def out(self) -> IO[bytes]:
        """What the child prints."""
        assert self.process.stdout is not None
        return self.process.stdout

    def first_line(self, is_wanted: Callable[[], bool] | None = None) -> bytes:
        """The first line that the child prints, awaited as long as `is_wanted`, where it is told,
        gives true.
        """
        while not select.select([self.out], [], [], 0.2)[0]:
            if is_wanted is not None and not is_wanted():
                raise Fault("ended before the server was ready")
        return self.out.readline()

    def is_running(self) -> bool:
        """Whether the process has not ended yet."""
        return self.process.poll() is None

    def end(self, number: int = signal.SIGTERM) -> int:
        """Ends the process and all that it has started, and returns its status."""
        self._signal(number)
        try:
            self.process.wait(PATIENCE)
        except subprocess.TimeoutExpired:
            self._signal(signal.SIGKILL)
            self.process.wait()
        if self.process.stdout is not None:
            self.process.stdout.close()
        _RUNNING.discard(self)
        return self.process.returncode

    def _signal(self, number: int) -> None:
        if self.process.poll() is None:
            with contextlib.suppress(ProcessLookupError):
                os.killpg(self.process.pid, number)


def _end_with_parent() -> None:
    _LIBC.prctl(SET_DEATH_SIGNAL, signal.SIGTERM)


@atexit.register
def end_children() -> None:
    """Ends all children that still run."""
    for one in list(_RUNNING):
        one.end()


class Server:
    """A server over a style and a map at a free port, and a connection to it.

    The port is a free one, or the one that is told. Where another program takes it first, another
    free one is tried; one that is told is tried again for `patience` seconds. `said` is where
    standard error goes, with the lines of changes.
    """

    def __init__(
        self,
        program: str | Path,
        style: str | Path,
        map_file: str | Path,
        port: int | None = None,
        count: int = MOST_CONNECTIONS,
        is_wanted: Callable[[], bool] | None = None,
        patience: float = 0,
        said: int | IO[Any] = subprocess.DEVNULL,
    ) -> None:
        until, tries = time.monotonic() + patience, 0
        while True:
            tries += 1
            self.port = port or free_port()
            self.child = Child([program, "serve", style, map_file, self.port, count], stderr=said)
            try:
                line = self.child.first_line(is_wanted)
            except BaseException:
                self.child.end()
                raise
            if line == b"ready\n":
                break
            code = self.child.process.wait()
            self.child.end()
            if code != DOOR_FAULT:
                told = line.decode("utf-8", "replace").strip()
                raise explain.refused(told, code, style, map_file)
            if tries >= TRIES if port is None else time.monotonic() >= until:
                raise taken(self.port)
            time.sleep(PAUSE if port else 0)
        self.client = Client(self.port)

    def __enter__(self) -> "Server":
        return self

    def __exit__(self, *_: object) -> None:
        self.end()

    @property
    def pid(self) -> int:
        """The number of the server's process."""
        return self.child.process.pid

    def end(self) -> int:
        """Ends the connection and the server, and returns the server's status."""
        self.client.close()
        return self.child.end()

    def ask(self, requests: Sequence[bytes]) -> Iterator[Reply]:
        """The replies to requests, in order, as they come."""
        return self.client.ask(requests)

    def one(self, asked: bytes) -> Reply:
        """The reply to one request."""
        return self.client.one(asked)

    def json(self, path: str, **query: Any) -> Any:
        """The JSON value that a request which only asks is answered with."""
        return self.client.json(path, **query)


def over_texts(program: str | Path, style: str, map_text: str | bytes, **more: Any) -> Server:
    """A server over texts, which are files only until it is ready."""
    with files.folder() as at:
        style_file, map_file = at / "style.toml", at / "map.geojson"
        files.write_whole({style_file: style, map_file: map_text})
        return Server(program, style_file, map_file, **more)
