"""Lines for a descriptor whose reader may stop at any time, without ever waiting for it."""

import os
import threading
import time
from collections import deque
from typing import IO

ROOM = 1 << 20
PIECE = 1 << 16


class Outlet:
    """So many bytes of lines wait to be written to a descriptor; what comes beyond is dropped
    and counted."""

    def __init__(self, descriptor: int, room: int = ROOM) -> None:
        self.dropped = 0
        self._descriptor, self._room, self._size = descriptor, room, 0
        self._lines: deque[bytes] = deque()
        self._changed = threading.Condition()
        self._is_writing = False
        threading.Thread(target=self._write_all, daemon=True).start()

    def put(self, line: bytes) -> None:
        """Takes a line, or drops it where too much waits already."""
        with self._changed:
            if self._size + len(line) > self._room:
                self.dropped += 1
                return
            self._lines.append(line)
            self._size += len(line)
            self._changed.notify_all()

    def flush(self, seconds: float) -> None:
        """Waits until all is written, but no longer than that."""
        until = time.monotonic() + seconds
        with self._changed:
            while self._lines or self._is_writing:
                if (left := until - time.monotonic()) <= 0:
                    return
                self._changed.wait(left)

    def _write_all(self) -> None:
        while True:
            with self._changed:
                while not self._lines:
                    self._changed.wait()
                text = self._take()
                self._is_writing = True
            self._write(text)
            with self._changed:
                self._is_writing = False
                self._changed.notify_all()

    def _take(self) -> bytes:
        """The next lines, about as many as a pipe takes at once."""
        taken, size = [], 0
        while self._lines and size < PIECE:
            taken.append(self._lines.popleft())
            size += len(taken[-1])
        self._size -= size
        return b"".join(taken)

    def _write(self, text: bytes) -> None:
        """Writes the text whole; where the descriptor has a fault, it is dropped like a reader
        that is gone."""
        view = memoryview(text)
        try:
            while view:
                view = view[os.write(self._descriptor, view) :]
        except OSError:
            with self._changed:
                self.dropped += bytes(view).count(b"\n")


def drain(source: IO[bytes], outlet: Outlet) -> None:
    """Reads what a process says as long as it lives, in a thread of its own, and hands on its
    lines."""

    def read() -> None:
        with source:
            for line in source:
                outlet.put(line)

    threading.Thread(target=read, daemon=True).start()
