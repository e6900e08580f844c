"""Requests as bytes, replies out of a stream, and a connection to a server that is kept."""

import json
import select
import socket
import time
from collections.abc import Callable, Iterator, Sequence
from dataclasses import dataclass
from typing import Any, Protocol
from urllib.parse import urlencode

from maplabel_kit.faults import Fault
from maplabel_kit.ports import HOST

MOST_REQUESTS = 1000
BATCH_BYTES = 1 << 16
PAUSE = 0.2


class Held(Fault):
    """The server did not answer within the time that was given: another connection holds it."""


class Gone(Fault):
    """The server is not there, or went away within a connection."""


@dataclass(frozen=True)
class Reply:
    """A reply: its status and its body."""

    status: int
    body: bytes

    def text(self) -> str:
        """The body of a reply that must be 200, as a text."""
        if self.status != 200:
            told = self.body.decode("utf-8", "replace")[:200]
            raise Fault(f"the program answered {self.status}: {told}")
        return self.body.decode("utf-8")

    def json(self) -> Any:
        """The JSON value of a reply that must be 200."""
        return json.loads(self.text())


class _Readable(Protocol):
    def readline(self) -> bytes:
        ...

    def read(self, size: int, /) -> bytes:
        ...


def request(
    method: str, path: str, query: dict[str, Any] | None = None, body: str | bytes | None = None
) -> bytes:
    """A request with its query, which maps names to values, and its body."""
    target = path + ("?" + urlencode(query) if query else "")
    head = f"{method} {target} HTTP/1.1\r\nHost: localhost\r\n"
    if body is None:
        return (head + "\r\n").encode("ascii")
    data = body.encode("utf-8") if isinstance(body, str) else body
    return f"{head}Content-Length: {len(data)}\r\n\r\n".encode("ascii") + data


def get(path: str, **query: Any) -> bytes:
    """A request that only asks: `get("/why", id="c7")`."""
    return request("GET", path, query)


def read_reply(stream: _Readable) -> Reply:
    """The next reply of a stream that has `readline` and `read`."""
    line = stream.readline()
    if not line.startswith(b"HTTP/1.1 "):
        raise Gone("the program ended within a connection; was its process ended by someone?")
    status, length = int(line.split(b" ")[1]), 0
    while field := stream.readline().rstrip(b"\r\n"):
        name, _, value = field.partition(b":")
        if name.lower() == b"content-length":
            length = int(value)
    body = stream.read(length)
    if len(body) < length:
        raise Gone("the program ended within a reply; was its process ended by someone?")
    return Reply(status, body)


class _Stream:
    """What comes over a connection, as a stream with `readline` and `read`."""

    def __init__(self, link: socket.socket, wait: Callable[[], None]) -> None:
        self._link, self._wait, self._kept = link, wait, bytearray()

    def readline(self) -> bytes:
        """A line with its end; what there is where the connection ends before."""
        while (end := self._kept.find(b"\n")) < 0 and self._more():
            pass
        return self._taken(end + 1 if end >= 0 else len(self._kept))

    def read(self, size: int, /) -> bytes:
        """So many bytes; fewer where the connection ends before."""
        while len(self._kept) < size and self._more():
            pass
        return self._taken(size)

    def _taken(self, size: int) -> bytes:
        taken = bytes(self._kept[:size])
        del self._kept[:size]
        return taken

    def _more(self) -> bool:
        """Whether more has come. It is acknowledged at once: a server that waits for it is late."""
        self._wait()
        if hasattr(socket, "TCP_QUICKACK"):
            self._link.setsockopt(socket.IPPROTO_TCP, socket.TCP_QUICKACK, 1)
        data = self._link.recv(1 << 18)
        self._kept += data
        return bool(data)


class Client:
    """A connection that is kept, over which many requests go at once. It is made anew where it is
    used up.

    As long as a connection is open, the server answers it alone. With `seconds` all must be done
    within so many from now on, else `Held` is raised. While it waits for the server, it calls
    `on_wait` some five times a second, which may raise a fault to give up.
    """

    def __init__(
        self,
        port: int,
        seconds: float | None = None,
        on_wait: Callable[[], None] | None = None,
    ) -> None:
        self.port = port
        self._on_wait = on_wait
        self._end = None if seconds is None else time.monotonic() + seconds
        self._link: socket.socket | None = None
        self._stream: _Stream | None = None
        self._left = 0

    def __enter__(self) -> "Client":
        return self

    def __exit__(self, *_: object) -> None:
        self.close()

    def ask(self, requests: Sequence[bytes]) -> Iterator[Reply]:
        """The replies to requests, in order, as they come: large replies need not be kept."""
        at = 0
        while at < len(requests):
            if self._left == 0 or self._link is None or self._stream is None:
                self._connect()
            end = _batch_end(requests, at, self._left)
            self._send(b"".join(requests[at:end]))
            self._left -= end - at
            for _ in range(at, end):
                yield self._read()
            at = end

    def one(self, asked: bytes) -> Reply:
        """The reply to one request."""
        (reply,) = self.ask([asked])
        return reply

    def json(self, path: str, **query: Any) -> Any:
        """The JSON value that a request which only asks is answered with."""
        return self.one(get(path, **query)).json()

    def close(self) -> None:
        """Ends the connection, so that others are answered."""
        if self._link is not None:
            self._link.close()
        self._link = self._stream = None

    def _remaining(self) -> float | None:
        """How many seconds there are still; `Held` where there are none."""
        if self._end is None:
            return None
        left = self._end - time.monotonic()
        if left <= 0:
            self.close()
            raise Held(
                f"the server at port {self.port} gave no answer: another connection holds it"
            )
        return left

    def _pause(self) -> float | None:
        """How long to wait at once."""
        left = self._remaining()
        if self._on_wait is None:
            return left
        return PAUSE if left is None else min(left, PAUSE)

    def _wait(self) -> None:
        """Waits until something comes."""
        assert self._link is not None
        watch = select.poll()
        watch.register(self._link, select.POLLIN)
        pause = self._pause()
        while not watch.poll(None if pause is None else pause * 1000):
            if self._on_wait is not None:
                self._on_wait()
            pause = self._pause()

    def _connect(self) -> None:
        """Makes a connection, as soon as the server's queue has room for it."""
        self.close()
        while self._link is None:
            left = self._remaining()
            most = 1 if self._on_wait is None else PAUSE
            try:
                self._link = socket.create_connection(
                    (HOST, self.port), most if left is None else min(left, most)
                )
            except TimeoutError:
                if self._on_wait is not None:
                    self._on_wait()
            except OSError as error:
                raise self._gone("no server answers at port", error) from None
        self._link.settimeout(None)
        self._link.setsockopt(socket.IPPROTO_TCP, socket.TCP_NODELAY, 1)
        self._stream = _Stream(self._link, self._wait)
        self._left = MOST_REQUESTS

    def _send(self, data: bytes) -> None:
        assert self._link is not None
        self._link.settimeout(self._remaining())
        try:
            self._link.sendall(data)
            self._link.settimeout(None)
        except TimeoutError:
            self._remaining()
        except OSError as error:
            raise self._gone("nobody reads any more at port", error) from None

    def _read(self) -> Reply:
        """The next reply."""
        assert self._stream is not None
        try:
            return read_reply(self._stream)
        except OSError as error:
            raise self._gone("the connection broke to port", error) from None

    def _gone(self, what: str, error: OSError) -> Gone:
        self.close()
        return Gone(f"{what} {self.port}: {error.strerror or error}")


def _batch_end(requests: Sequence[bytes], begin: int, left: int) -> int:
    """How far requests are sent before replies are read: so many bytes as a socket surely takes."""
    end, size = begin, 0
    while end < len(requests) and end - begin < left:
        size += len(requests[end])
        if size > BATCH_BYTES and end > begin:
            break
        end += 1
    return end
