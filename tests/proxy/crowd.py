"""Clients of a proxy: many that look, some that edit, and some that keep their connections."""

import http.client
import random
import socket
import threading
import time
from collections import deque
from collections.abc import Callable

from maplabel_kit.ports import HOST
from stage import PROXY, add, remove

Status = int | str
UNKNOWN = 422  # what the removal of a town is answered with that is not there


class Lookers:
    """Clients that ask for views of their own over connections that stay open, or over a new one
    each time, until told to end.

    Each has an address of its own. One that is told that it asks too often, or is not answered,
    waits a little."""

    def __init__(
        self, count: int, port: int = PROXY, pause: float = 0, is_kept: bool = True
    ) -> None:
        self.times: list[float] = []
        self.good, self.late, self.going, self.port = 0, 0, True, port
        self.pause, self.is_kept = pause, is_kept
        self.bad: dict[Status, int] = {}
        self.threads = [
            threading.Thread(target=self.run, args=(number,), daemon=True)
            for number in range(count)
        ]
        for thread in self.threads:
            thread.start()

    def run(self, number: int) -> None:
        """One client."""
        lot = random.Random(number)
        source = (f"127.0.1.{number + 1}", 0)
        link = http.client.HTTPConnection(HOST, self.port, timeout=60, source_address=source)
        while self.going:
            x, y = lot.randrange(-(10**9), 10**9), lot.randrange(-6 * 10**8, 6 * 10**8)
            target = f"/view?cx={x}&cy={y}&w=512&h=384&s={10 ** lot.randrange(4, 7)}"
            self.count(link, "/rev" if lot.random() < 0.2 else target)
            if not self.is_kept:
                link.close()
            time.sleep(self.pause)
        link.close()

    def count(self, link: http.client.HTTPConnection, target: str) -> None:
        """One request, and what became of it."""
        begin = time.perf_counter()
        status: Status
        try:
            link.request("GET", target)
            reply = link.getresponse()
            reply.read()
            status = reply.status
        except (OSError, http.client.HTTPException) as error:
            status = type(error).__name__
            link.close()
        self.times.append(time.perf_counter() - begin)
        if status == 200:
            self.good += 1
            return
        if status == 429:
            self.late += 1
        else:
            self.bad[status] = self.bad.get(status, 0) + 1
        time.sleep(0.1)

    def end(self) -> str:
        """Ends all; what they saw, in words."""
        self.going = False
        for thread in self.threads:
            thread.join()
        times = sorted(self.times)
        return (
            f"{self.good} views and revisions, {self.late} told to wait (429), not answered: "
            f"{self.bad or 'none'}; {1000 * times[len(times) // 2]:.0f} ms in the middle, "
            f"{1000 * times[-1]:.0f} at most"
        )


class Editors:
    """Editors that add towns without a pause, and keep the time at which each was answered as made.

    With `keep` each removes its oldest town again where it has more than so many, so that a map
    with little room is edited for long. `gone` are those whose removal was answered as made, and
    `lost` those that the server did not have when they were to be removed.
    """

    def __init__(
        self,
        count: int,
        port: int = PROXY,
        pause: float = 0.02,
        name: str = "",
        keep: int | None = None,
    ) -> None:
        self.made: dict[str, float] = {}
        self.gone: set[str] = set()
        self.lost: set[str] = set()
        self.refused: dict[int, int] = {}
        self.slowest, self.going, self.port, self.pause, self.name = 0.0, True, port, pause, name
        self.keep = keep
        self.threads = [
            threading.Thread(target=self.run, args=(number,), daemon=True)
            for number in range(count)
        ]
        for thread in self.threads:
            thread.start()

    def run(self, number: int) -> None:
        """One editor."""
        own: deque[str] = deque()
        for count in range(1_000_000):
            if not self.going:
                return
            name = f"added-{self.name}{number}-{count}"
            if self._timed(add, name, 4 * count + number, self.port) == 200:
                self.made[name] = time.monotonic()
                own.append(name)
            time.sleep(self.pause)
            if self.keep is not None and len(own) > self.keep:
                self._remove(own.popleft())

    def _timed(self, edit: Callable[..., int], *words: object) -> int:
        """The status of an edit, which is timed where it was made."""
        begin = time.monotonic()
        if (status := edit(*words)) == 200:
            self.slowest = max(self.slowest, time.monotonic() - begin)
        else:
            self.refused[status] = self.refused.get(status, 0) + 1
        return status

    def _remove(self, name: str) -> None:
        """Removes a town, and tries again until there is an answer."""
        is_sure = True
        while self.going:
            status = self._timed(remove, name, self.port)
            if status in (200, UNKNOWN):
                self.gone.add(name)
                if status == UNKNOWN and is_sure:
                    self.lost.add(name)
                return
            is_sure = is_sure and status in (429, 503)  # else it may have been made
            time.sleep(self.pause)

    def left(self) -> set[str]:
        """The towns that must be on the map: those that were added, and not removed."""
        return set(self.made) - self.gone

    def end(self) -> None:
        """Ends all."""
        self.going = False
        for thread in self.threads:
            thread.join()


def idle_clients() -> list[socket.socket]:
    """Clients of the proxy that would hold the server if they had it."""
    head = b"Host: localhost\r\n"
    links = []
    for text in (
        b"",
        b"GET /rev HTTP/1.1\r\n" + head,
        b"GET /map HTTP/1.1\r\n" + head + b"\r\n",
        b"POST /feature HTTP/1.1\r\nX-Edit: 1\r\nContent-Length: 100\r\n" + head + b'\r\n{"t',
    ):
        for _ in range(5):
            links.append(socket.create_connection((HOST, PROXY)))
            links[-1].sendall(text)
    return links
