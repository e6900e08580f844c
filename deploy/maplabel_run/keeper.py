"""What keeps the edits of a server: saving its map while it runs, and ending it so that none is
lost."""

import json
from collections.abc import Callable, Iterator
from contextlib import contextmanager
from dataclasses import dataclass

from maplabel_kit.faults import Fault
from maplabel_run import snapshot
from maplabel_run.link import Link, nothing
from maplabel_run.process import end


@dataclass
class Keeper:
    """One run of a server: the process, its files and its port, and which revision the file of
    the map has.

    `put` is called with each revision that is saved while others are served, and its text;
    `on_wait` while the server is waited for.
    """

    process: int
    program: str
    style: str
    path: str
    port: int
    rev: int | None = None
    on_wait: Callable[[], None] = nothing
    put: Callable[[int, bytes], None] = lambda rev, text: None
    style_seen: tuple[int, int, int] | None = None

    def moved(self, link: Link) -> tuple[int, bytes] | None:
        """The present revision and the map, if the file does not have that revision."""
        rev = int(json.loads(link.read("/rev"))["rev"])
        return None if rev == self.rev else (rev, link.read("/map"))

    def keep(self, moved: tuple[int, bytes]) -> None:
        """Puts the map in the place of the file."""
        rev, text = moved
        snapshot.keep(text, self.program, self.style, self.path, self.on_wait)
        self.rev = rev

    def save(self, seconds: float) -> int | None:
        """Brings the file to the present revision; the server may be waited for so long. Which
        revision, if it moved."""
        with snapshot.locked(self.path, seconds, self.on_wait):
            with Link(self.port, seconds, self.on_wait) as link:
                moved = self.moved(link)
            if moved is None:
                return None
            self.keep(moved)
        self.put(*moved)
        return self.rev

    @contextmanager
    def held(self, seconds: float) -> Iterator[Link]:
        """The server's one connection, and the lock of the file: no edit is made meanwhile."""
        with snapshot.locked(self.path, seconds, self.on_wait):
            with Link(self.port, seconds, self.on_wait) as link:
                link.read("/rev")
                yield link

    def bring(self, link: Link, is_quick: bool = False) -> None:
        """Brings the file to the present revision over a connection that is held."""
        if (moved := self.moved(link)) is None:
            return
        if not is_quick or self.style_seen is None or snapshot.seen(self.style) != self.style_seen:
            self.keep(moved)
            return
        snapshot.keep_export(moved[1], self.path)
        self.rev = moved[0]

    def stop(self, seconds: float, is_quick: bool = False) -> None:
        """Ends the server; the file then has every edit that was answered as made. It is quick
        where the server is known to have been started with the style as it stands in its file.

        No other client's edit can be made while the connection is open over which the map came.
        Where the server is held by another client for so many seconds, `Held` is raised, and the
        server goes on.
        """
        with self.held(seconds) as link:
            self.bring(link, is_quick)
            end(self.process)

    def stop_surely(self, seconds: float, on_fault: Callable[[Fault], None]) -> None:
        """The same, but the connection is kept until the map is saved: nobody else is answered
        meanwhile, so no edit is made that would be lost. Each fault is told to `on_fault`, which
        waits, or raises to give up.
        """
        with self.held(seconds) as link:
            link.lengthen()
            while True:
                try:
                    self.bring(link, True)
                    break
                except Fault as fault:
                    on_fault(fault)
            end(self.process)
