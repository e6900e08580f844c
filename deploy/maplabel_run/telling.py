"""What an operator is told: lines of a log, the state for systemd, and figures for Prometheus."""

import os
import socket
import sys
import time
from dataclasses import dataclass, field

from maplabel_run.outlet import Outlet

CRITICAL, ERROR, WARNING, NOTICE = 2, 3, 4, 5
PREFIX = "maplabel_"
AGAIN = 60  # seconds after which the same sentence is told again


class Log:
    """Lines on standard output, which never wait for their reader; with levels where journald
    reads them."""

    def __init__(self) -> None:
        self._outlet = Outlet(sys.stdout.fileno())
        self._has_levels = "JOURNAL_STREAM" in os.environ
        self._told: dict[str, float] = {}

    def mark(self, level: int) -> str:
        """What stands before a line of a level."""
        return f"<{level}>" if self._has_levels else ""

    def say(self, text: str, level: int = NOTICE) -> None:
        """One line."""
        self._outlet.put(f"{self.mark(level)}run: {text}\n".encode())

    def repeat(self, text: str, level: int, more: str = "") -> None:
        """A line that may be due again and again: it is told at first, and then once a minute, with
        what differs from time to time behind it."""
        now = time.monotonic()
        if now >= self._told.get(text, 0):
            self._told = {one: at for one, at in self._told.items() if at > now}
            self._told[text] = now + AGAIN
            self.say(text + more, level)

    def close(self) -> None:
        """Waits a little until all is written."""
        self._outlet.flush(2)


class Systemd:
    """What systemd is told, where it started this program."""

    def __init__(self) -> None:
        self._path = os.environ.get("NOTIFY_SOCKET", "").replace("@", "\0", 1)
        self._pause = int(os.environ.get("WATCHDOG_USEC", 0)) / 4_000_000
        self._next, self._status = 0.0, ""

    def tell(self, *lines: str) -> bool:
        """Sends some lines as one message; whether it was taken. That nobody takes it stops
        nothing."""
        if not self._path:
            return True
        with socket.socket(socket.AF_UNIX, socket.SOCK_DGRAM) as link:
            link.settimeout(1)
            try:
                link.sendto("\n".join(lines).encode(), self._path)
            except OSError:
                return False
        return True

    def reloading(self) -> None:
        """The server is being restarted by plan."""
        self.tell("RELOADING=1", f"MONOTONIC_USEC={time.monotonic_ns() // 1000}")

    def alive(self, status: str) -> None:
        """This program is at work, and how things stand."""
        now = time.monotonic()
        if self._pause and now >= self._next:
            self._next = now + self._pause
            self.tell("WATCHDOG=1")
        if status != self._status and self.tell(f"STATUS={status}"):
            self._status = status


@dataclass
class Figures:
    """What is counted. `write` puts it into a file as Prometheus' textfile collector reads it."""

    up: int = 0
    revision: int = 0
    saved: float = 0
    failed: int = 0
    left: int = 0
    held: float = 0
    hung: float = 0
    restarts: dict[str, int] = field(
        default_factory=lambda: {"planned": 0, "ended": 0, "hung": 0},
    )
    dropped: int = 0

    def lines(self) -> list[str]:
        """The lines of the file."""
        told = [
            ("up", "gauge", "Whether the server is served", self.up),
            ("revision", "gauge", "The revision when it was last asked for", self.revision),
            (
                "saved_timestamp_seconds",
                "gauge",
                "When all edits were last known to be in the file",
                round(self.saved, 3),
            ),
            ("saves_failed_total", "counter", "Saves that failed", self.failed),
            ("connections_left", "gauge", "Connections that the server has left", self.left),
            ("held_seconds", "gauge", "How long one connection has had it", round(self.held, 1)),
            ("hung_seconds", "gauge", "How long the server has hung", round(self.hung, 1)),
            ("lines_dropped_total", "counter", "Lines of standard error not read", self.dropped),
        ]
        found = []
        for name, kind, text, value in told:
            found += [f"# HELP {PREFIX}{name} {text}.", f"# TYPE {PREFIX}{name} {kind}"]
            found.append(f"{PREFIX}{name} {value}")
        found.append(f"# HELP {PREFIX}restarts_total Starts of the server behind the first.")
        found.append(f"# TYPE {PREFIX}restarts_total counter")
        for why, count in self.restarts.items():
            found.append(f'{PREFIX}restarts_total{{why="{why}"}} {count}')
        return found

    def write(self, path: str) -> None:
        """Writes the file whole: who reads it never sees a part."""
        new = f"{path}.{os.getpid()}.new"
        with open(new, "w", encoding="utf-8") as file:
            file.write("\n".join(self.lines()) + "\n")
        os.chmod(new, 0o644)
        os.replace(new, path)
