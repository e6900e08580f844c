"""Whether the server is at work, idle, held by one client, or hung."""

import pwd
import time

from maplabel_run.process import connections, sockets_of, state_of, worked

PAUSE = 1  # seconds between two looks


class Watch:
    """What is seen of one server from outside: since when one connection has it, and since when
    it hangs.

    It hangs where it is stopped, or where something waits for it, no client keeps it from its work,
    and it does not use its processor all the same. A client that sends nothing, or does not read,
    holds it.
    """

    def __init__(self, process: int, port: int) -> None:
        self._process, self._port = process, port
        self._doors = {one.inode for one in connections(port) if one.is_listening}
        self._worked = worked(process)
        self._held: frozenset[int] = frozenset()
        self._held_since: float | None = None
        self._hung_since: float | None = None
        self._next = 0.0
        self.why_hung = ""

    def look(self) -> None:
        """Looks, if it is time to."""
        now = time.monotonic()
        if now < self._next:
            return
        self._next = now + PAUSE
        try:
            self._look(now)
        except OSError:
            self._hung_since = self._held_since = None  # it has just ended

    def held_for(self) -> float:
        """Seconds for which the same connection has had the server."""
        return 0 if self._held_since is None else time.monotonic() - self._held_since

    def hung_for(self) -> float:
        """Seconds for which the server has hung."""
        return 0 if self._hung_since is None else time.monotonic() - self._hung_since

    def holder(self) -> str:
        """Who holds the server, as far as the system tells."""
        ports = [one.other for one in connections(self._port) if one.inode in self._held]
        return f"the client at port {ports[0]}{_owner(ports[0])}" if ports else "a client"

    def _look(self, now: float) -> None:
        accepted = frozenset(sockets_of(self._process) - self._doors)
        if accepted != self._held or not accepted:
            self._held, self._held_since = accepted, now if accepted else None
        before, self._worked = self._worked, worked(self._process)
        self.why_hung = self._fault(state_of(self._process), self._worked != before)
        if not self.why_hung:
            self._hung_since = None
        elif self._hung_since is None:
            self._hung_since = now

    def _fault(self, state: str, has_worked: bool) -> str:
        """Why the server hangs at this moment, if it does."""
        if state in ("T", "t"):
            return "it is stopped"
        if has_worked or state in ("R", "D"):
            return ""
        there = list(connections(self._port))
        if not self._held:
            waits = any(one.is_listening and one.unread for one in there)
            return "it takes no connection, though some wait" if waits else ""
        had = [one for one in there if one.inode in self._held]
        is_idle = any(one.unread and not one.unsent for one in had)
        return "it does not read what was sent to it" if is_idle else ""


def _owner(client: str) -> str:
    """The user who has a port, in words, where the system tells."""
    for one in open("/proc/net/tcp", encoding="ascii"):
        words = one.split()
        if words[1].endswith(f":{int(client):04X}"):
            try:
                return f" of user {pwd.getpwuid(int(words[7])).pw_name}"
            except KeyError:
                return f" of user {words[7]}"
    return ""
