"""A connection to the server over which all must be answered well.

As long as a connection is open, the server answers it alone. So whoever has one can ask several
things of the same revision, and no other client's edit comes between."""

from maplabel_kit.client import Client, get
from maplabel_kit.faults import Fault


def nothing() -> None:
    """What is done while one waits, where there is nothing to do."""


class Link(Client):
    """One connection, for at most so many seconds."""

    def __enter__(self) -> "Link":
        return self

    def read(self, target: str) -> bytes:
        """The body of what must be answered with 200."""
        reply = self.one(get(target))
        if reply.status != 200:
            told = reply.body.decode("utf-8", "replace")[:200]
            raise Fault(f"{target} was answered with {reply.status} {told}")
        return reply.body

    def lengthen(self) -> None:
        """From now on there is no end to waiting."""
        self._end = None
