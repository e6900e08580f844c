"""A server on which places of names are tried, with the ends of all labels as it has them.

What counts is the sum, over all names, of the binary logarithms of the scales where they end,
between a least and a greatest scale: one more for each name that is shown for a zoom more. A reply
to an edit names each label that it changes, so the sum after it is known without a further request.
"""

import math
from collections.abc import Mapping, Sequence
from dataclasses import dataclass
from fractions import Fraction

from maplabel_kit.client import Reply, request
from maplabel_kit.server import Server
from maplabel_tools import sidestyle
from maplabel_tools.sidestyle import Place


@dataclass
class Town:
    """A feature with its text, the places that its name may have, and which of them it has.

    `most` is the scale beyond which it is not shown while its place is chosen, and `cut` the one
    from which on it is not shown because of a dot.
    """

    text: str
    places: list[Place]
    chosen: int = 0
    most: Fraction | None = None
    cut: Fraction | None = None

    def put(self, place: int) -> bytes:
        """The request that gives it a place."""
        text = sidestyle.with_place(self.text, self.places[place].until(self.end()))
        return request("PUT", "/feature", None, text)

    def place(self) -> Place:
        """The place that it has."""
        return self.places[self.chosen].until(self.end())

    def others(self) -> list[int]:
        """The places that it may have besides."""
        return [place for place in range(len(self.places)) if place != self.chosen]

    def end(self) -> Fraction | None:
        """The scale from which on it is not shown in any case, where there is one."""
        ends = [one for one in (self.most, self.cut) if one is not None]
        return min(ends, default=None)


class Tries:
    """One of the servers; `due` are edits that it makes before the next ones."""

    def __init__(self, server: Server, ends: Mapping[str, float], least: float, most: float):
        self.ends, self.due = dict(ends), list[bytes]()
        self._server, self._least, self._most = server, least, most

    def gains(self, towns: Sequence[Town]) -> list[list[float]]:
        """By how much the sum grows in each other place of each town, while all others stand as
        they do: each but the last has its own place again behind that.
        """
        edits, found = list(self.due), list[list[float]]()
        for town in towns:
            back = [town.chosen] if town is not towns[-1] else []
            edits += map(town.put, [*town.others(), *back])
        told = [self._told(reply) for reply in self._server.ask(edits)]
        told = told[len(self.due) :]
        self.due = []
        for town in towns:
            gains, so_far = list[float](), 0.0
            for gain in told[: len(town.others())]:
                so_far += gain
                gains.append(so_far)
            found.append(gains)
            told = told[len(gains) + 1 :]
        return found

    def _told(self, reply: Reply) -> float:
        """By how much the sum grows with an edit, whose changes are taken over."""
        gain = 0.0
        for change in reply.json()["changes"]:
            upper, lower = change["after"][1].split("/")
            end, own = int(upper) / int(lower), change["id"]
            gain += self._worth(end) - self._worth(self.ends[own])
            self.ends[own] = end
        return gain

    def _worth(self, end: float) -> float:
        return math.log2(min(max(end, self._least), self._most))
