"""Choosing a place for each name by edits to servers: try each, keep the one that leaves most names
most room.

Some names that are far from one another are tried at the same time, each on a server of its own,
and all servers are told which place was best. Which names are tried together depends on the map
alone, and so does what is chosen.
"""

from collections.abc import Iterator, Mapping, Sequence
from concurrent.futures import ThreadPoolExecutor
from dataclasses import dataclass
from fractions import Fraction

from maplabel_kit import geojson, labels
from maplabel_kit.client import get
from maplabel_kit.geojson import Feature
from maplabel_kit.labels import Label
from maplabel_kit.progress import Progress
from maplabel_kit.server import Server
from maplabel_kit.style import Style
from maplabel_tools import sidestyle
from maplabel_tools.sidestyle import Place
from maplabel_tools.sidetries import Town, Tries

# A map of so many towns is looked at whole.
FEW = 2000
# So many names are tried at the same time, where they lie apart by so many times the reach of both;
# they are looked for among the next so many.
TOGETHER, APART, AHEAD = 4, 3, 16

Towns = dict[str, Town]


@dataclass
class Pass:
    """What a pass came to."""

    names: int
    edits: int
    moved: int


@dataclass(frozen=True)
class Spot:
    """Where a name is, and how far it reaches there in any of its places, at twice its end."""

    x: int
    y: int
    wide: float
    high: float

    def is_near(self, other: "Spot") -> bool:
        """Whether two names may matter to one another."""
        wide, high = APART * (self.wide + other.wide), APART * (self.high + other.high)
        return abs(self.x - other.x) < wide and abs(self.y - other.y) < high


class Choice:
    """Towns on servers that have the same map."""

    def __init__(
        self, servers: Sequence[Server], towns: Towns, least: Fraction, most: Fraction
    ) -> None:
        self._towns = towns
        found = labels.read_state(servers[0].one(get("/state")).text())
        ends = {one.id: float(one.until) for one in found}
        self._spots = {one.id: spot_of(one, towns[one.id]) for one in found if one.id in towns}
        self._tries = [Tries(one, ends, float(least), float(most)) for one in servers]
        self._edits = 0

    def ends(self) -> dict[str, float]:
        """Where each label ends, by its feature's id."""
        return self._tries[0].ends

    def run(self, least_end: Fraction) -> Pass:
        """One pass over the towns that end at a scale or further out, most important first."""
        chosen = [one for one in self._spots if self.ends()[one] >= least_end]
        done, moved = 0, 0
        pool = ThreadPoolExecutor(len(self._tries))
        try:
            with Progress("places of names", len(chosen)) as progress:
                for batch in self._batches(chosen):
                    progress.at(done)
                    moved += self._place([self._towns[one] for one in batch], pool)
                    done += len(batch)
        finally:  # where it is broken off, threads end with the servers that they wait for
            pool.shutdown(wait=False, cancel_futures=True)
        self._tries[0].gains([])
        return Pass(len(chosen), self._edits, moved)

    def _batches(self, chosen: Sequence[str]) -> Iterator[list[str]]:
        """Towns that are far from one another, and from those before them that wait: of two that
        are near the first in order comes first.
        """
        left = list(chosen)
        while left:
            batch, waiting = list[str](), list[str]()
            for own in left[:AHEAD]:
                spot = self._spots[own]
                is_near = any(spot.is_near(self._spots[one]) for one in batch + waiting)
                (waiting if is_near or len(batch) == TOGETHER else batch).append(own)
            yield batch
            left = waiting + left[AHEAD:]

    def _place(self, batch: Sequence[Town], pool: ThreadPoolExecutor) -> int:
        """Tries the places of some towns, and has the best made on all servers; how many moved."""
        count = len(self._tries)
        shares = [batch[k::count] for k in range(count)]
        gains = list(pool.map(Tries.gains, self._tries, shares))
        moved = 0
        for k, town in enumerate(batch):
            others = town.others()
            sums = dict(zip([town.chosen, *others], [0.0, *gains[k % count][k // count]]))
            best = max(
                sums, key=lambda place: (round(sums[place], 9), place == town.chosen, -place)
            )
            is_last = town is shares[k % count][-1]
            for number, one in enumerate(self._tries):
                is_tried = number == k % count and is_last and bool(others)
                if best != (others[-1] if is_tried else town.chosen):
                    one.due.append(town.put(best))
            self._edits += len(others) + (bool(others) and best != others[-1])
            moved += best != town.chosen
            town.chosen = best
        return moved


def spot_of(label: Label, town: Town) -> Spot:
    """Where the name of a town is."""
    scale = 2 * float(label.until)
    wide = max(2 * abs(place.dx) for place in town.places)
    high = max(2 * abs(place.dy) for place in town.places)
    return Spot(label.x, label.y, wide * scale, high * scale)


def towns_of(features: Sequence[Feature], texts: Sequence[str], style: Style, gap: int) -> Towns:
    """The towns of a map by their ids: features with a name under a class of points."""
    found = {}
    for one, text in zip(features, texts):
        if places := sidestyle.places_of(one, style, gap):
            found[one.id] = Town(text, places)
    return found


def all_places(towns: Towns) -> set[Place]:
    """All places that towns may get."""
    return {place.until(town.end()) for town in towns.values() for place in town.places}


def map_text(features: Sequence[Feature], texts: Sequence[str], towns: Towns) -> str:
    """The text of the map with each town at the place that it has."""
    placed = (
        sidestyle.with_place(towns[one.id].text, towns[one.id].place()) if one.id in towns else text
        for one, text in zip(features, texts)
    )
    return geojson.collection(placed)


def bound(towns: Towns, ends: Mapping[str, float | Fraction], most: Fraction, times: int) -> None:
    """Sets for each town the scale beyond which it is not shown while its place is chosen: of
    most, its half, its quarter and so on the least that is so many times its end; on a map of few
    towns it is most. So an edit looks at few neighbours. A name that would last longer than that by
    one edit is taken to end there, until the next pass.
    """
    for own, town in towns.items():
        own_most = most
        while len(towns) > FEW and own_most / 2 >= times * ends[own] and own_most > most / 64:
            own_most /= 2
        town.most = own_most
