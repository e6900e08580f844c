"""The workloads: which commands are run, over which files, with what on standard input or over
connections.
"""

from collections.abc import Iterator, Sequence
from pathlib import Path
from random import Random
from typing import NamedTuple

from against_parts import asked, maps, shapes
from against_parts.runs import Program, Run, printed

SEED, MOST_GROUPS = 7, 6000  # of generated maps, as `gen` takes them
CONNECTIONS = 10
NEAR, MIXED, FAR = ("30",), ("1", "30", "300", "900", "3000"), ("9000", "30000", "90000")
OF_TOWNS = ("100", "1000", "10000", "30000", "100000")
# A place that no label of a generated map is near, and one within the map.
FAR_PLACES = ((0, 0), (-300_000_000, -300_000_000))
WINDOW = ("0", "0", "1024", "768")
CHAINS = (4_000, 10_000, 30_000)


class Work(NamedTuple):
    """A workload: its title, its run, and what its row tells, which is the time of the run if
    nothing else is said.
    """

    title: str
    run: Run
    less: Run | None = None  # the least time of this run is taken off
    parts: int = 1  # what is left is told for one of so many parts
    is_memory: bool = False  # memory is told in place of times


class Loaded(NamedTuple):
    """A map with its style: how it is called, the names of both files, and its features."""

    title: str
    files: tuple[str, str]
    features: list[maps.Feature]

    def load(self) -> Run:
        """The run that loads it and no more."""
        return Run(("pipe", *self.files))

    def piped(self, what: str, put: bytes) -> Work:
        """Requests of one connection, with the load."""
        return Work(f"{what} of {self.title}, with load", Run(("pipe", *self.files), put))

    def served(self, what: str, links: tuple[bytes, ...]) -> Work:
        """Requests of several connections, without the load, and without what a connection costs
        that brings none.
        """
        words = ("serve", *self.files)
        return Work(
            f"{what} of {self.title}, served", Run(words, links=links), Run(words, links=(b"",))
        )


class Workloads:
    """The workloads in turn. Their files are made in a folder; OTHER makes what only a program
    can.
    """

    def __init__(self, folder: Path, other: Program, counts: Sequence[int], seed: int) -> None:
        self.folder, self.other, self.counts, self.seed = folder, other, counts, seed

    def draw(self, *names: object) -> Random:
        """Numbers that depend on the seed and the names alone."""
        return Random(" ".join(str(it) for it in (self.seed, *names)))

    def file(self, name: str, text: str | bytes) -> str:
        """The path of a file of the folder with a text."""
        path = self.folder / name
        path.write_bytes(text if isinstance(text, bytes) else text.encode())
        return str(path)

    def loaded(self, title: str, style: str, features: list[maps.Feature]) -> Loaded:
        """A map with its style, as files of the folder."""
        name = title.replace(" ", "-")
        text = maps.collection(features)
        files = self.file(f"{name}.toml", style), self.file(f"{name}.geojson", text)
        return Loaded(title, files, features)

    def towns(self, count: int) -> list[maps.Feature]:
        """So many towns, always the same."""
        return maps.towns(self.draw("towns", count), count)

    def edits(self, on: Loaded, count: int, features: Sequence[maps.Feature]) -> Work:
        """So many edits, with the load."""
        put = asked.edits(self.draw("edits", on.title), count, features)
        return on.piped(f"{count} edits", put)

    def views(
        self,
        on: Loaded,
        what: str,
        scales: Sequence[str],
        near: Sequence[tuple[int, int]],
        served_near: Sequence[tuple[int, int]] | None = None,
    ) -> Iterator[Work]:
        """Views by `pipe`, and ten times as many by `serve`."""
        draw = self.draw("views", what, on.title)
        yield on.piped(f"{asked.REQUESTS} {what}", asked.views(draw, near, scales))
        links = tuple(asked.views(draw, served_near or near, scales) for _ in range(CONNECTIONS))
        yield on.served(f"{CONNECTIONS * asked.REQUESTS} {what}", links)

    def timelines(self, on: Loaded) -> Iterator[Work]:
        """All scales of one window, and a follower of the map's state."""
        asks = Run(("pipe", *on.files), asked.request("GET", "/state").encode())
        state = printed(self.other, asks, self.folder)
        states = self.file(f"{on.title}.states", state.split(b"\r\n\r\n", 1)[1])
        yield Work(f"zoom of {on.title}", Run(("zoom", *on.files, *WINDOW)))
        yield Work(f"follow of {on.title}", Run(("follow", states)))

    def of_groups(self, count: int) -> Iterator[Work]:
        """Generated maps."""
        features = list(maps.groups(count, SEED))
        on = self.loaded(f"a generated map of {len(features)}", maps.OF_GROUPS, features)
        yield Work(f"load of {on.title}", on.load())
        yield self.edits(on, 1000, features[::5])
        middles = [(it.x, it.y) for it in features[1::5]]
        yield from self.views(on, "views at 30", NEAR, middles)
        yield from self.views(on, "views at 1 to 3000", MIXED, middles)
        yield from self.views(on, "views at 9000 on", FAR, middles, FAR_PLACES)
        yield from self.timelines(on)

    def of_points(self, count: int, is_memory: bool) -> Iterator[Work]:
        """Points all over the world."""
        made = maps.points(self.draw("points", count), count)
        on = self.loaded(f"{count} points", maps.OF_GROUPS, made)
        yield Work(f"load of {on.title}", on.load())
        if is_memory:
            yield Work(f"memory of {on.title}", on.load(), is_memory=True)
        yield self.edits(on, 1000, on.features)

    def of_cities(self, count: int) -> Iterator[Work]:
        """Points of one class, at scales far out."""
        made = maps.points(self.draw("cities", count), count)
        on = self.loaded(f"{count} cities of one class", maps.OF_CITIES, made)
        edits = self.edits(on, 100, on.features)
        yield Work(f"one edit of {on.title}", edits.run, on.load(), parts=100)

    def of_towns(self, count: int) -> Iterator[Work]:
        """Points in clumps."""
        on = self.loaded(f"{count} towns", maps.OF_TOWNS, self.towns(count))
        yield Work(f"load of {on.title}", on.load())
        yield self.edits(on, 50, on.features)
        yield from self.views(on, "views", OF_TOWNS, [(it.x, it.y) for it in on.features[:2000]])
        yield from self.timelines(on)

    def of_tables(self, count: int) -> Iterator[Work]:
        """The commands over tables of labels."""
        labels = self.file(f"{count}.table", maps.table(self.draw("table", count), count))
        yield Work(f"show of {count} labels", Run(("show", labels, *WINDOW, "30000")))
        yield from self.judged(f"{count} labels", labels)

    def one_edit(self, on: Loaded, what: str, put: bytes, count: int = 50) -> Work:
        """One of so many edits, without the load."""
        return Work(f"{what} {on.title}", Run(("pipe", *on.files), put), on.load(), parts=count)

    def of_shapes(self, large: int) -> Iterator[Work]:
        """Shapes that are dear: edits that turn many names, maps and tables along one axis or at
        one place.
        """
        for count in CHAINS:
            on = self.loaded(f"a chain of {count} points", maps.OF_GROUPS, shapes.chain(count))
            put = asked.put_in_and_out(50, shapes.before_chain(count))
            yield self.one_edit(on, "one edit in front of", put)
        title = f"a lattice of {shapes.SIDE} by {shapes.SIDE} points"
        on = self.loaded(title, maps.OF_GROUPS, shapes.lattice())
        put = asked.put_in_and_out(50, shapes.at_corner())
        yield self.one_edit(on, "one edit at the corner of", put)
        for count in self.counts:
            made = self.towns(count)
            on = self.loaded(f"{count} crowded towns", maps.OF_TOWNS, made)
            put = asked.made_first(self.draw("first", count), 50, made)
            yield self.one_edit(on, "one edit that puts first one of", put)
        on = self.loaded("4000 points at one anchor", maps.OF_TOWNS, shapes.anchor(4000))
        put = asked.edits(self.draw("last"), 50, on.features[-1:])
        yield self.one_edit(on, "one edit of the last of", put)
        on = self.loaded("a meridian", maps.OF_TOWNS, shapes.meridian(self.draw("meridian"), large))
        yield Work(f"load of {large} points on one meridian", on.load())
        on = self.loaded("an anchor", maps.OF_TOWNS, shapes.anchor(large))
        yield Work(f"load of {large} points at one anchor", on.load())
        usual = maps.table(self.draw("table", large), large)
        tables = [
            (f"{large} labels in one column", shapes.column_table(self.draw("column"), large)),
            (f"{large} labels in one row", shapes.row_table(self.draw("row"), large)),
            ("10000 labels at one anchor", shapes.anchor_table(10_000)),
            (f"{large} labels, one of them great", shapes.giant_table(usual)),
        ]
        for title, text in tables:
            yield from self.of_table(title, text)
        states = self.file("small.states", shapes.small_states(5000))
        yield Work("follow of 5000 states of two labels", Run(("follow", states)))

    def of_table(self, title: str, text: str) -> Iterator[Work]:
        """The commands over a table whose cost depends on where the labels lie."""
        name = title.replace(" ", "-").replace(",", "")
        yield from self.judged(title, self.file(f"{name}.table", text))

    def judged(self, title: str, labels: str) -> Iterator[Work]:
        """The choice over a table, its check, and the gaps."""
        chosen = Run(("slots", labels))
        slots = self.file(f"{labels}.slots", printed(self.other, chosen, self.folder))
        yield Work(f"slots of {title}", chosen)
        yield Work(f"check of {title}", Run(("check", labels, slots)))
        yield Work(f"gaps of {title}", Run(("gaps", labels)))

    def generated(self, count: int) -> Work:
        """A generated map with edits and views."""
        return Work(f"gen {count} {SEED}", Run(("gen", str(count), str(SEED))))

    def all(self) -> Iterator[Work]:
        """All workloads."""
        small, large = self.counts
        groups = max(1, small // 5)
        yield from self.of_groups(groups)
        yield from self.of_points(small, is_memory=False)
        yield from self.of_points(large, is_memory=True)
        yield from self.of_cities(large)
        yield from self.of_towns(small)
        yield from self.of_tables(small)
        yield from self.of_tables(large)
        yield from self.of_shapes(large)
        for count in (groups, 3 * groups):
            yield self.generated(min(MOST_GROUPS, count))
