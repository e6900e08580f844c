"""The survey: what a server tells of a map under a style, by class, by reason and by zoom."""

import statistics
from collections import Counter
from collections.abc import Sequence
from dataclasses import dataclass

from maplabel_kit import geojson, labels, zooms
from maplabel_kit.client import get
from maplabel_kit.geojson import Feature
from maplabel_kit.labels import Label
from maplabel_kit.server import Server
from maplabel_kit.style import Style
from maplabel_tools import sidestyle

WINDOW = 1024, 768
CENTRES = 25
DEEPEST = 18
Extent = tuple[float, float, float, float]
Middle = tuple[int, int]


@dataclass
class ZoomRow:
    """The names at one zoom: on the whole map and in windows, how much of these boxes cover, and
    the fullest window.
    """

    zoom: int
    active: int
    least: int
    median: float
    most: int
    covered: float
    fullest: Middle

    def verdict(self) -> str:
        """What a reader would say of an ordinary window at this zoom."""
        if self.median < 1:
            return "empty"
        return "crowded" if self.covered > 0.2 else ""


@dataclass
class ClassRow:
    """The features of a class, or of a kind that no class takes: the number of the class or none,
    what it is called, and counts of features, labels, labels that are never shown, and reasons.
    """

    number: int | None
    title: str
    counts: Counter[str]


@dataclass
class Survey:
    """All that the server was asked for."""

    features: list[Feature]
    labels: list[Label]
    reasons: dict[str, str]
    rows: list[ZoomRow]
    extent: Extent | None

    def label_of(self) -> dict[str, Label]:
        """The labels by their features' ids."""
        return {one.id: one for one in self.labels}

    def without_label(self, reason: str) -> list[Feature]:
        """The features that have no label for a reason."""
        return [one for one in self.features if self.reasons.get(one.id) == reason]


def make(server: Server) -> Survey:
    """The survey of a server's map."""
    features = geojson.features_of(server.one(get("/map")).text())
    found = labels.read_state(server.one(get("/state")).text())
    extent = geojson.extent_of(features)
    rows = _rows(server, found, extent)
    return Survey(features, found, _reasons(server, features, found), rows, extent)


def _reasons(server: Server, features: Sequence[Feature], found: Sequence[Label]) -> dict[str, str]:
    """Why each feature that has no label has none, by its id."""
    labelled = {one.id for one in found}
    bare = [one.id for one in features if one.id not in labelled]
    replies = server.ask([get("/why", id=one) for one in bare])
    return {one: reply.json()["reason"] for one, reply in zip(bare, replies)}


def centres(found: Sequence[Label], count: int = CENTRES) -> list[Middle]:
    """The middles of windows: the anchors of labels that are evenly spaced in the order of
    priority.
    """
    count = min(count, len(found))
    return [(one.x, one.y) for one in (found[k * len(found) // count] for k in range(count))]


def _rows(server: Server, found: Sequence[Label], extent: Extent | None) -> list[ZoomRow]:
    """A row for each zoom that tells something."""
    middles = centres(found)
    if not middles or extent is None:
        return []
    return [_row(server, zoom, found, middles) for zoom in _zooms(found, extent)]


def _zooms(found: Sequence[Label], extent: Extent) -> Sequence[int]:
    """From the zoom that shows the whole map, or the first with a name, to the last that changes
    anything.
    """
    deepest = range(DEEPEST + 1)
    active = [sum(one.is_active(zooms.scale_of(zoom)) for one in found) for zoom in deepest]
    shown = [zoom for zoom, count in enumerate(active) if count]
    if not shown:
        return []
    changes = [zoom for zoom in deepest[1:] if active[zoom] != active[zoom - 1]]
    first = min(shown[0], fitting_zoom(extent))
    return range(first, min(DEEPEST, max([*changes, shown[0]]) + 1) + 1)


def fitting_zoom(extent: Extent) -> int:
    """The greatest whole zoom at which an ordinary window holds the whole map."""
    west, south, east, north = extent
    scale = max((east - west) / WINDOW[0], (north - south) / WINDOW[1]) * zooms.DEGREE
    return min(max(int(zooms.zoom_of(scale)), 0), DEEPEST) if scale > 0 else DEEPEST


def _row(server: Server, zoom: int, found: Sequence[Label], middles: Sequence[Middle]) -> ZoomRow:
    """The names at a zoom in windows about the given middles."""
    scale = zooms.scale_of(zoom)
    width, height = WINDOW
    asked = [get("/view", cx=x, cy=y, w=width, h=height, s=zooms.asked(scale)) for x, y in middles]
    shown = [reply.json()["labels"] for reply in server.ask(asked)]
    counts = [len(one) for one in shown]
    covered = statistics.median(
        sum(_area(box) for label in one for box in label["boxes"]) for one in shown
    )
    return ZoomRow(
        zoom,
        sum(one.is_active(scale) for one in found),
        min(counts),
        statistics.median(counts),
        max(counts),
        covered / (width * height),
        middles[counts.index(max(counts))],
    )


def _area(box: Sequence[int]) -> int:
    return (box[2] - box[0]) * (box[3] - box[1])


def by_class(survey: Survey, style: Style) -> list[ClassRow]:
    """For each class, and for each kind that no class takes: features, labels, never shown, and
    reasons for none.

    The classes of places that tools/sides has made of one class are one row.
    """
    found, called = survey.label_of(), _titles(style)
    rows: dict[tuple[int, str], Counter[str]] = {title: Counter() for title in called.values()}
    for one in survey.features:
        fit = style.class_of(one)
        other = len(style.classes), f"{one.kind or 'no geometry'}, no class"
        row = rows.setdefault(called[fit.place] if fit else other, Counter())
        row["features"] += 1
        label = found.get(one.id)
        if label is None:
            row[survey.reasons[one.id]] += 1
        else:
            row["labels"] += 1
            row["never"] += label.is_never_shown()
    most = len(style.classes)
    return [
        ClassRow(place if place < most else None, title, rows[place, title])
        for place, title in sorted(rows)
    ]


def _titles(style: Style) -> dict[int, tuple[int, str]]:
    """For the place of each class the place and the title of its row."""
    made = {one.place: (one.place, one.title()) for one in style.classes}
    for place, (_, first) in sidestyle.bases_of(style.classes).items():
        title = first.title().split(", ")[0]
        made[place] = first.place, f"{title}, placed by sides, {first.size} px"
    return made


def blockers(survey: Survey, count: int = 10) -> list[tuple[str, int]]:
    """The ids that block most of the labels that are never shown, with how many each blocks."""
    never = Counter(one.blocker for one in survey.labels if one.is_never_shown() and one.blocker)
    return sorted(never.items(), key=lambda item: (-item[1], item[0]))[:count]
