"""What is to be said of names along the lines of a map as it stands."""

from collections.abc import Iterable, Sequence
from dataclasses import dataclass

from maplabel_kit.along import (
    MADE,
    Face,
    clusters,
    core_of,
    curve_of,
    default_font,
    is_whole,
    lay,
    wanted,
)
from maplabel_kit.faults import Fault
from maplabel_kit.geojson import Feature
from maplabel_kit.labels import Label
from maplabel_kit.style import Class, Style

# Pixels between names along lines and others that a halo wants.
LEAST_MARGIN = 2


def face_of(path: str | None = None) -> Face | None:
    """The face in which names are taken to be drawn: of a font file, else Liberation Serif, else
    none.
    """
    try:
        return Face.read(path or default_font())
    except Fault:
        return None


@dataclass
class Figures:
    """Counts of the labels of lines: all; those that stand level in one box; of the others those
    with a letter that steps by more than half its height, those whose boxes follow no smooth curve,
    those in scripts that are written as one run, and those that a page draws turned at full height,
    turned and smaller, and upright.
    """

    labels: int = 0
    level: int = 0
    steps: int = 0
    bent: int = 0
    runs: int = 0
    full: int = 0
    smaller: int = 0
    upright: int = 0

    def chains(self) -> int:
        """How many have a box for each letter."""
        return self.labels - self.level


def figures(
    features: Iterable[Feature], labels: Sequence[Label], style: Style, face: Face
) -> Figures:
    """The counts of a map, without the features that tools/lines made."""
    found = Figures()
    lines = {one.id: one for one in features if one.kind == "line"}
    for label in labels:
        feature = lines.get(label.id)
        if feature is not None and MADE not in feature.properties:
            _count(found, feature, label, style, face)
    return found


def _count(found: Figures, feature: Feature, label: Label, style: Style, face: Face) -> None:
    """Adds a label of a line."""
    text, boxes = feature.name(style.name) or "", label.boxes
    found.labels += 1
    if len(boxes) == 1 and len(clusters(text)) > 1:
        found.level += 1
        return
    size = boxes[0][3] - boxes[0][1]
    found.steps += any(2 * abs(a[1] - b[1]) > size for a, b in zip(boxes, boxes[1:]))
    found.runs += is_whole(text)
    found.bent += curve_of(core_of(text, boxes), is_whole(text)) is None
    height, spacing = wanted(feature.properties, size)
    drawn = lay(text, boxes, face, height, spacing)
    found.full += drawn is not None and drawn.height == height
    found.smaller += drawn is not None and drawn.height < height
    found.upright += drawn is None


def warnings(
    features: Sequence[Feature], labels: Sequence[Label], style: Style, face: Face | None
) -> list[str]:
    """Sentences about names along lines: how they will look, where a face tells how wide letters
    are, and what the classes of lines want.
    """
    told = _margins(style) + _priorities(style)
    if face is None:
        return told
    found = figures(features, labels, style, face)
    return (_looks(found) if found.labels else []) + told


def _looks(found: Figures) -> list[str]:
    """How the names of lines look that tools/lines has not made."""
    if found.full == found.labels:
        return []
    lines = [
        f"names along lines: {found.labels}; {found.level} of them stand level in one box, "
        "since the "
        f"line is too short, too steep or too bent at the scale ref; {found.chains()} have a "
        "box for "
        "each letter."
    ]
    if found.chains():
        lines[0] += (
            f" Of these a page draws {found.full} turned and at full height, {found.smaller} "
            "smaller, "
            f"and {found.upright} upright; {found.bent} follow no smooth curve, and "
            f"{found.steps} have a "
            f"letter that steps by more than half its height; {found.runs} are in scripts that are "
            "written as one run."
        )
    lines[0] += " tools/lines makes names that lie along their lines and are drawn at full height."
    return lines


def _called(one: Class) -> str:
    return f"class {one.place} ({one.title()})"


def _margins(style: Style) -> list[str]:
    """Classes of lines whose names have no room for a halo."""
    narrow = [one for one in style.classes if one.kind == "line" and one.margin < LEAST_MARGIN]
    return [
        f"{_called(one)} has the margin {one.margin}: a page draws a halo of 1.5 pixels about "
        "names along "
        f"lines, so give it a margin of {LEAST_MARGIN} or more."
        for one in narrow[:1]
    ] + _more(narrow)


def _priorities(style: Style) -> list[str]:
    """Classes of lines that begin at a scale above 0 and stand before others."""
    banded = [one for one in style.classes if _is_banded(one)]
    others = [one for one in style.classes if not _is_banded(one)]
    last = max(others, key=lambda one: one.priority, default=None)
    if last is None:
        return []
    before = [one for one in banded if one.priority <= last.priority]
    return [
        f"{_called(one)} has the min {one.least} and the priority {one.priority}, which is not "
        "behind that of "
        f"{_called(last)}, {last.priority}: a name that it hides within its scales ends there "
        "for good, also "
        f"further out where it would have room again. Give it a priority above {last.priority}."
        for one in before[:1]
    ] + _more(before)


def _is_banded(one: Class) -> bool:
    """Whether a class of lines begins at a scale above 0."""
    return one.kind == "line" and one.scales()[0] > 0


def _more(classes: Sequence[Class]) -> list[str]:
    """How many more classes are as the first one."""
    count = len(classes) - 1
    return [f"{count} more classes of lines are so."] if count > 0 else []
