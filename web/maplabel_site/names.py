"""The names of a map with their scales, as the engine tells them, and the zooms at which they are
shown.
"""

import math
import tomllib
from collections.abc import Sequence
from dataclasses import dataclass
from fractions import Fraction
from pathlib import Path
from typing import Any

from maplabel_kit import geojson, labels, program, style
from maplabel_kit.client import get
from maplabel_kit.files import must_read
from maplabel_kit.geojson import Feature
from maplabel_kit.labels import Label

DEEPEST, STEP = 24, 1_000_000
ALWAYS = ("line_height", "line_spacing")


@dataclass(frozen=True)
class Name:
    """A label that is shown at some scale, with its text, the number of its class, and its
    feature.
    """

    label: Label
    text: str
    place: int
    feature: Feature


@dataclass(frozen=True)
class Labelled:
    """A map that the engine has labelled: its names in order of priority, its features, and its
    style.
    """

    names: list[Name]
    features: list[Feature]
    style: style.Style
    tree: dict[str, Any]


def read(asked: str | Path, style_file: str | Path, map_file: str | Path) -> Labelled:
    """Has the engine label a map."""
    state, world = program.pipe(asked, style_file, map_file, [get("/state"), get("/map")])
    features = geojson.features_of(world.text())
    tree = tomllib.loads(must_read(style_file, "the style").decode("utf-8-sig"))
    known, by_id = style.of_tree(tree), {one.id: one for one in features}
    found = []
    for label in labels.read_state(state.text()):
        feature = by_id[label.id]
        own = known.class_of(feature)
        if label.is_never_shown() or own is None:
            continue
        text = geojson.shown(feature.name(known.name) or "")
        found.append(Name(label, text, own.place, feature))
    return Labelled(found, features, known, tree)


def zooms_of(label: Label, base: Fraction) -> tuple[float, float] | None:
    """The zooms at which a label is shown, both ends included, rounded to the inside; none where
    they are too near.
    """
    low = math.ceil(math.log2(base / label.until) * STEP)
    while base / 2 ** (low / STEP) >= label.until:
        low += 1
    high = DEEPEST * STEP
    if label.least > 0:
        high = min(high, math.floor(math.log2(base / label.least) * STEP))
        while base / 2 ** (high / STEP) < label.least:
            high -= 1
    low = max(low, 0)
    return (low / STEP, high / STEP) if low <= high else None


def level_of(all_labels: Sequence[Label]) -> int:
    """The height over their places that most labels reach with all of their boxes, the lowest of
    several.
    """
    heights = {max(box[1] for box in label.boxes) - label.margin for label in all_labels}
    return max(
        sorted(heights),
        key=lambda height: sum(label.reaches(height) for label in all_labels),
        default=0,
    )


def described(tree: dict[str, Any]) -> dict[str, Any]:
    """What a page asks of a style: the name's property, the classes, and the fonts with some of
    their widths.
    """
    kept = ("geometry", "key", "value", "font", "size")
    classes = [{key: one[key] for key in kept if key in one} for one in tree.get("class", [])]
    fonts = {}
    for name, font in tree.get("fonts", {}).items():
        told = {key: font[key] for key in ("family", "units", "default") if key in font}
        widths = {key: value for key, value in font.get("advances", {}).items() if key < "\u0250"}
        fonts[name] = {**told, "advances": widths}
    name_key = tree.get("name")
    return {
        "name": name_key if isinstance(name_key, str) else "name",
        "classes": classes,
        "fonts": fonts,
    }
