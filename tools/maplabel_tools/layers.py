"""Labels of a layer of features that another program holds: a map and a style are made, and a
server is asked.
"""

from collections.abc import Callable, Iterable, Sequence
from dataclasses import dataclass
from fractions import Fraction
from pathlib import Path
from typing import Any

from maplabel_kit import files, geojson, labels, program, style
from maplabel_kit.client import get
from maplabel_kit.faults import Fault
from maplabel_kit.geojson import Feature
from maplabel_kit.server import Server
from maplabel_kit.style import Style
from maplabel_tools import fonts, stylemaker

MOST_FEATURES = 32_768
# A pixel of 96 to the inch, in metres, and the metres of a degree on the equator of the sphere of
# web maps.
PIXEL = 0.0254 / 96
METRES = 6378137 * 3.141592653589793 / 180


@dataclass(frozen=True)
class Placed:
    """A label as a layer of labels tells it: its feature's id, its text and size, and the label,
    or why there is none.
    """

    id: str
    text: str
    size: int
    label: labels.Label | None
    reason: str | None


def denominator(scale: Fraction) -> float:
    """The denominator of a scale at 96 dots to the inch, where a degree is as long as on the
    equator.
    """
    return float(scale) * 1e-7 * METRES / PIXEL


def collection(features: Iterable[tuple[str, Any, dict[str, Any]]]) -> str:
    """The text of a map of features that are told as (id, geometry, properties)."""
    return geojson.collection(geojson.feature_text(*one) for one in features)


def must_fit(count: int) -> None:
    """Sees that a map of so many features is not too large."""
    if count > MOST_FEATURES:
        raise Fault(
            f"there are {count:,} features, and the engine takes at most {MOST_FEATURES:,}, those "
            "without a name counted too: choose features by an expression or cut the layer by "
            "place; `atlas/atlas make` takes many more"
        )


def placed(
    asked: Path,
    map_body: str,
    wish: stylemaker.Wish,
    widths: Sequence[fonts.Widths],
    is_wanted: Callable[[], bool],
) -> tuple[str, list[Placed]]:
    """The style that is made for a map, and what becomes of each of its features."""
    with files.folder() as at:
        map_file, style_file = at / "map.geojson", at / "style.toml"
        files.write_whole({map_file: map_body, style_file: "version = 2\n"})
        (reply,) = program.pipe(asked, style_file, map_file, [get("/map")])
        features = geojson.features_of(reply.text())
        text, _ = stylemaker.text_of(features, wish, widths)
        files.write_whole({style_file: text})
        with Server(asked, style_file, map_file, is_wanted=is_wanted) as server:
            return text, _asked(server, features, style.read(style_file))


def _asked(server: Server, features: Sequence[Feature], made: Style) -> list[Placed]:
    """What a server tells of each feature."""
    found = {one.id: one for one in labels.read_state(server.one(get("/state")).text())}
    bare = [one.id for one in features if one.id not in found]
    replies = server.ask([get("/why", id=own) for own in bare])
    reasons = {own: reply.json()["reason"] for own, reply in zip(bare, replies)}
    return [_placed(one, made, found.get(one.id), reasons.get(one.id)) for one in features]


def _placed(
    feature: Feature, made: Style, label: labels.Label | None, reason: str | None
) -> Placed:
    fit, name = made.class_of(feature), feature.name(made.name)
    return Placed(feature.id, geojson.shown(name or ""), fit.size if fit else 0, label, reason)
