"""From a style and a map to those with names along lines."""

import tomllib
from collections import defaultdict
from collections.abc import Iterator, Mapping, Sequence
from dataclasses import dataclass, field
from fractions import Fraction
from pathlib import Path as File
from typing import Any

from maplabel_kit import files, geojson, program
from maplabel_kit.along import MADE, Face
from maplabel_kit.client import get
from maplabel_kit.faults import Fault
from maplabel_kit.labels import Label as Shown
from maplabel_kit.labels import read_state
from maplabel_kit.progress import Progress
from maplabel_kit.style import Style, of_tree
from maplabel_tools.lines import written
from maplabel_tools.lines.chains import Name
from maplabel_tools.lines.choosing import Chooser
from maplabel_tools.lines.joining import Line, joined
from maplabel_tools.lines.taken import LevelRoom, level_rooms
from maplabel_tools.lines.tracks import Path
from maplabel_tools.lines.wish import Wish
from maplabel_tools.lines.written import Made

UNITS_OF_DEGREE = 10_000_000
DEFAULT_HEIGHT = 12
# The property by which pages tell kinds of features apart, as rivers and streets.
KIND = "kind"
MOST_FEATURES = 32768
# After so many askings the places that are still shown in several ranges are left out whole.
MOST_ASKINGS = 8


@dataclass(frozen=True)
class Base:
    """A style without classes of lines, and a map, with what the engine says of them."""

    style_text: str
    style: Style
    given: Style
    texts: list[str]
    features: list[geojson.Feature]
    shown: list[Shown]


@dataclass
class Named:
    """The lines of one name and height of letters, and the properties that they have in common."""

    lines: list[Line]
    shared: dict[str, Any]

    def add(self, lines: Sequence[Line], properties: Mapping[str, Any]) -> None:
        """Adds lines of the same name."""
        self.lines += lines
        self.shared = {
            key: value for key, value in self.shared.items() if properties.get(key) == value
        }


@dataclass
class Result:
    """The texts that are made, and figures about them."""

    style: str = ""
    map: str = ""
    names: int = 0
    features: int = 0
    classes: int = 0
    fonts: int = 0
    left_out: int = 0
    missed: list[str] = field(default_factory=list)


def read(engine: File, style: str, map_file: str) -> Base:
    """What stands before names along lines are made."""
    given = files.must_read(style, "the style").decode("utf-8-sig", "replace")
    program.pipe(engine, style, map_file, [get("/rev")])
    text = written.without_line_classes(given)
    with files.folder() as folder:
        bare = folder / "style.toml"
        bare.write_text(text, "utf-8")
        world, state = program.pipe(engine, bare, map_file, [get("/map"), get("/state")])
    features, texts = geojson.features_of(world.text()), geojson.split_features(world.text())
    own = [k for k, one in enumerate(features) if MADE in one.properties]
    if own:
        raise Fault(
            f"the map {map_file} has features that tools/lines made, {len(own)} of them; give "
            "it the map before that"
        )
    trees = of_tree(tomllib.loads(text)), of_tree(tomllib.loads(given))
    return Base(text, *trees, texts, features, read_state(state.text()))


def named_lines(base: Base, height: int | None) -> dict[tuple[str, int], Named]:
    """The lines of each name and height of letters: of those that a class of lines takes, where the
    style has such classes, else of all. Names carry `kind` and the keys of these classes, where
    their lines have one value.
    """
    groups: dict[tuple[str, int], Named] = {}
    has_classes = any(one.kind == "line" for one in base.given.classes)
    carried = {KIND, *(one.key for one in base.given.classes if one.kind == "line")}
    for feature in base.features:
        name, kind = feature.name(base.style.name), base.given.class_of(feature)
        if feature.kind != "line" or name is None or (has_classes and kind is None):
            continue
        size = height or (kind.size if kind else DEFAULT_HEIGHT)
        told = {key: value for key, value in feature.properties.items() if key in carried}
        groups.setdefault((geojson.shown(name).strip(), size), Named([], told)).add(
            lines_of(feature), told
        )
    return dict(sorted(groups.items()))


def lines_of(feature: geojson.Feature) -> list[Line]:
    """The lines of a feature in units of the engine."""
    geometry = feature.geometry or {}
    parts = (
        [geometry["coordinates"]] if geometry["type"] == "LineString" else geometry["coordinates"]
    )
    return [
        [(float(x) * UNITS_OF_DEGREE, float(y) * UNITS_OF_DEGREE) for x, y, *_ in part]
        for part in parts
    ]


def made_features(
    base: Base, face: Face, height: int | None, wish: Wish
) -> tuple[list[Made], list[str]]:
    """The features of all names, and the names that have no place at any zoom."""
    rooms = level_rooms(base.shown, wish)
    groups = named_lines(base, height)
    if not groups:
        raise Fault(f'the map has no line with a name in the property "{base.style.name}"')
    numbers: dict[str, int] = defaultdict(int)
    ids = {one.id for one in base.features}
    made: list[Made] = []
    missed: list[str] = []
    with Progress("names along lines", len(groups)) as progress:
        for count, ((text, size), named) in enumerate(groups.items()):
            progress.at(count)
            found = list(_made_of(text, size, named, base, face, rooms, wish, numbers, ids))
            made += found
            missed += [] if found else [text]
    return made, missed


def _made_of(
    text: str,
    size: int,
    named: Named,
    base: Base,
    face: Face,
    rooms: Sequence[LevelRoom],
    wish: Wish,
    numbers: dict[str, int],
    ids: set[str],
) -> Iterator[Made]:
    """The features of one name."""
    paths = [Path(line) for line in joined(named.lines, wish.snap)]
    spaced = [Name(text, face, size, wish.tracking)] if wish.tracking else []
    names = [*spaced, Name(text, face, size)]
    if not names[-1].has_ink():
        return
    keys = base.style.name, base.style.rank
    for label in Chooser(names, paths, rooms, wish).labels():
        own = f"{text}~{numbers[text]}"
        while own in ids:
            numbers[text] += 1
            own = f"{text}~{numbers[text]}"
        ids.add(own)
        yield written.feature_of(label, own, keys, wish, named.shared)


def make(
    engine: File, base: Base, face: Face, height: int | None, priority: int | None, wish: Wish
) -> Result:
    """The style and the map with names along lines, of which each place is shown in one range of
    scales.
    """
    made, missed = made_features(base, face, height, wish)
    all_made = len(made)
    for asking in range(MOST_ASKINGS + 1):
        style = written.style_text(base.style_text, made, face, wish, priority)
        texts = geojson.collection(base.texts + [one.text for one in made])
        kept = mended(made, _state(engine, style, texts), asking == MOST_ASKINGS)
        if len(kept) == len(made):
            break
        made = kept
    kinds = {written.kind_of(one.label) for one in made}
    return Result(
        style,
        texts,
        len(named_lines(base, height)),
        len(made),
        len(kinds),
        len({one.font for one in kinds}),
        all_made - len(made),
        missed,
    )


def _state(engine: File, style: str, texts: str) -> dict[str, Shown]:
    """The labels of a style and a map by their ids, as the engine tells them."""
    with files.folder() as folder:
        style_file, map_file = folder / "style.toml", folder / "map.geojson"
        style_file.write_text(style, "utf-8")
        map_file.write_text(texts, "utf-8")
        (reply,) = program.pipe(engine, style_file, map_file, [get("/state")])
    return {one.id: one for one in read_state(reply.text())}


def mended(made: Sequence[Made], state: dict[str, Shown], is_last: bool) -> list[Made]:
    """The features without those that are never shown, and of each place without those that are
    shown further out than a gap; of a last asking without the whole place.
    """
    places: dict[tuple[str, tuple[float, float]], list[Made]] = defaultdict(list)
    for one in made:
        label = state.get(one.id)
        if label is not None and not label.is_never_shown():
            places[one.label.name.text, one.label.place].append(one)
    kept: set[str] = set()
    for members in places.values():
        inner = _innermost(members, state)
        if not is_last or len(inner) == len(members):
            kept |= inner
    return [one for one in made if one.id in kept]


def _innermost(members: Sequence[Made], state: dict[str, Shown]) -> set[str]:
    """The features of a place that are shown in one range with the one that is there furthest
    in.
    """
    ranges: list[tuple[Fraction, Fraction, str]] = sorted(
        (state[one.id].least, state[one.id].until, one.id) for one in members
    )
    kept, end = {ranges[0][2]}, ranges[0][1]
    for least, until, own in ranges[1:]:
        if least != end:
            break
        kept.add(own)
        end = until
    return kept
