"""A style made from a map and a font: its classes in order, its comments and its text."""

import statistics
from collections import Counter, defaultdict
from collections.abc import Sequence
from dataclasses import dataclass

from maplabel_kit import geojson, toml, zooms
from maplabel_kit.faults import Fault
from maplabel_kit.geojson import Feature
from maplabel_kit.told import listed, near
from maplabel_tools import fonts

MOST_VALUES = 20
KINDS = "area", "point", "line"
# A zoom range of a class: its first zoom, and its last or none.
Zooms = tuple[int, int | None]


@dataclass
class Wish:
    """What the words of the command ask for."""

    name: str
    rank: str
    key: str | None
    values: list[str]
    sizes: list[int]
    zooms: dict[str | None, Zooms]
    margin: int
    dy: int
    font: str
    made_by: str

    def zooms_of(self, value: str | None) -> Zooms:
        """The zooms of the class of a value."""
        return self.zooms.get(value, self.zooms[None])


@dataclass
class Group:
    """Features that become a class: their kind, the value of the key or none, and their ranks."""

    kind: str
    value: str | None
    ranks: list[int]

    def median(self) -> float:
        """The median rank."""
        return statistics.median(self.ranks)


def groups(features: Sequence[Feature], wish: Wish) -> list[Group]:
    """The groups in the order of their classes: values as told or by the median rank, then the
    kinds' others. Lines with a range of zooms of their own stand last, so that they give way.
    """
    members: dict[tuple[str, str | None], list[int]] = defaultdict(list)
    for one in features:
        if one.kind:
            members[one.kind, one.text(wish.key)].append(one.rank(wish.rank))
    made = [Group(kind, value, ranks) for (kind, value), ranks in members.items()]
    _must_have_values(made, wish)
    named = [one for one in made if one.value is not None]
    if wish.values:
        named = [one for one in named if one.value in wish.values]
    if len(named) > MOST_VALUES:
        raise Fault(
            f"{wish.key} has {len(named)} values; tell the ones that are wanted by --values"
        )
    order = {one: place for place, one in enumerate(wish.values)}
    named.sort(key=lambda one: (order.get(str(one.value), 0), -one.median(), one.value, one.kind))
    found = named + _others(made, named)
    return sorted(found, key=lambda one: one.kind == "line" and _is_bounded(one, wish))


def _is_bounded(group: Group, wish: Wish) -> bool:
    return wish.zooms_of(group.value)[1] is not None


def _must_have_values(made: Sequence[Group], wish: Wish) -> None:
    """Sees that the values that are told are there."""
    there = Counter({one.value: len(one.ranks) for one in made if one.value is not None})
    for value in wish.values + [one for one in wish.zooms if one is not None]:
        if value in there:
            continue
        if not wish.key:
            raise Fault(f"zooms of {value} want --class")
        raise Fault(
            f"no feature has {wish.key}={value}{near(value, there)}. "
            f"Values of {wish.key} there are: {listed(there) or 'none at all'}."
        )


def _others(made: Sequence[Group], named: Sequence[Group]) -> list[Group]:
    """A group without a value for each kind that has features which no other group takes."""
    found = []
    for kind in KINDS:
        rest = [one for one in made if one.kind == kind and one not in named]
        if ranks := [rank for one in rest for rank in one.ranks]:
            found.append(Group(kind, None, ranks))
    return sorted(found, key=lambda one: -one.median())


def missing_keys(features: Sequence[Feature], wish: Wish) -> dict[str, str]:
    """The keys of the wish that no feature has, each with the sentence that tells it."""
    there = Counter(key for one in features for key in one.properties)
    asked = {wish.name: "the name", wish.rank: "the rank", wish.key: "the class"}
    return {
        key: f'no feature has the property "{key}", which is {what}{near(key, there)}. '
        f"Properties there are: {listed(there) or 'none at all'}."
        for key, what in asked.items()
        if key is not None and key not in there
    }


def text_of(
    features: Sequence[Feature], wish: Wish, files: Sequence[fonts.Widths]
) -> tuple[str, list[str]]:
    """The text of the style, and the characters that no font has."""
    made = groups(features, wish)
    if not made:
        raise Fault(
            "the map has no feature with a geometry, so there is nothing to make classes for"
        )
    used = {one for feature in features for one in geojson.shown(feature.name(wish.name) or "")}
    if not used:
        missing = missing_keys(features, wish).get(wish.name, "")
        raise Fault(f'no feature has a name in the property "{wish.name}"; {missing}'.rstrip("; "))
    part, lacking = fonts.font_part(wish.font, files, used)
    lines = [
        "# Made by",
        f"#   {wish.made_by}",
        "# which makes it anew. Scales are in 10^-7 degree a pixel.",
        "version = 2",
        f"name = {toml.text(wish.name)}",
        f"rank = {toml.text(wish.rank)}",
        "",
    ]
    for place, group in enumerate(made):
        lines += _class_lines(place, group, wish)
    names = " and, where it lacks a character, ".join(one.family or one.path for one in files)
    lines += [f"# Widths of {names} for the {len(used)} characters that the names have."]
    return "\n".join(lines + part) + "\n", lacking


def _class_lines(place: int, group: Group, wish: Wish) -> list[str]:
    """A class with its comment."""
    first, last = wish.zooms_of(group.value)
    least, most = zooms.range_of(first, last)
    size = wish.sizes[min(place, len(wish.sizes) - 1)]
    what = f"{wish.key}={group.value}" if group.value is not None else "all others"
    until = "inwards" if last is None else f"to {last}"
    lines = [
        f"# {_plural(group)}, {what}, median rank {group.median():g}; zoom {first} {until}.",
        "[[class]]",
        f'geometry = "{group.kind}"',
    ]
    if group.value is not None:
        lines += [f"key = {toml.text(str(wish.key))}", f"value = {toml.text(group.value)}"]
    lines += [f"font = {toml.text(wish.font)}", f"size = {size}", f"priority = {place + 1}"]
    if group.kind == "line":
        lines += [f"ref = {_ref(first, last)}"]
    elif wish.dy:
        lines += [f"dy = {wish.dy}"]
    margin = max(wish.margin, 2) if group.kind == "line" else wish.margin
    return lines + [f'min = "{least}"', f'max = "{most}"', f"margin = {margin}", ""]


def _plural(group: Group) -> str:
    count = len(group.ranks)
    return f"{count} feature{'' if count == 1 else 's'} of the kind {group.kind}"


def _ref(first: int, last: int | None) -> int:
    """The scale at which texts are fitted to lines: of the middle zoom, or two zooms further in."""
    middle = first + 2 if last is None else (first + last) // 2
    return max(1, int(zooms.scale_of(middle)))
