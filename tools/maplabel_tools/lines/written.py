"""The features, classes and fonts of names along lines, as texts."""

import re
import tomllib
from collections.abc import Iterable, Mapping, Sequence
from dataclasses import dataclass
from fractions import Fraction
from typing import Any

from maplabel_kit import geojson, toml
from maplabel_kit.along import HEIGHT, MADE, SPACING, Face
from maplabel_kit.faults import Fault
from maplabel_tools.lines.chains import PAD, FontChoice, advance_of
from maplabel_tools.lines.labels import Label
from maplabel_tools.lines.wish import Wish

HEADER = re.compile(r"^[ \t]*\[", re.M)
CLASS_HEADER = re.compile(r"^[ \t]*\[\[[ \t]*class[ \t]*\]\]", re.M)
# What a style takes at most.
MOST_UNITS, MOST_ADVANCE, LEAST_REF = 65535, 65535, 8


@dataclass(frozen=True)
class Kind:
    """A class that is made: its levels, the height of boxes and their font."""

    first: int
    last: int
    size: int
    font: FontChoice
    is_narrow: bool

    def value(self, wish: Wish) -> str:
        """The value of the property that names the class."""
        last = f"{wish.zooms[self.last]}{'.25' if self.is_narrow else ''}"
        return f"{wish.zooms[self.first]}-{last} {self.size} {self.font.name()}"

    def scales(self, wish: Wish) -> tuple[Fraction, Fraction]:
        """The scales from which on and below which its names are shown."""
        bounds = wish.bounds()
        least = wish.narrow_bound(self.last) if self.is_narrow else bounds[self.last + 1]
        return least, bounds[self.first]


def kind_of(label: Label) -> Kind:
    """The class of a label."""
    size, font = label.chain.size, label.chain.font
    return Kind(label.first, label.last, size, font, label.is_narrow())


@dataclass(frozen=True)
class Made:
    """A feature that was made: its id, the label and its text."""

    id: str
    label: Label
    text: str


def feature_of(
    label: Label, own: str, keys: tuple[str, str], wish: Wish, shared: Mapping[str, Any]
) -> Made:
    """The feature of a label, under the keys of name and rank; behind its own properties stand
    those that its lines share.
    """
    rank = round(100 * (label.last - label.first + 1) - 20 * min(label.fit.cost, 4))
    properties: dict[str, Any] = {
        keys[0]: label.chain.text,
        keys[1]: max(0, rank),
        MADE: kind_of(label).value(wish),
        HEIGHT: label.name.height,
    }
    if label.name.tracking:
        properties[SPACING] = label.name.tracking
    properties = {**properties, **{key: shared[key] for key in shared if key not in properties}}
    coordinates = [
        [geojson.Number(_degrees(x)), geojson.Number(_degrees(y))] for x, y in line_of(label)
    ]
    geometry = {"type": "LineString", "coordinates": coordinates}
    return Made(own, label, geojson.feature_text(own, geometry, properties))


def _degrees(units: int) -> str:
    """A coordinate of the engine in degrees, exactly."""
    sign = "-" if units < 0 else ""
    return f"{sign}{abs(units) // 10_000_000}.{abs(units) % 10_000_000:07d}"


def line_of(label: Label) -> list[tuple[int, int]]:
    """A line that gives just the boxes of a label at its scale, with its anchor on the line that is
    named.

    At the middle of each box the line has the height of that box. At the anchor it dips for one
    unit to the line that is named, from where the engine counts heights.
    """
    ref = ref_of(label.scale)
    x0, y0 = round(label.place[0]), round(label.place[1])
    heights: dict[int, int] = {}
    for left, bottom, right, _ in label.chain.boxes:
        heights.setdefault(x0 + (left + right) * ref // 2, bottom + label.chain.size // 2)
    xs = sorted(heights)
    end = max(abs(x - x0) for x in xs) + ref
    raised = [
        (x0 - end, heights[xs[0]]),
        *((x, heights[x]) for x in xs),
        (x0 + end, heights[xs[-1]]),
    ]
    line = [(x, y0 + height * ref + ref // 2) for x, height in raised if x != x0]
    k = next(k for k, (x, _) in enumerate(line) if x > x0)
    before, after = (x0 - 1, line[k - 1][1]), (x0 + 1, line[k][1])
    return [
        *line[:k],
        *([before] if line[k - 1][0] != before[0] else []),
        (x0, y0),
        *([after] if line[k][0] != after[0] else []),
        *line[k:],
    ]


def ref_of(scale: float) -> int:
    """The scale at which a class fits texts to lines."""
    return max(LEAST_REF, round(scale))


def class_lines(kind: Kind, wish: Wish, priorities: tuple[int, int]) -> list[str]:
    """A class; the priorities are that of names that stay to the last zoom, and that of others."""
    least, most = kind.scales(wish)
    return [
        "",
        "[[class]]",
        'geometry = "line"',
        f'key = "{MADE}"',
        f"value = {toml.text(kind.value(wish))}",
        f"font = {toml.text(kind.font.name())}",
        f"size = {kind.size}",
        f"priority = {priorities[1] if least else priorities[0]}",
        f"ref = {ref_of(wish.scales()[kind.first])}",
        f'min = "{_fraction(least)}"',
        f'max = "{_fraction(most)}"',
        f"margin = {wish.margin}",
    ]


def _fraction(value: Fraction) -> str:
    return (
        f"{value.numerator}" if value.denominator == 1 else f"{value.numerator}/{value.denominator}"
    )


def font_lines(font: FontChoice, face: Face, characters: Iterable[str]) -> list[str]:
    """A font of the style: the advances of the font file, with other units."""
    name = toml.key(font.name())
    advances = {one: advance_of(face, one) for one in characters if one != PAD}
    lines = [
        "",
        f"[fonts.{name}]",
        *([f"family = {toml.text(face.family)}"] if face.family else []),
        f"units = {min(font.units, MOST_UNITS)}",
        "default = 500",
        "",
        f"[fonts.{name}.advances]",
    ]
    lines += [f"{toml.text(one)} = {wide}" for one, wide in sorted(advances.items()) if wide != 500]
    return lines + ([f"{toml.text(PAD)} = {min(font.pad, MOST_ADVANCE)}"] if font.pad else [])


def style_text(
    base: str, made: Sequence[Made], face: Face, wish: Wish, priority: int | None
) -> str:
    """The style of a base with the classes and fonts of what was made behind its own."""
    tree = tomllib.loads(base)
    last = max((one["priority"] for one in tree.get("class", [])), default=0)
    behind = max(last + 1, priority or 0)
    priorities = (priority if priority is not None else behind, behind)
    kinds = sorted(
        {kind_of(one.label) for one in made},
        key=lambda one: (one.first, one.last, one.is_narrow, one.size, one.font.name()),
    )
    fonts = sorted({one.font for one in kinds}, key=lambda one: (one.units, one.pad))
    characters = sorted({letter for one in made for letter in one.label.name.text})
    lines = [
        "",
        "# Names along lines, made by tools/lines: a class for each range of zooms, height of "
        "boxes and font.",
    ]
    for kind in kinds:
        lines += class_lines(kind, wish, priorities)
    for font in fonts:
        lines += font_lines(font, face, characters)
    _must_add(tree, base, lines)
    return base.rstrip("\n") + "\n" + "\n".join(lines) + "\n"


def _must_add(tree: dict[str, Any], base: str, lines: Sequence[str]) -> None:
    """A style whose classes or fonts are written in one line cannot be added to."""
    heads = [line for line in lines if line.startswith("[")]
    try:
        found = len(tomllib.loads("\n".join([base, *heads])).get("class", []))
    except tomllib.TOMLDecodeError as error:
        raise Fault(
            f"no classes can be added to the style ({error}); write its classes as [[class]] "
            "and its fonts as [fonts.NAME]"
        ) from None
    if found != len(tree.get("class", [])) + heads.count("[[class]]"):
        raise Fault("no classes can be added to the style; write its classes as tables [[class]]")


def without_line_classes(text: str) -> str:
    """A style without its classes of lines, for which those that are made stand."""
    tree = tomllib.loads(text)
    kept = [one for one in tree.get("class", []) if one.get("geometry") != "line"]
    if len(kept) == len(tree.get("class", [])):
        return text
    starts = [match.start() for match in CLASS_HEADER.finditer(text)]
    for number in reversed(range(len(starts))):
        if tree["class"][number].get("geometry") == "line":
            text = (
                text[: _comment_before(text, starts[number])]
                + text[_end_of(text, starts[number]) :]
            )
    if tomllib.loads(text) != {**tree, "class": kept} and (
        kept or tomllib.loads(text) != {k: v for k, v in tree.items() if k != "class"}
    ):
        raise Fault(
            "the classes of lines cannot be taken out of the style; write each class as a "
            "table [[class]]"
        )
    return text


def _end_of(text: str, begin: int) -> int:
    """Where the table that begins at a place ends, with the comment of the next one left to
    that.
    """
    after = HEADER.search(text, text.index("\n", begin))
    return _comment_before(text, after.start()) if after else len(text)


def _comment_before(text: str, at: int) -> int:
    """Where the lines of comment begin that stand right before a place."""
    while True:
        before = text.rfind("\n", 0, max(at - 1, 0)) + 1
        if before >= at or not text[before:at].lstrip().startswith("#"):
            return at
        at = before
