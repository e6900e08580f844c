"""What the program passes over without a word: keys and values that nothing has, ids, places."""

from collections import Counter, defaultdict
from collections.abc import Mapping, Sequence
from dataclasses import dataclass
from typing import Any

from maplabel_kit import geojson, style_keys
from maplabel_kit.along import MADE
from maplabel_kit.geojson import Feature, Number
from maplabel_kit.style import Class, Style
from maplabel_kit.told import listed, near, some
from maplabel_tools import sidestyle
from maplabel_tools.fonts import FontFile
from maplabel_tools.lines import report as lines_report
from maplabel_tools.report import land, scripts
from maplabel_tools.report.survey import Survey

DEGREES = "CRS84", "4326", "4979"
MOST_WIDE = 1024


@dataclass
class Given:
    """What the files hold: the style and its text, the value of the map as it stands, and the files
    of fonts that are told, by their names.
    """

    style: Style
    style_text: str
    map_value: dict[str, Any]
    fonts: Mapping[str, FontFile]

    def raw(self) -> list[dict[str, Any]]:
        """The features as they stand in the file."""
        if self.map_value.get("type") == "Feature":
            return [self.map_value]
        found: list[dict[str, Any]] = self.map_value["features"]
        return found


def warnings(survey: Survey, given: Given) -> list[str]:
    """All sentences about what is silent."""
    features, style = survey.features, given.style
    face = lines_report.face_of(next((one.path for one in given.fonts.values()), None))
    return [
        *style_keys.unknown(given.style_text),
        *_keys(features, style),
        *_values(features, style),
        *_without_class(features, style),
        *_without_name(survey, style),
        *_too_wide(survey, style),
        *_collections(features, given.raw()),
        *_ranks(features, style),
        *_ids(given.raw()),
        *_same_places(survey, style),
        *scripts.lacking(survey, style, given.fonts),
        *scripts.along_lines(survey, style),
        *lines_report.warnings(features, survey.labels, style, face),
        *_system(given.map_value),
        *_coordinates(features),
    ]


def _ids_of(features: Sequence[Feature]) -> str:
    return some([one.id for one in features])


def _keys(features: Sequence[Feature], style: Style) -> list[str]:
    """Keys of the style that no feature has."""
    have = Counter(key for one in features for key in one.properties)
    asked = {style.name: "the name", style.rank: "the rank"}
    for one in style.classes:
        if one.key is not None:
            asked.setdefault(one.key, "the key of classes")
    told = listed(have) if have else "none at all"
    return [
        f'no feature has the property "{key}", which is {what}{near(key, have)}. '
        f"Properties there are: {told}."
        for key, what in asked.items()
        if key not in have and features
    ]


def _called(one: Class) -> str:
    return f"class {one.place} ({one.title()})"


def _values(features: Sequence[Feature], style: Style) -> list[str]:
    """Values of classes that no feature has, and other classes that take nothing."""
    found = []
    values: dict[tuple[str | None, str], Counter[str]] = defaultdict(Counter)
    for key in {one.key for one in style.classes if one.key is not None}:
        for feature in features:
            if (text := feature.text(key)) is not None:
                values[feature.kind, key][text] += 1
    for one in style.classes:
        if one.key is None or one.value is None:
            continue
        have = values[one.kind, one.key]
        if one.value in have or not have:
            continue
        found.append(
            f"{_called(one)} takes no feature: no {one.kind} has {one.key}={one.value}"
            f"{near(one.value, have)}. Values of {one.key} there are: {listed(have)}."
        )
    return found + _empty_classes(features, style)


def _empty_classes(features: Sequence[Feature], style: Style) -> list[str]:
    """Classes that fit features of which others have taken all, and those of a kind that is not
    there.
    """
    taken = {one.place for one in map(style.class_of, features) if one}
    kinds = {one.kind for one in features}
    found = []
    for one in style.classes:
        if one.place in taken:
            continue
        if one.kind not in kinds:
            found.append(f"{_called(one)} takes no feature: there is no {one.kind} in the map.")
        elif not sidestyle.is_placed(style) and any(one.fits(feature) for feature in features):
            found.append(
                f"{_called(one)} takes no feature: classes before it take all that it fits."
            )
    return found


def _without_class(features: Sequence[Feature], style: Style) -> list[str]:
    """Features that no class takes, with the values that come nearest. Lines are meant to have none
    where tools/lines has laid their names.
    """
    has_laid = any(one.key == MADE for one in style.classes)
    lost: dict[str, list[Feature]] = defaultdict(list)
    for one in features:
        if one.kind and style.class_of(one) is None and not (has_laid and one.kind == "line"):
            lost[one.kind].append(one)
    found = []
    for kind, bare in sorted(lost.items()):
        wanted: dict[str, list[str]] = defaultdict(list)
        for fit in style.classes:
            if fit.kind == kind and fit.key and fit.value is not None:
                wanted[fit.key].append(fit.value)
        if not wanted:
            count = f"features without a label for that: {len(bare)}, as {_ids_of(bare)}"
            found.append(f"no class takes any {kind}; {count}.")
        found += [_unwanted(kind, bare, key, values) for key, values in wanted.items()]
    return found


def _unwanted(kind: str, bare: Sequence[Feature], key: str, wanted: Sequence[str]) -> str:
    """What features have where classes want something else."""
    have = Counter(one.text(key) or "(none)" for one in bare)
    first = max(sorted(have), key=lambda value: have[value])
    return (
        f"features of the kind {kind} that no class takes: {len(bare)}. Their values of {key}: "
        f"{listed(have)}; classes want {', '.join(wanted)}{near(first, wanted)}."
    )


def _without_name(survey: Survey, style: Style) -> list[str]:
    """Features whose name is null, empty or no text."""
    bare = survey.without_label("NoName")
    if not bare:
        return []
    return [
        f'features without a name, since "{style.name}" is absent, null, empty or no text: '
        f"{len(bare)}, as {_ids_of(bare)}. They get no label and count among the 32,768 features; "
        f"leave them out, or fill in the name."
    ]


def _too_wide(survey: Survey, style: Style) -> list[str]:
    """Names that reach too far from their anchors."""
    wide = survey.without_label("TooWide")
    if not wide:
        return []
    told = []
    for one in wide[:3]:
        fit, name = style.class_of(one), geojson.shown(one.name(style.name) or "")
        if fit is not None:
            width = style.fonts[fit.font].width(name, fit.size)
            told.append(f'{one.id} "{name[:30]}.." ({width} px)')
    more = f" and {len(wide) - len(told)} more" if len(wide) > len(told) else ""
    return [
        f"names that reach further than 512 pixels from their anchors (TooWide): {len(wide)}, as "
        f"{', '.join(told)}{more}. Shorten them, or give their class a lesser size or dx."
    ]


def _collections(features: Sequence[Feature], raw: Sequence[dict[str, Any]]) -> list[str]:
    """Features whose geometry is a collection, and others without a geometry."""
    kinds: dict[str, list[Feature]] = defaultdict(list)
    for one, told in zip(features, raw):
        geometry = told.get("geometry")
        kind = geometry.get("type") if isinstance(geometry, dict) else None
        if kind == "GeometryCollection":
            kinds["collection"].append(one)
        elif one.kind is None:
            kinds["none"].append(one)
    found = []
    if mixed := kinds["collection"]:
        found.append(
            f"features whose geometry is a GeometryCollection, which counts as none: {len(mixed)}, "
            f"as {_ids_of(mixed)}. `ogr2ogr -explodecollections` makes a feature of each part."
        )
    if bare := kinds["none"]:
        found.append(
            f"features without a geometry: {len(bare)}, as {_ids_of(bare)}. They get no label."
        )
    return found


def _ranks(features: Sequence[Feature], style: Style) -> list[str]:
    """Ranks that are there and count as 0."""
    told = [one for one in features if isinstance(one.properties.get(style.rank), str)]
    texts = [one for one in told if not isinstance(one.properties[style.rank], Number)]
    below = [
        one
        for one in told
        if isinstance(one.properties[style.rank], Number)
        and one.properties[style.rank].startswith("-")
        and one.properties[style.rank].strip("-0.eE+")
    ]
    found = []
    if texts:
        found.append(
            f'features whose rank "{style.rank}" is a text, which counts as 0: {len(texts)}. Make '
            f"a number of it (CAST({style.rank} AS INTEGER) with ogr2ogr)."
        )
    if below:
        found.append(
            f'features whose rank "{style.rank}" is below 0, which counts as 0: {len(below)}, as '
            f"{_ids_of(below)}. Ranks are told apart from 0 on."
        )
    return found


def _ids(raw: Sequence[dict[str, Any]]) -> list[str]:
    """Ids that are missing or stand twice."""
    ids = [str(one["id"]) for one in raw if isinstance(one.get("id"), str)]
    missing, found = len(raw) - len(ids), []
    if missing:
        found.append(
            f"features without an id: {missing} of {len(raw)}. They are called #0, #1 .. by their "
            "places in the file, and otherwise once it is made anew "
            "(ogr2ogr -lco ID_FIELD=COLUMN makes ids)."
        )
    twice = {one: count for one, count in Counter(ids).items() if count > 1}
    if twice:
        found.append(
            "ids that stand more than once, of which only the first feature keeps each: "
            f"{listed(twice)}."
        )
    return found


def _same_places(survey: Survey, style: Style) -> list[str]:
    """Labels with one anchor, of which at most one is shown at a time."""
    names = {one.id: one.name(style.name) for one in survey.features}
    places: dict[tuple[int, int], list[str]] = defaultdict(list)
    for one in survey.labels:
        places[one.x, one.y].append(one.id)
    shared = [ids for ids in places.values() if len(ids) > 1]
    shared.sort(key=lambda ids: (-len(ids), ids))
    if not shared:
        return []
    told = "; ".join(
        ", ".join(f"{one} {names.get(one) or ''}".strip() for one in ids[:3]) for ids in shared[:3]
    )
    same = sum(len({names.get(one) for one in ids}) < len(ids) for ids in shared)
    return [
        f"places with two labels or more: {len(shared)}, with one name twice: {same}. They are, "
        f"the fullest first: {told}."
    ]


def _system(value: dict[str, Any]) -> list[str]:
    """A member `crs` that tells another system than degrees."""
    crs = value.get("crs")
    if not isinstance(crs, dict):
        return []
    properties = crs.get("properties")
    name = str(properties.get("name")) if isinstance(properties, dict) else "without a name"
    if any(name.endswith(one) for one in DEGREES):
        return []
    return [
        f'the map has a member `crs`, "{name}", which is passed over: its numbers are taken as '
        "degrees of longitude and latitude. Export it by ogr2ogr -t_srs EPSG:4326."
    ]


def _coordinates(features: Sequence[Feature]) -> list[str]:
    """Longitudes beyond 180, and whether latitude seems to stand first."""
    found = [(one, place) for one in features if (place := geojson.first_place(one.geometry))]
    north = [place for _, place in found if abs(place[1]) > 90]
    if north:
        x, y = north[0]
        return [
            f"features with a latitude beyond 90, as {x}, {y}: {len(north)} of {len(found)}; "
            "perhaps latitude stands first. A position is longitude, latitude."
        ]
    return _beyond(features) + land.swapped([place for _, place in found])


def _beyond(features: Sequence[Feature]) -> list[str]:
    """Features with a longitude beyond 180 degrees."""
    east = [
        one
        for one in features
        if any(abs(float(place[0])) > 180 for place in geojson.positions(one.geometry))
    ]
    if not east:
        return []
    return [
        f"features with a longitude beyond 180: {len(east)}, as {_ids_of(east)}. Nothing wraps "
        "there: they lie beyond the edge of the world map. `ogr2ogr -wrapdateline` cuts them."
    ]
