"""Scripts of names: letters that a font lacks, and scripts whose letters cannot stand alone."""

import unicodedata
from collections import Counter, defaultdict
from collections.abc import Iterable, Mapping

from maplabel_kit.geojson import Feature
from maplabel_kit.style import Font, Style
from maplabel_kit.told import listed, some
from maplabel_tools.fonts import FontFile
from maplabel_tools.report.survey import Survey

# Scripts whose letters join or change with their neighbours, and those that run from right to left.
JOINED = {
    "arabic",
    "syriac",
    "thaana",
    "nko",
    "mongolian",
    "devanagari",
    "bengali",
    "gurmukhi",
    "gujarati",
    "oriya",
    "tamil",
    "telugu",
    "kannada",
    "malayalam",
    "sinhala",
    "myanmar",
    "khmer",
    "tibetan",
}
TO_THE_LEFT = {"hebrew", "arabic", "syriac", "thaana", "nko", "samaritan", "mandaic", "adlam"}
UPRIGHT = {"cjk", "hiragana", "katakana", "hangul", "bopomofo", "yi"}


def script_of(character: str) -> str:
    """The script of a letter by its Unicode name; of any other character `signs`."""
    if not unicodedata.category(character).startswith("L"):
        return "signs"
    return unicodedata.name(character, "UNKNOWN").split(" ")[0].split("-")[0].lower()


def scripts_of(text: str) -> set[str]:
    """The scripts of a text."""
    return {script_of(one) for one in text} - {"signs"}


def lacking(survey: Survey, style: Style, files: Mapping[str, FontFile]) -> list[str]:
    """Characters that a font does not have, by script."""
    used: dict[str, Counter[str]] = defaultdict(Counter)
    for one in survey.features:
        fit, name = style.class_of(one), one.name(style.name)
        if fit and name:
            used[fit.font].update(name)
    found = []
    for font, counts in sorted(used.items()):
        found += _lacking(font, counts, style.fonts[font], files.get(font))
    return found


def _lacking(font: str, counts: Counter[str], widths: Font, file: FontFile | None) -> list[str]:
    """What a font lacks: by its file, where it is told, else the scripts of which the style lists
    no width.
    """
    if file is not None:
        rest = [one for one in counts if ord(one) not in file]
    else:
        known = {script_of(one) for one in widths.advances} | {"signs"}
        rest = [one for one in counts if one not in widths.advances and script_of(one) not in known]
    if not rest:
        return []
    scripts: Counter[str] = Counter()
    for one in rest:
        scripts[script_of(one)] += counts[one]
    what = "the font file lacks" if file is not None else "the style lists no width for"
    told = " ".join(sorted(rest, key=lambda one: (-counts[one], one))[:12])
    return [
        f"font {font}: {what} {len(rest)} characters of the names, by script: {listed(scripts)}; "
        f"among them {told}. Each is taken to be as wide as the default ({widths.default}). "
        "tools/style --fallback FONT takes their widths from another font."
    ]


def along_lines(survey: Survey, style: Style) -> list[str]:
    """Names along lines in scripts whose letters do not stand alone as Latin ones do, by script."""
    bent = {one.id for one in survey.labels if len(one.boxes) > 1}
    by_script: dict[str, list[Feature]] = defaultdict(list)
    for feature in survey.features:
        if feature.id in bent:
            for script in scripts_of(feature.name(style.name) or ""):
                by_script[script].append(feature)
    return [
        f"names along lines in the script {script}: {len(found)}, as "
        f"{_called(found, style)}. {told}"
        for script, found in sorted(by_script.items())
        if (told := _told(script))
    ]


def _called(found: Iterable[Feature], style: Style) -> str:
    return some([f"{one.id} {one.name(style.name)}" for one in found], 3)


def _told(script: str) -> str | None:
    """What a reader sees of a script whose letters are placed one by one."""
    if script in TO_THE_LEFT:
        joins = " and its letters join" if script in JOINED else ""
        return f"It runs from right to left{joins}: a page has to draw such a name as one run."
    if script in JOINED:
        return (
            "Its letters change with their neighbours: a page has to draw such a name as one run."
        )
    if script in UPRIGHT:
        return "Its characters stand upright: along a steep line they are hard to read."
    return None
