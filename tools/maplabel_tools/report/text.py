"""The report as lines of text, and as a value for scripts."""

from collections import Counter
from collections.abc import Sequence
from typing import Any

from maplabel_kit import labels, zooms
from maplabel_kit.style import Class, Style
from maplabel_tools.report import survey as surveys
from maplabel_tools.report.survey import ClassRow, Survey, ZoomRow

REASONS = ("NoGeometry", "NoClass", "NoName", "TooWide")
Told = dict[str, Any]


def value(survey: Survey, style: Style, sentences: Sequence[str]) -> Told:
    """All of the report as one value of lists and maps."""
    names = {one.id: one.name(style.name) for one in survey.features}
    return {
        "features": len(survey.features),
        "labels": len(survey.labels),
        "extent": survey.extent,
        "classes": [_class_value(one) for one in surveys.by_class(survey, style)],
        "zooms": [_zoom_value(one) for one in survey.rows],
        "never": sum(one.is_never_shown() for one in survey.labels),
        "blockers": [
            {"id": own, "name": names.get(own), "blocks": count}
            for own, count in surveys.blockers(survey)
        ],
        "warnings": list(sentences),
        "stretched": stretched(survey, style),
        "reasons": dict(Counter(survey.reasons.values())),
    }


def _class_value(row: ClassRow) -> Told:
    return {
        "class": row.number,
        "title": row.title,
        **{key: row.counts[key] for key in ("features", "labels", "never")},
        "reasons": {key: row.counts[key] for key in REASONS if row.counts[key]},
    }


def _zoom_value(row: ZoomRow) -> Told:
    return {
        "zoom": row.zoom,
        "scale": zooms.asked(zooms.scale_of(row.zoom)),
        "active": row.active,
        "least": row.least,
        "median": row.median,
        "most": row.most,
        "covered": round(row.covered, 4),
        "verdict": row.verdict(),
    }


def stretched(survey: Survey, style: Style) -> dict[str, str]:
    """Whether boxes stay apart where y is stretched, as on Web Mercator drawn from degrees: by
    style and by map.
    """
    height = style.common_height()
    lines = [one for one in style.classes if one.kind == "line"]
    here = labels.common_height(survey.labels)
    if height is not None and not lines:
        by_style = f"yes: the boxes of all classes reach the height {height}"
    elif height is not None:
        by_style = (
            f"not surely: class {lines[0].place} is of lines, and a name along a line has letters "
            f"at several heights; without lines yes, at the height {height}"
        )
    else:
        by_style = "not surely: " + _parted(style)
    if here is not None:
        return {"style": by_style, "map": f"yes: all boxes reach the height {here}"}
    return {"style": by_style, "map": "not surely: no height has all boxes"}


def _parted(style: Style) -> str:
    """The two classes of which one begins above the end of the other."""
    flat = [one for one in style.classes if one.kind != "line"]
    upper = max(flat, key=lambda one: one.reach()[0])
    lower = min(flat, key=lambda one: one.reach()[1])
    return (
        f"with their margins the boxes of class {_called(upper)} begin at {upper.reach()[0]} and "
        f"those of class {_called(lower)} end at {lower.reach()[1]} pixels above the anchor"
    )


def _called(one: Class) -> str:
    return f"{one.place} ({one.called})" if one.called else str(one.place)


def is_empty(told: Told) -> bool:
    """Whether nothing is shown at any scale."""
    return int(told["labels"]) == int(told["never"])


def lines(told: Told, style_path: str, map_path: str) -> list[str]:
    """The report as lines."""
    extent = ""
    if told["extent"]:
        extent = ", from {:.5g}, {:.5g} to {:.5g}, {:.5g} degrees".format(*told["extent"])
    counts = f"{told['features']} features, {told['labels']} labels"
    found = [f"{map_path} under {style_path}: {counts}{extent}", ""]
    found += table(class_rows(told["classes"])) + [""]
    found += _zoom_lines(told["zooms"]) + _never_lines(told)
    found += [
        "Drawn on a map whose y is stretched (Web Mercator from degrees), do boxes stay apart?",
        f"  by the style: {told['stretched']['style']}",
        f"  by this map:  {told['stretched']['map']}",
        "",
    ]
    found += [f"Look at: {one}" for one in told["warnings"]] or ["Nothing else to look at."]
    return found


def table(rows: Sequence[Sequence[str]]) -> list[str]:
    """Rows of texts in columns; the first column to the left, the others to the right."""
    widths = [max(len(row[k]) for row in rows) for k in range(len(rows[0]))]
    return [
        "  ".join(
            text.ljust(width) if k == 0 else text.rjust(width)
            for k, (text, width) in enumerate(zip(row, widths))
        ).rstrip()
        for row in rows
    ]


def class_rows(classes: Sequence[Told]) -> list[list[str]]:
    """The table of classes."""
    rows = [["class", "features", "labels", "never shown", "no label because"]]
    for one in classes:
        number = "" if one["class"] is None else f"{one['class']} "
        reasons = ", ".join(f"{name} {count}" for name, count in one["reasons"].items()) or "-"
        counts = [str(one[key]) for key in ("features", "labels", "never")]
        rows.append([number + one["title"], *counts, reasons])
    return rows


def zoom_rows(zoom_list: Sequence[Told]) -> list[list[str]]:
    """The table of zooms."""
    rows = [["zoom", "scale", "on the map", "least", "median", "most", "covered", ""]]
    for one in zoom_list:
        scale = float(zooms.scale_of(one["zoom"]))
        rows.append(
            [
                str(one["zoom"]),
                f"{scale:.6g}",
                str(one["active"]),
                str(one["least"]),
                f"{one['median']:g}",
                str(one["most"]),
                f"{one['covered']:.0%}",
                one["verdict"],
            ]
        )
    return rows


def _zoom_lines(zoom_list: Sequence[Told]) -> list[str]:
    if not zoom_list:
        return ["No name is shown at any zoom from 0 to 18.", ""]
    width, height = surveys.WINDOW
    head = (
        f"Names by zoom; least, median and most in windows of {width} by {height} pixels about "
        "anchors of labels:"
    )
    return [head, *table(zoom_rows(zoom_list)), ""]


def _never_lines(told: Told) -> list[str]:
    if not told["labels"]:
        return [_nothing(told), ""]
    if not told["never"]:
        return ["Every label is shown at some scale.", ""]
    blockers = told["blockers"]
    names = ", ".join(f"{one['name'] or one['id']} ({one['blocks']})" for one in blockers)
    return [f"{told['never']} labels are never shown. Most of them are blocked by: {names}", ""]


def _nothing(told: Told) -> str:
    """Why there is no label at all."""
    if not told["features"]:
        return "There is no label: the map has no feature."
    reasons = ", ".join(f"{name} {count}" for name, count in told["reasons"].items())
    return f"There is no label: none of {told['features']} features gets one ({reasons})."
