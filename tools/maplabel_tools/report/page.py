"""The report as one page: tables, a chart of names by zoom, and small pictures of four zooms."""

from collections.abc import Sequence
from html import escape
from typing import Any

from maplabel_kit import zooms
from maplabel_kit.client import get
from maplabel_kit.server import Server
from maplabel_tools.report import text
from maplabel_tools.report.survey import Extent, Middle, Survey

PICTURE = 480, 320
STYLE = """body { font: 15px/1.4 "Liberation Sans", Arial, sans-serif; margin: 2em auto;
  max-width: 62em; color: #222 }
table { border-collapse: collapse; margin: 0.5em 0 1.5em }
th, td { padding: 0.15em 0.7em; text-align: right }
th:first-child, td:first-child { text-align: left } th { border-bottom: 1px solid #888 }
h1 { font-size: 1.4em } h2 { font-size: 1.1em; margin-top: 1.6em }
.warn { background: #fff3d6; padding: 0.4em 0.7em }
.pictures { display: flex; flex-wrap: wrap; gap: 1em } figure { margin: 0 }
figcaption { color: #555 }
.pictures svg { background: #eef3f6; border: 1px solid #aaa; width: 480px; height: 320px }
.pictures text { font-family: "Liberation Serif", "Times New Roman", serif;
  transform: translateY(-0.2em) }"""
HIGH, BAR = 160, 34


def pictures(server: Server, survey: Survey) -> list[tuple[str, str]]:
    """Four pictures from the first zoom that is told to the last: their captions and the texts of
    `/svg`.
    """
    if not survey.rows or survey.extent is None:
        return []
    deepest = len(survey.rows) - 1
    chosen = [survey.rows[place] for place in sorted({round(k * deepest / 3) for k in range(4)})]
    middles = [_middle(survey.extent)] + [row.fullest for row in chosen[1:]]
    width, height = PICTURE
    asked = [
        get("/svg", cx=x, cy=y, w=width, h=height, s=zooms.asked(zooms.scale_of(row.zoom)))
        for row, (x, y) in zip(chosen, middles)
    ]
    return [
        (f"zoom {row.zoom}, about {x / zooms.DEGREE:.4g}, {y / zooms.DEGREE:.4g}", reply.text())
        for row, (x, y), reply in zip(chosen, middles, server.ask(asked))
    ]


def _middle(extent: Extent) -> Middle:
    """The middle of the whole map."""
    west, south, east, north = extent
    return round((west + east) / 2 * zooms.DEGREE), round((south + north) / 2 * zooms.DEGREE)


def page(
    told: dict[str, Any], shown: Sequence[tuple[str, str]], style_path: str, map_path: str
) -> str:
    """The text of the page."""
    title = f"{escape(map_path)} under {escape(style_path)}"
    counts = "{features} features, {labels} labels, {never} of them never shown."
    parts = [
        f'<!doctype html><html lang="en"><head><meta charset="utf-8"><title>{title}</title>'
        f"<style>{STYLE}</style></head><body><h1>{title}</h1>",
        f"<p>{counts.format(**told)}</p>",
    ]
    parts += [f'<p class="warn">{escape(one)}</p>' for one in told["warnings"]]
    parts += ["<h2>Classes</h2>", _table(text.class_rows(told["classes"]))]
    if told["zooms"]:
        parts += ["<h2>Names by zoom</h2>", _chart(told["zooms"])]
        parts += [_table(text.zoom_rows(told["zooms"]))]
    parts += _blockers(told["blockers"])
    parts += [
        "<h2>Drawn on a map whose y is stretched</h2>",
        f"<p>Do boxes stay apart? By the style: {escape(told['stretched']['style'])}. "
        f"By this map: {escape(told['stretched']['map'])}.</p>",
        '<h2>Pictures</h2><div class="pictures">',
    ]
    parts += [
        f"<figure>{drawing}<figcaption>{escape(caption)}</figcaption></figure>"
        for caption, drawing in shown
    ]
    return "\n".join([*parts, "</div></body></html>", ""])


def _blockers(blockers: Sequence[dict[str, Any]]) -> list[str]:
    if not blockers:
        return []
    rows = [["name", "id", "labels that it leaves no scale"]]
    rows += [[one["name"] or "", one["id"], str(one["blocks"])] for one in blockers]
    return ["<h2>What blocks the names that are never shown</h2>", _table(rows)]


def _table(rows: Sequence[Sequence[str]]) -> str:
    head = "".join(f"<th>{escape(one)}</th>" for one in rows[0])
    body = "".join(
        "<tr>" + "".join(f"<td>{escape(one)}</td>" for one in row) + "</tr>" for row in rows[1:]
    )
    return f"<table><tr>{head}</tr>{body}</table>"


def _chart(zoom_list: Sequence[dict[str, Any]]) -> str:
    """Bars of the median number of names in a window at each zoom, with least and most as a thin
    line.
    """
    top = max(max(one["most"] for one in zoom_list), 1)
    wide, tall = BAR * len(zoom_list) + 50, HIGH + 40
    drawn = [f'<svg width="{wide}" height="{tall}" font-size="12" text-anchor="middle">']
    drawn += [_bar(40 + place * BAR, one, top) for place, one in enumerate(zoom_list)]
    drawn.append(f'<text x="20" y="20">{top}</text><text x="20" y="{HIGH + 15}">0</text></svg>')
    told = "<p>Names in a window: the bar is the median, the line goes from least to most.</p>"
    return "".join(drawn) + told


def _bar(x: int, one: dict[str, Any], top: int) -> str:
    tall, low, most = (HIGH * one[key] / top for key in ("median", "least", "most"))
    foot = HIGH + 15
    return (
        f'<rect x="{x + 4}" y="{foot - tall:.1f}" width="{BAR - 8}" height="{tall:.1f}" '
        f'fill="#4a7ba6"/><path d="M{x + BAR / 2} {foot - low:.1f}V{foot - most:.1f}" '
        f'stroke="#222"/><text x="{x + BAR / 2}" y="{HIGH + 32}">{one["zoom"]}</text>'
    )
