"""The label of a feature, or the reason why it has none."""

from collections import namedtuple

from ml_anchor import area_anchor, point_anchor
from ml_cone import GREATEST_OFFSET, LEAST_OFFSET, Label
from ml_json import Num, whole_part
from ml_river import chain_of, line_anchor, widest_run
from ml_style import class_of
from ml_text import advance, clusters, label_text, width

Letters = namedtuple("Letters", "size units ref")


class NoLabel(Exception):
    """The reason why a feature has no label."""


def straight_box(made, whole):
    dx, dy = (0, 0) if made.kind == "line" else (made.dx, made.dy)
    left, bottom = dx - whole // 2, dy - made.size // 2
    return left, bottom, left + whole, bottom + made.size


def place_line(parts, made, font, text, whole):
    """The anchor of a text along a line, and its chain of boxes with the pieces, or None."""
    lines = [parts] if isinstance(parts[0][0], int) else parts
    run = widest_run(lines)
    anchor = line_anchor(lines, run)
    pieces = clusters(text)
    advances = [advance(font, piece) for piece in pieces]
    boxes = run and chain_of(run, advances, whole, Letters(made.size, font.units, made.ref))
    return anchor, boxes, tuple(pieces)


def place(feature, made, font, text):
    """Anchor, boxes and pieces."""
    whole = width(font, made.size, text)
    kind, parts = feature.geometry
    boxes = None
    if made.kind == "point":
        anchor = point_anchor(kind, parts)
    elif made.kind == "area":
        anchor = area_anchor(kind, parts)
    else:
        anchor, boxes, pieces = place_line(parts, made, font, text, whole)
    if boxes:
        return anchor, boxes, pieces
    box = straight_box(made, whole)
    if box[0] < LEAST_OFFSET or box[2] > GREATEST_OFFSET:
        raise NoLabel("TooWide")
    return anchor, (box,), (text,)


def label_of(style, feature):
    """The label; NoLabel with the first reason that holds."""
    if feature.geometry is None:
        raise NoLabel("NoGeometry")
    made = class_of(style, feature)
    if made is None:
        raise NoLabel("NoClass")
    text = label_text(feature.props.get(style.name))
    if text is None:
        raise NoLabel("NoName")
    anchor, boxes, pieces = place(feature, made, style.fonts[made.font], text)
    rank = feature.props.get(style.rank)
    rank = whole_part(rank) if isinstance(rank, Num) else 0
    order = (made.priority, -rank, feature.id.encode())
    return Label(order, feature.id, anchor, boxes, pieces, (made.min, made.max), made.margin)
