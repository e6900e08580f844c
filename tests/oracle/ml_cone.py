"""Labels, and at which scales they overlap, are active and meet a window.

Each question about a scale is a list of conditions `u < v * s` with whole
numbers `u` and `v`. A condition can change only at its critical scale `u / v`,
so between two neighbouring critical scales one trial decides.
"""

from fractions import Fraction

LEAST_OFFSET, GREATEST_OFFSET = -512, 512
MOST_BOXES = 64
GREATEST_MARGIN = 64


class Label:
    """A label; `order` is its place in the priority order."""

    __slots__ = ("order", "id", "x", "y", "boxes", "pieces", "min", "max", "margin")

    def __init__(self, order, ident, at, boxes, pieces, scales, margin=0):
        self.order, self.id = order, ident
        self.x, self.y = at
        self.boxes, self.pieces = boxes, pieces
        self.min, self.max = scales
        self.margin = margin

    def content(self):
        """All that tells two labels of one map apart."""
        return (
            self.order,
            self.id,
            self.x,
            self.y,
            self.boxes,
            self.pieces,
            self.min,
            self.max,
            self.margin,
        )

    def text(self):
        return "".join(self.pieces)


def widened(label, box):
    """The box with the label's margin on every side."""
    left, bottom, right, top = box
    margin = label.margin
    return left - margin, bottom - margin, right + margin, top + margin


def box_conditions(a, box_a, b, box_b):
    """When the boxes, each widened by its label's margin, overlap."""
    left_a, bottom_a, right_a, top_a = widened(a, box_a)
    left_b, bottom_b, right_b, top_b = widened(b, box_b)
    return (
        (a.x - b.x, right_b - left_a),
        (b.x - a.x, right_a - left_b),
        (a.y - b.y, top_b - bottom_a),
        (b.y - a.y, top_a - bottom_b),
    )


def window_conditions(label, box, view):
    """When the box, without any margin, meets the view's window."""
    left, bottom, right, top = box
    east, north = 2 * (label.x - view.cx), 2 * (label.y - view.cy)
    return (
        (east, view.w - 2 * left),
        (-east, view.w + 2 * right),
        (north, view.h - 2 * bottom),
        (-north, view.h + 2 * top),
    )


def hold_at(conditions, over, under):
    """Whether all conditions hold at the scale `over / under`."""
    return all(u * under < v * over for u, v in conditions)


def critical_scales(conditions):
    """The scales above 0 at which a condition can change."""
    return {Fraction(u, v) for u, v in conditions if v and (u > 0) == (v > 0) and u}


def between(low, high):
    """A fraction strictly between two fractions, as numerator and denominator."""
    return low.numerator + high.numerator, low.denominator + high.denominator


def overlap_conditions(a, b):
    """One list of conditions for each pair of boxes."""
    return [box_conditions(a, p, b, q) for p in a.boxes for q in b.boxes]


def is_active(begin, until, scale):
    """Whether a label with this active range is active at the scale."""
    return begin <= scale < until


def meets(label, view):
    """Whether a box of the label meets the window at the view's scale."""
    over, under = view.scale.numerator, view.scale.denominator
    return any(hold_at(window_conditions(label, box, view), over, under) for box in label.boxes)
