"""Views: the five words of one, and which labels it shows."""

from collections import namedtuple

from ml_cone import is_active, meets
from ml_ratio import FURTHEST, read_coordinate, read_fraction, whole_within

View = namedtuple("View", "cx cy w h scale")
NAMES = ("cx", "cy", "w", "h", "s")


def read_side(text):
    """The even side of a window in pixels, or None."""
    side = whole_within(text, 2, 4096)
    return None if side is None or side % 2 else side


def read_scale(text):
    """The scale of a view, or None."""
    scale = read_fraction(text)
    return scale if scale is not None and 0 < scale < FURTHEST else None


READERS = (read_coordinate, read_coordinate, read_side, read_side, read_scale)


def read_view(words):
    """The view of five words, or None."""
    if len(words) != len(READERS):
        return None
    parts = [read(word) for read, word in zip(READERS, words)]
    return None if None in parts else View(*parts)


def shown(labels, spans, view):
    """The places of the labels that a view shows; a span is where a label is active."""
    return [
        place
        for place, (label, (begin, until)) in enumerate(zip(labels, spans))
        if is_active(begin, until, view.scale) and meets(label, view)
    ]
