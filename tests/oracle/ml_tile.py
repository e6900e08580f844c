"""Tiles: squares of the world with a view each. Whether a body was held before never shows."""

from fractions import Fraction

from ml_ratio import WORLD_EDGE, read_whole
from ml_view import View

SIDE, DEEPEST = 1024, 21


def middle_of(depth, place):
    return (2 * place + 1) * (SIDE // 2) * 2**depth


def read_depth(text):
    depth = read_whole(text)
    return depth if depth is not None and 0 <= depth <= DEEPEST else None


def read_place(text, depth):
    """A column or row that has its middle in the world, or None."""
    place = read_whole(text)
    return place if place is not None and abs(middle_of(depth, place)) <= WORLD_EDGE else None


def tile_view(depth, column, row):
    return View(middle_of(depth, column), middle_of(depth, row), SIDE, SIDE, Fraction(2**depth))
