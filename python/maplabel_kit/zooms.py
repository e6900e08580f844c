"""Zooms of web maps and scales of the engine.

Zoom z shows 360 degrees on 256 * 2^z pixels, so its scale is 14062500 / 2^z units of 10^-7 degree a
pixel.
"""

import math
from fractions import Fraction

SCALE_OF_ZOOM_0 = 14062500
MOST_SCALE = 268435455
DEGREE = 10_000_000


def scale_of(zoom: int) -> Fraction:
    """The exact scale of a whole zoom."""
    return Fraction(SCALE_OF_ZOOM_0, 2**zoom)


def zoom_of(scale: Fraction | float) -> float:
    """The zoom of a scale, which need not be whole."""
    return math.log2(SCALE_OF_ZOOM_0 / float(scale))


def asked(scale: Fraction | int) -> str:
    """A scale as a request writes it."""
    exact = Fraction(scale)
    return f"{exact.numerator}/{exact.denominator}"


def range_of(first: int, last: int | None) -> tuple[int, int]:
    """The least and greatest scale of a class that is shown from one whole zoom through another.

    The least belongs to the range and the greatest does not: so the range goes from just above the
    scale of the zoom after the last to just above that of the first. Without a last zoom it begins
    at 0.
    """
    most = math.floor(scale_of(first)) + 1
    least = 0 if last is None else math.floor(scale_of(last + 1)) + 1
    return least, most
