"""Fractions and whole numbers as files, words and queries write them."""

import re
from fractions import Fraction

GREATEST_NUMERATOR = 4294967296
GREATEST_DENOMINATOR = 65536
FURTHEST = 268435456
WORLD_EDGE = 2_000_000_000

_WHOLE = re.compile(r"-?[0-9]{1,10}")
_FRACTION = re.compile(r"([0-9]{1,10})(?:/([0-9]{1,10}))?")


def read_whole(text):
    """The whole number of a text, or None."""
    return int(text) if _WHOLE.fullmatch(text) else None


def whole_within(text, least, greatest):
    """The whole number of a text where it lies within the bounds, or None."""
    value = read_whole(text)
    return value if value is not None and least <= value <= greatest else None


def read_coordinate(text):
    """A coordinate of the world, or None."""
    return whole_within(text, -WORLD_EDGE, WORLD_EDGE)


def read_fraction(text):
    """The fraction of a text, judged as it is written, or None."""
    parts = _FRACTION.fullmatch(text)
    if not parts:
        return None
    over, under = int(parts[1]), int(parts[2] or "1")
    if over > GREATEST_NUMERATOR or not 1 <= under <= GREATEST_DENOMINATOR:
        return None
    return Fraction(over, under)


def fraction_text(value):
    """A fraction in lowest terms, always with its denominator."""
    return f"{value.numerator}/{value.denominator}"


def read_digits(text, most):
    """The value of 1 to `most` digits, or None."""
    return int(text) if re.fullmatch("[0-9]{1,%d}" % most, text) else None
