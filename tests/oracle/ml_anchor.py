"""The anchors of points and areas."""

from fractions import Fraction
from math import floor


def point_anchor(kind, parts):
    return parts if kind == "Point" else parts[0]


def box_of(ring):
    xs, ys = [x for x, _ in ring], [y for _, y in ring]
    return min(xs), min(ys), max(xs), max(ys)


def box_area(ring):
    left, bottom, right, top = box_of(ring)
    return (right - left) * (top - bottom)


def largest_part(parts):
    """The polygon whose outer ring has the greatest bounding box, the first at a tie."""
    return max(parts, key=lambda part: box_area(part[0]))


def crossings(part, height):
    """Where the rings cross the level line, each rounded down, in ascending order."""
    found = []
    for ring in part:
        for (x1, y1), (x2, y2) in zip(ring, ring[1:]):
            if y1 <= height < y2 or y2 <= height < y1:
                found.append(floor(x1 + (height - y1) * Fraction(x2 - x1, y2 - y1)))
    return sorted(found)


def area_anchor(kind, parts):
    part = parts if kind == "Polygon" else largest_part(parts)
    left, bottom, right, top = box_of(part[0])
    if bottom == top:
        return (left + right) // 2, bottom
    places = crossings(part, Fraction(bottom + top, 2))
    pairs = zip(places[::2], places[1::2])
    west, east = max(pairs, key=lambda pair: pair[1] - pair[0])
    return (west + east) // 2, (bottom + top) // 2
