"""The anchor of a line, and the chain of boxes of a text along it."""

from fractions import Fraction
from math import floor

from ml_cone import GREATEST_OFFSET, LEAST_OFFSET, MOST_BOXES


def runs_of(line):
    """The longest stretches of a line on which x strictly rises, or strictly falls."""
    found, begin = [], 0
    steps = [(after > at) - (after < at) for (at, _), (after, _) in zip(line, line[1:])]
    for place, step in enumerate(steps):
        if step == 0:
            begin = place + 1
            continue
        if place == 0 or steps[place - 1] != step:
            begin = place
        if place + 1 == len(steps) or steps[place + 1] != step:
            found.append(line[begin : place + 2])
    return found


def widest_run(lines):
    """The run with the greatest difference in x, the first at a tie, from west to east; or None."""
    runs = [run for line in lines for run in runs_of(line)]
    if not runs:
        return None
    best = max(runs, key=lambda run: abs(run[-1][0] - run[0][0]))
    return best if best[0][0] < best[-1][0] else best[::-1]


def height_at(run, x):
    """The height of a run at x, rounded down; of the edge to the left at a common point."""
    for (x1, y1), (x2, y2) in zip(run, run[1:]):
        if x1 <= x <= x2:
            return floor(y1 + Fraction(y2 - y1) * (x - x1) / (x2 - x1))
    return None


def sides_of(advances, size, units, whole):
    """The left and right side of each cluster, from the middle of the text."""
    ends, total = [0], 0
    for advance in advances:
        total += advance
        ends.append(total * size // units)
    ends[-1] = whole
    half = whole // 2
    return [(low - half, max(high, low + 1) - half) for low, high in zip(ends, ends[1:])]


def chain_of(run, advances, whole, style):
    """The boxes of a chain on a run, or None where the text lies straight."""
    if len(advances) > MOST_BOXES:
        return None
    x0 = (run[0][0] + run[-1][0]) // 2
    y0 = height_at(run, x0)
    boxes = []
    for left, right in sides_of(advances, style.size, style.units, whole):
        height = height_at(run, x0 + (left + right) * style.ref // 2)
        if height is None:
            return None
        bottom = (height - y0) // style.ref - style.size // 2
        boxes.append((left, bottom, right, bottom + style.size))
    is_within = all(LEAST_OFFSET <= side <= GREATEST_OFFSET for box in boxes for side in box)
    return tuple(boxes) if is_within else None


def line_anchor(lines, run):
    if run is None:
        return lines[0][0]
    x0 = (run[0][0] + run[-1][0]) // 2
    return x0, height_at(run, x0)
