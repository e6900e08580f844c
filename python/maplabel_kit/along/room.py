"""Whether a turned letter's ink keeps within the boxes of its name: exact, column by column."""

from bisect import bisect_left, bisect_right
from collections.abc import Sequence

from maplabel_kit.along.curve import Box, Point

Span = tuple[float, float]
# Pixels by which ink may reach out, since reckoning is not exact.
CLOSE = 1e-9


def clipped(shape: Sequence[Point], low: float, high: float) -> Span | None:
    """The least and the greatest y of a convex shape between two x, none where it is not there."""
    ys = [y for x, y in shape if low <= x <= high]
    ax, ay = shape[-1]
    for bx, by in shape:
        for x in (low, high):
            if (ax - x) * (bx - x) < 0:
                ys.append(ay + (by - ay) * (x - ax) / (bx - ax))
        ax, ay = bx, by
    return (min(ys), max(ys)) if ys else None


def joined(spans: Sequence[Span]) -> list[Span]:
    """Spans that touch or cover one another, as one."""
    found: list[Span] = []
    for bottom, top in sorted(spans):
        if found and bottom <= found[-1][1]:
            found[-1] = found[-1][0], max(found[-1][1], top)
        else:
            found.append((bottom, top))
    return found


class Room:
    """The union of boxes as columns: from each left side to the next one, the spans that boxes
    fill.
    """

    def __init__(self, boxes: Sequence[Box]) -> None:
        edges = sorted({x for box in boxes for x in (box[0], box[2])})
        self.left, self.right = edges[0], edges[-1]
        self.edges = edges
        self.columns = [
            (
                low,
                high,
                joined([(box[1], box[3]) for box in boxes if box[0] <= low and high <= box[2]]),
            )
            for low, high in zip(edges, edges[1:])
        ]

    def _columns(self, least: float, most: float) -> list[tuple[float, float, list[Span]]]:
        """The columns that lie between two x."""
        first = max(bisect_right(self.edges, least) - 1, 0)
        return self.columns[first : bisect_left(self.edges, most)]

    def has(self, shape: Sequence[Point]) -> bool:
        """Whether a convex shape lies within the union; mostly all of the rectangle about it
        does.
        """
        xs, ys = [x for x, _ in shape], [y for _, y in shape]
        least, low, most, high = min(xs), min(ys), max(xs), max(ys)
        if self.left <= least and most <= self.right:
            for _, _, spans in self._columns(least, most):
                if not any(bottom <= low and high <= top for bottom, top in spans):
                    break
            else:
                return True
        return self.lack(shape) <= CLOSE

    def lack(self, shape: Sequence[Point]) -> float:
        """By how many pixels a convex shape reaches out of the union; 0 is within."""
        least, most = min(x for x, _ in shape), max(x for x, _ in shape)
        out = max(0.0, self.left - least, most - self.right)
        for low, high, spans in self._columns(least, most):
            part = clipped(shape, max(low, least), min(high, most))
            if part is not None:
                reaches = (max(0.0, bottom - part[0], part[1] - top) for bottom, top in spans)
                out = max(out, min(reaches, default=part[1] - part[0]))
        return out
