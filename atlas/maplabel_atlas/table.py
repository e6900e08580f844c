"""Tables for the engine: some labels as they are, and others that end where they were found to
end.
"""

import hashlib
from dataclasses import dataclass

import numpy as np

from maplabel_atlas.arrays import Truth, Whole


@dataclass(frozen=True)
class Content:
    """What the engine is told: the columns of a table's lines, in priority order."""

    place: Whole
    least: Whole
    most: Whole
    first: Whole
    boxes: Whole

    def key(self, digest: str) -> str:
        """A name for this question to one engine. The same lines at other rows are the same
        question.
        """
        found = hashlib.sha256(digest.encode())
        for one in (self.place, self.least, self.most, self.first, self.boxes):
            found.update(np.ascontiguousarray(one, dtype=np.int64).tobytes())
        return found.hexdigest()

    def text(self) -> bytes:
        """The text of the table, whose ids are the numbers of its lines."""
        sides = [b"%d,%d,%d,%d" % tuple(box) for box in self.boxes.tolist()]
        begins = self.first.tolist()
        heads = zip(self.place.tolist(), self.least.tolist(), self.most.tolist())
        lines = [
            b"%d %d %d %d/%d %d/%d " % (number, *at, *low, *high)
            + b" ".join(sides[begins[number] : begins[number + 1]])
            for number, (at, low, high) in enumerate(heads)
        ]
        return b"\n".join(lines)


@dataclass(frozen=True)
class Table:
    """A table, the rows of its labels, and which of them are those whose ends are asked for."""

    rows: Whole
    is_own: Truth
    content: Content

    def where(self) -> str:
        """The place of the labels whose ends are asked for, for a person."""
        own = self.content.place[self.is_own]
        return where_between(own.min(axis=0), own.max(axis=0))


def where_between(low: Whole, high: Whole) -> str:
    """A rectangle of the world in degrees, for a person."""
    (west, south), (east, north) = low / 1e7, high / 1e7
    return f"longitude {west:.7f} to {east:.7f}, latitude {south:.7f} to {north:.7f}"
