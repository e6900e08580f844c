"""All labels of a map at one moment, as a server tells its state."""

from collections.abc import Sequence
from dataclasses import dataclass
from fractions import Fraction
from urllib.parse import unquote

Box = tuple[int, int, int, int]


@dataclass(frozen=True)
class Label:
    """A label: its feature's id, its anchor, its scales, its margin, its end, its blocker's id and
    its boxes.
    """

    id: str
    x: int
    y: int
    least: Fraction
    most: Fraction
    margin: int
    until: Fraction
    blocker: str | None
    boxes: tuple[Box, ...]

    def is_active(self, scale: Fraction | int) -> bool:
        """Whether it is shown at a scale, wherever the window holds it."""
        return self.least <= scale < self.until

    def is_never_shown(self) -> bool:
        """Whether an earlier label leaves it no scale at all."""
        return self.until == self.least

    def reaches(self, height: int) -> bool:
        """Whether all of its boxes, with their margin, reach a height above the anchor."""
        return all(box[1] - self.margin <= height <= box[3] + self.margin for box in self.boxes)


def read_state(text: str) -> list[Label]:
    """The labels of a state text, as `/state` gives it, in order of priority."""
    lines = [line.split(" ") for line in text.split("\n")[1:] if line]
    ids = [_id_of(words[0]) for words in lines]
    return [_label_of(words, ids) for words in lines]


def _id_of(word: str) -> str:
    return "" if word == "%" else unquote(word)


def _label_of(words: Sequence[str], ids: Sequence[str]) -> Label:
    own, x, y, least, most, margin, until, blocker, *boxes = words
    return Label(
        _id_of(own),
        int(x),
        int(y),
        Fraction(least),
        Fraction(most),
        int(margin),
        Fraction(until),
        None if blocker == "-" else ids[int(blocker)],
        tuple(map(_box_of, boxes)),
    )


def _box_of(text: str) -> Box:
    left, bottom, right, top = map(int, text.split(","))
    return left, bottom, right, top


def common_height(labels: Sequence[Label]) -> int | None:
    """A height above the anchor that all boxes reach, margins counted, or none."""
    low = max((box[1] - one.margin for one in labels for box in one.boxes), default=0)
    high = min((box[3] + one.margin for one in labels for box in one.boxes), default=0)
    return None if low > high else 0 if low <= 0 <= high else low
