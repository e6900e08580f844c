"""Label tables, and the longest choice of active ranges with its blockers."""

import re

from ml_conflict import ends_just_there, limit
from ml_cone import GREATEST_OFFSET, LEAST_OFFSET, MOST_BOXES, Label
from ml_ratio import FURTHEST, fraction_text, read_coordinate, read_fraction, whole_within

MOST_LABELS = 32768
_ID = re.compile(r"[!-~]{1,64}")


class Refused(Exception):
    """An input that is refused: a number, a name and places."""

    def __init__(self, number, name, *places):
        super().__init__(name)
        self.number, self.name, self.places = number, name, places

    def words(self):
        return " ".join([str(self.number), self.name, *map(str, self.places)])


def lines_of(data):
    """The lines of a text; a CR counts as part of a line end before LF alone."""
    rows = data.split(b"\n")
    last = rows.pop()
    lines = [row[:-1] if row.endswith(b"\r") else row for row in rows]
    return lines + [last] if last else lines


def is_id(text):
    return text != "-" and _ID.fullmatch(text) is not None


def read_box(text):
    """The box `l,b,r,t`, or None."""
    sides = [whole_within(side, LEAST_OFFSET, GREATEST_OFFSET) for side in text.split(",")]
    if len(sides) != 4 or None in sides or sides[0] >= sides[2] or sides[1] >= sides[3]:
        return None
    return tuple(sides)


def read_scales(lower, upper):
    """The selectable range of two fractions, or None."""
    if lower is None or upper is None or not lower < upper <= FURTHEST:
        return None
    return lower, upper


def read_line(line, place):
    """The label that a line of a table writes, or None."""
    try:
        words = line.decode("utf-8").split(" ")
    except UnicodeDecodeError:
        return None
    if not 6 <= len(words) <= 5 + MOST_BOXES or not is_id(words[0]):
        return None
    ident = words[0]
    at = read_coordinate(words[1]), read_coordinate(words[2])
    scales = read_scales(read_fraction(words[3]), read_fraction(words[4]))
    boxes = tuple(map(read_box, words[5:]))
    if None in at or scales is None or None in boxes:
        return None
    pieces = (ident,) + ("",) * (len(boxes) - 1)
    return Label((place, 0, ident.encode()), ident, at, boxes, pieces, scales)


def read_table(data):
    """The labels of a table in priority order."""
    labels, known = [], set()
    for number, line in enumerate(lines_of(data), 1):
        if not line:
            continue
        label = read_line(line, len(labels))
        if label is None:
            raise Refused(1, "BadLine", number)
        if label.id in known:
            raise Refused(2, "SameId", number)
        if len(labels) == MOST_LABELS:
            raise Refused(3, "Full")
        known.add(label.id)
        labels.append(label)
    return labels


def longest_ends(labels):
    """In priority order, each the greatest end that those before it allow."""
    ends = []
    for low in labels:
        ends.append(min([low.max, *(limit(low, high, until) for high, until in zip(labels, ends))]))
    return ends


def blocker_of(labels, ends, place):
    """The place of the first label that ends this one, or None."""
    low, end = labels[place], ends[place]
    if end == low.max:
        return None
    for before in range(place):
        if ends_just_there(low, end, labels[before], ends[before]):
            return before
    return None


def longest_choice(labels):
    """The slots of the labels: an end each, and the place of the blocker."""
    ends = longest_ends(labels)
    return [(end, blocker_of(labels, ends, place)) for place, end in enumerate(ends)]


def slots_text(labels, slots):
    """The text that `slots` prints."""
    lines = []
    for label, (end, blocker) in zip(labels, slots):
        name = "-" if blocker is None else labels[blocker].id
        lines.append(f"{label.id} {fraction_text(end)} {name}\n")
    return "".join(lines)
