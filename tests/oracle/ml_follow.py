"""State texts, and a follower that adopts a state only where it is the longest choice."""

import re

from ml_cert import verdict
from ml_cone import GREATEST_MARGIN, MOST_BOXES, Label
from ml_pass import MOST_LABELS, Refused, read_box, read_scales
from ml_ratio import fraction_text, read_coordinate, read_digits, read_fraction, whole_within
from ml_watch import changes_between, spelt_id

LAST_REVISION = 2**53


def state_text(rev, labels, slots):
    """The text of a state: labels in priority order with ends and blockers' places."""
    lines = [f"state {rev} {len(labels)}\n"]
    for label, (end, blocker) in zip(labels, slots):
        fractions = fraction_text(label.min), fraction_text(label.max)
        boxes = [",".join(map(str, box)) for box in label.boxes]
        words = [
            spelt_id(label.id),
            label.x,
            label.y,
            *fractions,
            label.margin,
            fraction_text(end),
            "-" if blocker is None else blocker,
            *boxes,
        ]
        lines.append(" ".join(map(str, words)) + "\n")
    return "".join(lines)


def read_id(text):
    """The id that is spelt so in a line of changes, or None."""
    if text == "%":
        return ""
    if not re.fullmatch("(?:[A-Za-z0-9._~#-]|%[0-9A-F]{2})+", text):
        return None
    data = re.sub(rb"%(..)", lambda code: bytes([int(code[1], 16)]), text.encode())
    try:
        ident = data.decode("utf-8")
    except UnicodeDecodeError:
        return None
    return ident if spelt_id(ident) == text else None


def read_blocker(text, count):
    """The place of a blocker, -1 for none; None where it is neither."""
    if text == "-":
        return -1
    place = read_digits(text, 5)
    return place if place is not None and place < count else None


def read_entry(line, place, count):
    """The label and slot of a line at a place of a state, or None."""
    words = line.split(" ")
    if not 9 <= len(words) <= 8 + MOST_BOXES:
        return None
    ident, at = read_id(words[0]), (read_coordinate(words[1]), read_coordinate(words[2]))
    scales = read_scales(read_fraction(words[3]), read_fraction(words[4]))
    margin = whole_within(words[5], 0, GREATEST_MARGIN)
    end, blocker = read_fraction(words[6]), read_blocker(words[7], count)
    boxes = tuple(map(read_box, words[8:]))
    if None in (ident, *at, scales, margin, end, blocker, *boxes):
        return None
    pieces = (ident,) + ("",) * (len(boxes) - 1)
    label = Label((place, 0, ident.encode()), ident, at, boxes, pieces, scales, margin)
    return label, (end, None if blocker < 0 else blocker)


def read_head(line):
    """Revision and number of labels of the first line of a state, or None."""
    words = line.split(" ")
    if len(words) != 3 or words[0] != "state":
        return None
    rev, count = read_digits(words[1], 16), read_digits(words[2], 5)
    if rev is None or count is None or rev > LAST_REVISION or count > MOST_LABELS:
        return None
    return rev, count


def text_lines(data):
    """The lines that have their LF, None for one that is no text, and whether bytes stand
    behind.
    """
    rows = data.split(b"\n")
    lines = []
    for row in rows[:-1]:
        try:
            lines.append(row.decode("utf-8"))
        except UnicodeDecodeError:
            lines.append(None)
    return lines, bool(rows[-1])


def read_states(data):
    """The states of a file: revision, labels and slots of each."""
    lines, is_cut = text_lines(data)
    states, at = [], 0
    while at < len(lines):
        head = read_head(lines[at]) if lines[at] is not None else None
        if head is None:
            raise Refused(1, "BadState", at + 1)
        at += 1
        labels, slots = read_entries(lines, at, head[1])
        states.append((head[0], labels, slots))
        at += head[1]
    if is_cut:
        raise Refused(1, "BadState", len(lines) + 1)
    return states


def read_entries(lines, at, count):
    """The labels and slots of the `count` lines from line `at` on."""
    labels, slots, known = [], [], set()
    for place in range(count):
        if at + place == len(lines):
            raise Refused(1, "BadState", len(lines) + 1)
        line = lines[at + place]
        entry = read_entry(line, place, count) if line is not None else None
        if entry is None or entry[0].id in known:
            raise Refused(1, "BadState", at + place + 1)
        known.add(entry[0].id)
        labels.append(entry[0])
        slots.append(entry[1])
    return labels, slots


def told_of(labels, slots):
    """What a change compares, by id; the place in the order is no part of it."""
    return {
        label.id: (label.content()[1:], (label.min, end)) for label, (end, _) in zip(labels, slots)
    }


def is_stale(held, rev):
    return held is not None and rev <= held


class Follower:
    """Holds the newest state that it found to be the longest choice."""

    def __init__(self):
        self.rev = None
        self.labels, self.slots = [], []

    def offer(self, rev, labels, slots):
        """The line that answers a state, and the changes that it brings."""
        if is_stale(self.rev, rev):
            return f"stale {rev} {self.rev}", []
        words = verdict(labels, slots, spelt_id)
        if words != "Best":
            return f"refused {rev} {words}", []
        changes = changes_between(told_of(self.labels, self.slots), told_of(labels, slots))
        self.rev, self.labels, self.slots = rev, labels, slots
        return f"adopted {rev} {len(labels)}", changes

    def held(self):
        return "held none" if self.rev is None else f"held {self.rev} {len(self.labels)}"
