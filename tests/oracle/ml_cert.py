"""Slots as they are read, and the verdict on them."""

from ml_conflict import ends_just_there, limit
from ml_pass import Refused, lines_of
from ml_ratio import fraction_text, read_fraction


def read_slots(labels, data):
    """The slots of a text for these labels."""
    places = {label.id: place for place, label in enumerate(labels)}
    lines = lines_of(data)
    slots = []
    for number, line in enumerate(lines, 1):
        if not line:
            continue
        slot = read_slot(labels, places, line, len(slots))
        if slot is None:
            raise Refused(1, "BadLine", number)
        slots.append(slot)
    if len(slots) < len(labels):
        raise Refused(1, "BadLine", len(lines) + 1)
    return slots


def read_slot(labels, places, line, due):
    """The slot that a line writes for the label that is due, or None."""
    try:
        words = line.decode("utf-8").split(" ")
    except UnicodeDecodeError:
        return None
    if len(words) != 3 or due == len(labels) or words[0] != labels[due].id:
        return None
    end = read_fraction(words[1])
    if end is None or (words[2] != "-" and words[2] not in places):
        return None
    return end, places.get(words[2])


def first_clash(labels, ends, place):
    """The first label before this one that does not allow its end, with its limit."""
    low = labels[place]
    for before in range(place):
        allowed = limit(low, labels[before], ends[before])
        if allowed < ends[place]:
            return before, allowed
    return None


def first_blocker(labels, ends, place):
    """The first label before this one that ends it where it ends, or None."""
    for before in range(place):
        if ends_just_there(labels[place], ends[place], labels[before], ends[before]):
            return before
    return None


def fault_of(labels, slots, place, name):
    """What is wrong with the slot of one label, in words, or None."""
    ends = [end for end, _ in slots]
    label, (end, given) = labels[place], slots[place]
    if not label.min <= end <= label.max:
        return f"BadEnd {name(label.id)}"
    clash = first_clash(labels, ends, place)
    if clash:
        return f"Clash {name(label.id)} {name(labels[clash[0]].id)} {fraction_text(clash[1])}"
    due = first_blocker(labels, ends, place) if end < label.max else None
    if end < label.max and due is None:
        return f"Uncovered {name(label.id)}"
    return None if due == given else f"BadBlocker {name(label.id)}"


def verdict(labels, slots, name=str):
    """The words of the verdict; `name` spells an id."""
    for place in range(len(labels)):
        fault = fault_of(labels, slots, place, name)
        if fault:
            return fault
    return "Best"
