"""At which scales a label is shown about a fixed centre, and where most are."""

from fractions import Fraction

from ml_cone import between, critical_scales, hold_at, window_conditions

START = Fraction(0)


def is_shown(label, until, boxes, over, under):
    """Whether the label is active and some box meets the window."""
    is_active = (
        label.min.numerator * under <= over * label.min.denominator
        and over * until.denominator < until.numerator * under
    )
    return is_active and any(hold_at(conditions, over, under) for conditions in boxes)


def marks_of(label, until, boxes):
    marks = {label.min, until, START}.union(*map(critical_scales, boxes))
    return sorted(mark for mark in marks if mark <= until)


def stays(label, until, view):
    """The longest intervals of scales at which it is shown: (from, is it within, to)."""
    boxes = [window_conditions(label, box, view) for box in label.boxes]
    marks = marks_of(label, until, boxes)
    found, begin = [], None
    for at, after in zip(marks, [*marks[1:], None]):
        is_at = at > 0 and is_shown(label, until, boxes, at.numerator, at.denominator)
        is_after = after is not None and is_shown(label, until, boxes, *between(at, after))
        if begin and not is_at:
            found.append((*begin, at))
            begin = None
        if is_after and begin is None:
            begin = at, is_at
    return found


def is_in(stay, mark):
    begin, is_within, end = stay
    return begin < mark < end or (is_within and begin == mark)


def peak(timelines):
    """The greatest number shown at one scale, and the first place that has it."""
    marks = sorted(
        {START, *(mark for line in timelines for begin, _, end in line for mark in (begin, end))}
    )
    best, place = -1, None
    for at, after in zip(marks, [*marks[1:], None]):
        if at > 0:
            count = sum(any(is_in(stay, at) for stay in line) for line in timelines)
            if count > best:
                best, place = count, ("at", at)
        middle = after if after is None else (at + after) / 2
        count = (
            0
            if middle is None
            else sum(any(is_in(stay, middle) for stay in line) for line in timelines)
        )
        if count > best:
            best, place = count, ("after", at)
    return best, place
