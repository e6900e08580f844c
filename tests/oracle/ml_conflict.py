"""The greatest end that one label allows another, by trying critical scales."""

from ml_cone import between, critical_scales, hold_at, overlap_conditions

_limits = {}


def forget():
    """Forgets the limits that were found so far."""
    _limits.clear()


def first_overlap(conditions, start, stop):
    """Where the first overlap from `start` on and below `stop` begins, or None."""
    inner = [scale for scale in critical_scales(conditions) if start < scale < stop]
    places = [start, *sorted(inner), stop]
    for low, high in zip(places, places[1:]):
        if hold_at(conditions, *between(low, high)):
            return low
    return None


def limit(low, high, until):
    """The greatest end of `low` that `high`, active until `until`, allows."""
    key = (low, high, until)
    if key not in _limits:
        start, stop = max(low.min, high.min), min(low.max, until)
        begins = [low.max]
        if start < stop:
            for conditions in overlap_conditions(low, high):
                begin = first_overlap(conditions, start, stop)
                if begin is not None:
                    begins.append(begin)
        _limits[key] = min(begins)
    return _limits[key]


def ends_just_there(low, end, high, until):
    """Whether `high` is active and overlaps `low` at all scales just above `end`."""
    pairs = overlap_conditions(low, high)
    marks = {high.min, until, end + 1}
    for conditions in pairs:
        marks |= critical_scales(conditions)
    above = min(mark for mark in marks if mark > end)
    over, under = between(end, above)
    is_active = high.min <= end and end < until
    return is_active and any(hold_at(conditions, over, under) for conditions in pairs)


def are_rivals(a, b):
    """Whether the two overlap at some scale that lies in both selectable ranges."""
    start, stop = max(a.min, b.min), min(a.max, b.max)
    return start < stop and any(
        first_overlap(conditions, start, stop) is not None
        for conditions in overlap_conditions(a, b)
    )
