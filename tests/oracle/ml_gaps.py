"""The longest free range of each label, by trying critical scales."""

from ml_cone import between, critical_scales, hold_at, overlap_conditions


def longest_gaps(labels):
    """In priority order, each the longest range that those before it leave free."""
    gaps = []
    for low in labels:
        gaps.append(longest_gap(low, list(zip(labels, gaps))))
    return gaps


def is_blocked(rivals, over, under):
    """Whether a label before it is active and overlaps there."""
    return any(
        begin.numerator * under <= over * begin.denominator
        and over * until.denominator < until.numerator * under
        and any(hold_at(conditions, over, under) for conditions in pairs)
        for pairs, begin, until in rivals
    )


def longest_gap(low, before):
    """Of the ranges that are free, the longest, and of several the first."""
    rivals = [
        (overlap_conditions(low, high), begin, until)
        for high, (begin, until) in before
        if begin < until
    ]
    marks = {low.min, low.max}
    for pairs, begin, until in rivals:
        marks |= {begin, until}.union(*map(critical_scales, pairs))
    places = sorted(mark for mark in marks if low.min <= mark <= low.max)
    best = low.min, low.min
    begin = None
    for at, after in zip(places, [*places[1:], None]):
        if begin is not None and (
            after is None or is_blocked(rivals, at.numerator, at.denominator)
        ):
            best, begin = longer(best, (begin, at)), None
        if after is None:
            break
        if begin is None and not is_blocked(rivals, at.numerator, at.denominator):
            begin = at
        if begin is not None and is_blocked(rivals, *between(at, after)):
            best, begin = longer(best, (begin, at)), None
    return best


def longer(best, gap):
    return gap if gap[1] - gap[0] > best[1] - best[0] else best
