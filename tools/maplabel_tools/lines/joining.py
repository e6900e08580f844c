"""Lines of one name, joined into few long ones."""

import math
from collections import defaultdict
from collections.abc import Iterator, Sequence

Point = tuple[float, float]
Line = list[Point]
End = tuple[int, bool]

# Degrees by which lines that are joined may turn where they meet.
MOST_BEND = 75.0


def joined(lines: Sequence[Sequence[Point]], snap: float) -> list[Line]:
    """Lines whose ends meet, at a distance of a snap or less, as one; at junctions those go on that
    are straightest.
    """
    given = [_without_doubles(line) for line in lines]
    given = [line for line in given if len(line) > 1]
    mates: dict[End, End] = {}
    chains = list(range(len(given)))
    for _, one, other in sorted(_meetings(given, snap)):
        if one in mates or other in mates or _root(chains, one[0]) == _root(chains, other[0]):
            continue
        mates[one], mates[other] = other, one
        chains[_root(chains, one[0])] = _root(chains, other[0])
    return list(_walked(given, mates))


def _without_doubles(line: Sequence[Point]) -> Line:
    """A line without points that stand twice, one behind another."""
    return [point for k, point in enumerate(line) if k == 0 or point != line[k - 1]]


def _meetings(lines: list[Line], snap: float) -> Iterator[tuple[float, End, End]]:
    """Pairs of ends that meet, each with the bend there; an end is a line's number and whether it
    is its begin.
    """
    ends: dict[tuple[int, int], list[End]] = defaultdict(list)
    for number, line in enumerate(lines):
        keys = [(round(x / snap), round(y / snap)) for x, y in (line[0], line[-1])]
        if keys[0] != keys[1]:
            ends[keys[0]].append((number, True))
            ends[keys[1]].append((number, False))
    for meeting in ends.values():
        for k, one in enumerate(meeting):
            for other in meeting[k + 1 :]:
                turn = _heading(lines, one) - _heading(lines, other)
                bend = abs(turn % (2 * math.pi) - math.pi)
                if one[0] != other[0] and bend < math.radians(MOST_BEND):
                    yield bend, one, other


def _heading(lines: list[Line], end: End) -> float:
    """The direction in which a line goes from its end."""
    line = lines[end[0]]
    (ax, ay), (bx, by) = (line[0], line[1]) if end[1] else (line[-1], line[-2])
    return math.atan2(by - ay, bx - ax)


def _root(chains: list[int], number: int) -> int:
    """The line that stands for all that are joined with a line."""
    while chains[number] != number:
        chains[number] = chains[chains[number]]
        number = chains[number]
    return number


def _walked(lines: list[Line], mates: dict[End, End]) -> Iterator[Line]:
    """The joined lines, each begun at its free end of the least number."""
    seen: set[int] = set()
    for number in range(len(lines)):
        for begin in (True, False):
            if number not in seen and (number, begin) not in mates:
                yield _walk(lines, mates, (number, begin), seen)


def _walk(lines: list[Line], mates: dict[End, End], begin: End, seen: set[int]) -> Line:
    """One joined line from a free end on."""
    made: Line = []
    at: End | None = begin
    while at is not None:
        number, is_forward = at
        seen.add(number)
        part = lines[number] if is_forward else lines[number][::-1]
        made += part[1:] if made else part
        at = mates.get((number, not is_forward))
    return _without_doubles(made)
