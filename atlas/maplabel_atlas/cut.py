"""How labels are cut: by priority into tiers, each four times as many as all before it, and a tier
by place into cells.
"""

from collections.abc import Callable, Iterator
from dataclasses import dataclass

from maplabel_atlas.arrays import Whole

WORLD = 2**31
Corner = tuple[int, int]


@dataclass(frozen=True)
class Sizes:
    """How large tiers and cells may be.

    `rim` is the part of a cell's width about it from which labels of the same tier are told at
    first. It makes things faster and changes no result. `fewest` is the number of labels that a
    tier is cut down to, and no further.
    """

    first_tier: int = 16_000
    own: int = 16_000
    lines: int = 32_000
    rim: float = 0.05
    fewest: int = 64


@dataclass(frozen=True)
class Cell:
    """The rows whose ends are asked for, and those that are told to the engine beside them."""

    own: Whole
    others: Whole


class Crowded(Exception):
    """So many names are near one place that no cell about it is small enough; `row` is the label
    there.
    """

    def __init__(self, row: int) -> None:
        super().__init__(f"too many names about that of row {row}")
        self.row = row


def tier_ends(count: int, first: int) -> Iterator[int]:
    """Where tiers end."""
    end = first
    while end < count:
        yield end
        end *= 4
    yield count


def cells(
    own: Whole, place: Whole, others_of: Callable[[Whole], Whole], sizes: Sizes
) -> Iterator[Cell]:
    """Cells with so few labels that the engine takes them with the others. Together they are `own`,
    once each.

    The world is halved again and again at the same lines, whatever the labels are: so an edit
    changes few cells.
    """
    waiting: list[tuple[Whole, Corner, Corner]] = [(own, (-WORLD, -WORLD), (WORLD, WORLD))]
    while waiting:
        rows, low, high = waiting.pop()
        if len(rows) == 0:
            continue
        others = others_of(rows) if len(rows) <= sizes.own else None
        if others is not None and len(rows) + len(others) <= sizes.lines:
            yield Cell(rows, others)
            continue
        axis = int(high[1] - low[1] > high[0] - low[0])
        middle = (low[axis] + high[axis]) // 2
        if middle == low[axis] or (others is not None and len(rows) <= sizes.fewest):
            raise Crowded(int(rows[0]))
        is_high = place[rows, axis] >= middle
        waiting.append((rows[~is_high], low, _moved(high, axis, middle)))
        waiting.append((rows[is_high], _moved(low, axis, middle), high))


def _moved(corner: Corner, axis: int, value: int) -> Corner:
    return (value, corner[1]) if axis == 0 else (corner[0], value)
