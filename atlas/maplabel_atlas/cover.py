"""Which labels may meet which: a label covers what its extents cover at the scales up to the one at
which it ends.

Two labels overlap at no scale below S unless their extents, about their places, overlap at S.
Everything here answers with these labels and perhaps a few more: numbers are floating, so a scale
is taken a thousand-millionth greater than it is, and a place a thousandth of a world unit
nearer.
"""

from dataclasses import dataclass

import numpy as np

from maplabel_atlas.arrays import Real, Truth, Whole, all_of

MORE = 1 + 1e-9
NEARER = 1e-3
LEAST_BAND = 2.0**-60


@dataclass(frozen=True)
class Area:
    """Where some labels lie, least x and y and greatest x and y, and the pixels that their extents
    reach together.
    """

    places: Real
    sides: Real


def area_of(place: Real, extents: Real) -> Area:
    """The area of the labels with these places and extents."""
    return Area(
        np.concatenate([place.min(axis=0), place.max(axis=0)]),
        np.concatenate([extents[:, :2].min(axis=0), extents[:, 2:].max(axis=0)]),
    )


def meet(place: Real, extents: Real, area: Area, scale: Real) -> Truth:
    """Which labels' extents overlap those of a label somewhere in an area, at the scale that is
    told for each.
    """
    reach = scale[:, None] * MORE
    low, high = place + extents[:, :2] * reach, place + extents[:, 2:] * reach
    is_left = low - NEARER < area.places[2:] + area.sides[2:] * reach
    is_right = area.places[:2] + area.sides[:2] * reach < high + NEARER
    met: Truth = (is_left & is_right).all(axis=1)
    return met


class Cover:
    """Some rows of columns, in bands by how far out they are compared, and in a band from west to
    east.
    """

    def __init__(self, rows: Whole, place: Real, extents: Real, scales: Real) -> None:
        """`place` and `extents` are those of all labels, which stay as they are. Of the scales
        those of now are kept.
        """
        told = scales[rows]
        bands = np.floor(np.log2(np.maximum(told, LEAST_BAND))).astype(np.int16)
        east = place[rows, 0]
        order = np.lexsort((east, bands))
        self._rows, self._scales, self._east = rows[order], told[order], east[order]
        self._place, self._extents = place, extents
        self._most_side = float(max(np.max(extents, initial=0), -np.min(extents, initial=0)))
        found, first = np.unique(bands[order], return_index=True)
        self._bands = list(zip(found.tolist(), first.tolist(), [*first[1:].tolist(), len(rows)]))

    def near(self, area: Area, most: float) -> Whole:
        """The labels that overlap one of an area at some scale that is below their own and below
        `most`.
        """
        return all_of([self._of_band(*band, area, most) for band in self._bands])

    def _of_band(self, band: int, begin: int, end: int, area: Area, most: float) -> Whole:
        reach = min(2.0 ** (band + 1), most) * MORE
        west = area.places[0] + (area.sides[0] - self._most_side) * reach - 1
        east = area.places[2] + (area.sides[2] + self._most_side) * reach + 1
        low, high = begin + np.searchsorted(self._east[begin:end], [west, east])
        rows = self._rows[low:high]
        scales = np.minimum(self._scales[low:high], most)
        is_met = meet(self._place[rows], self._extents[rows], area, scales)
        found: Whole = rows[is_met]
        return found
