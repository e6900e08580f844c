"""What the words of the command ask for, and the scales of its zooms."""

import math
from dataclasses import dataclass
from fractions import Fraction

# The spacing of names of one text grows by so much from one zoom to the next.
GROWTH = 1.26


@dataclass(frozen=True)
class Wish:
    """How names along lines are made. Lengths are in pixels."""

    zooms: tuple[int, ...]
    scale_of_zoom_0: Fraction
    side: str
    spacing: int
    gap: float
    margin: int
    tracking: int
    snap: float

    def is_beside(self) -> bool:
        """Whether names stand beside their lines, as with rivers, and not on them, as with
        streets.
        """
        return self.side == "above"

    def scales(self) -> list[float]:
        """The scale of each zoom, the furthest out first."""
        return [float(self.scale_of_zoom_0) / 2**zoom for zoom in self.zooms]

    def spacings(self) -> list[float]:
        """How far apart names of one text stand at each zoom."""
        return [self.spacing * GROWTH**level for level in range(len(self.zooms))]

    def bounds(self) -> list[Fraction]:
        """Where the levels of the zooms begin and end: a level is from half way to the next zoom to
        half way to the one before. The outermost comes first, and the last level goes down to 0.
        """
        scales = self.scales()
        inner = [Fraction(round(16 * scale / math.sqrt(2)), 16) for scale in scales[:-1]]
        return [Fraction(round(scales[0] * math.sqrt(2))), *inner, Fraction(0)]

    def narrow_bound(self, level: int) -> Fraction:
        """A scale half way between the least of a level and that of its zoom, a quarter of a zoom
        in.
        """
        return Fraction(round(16 * self.scales()[level] / 2**0.25), 16)
