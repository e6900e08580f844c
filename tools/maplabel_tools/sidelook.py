"""Where and at which scales names are counted, and between which scales places are chosen."""

import math
from collections import defaultdict
from collections.abc import Collection, Sequence
from dataclasses import dataclass
from fractions import Fraction

from maplabel_kit import zooms
from maplabel_kit.client import get
from maplabel_kit.labels import Label
from maplabel_kit.server import Server
from maplabel_tools.report.survey import DEEPEST

WINDOW = 1280, 800
MOST_ROWS = 6
FEW_NAMES = 10
# The share of names that are shown at the last zoom that is looked at.
SHARE = 0.95


@dataclass(frozen=True)
class Look:
    """A window by its middle and its size in pixels, and the scales at which it is looked at."""

    x: int
    y: int
    width: int
    height: int
    scales: tuple[Fraction, ...]

    def counts(self, server: Server) -> list[int]:
        """How many names the window shows at each scale."""
        asked = [
            get("/view", cx=self.x, cy=self.y, w=self.width, h=self.height, s=zooms.asked(scale))
            for scale in self.scales
        ]
        return [len(reply.json()["labels"]) for reply in server.ask(asked)]

    def title(self) -> str:
        """The window in words."""
        place = f"{self.y / zooms.DEGREE:.4f}, {self.x / zooms.DEGREE:.4f}"
        told = ", ".join(map(_told, self.scales))
        return f"in {self.width} by {self.height} pixels about {place} at {told}"

    def bounds(self) -> tuple[Fraction, Fraction]:
        """The scales between which a name that lasts longer counts."""
        most = plain(max(self.scales) * Fraction(9, 8))
        return min(plain(min(self.scales) * Fraction(7, 5)), most / 2), most


def plain(scale: Fraction) -> Fraction:
    """A scale whose denominator is small, so that its half and its quarter can be told too."""
    return Fraction(round(scale * 64), 64)


def _told(scale: Fraction) -> str:
    """A scale as a zoom, where it is that of a whole zoom."""
    zoom = round(zooms.zoom_of(scale))
    return f"zoom {zoom}" if zoom >= 0 and zooms.scale_of(zoom) == scale else f"scale {scale}"


def densest(found: Sequence[Label], scale: Fraction) -> tuple[int, int]:
    """The middle of the labels in the window that holds the most of them at a scale."""
    wide, high = (math.ceil(side * scale) for side in WINDOW)
    cells: dict[tuple[int, int], list[Label]] = defaultdict(list)
    for one in found:
        cells[one.x // wide, one.y // high].append(one)
    fullest = max(cells.values(), key=len)
    xs, ys = sorted(one.x for one in fullest), sorted(one.y for one in fullest)
    return xs[len(xs) // 2], ys[len(ys) // 2]


def zooms_of(found: Sequence[Label], whole: int) -> list[int]:
    """The zooms of a look: from the first with names, or the one that shows the map whole, to the
    one at which nearly all names are there; some of them where they are many.
    """
    counts = [sum(one.is_active(zooms.scale_of(zoom)) for one in found) for zoom in _all_zooms()]
    first = next((zoom for zoom in _all_zooms() if counts[zoom] and zoom >= whole), whole)
    enough = SHARE * max(counts)
    last = next((zoom for zoom in _all_zooms() if counts[zoom] >= enough and zoom >= first), first)
    steps = min(MOST_ROWS, last - first + 1)
    if steps == 1:
        return [first]
    return sorted({first + round(k * (last - first) / (steps - 1)) for k in range(steps)})


def _all_zooms() -> range:
    return range(DEEPEST + 1)


def warning(counts: Sequence[int], towns: Collection[str]) -> str | None:
    """A sentence where the window sees almost nothing."""
    if max(counts) >= min(FEW_NAMES, len(towns)):
        return None
    return (
        f"this window shows {max(counts)} names at the most, of {len(towns)}: what it tells says "
        "little; look elsewhere by --at LAT,LNG and --zooms A-B"
    )
