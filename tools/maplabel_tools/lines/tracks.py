"""A line at a scale: points two pixels apart, and the same smoothed by about half the height of
letters.
"""

import numpy as np
from numpy.typing import NDArray

from maplabel_tools.lines.joining import Line

Floats = NDArray[np.float64]
Whole = NDArray[np.int64]
Truths = NDArray[np.bool_]
# Pixels from one point of a track to the next.
STEP = 2.0


class Path:
    """A line in units of the map, with its lengths."""

    def __init__(self, line: Line) -> None:
        points = np.array(line, dtype=np.float64)
        self.x, self.y = points[:, 0], points[:, 1]
        self.lengths: Floats = np.concatenate(
            ([0.0], np.cumsum(np.hypot(np.diff(self.x), np.diff(self.y))))
        )
        self.length = float(self.lengths[-1])

    def at(self, t: float) -> tuple[float, float]:
        """The point at a length from the begin."""
        return float(np.interp(t, self.lengths, self.x)), float(np.interp(t, self.lengths, self.y))


class Track:
    """A path at a scale, in pixels."""

    def __init__(self, path: Path, scale: float, height: float) -> None:
        count = max(2, int(path.length / (STEP * scale)))
        self.path = path
        self.ts: Floats = np.linspace(0.0, path.length, count + 1)
        self.x: Floats = np.interp(self.ts, path.lengths, path.x) / scale
        self.y: Floats = np.interp(self.ts, path.lengths, path.y) / scale
        reach = max(1, round(height / 2 / STEP))
        both = averaged(averaged(np.stack([self.x, self.y]), reach), reach)
        self.smooth_x: Floats = both[0]
        self.smooth_y: Floats = both[1]
        steps = np.hypot(np.diff(self.smooth_x), np.diff(self.smooth_y))
        self.arc: Floats = np.concatenate(([0.0], np.cumsum(steps)))

    def count(self) -> int:
        """How many points it has."""
        return len(self.ts)

    def indices(self, ts: Floats) -> Whole:
        """The points that are nearest to lengths along the path."""
        places = np.rint(ts / self.ts[-1] * (len(self.ts) - 1)).astype(np.int64)
        kept: Whole = np.clip(places, 0, len(self.ts) - 1)
        return kept

    def index(self, t: float) -> int:
        """The point that is nearest to a length along the path."""
        return int(self.indices(np.array([t]))[0])


def averaged(values: Floats, reach: int) -> Floats:
    """The mean of so many neighbours on either side, fewer near the ends, in each of some rows."""
    rows, count = values.shape
    begin = values[:, :1]
    sums = np.zeros((rows, count + 1))
    np.cumsum(values - begin, axis=1, out=sums[:, 1:])
    places = np.arange(count)
    near = np.minimum(reach, np.minimum(places, count - 1 - places))
    found: Floats = (sums[:, places + near + 1] - sums[:, places - near]) / (2 * near + 1) + begin
    return found
