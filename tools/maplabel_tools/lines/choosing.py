"""The places of a name, zoom by zoom from the furthest out."""

from collections.abc import Iterator, Sequence
from dataclasses import replace

import numpy as np

from maplabel_kit.along import Point
from maplabel_tools.lines.chains import Chain, Name
from maplabel_tools.lines.fits import Fit, fits
from maplabel_tools.lines.labels import ABOVE, BELOW, How, Label
from maplabel_tools.lines.pools import Closed, Pool, pool_of
from maplabel_tools.lines.taken import LevelRoom, Scope
from maplabel_tools.lines.tracks import STEP, Path, Track
from maplabel_tools.lines.wish import Wish

# Pixels by which a letter may move where another label takes over at the same place.
MOST_MOVE = 10.0
# Pixels by which a name may stand further from its line where it finds no place else.
FURTHER = (0.0, 4.0)


class Chooser:
    """The labels of one name over all levels."""

    def __init__(
        self, names: Sequence[Name], paths: Sequence[Path], room: Sequence[LevelRoom], wish: Wish
    ) -> None:
        """The names are the same text with its letters spaced and not, the last one the
        shortest.
        """
        self.names, self.paths, self.room, self.wish = names, paths, room, wish
        self.scales, self.spacings = wish.scales(), wish.spacings()
        self.tracks = [self._tracks(scale) for scale in self.scales]
        self.open: list[Label] = []
        self.done: list[Label] = []
        self.ended: list[tuple[Point, float]] = []

    def _tracks(self, scale: float) -> dict[int, Track]:
        """The tracks of paths that are long enough at a scale, by the paths' numbers."""
        least = (self.names[-1].length + 2) * scale
        return {
            k: Track(path, scale, self.names[-1].height)
            for k, path in enumerate(self.paths)
            if path.length >= least
        }

    def labels(self) -> list[Label]:
        """All labels of the name, by the levels at which they begin."""
        for level in range(len(self.scales)):
            self.open = [label for before in self.open for label in self._goes_on(before, level)]
            self.open += self._found(level)
        return sorted(
            self.done + self.open, key=lambda one: (one.first, self.paths.index(one.path), one.t)
        )

    def _is_free(self, level: int, place: Point, chain: Chain, scope: Scope) -> bool:
        """Whether no other label is where boxes would be, at some scales of a level."""
        boxes = np.array(chain.boxes, dtype=np.float64)
        return self.room[level].is_free(place, boxes, self.wish.margin, scope)

    def _goes_on(self, label: Label, level: int) -> Iterator[Label]:
        """The label of a place at a level: the one of the level before, or one that is fitted anew;
        or none, for good.
        """
        track = self.tracks[level].get(self.paths.index(label.path))
        if track and self._stays(label, track, level):
            label.last = level
            yield label
            return
        self.done.append(label)
        fresh = self._fitted(label, track, level) if track else None
        if fresh is None or label.moved(fresh) > MOST_MOVE:
            self.ended.append((label.place, label.name.length / 2 * self.scales[level - 1]))
        else:
            yield fresh

    def _stays(self, label: Label, track: Track, level: int) -> bool:
        """Whether a label is good at a level further in."""
        if label.is_narrow():
            return False
        is_free = self._is_free(level, label.place, label.chain, Scope.WHOLE)
        return is_free and label.follows(track, self.wish)

    def _fitted(self, label: Label, track: Track, level: int) -> Label | None:
        """A label at the place of another one, fitted at another scale."""
        ask = label.name.ask(self.wish.is_beside())
        found = fits(track, track.indices(np.array([label.t])), ask)
        if not len(found.rows) or label.is_narrow():
            return None
        how = replace(label.how, scope=Scope.WHOLE)
        return self._label(label.path, label.t, found.one(0), how, level)

    def _label(self, path: Path, t: float, fit: Fit, how: How, level: int) -> Label | None:
        """A label at a place, where its letters have room."""
        wanted, place = how.name.wanted(fit, self._rise(fit, how)), path.at(t)
        if not self.room[level].is_free(place, wanted.boxes(), self.wish.margin, how.scope):
            return None
        chain = how.name.chain(wanted)
        if chain is None or not self._is_free(level, place, chain, how.scope):
            return None
        return Label(how, path, t, place, level, level, fit, chain, self.scales[level])

    def _rise(self, fit: Fit, how: How) -> float:
        """By how much the middles of letters are raised from the curve."""
        if not self.wish.is_beside():
            return 0.0
        away = how.name.height / 2 + self.wish.gap + how.further
        return away + fit.above if how.side == ABOVE else -away - fit.below

    def _found(self, level: int) -> list[Label]:
        """New labels of a level, the best places first, apart from those that are there."""
        sides = (ABOVE, BELOW) if self.wish.is_beside() else (ABOVE,)
        found: list[Label] = []
        for name in self.names:
            step = max(1, round(name.length / 8 / STEP))
            hows = [How(name, side, 0.0, Scope.INNER) for side in sides]
            found += self._best(level, step, hows, self.open + found)
        if found or self.open or not self.room[level].has_others():
            return found
        return self._found_among_others(level, sides)

    def _found_among_others(self, level: int, sides: Sequence[int]) -> list[Label]:
        """New labels among many other names: each point of the lines is tried, and more than one
        way.
        """
        distances = FURTHER if self.wish.is_beside() else FURTHER[:1]
        found: list[Label] = []
        for scope in (Scope.INNER, Scope.NARROW):
            hows = [How(self.names[-1], side, more, scope) for more in distances for side in sides]
            found = found or self._best(level, 1, hows, [])
        return found

    def _best(
        self, level: int, step: int, hows: Sequence[How], there: Sequence[Label]
    ) -> list[Label]:
        """New labels of a level, about each so many points of its tracks, in the first of some ways
        in which there is room, and apart from those that are there.
        """
        far = self.spacings[level] * self.scales[level]
        closed = Closed([(label.place, far) for label in there] + self.ended)
        pool, found = self._pool(level, closed, step, hows[0].name), []
        for path, t, fit in pool.best():
            labels = (self._label(path, t, fit, how, level) for how in hows)
            label = next((one for one in labels if one), None)
            if label:
                found.append(label)
                pool.close(label.place, far)
        return found

    def _pool(self, level: int, closed: Closed, step: int, name: Name) -> Pool:
        """The places of a level at which a name lies well."""
        ahead = self.tracks[level + 1] if level + 1 < len(self.scales) else {}
        ask = name.ask(self.wish.is_beside())
        return pool_of(self.tracks[level], ahead, self.scales[level], closed, step, ask)
