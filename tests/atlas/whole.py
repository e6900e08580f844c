"""One process of the engine over a whole map, with which an atlas is compared."""

from collections.abc import Iterable, Sequence
from pathlib import Path

from maplabel_kit import client, files, geojson, program
from maplabel_kit import labels as states

from maplabel_atlas.editing import State
from maplabel_atlas.engine import Engine
from maplabel_atlas.parts import REASONS


class Differs(Exception):
    """Something came out otherwise than it should."""


class Whole:
    """What one process says of a whole map: all labels, and why features have none."""

    def __init__(self, engine: Engine, style: str, features: Iterable[str]) -> None:
        self._program, self._style = engine.path, style
        self._map = geojson.collection(features)
        state, world = self._ask([client.get("/state"), client.get("/map")])
        self.labels = states.read_state(state.decode())
        named = {one.id for one in self.labels}
        features_read = geojson.features_of(world.decode())
        self.bare = [one.id for one in features_read if one.id not in named]
        self.reasons: list[str] = []
        if self.bare:
            asked = [client.get("/why", id=own) for own in self.bare]
            self.reasons = [geojson.parse(one.decode())["reason"] for one in self._ask(asked)]

    def _ask(self, requests: Sequence[bytes]) -> list[bytes]:
        """The bodies of replies."""
        with files.folder() as at:
            paths: tuple[Path, Path] = (at / "style.toml", at / "map.geojson")
            files.write_whole({paths[0]: self._style, paths[1]: self._map})
            return [one.body for one in program.pipe(self._program, *paths, requests)]

    def bodies(self, requests: Sequence[bytes]) -> list[bytes]:
        """The bodies of replies to at most a thousand requests."""
        return self._ask(requests)

    def compare(self, state: State, what: str) -> None:
        """Raises where the state's labels are others than those of the whole, or end otherwise."""
        labels, ids = state.labels, state.labels.ids
        found = [
            (own.decode(), tuple(end), None if by < 0 else ids[by].decode(), margin)
            for own, end, by, margin in zip(
                ids.tolist(), state.until.tolist(), state.blocker.tolist(), labels.margin.tolist()
            )
        ]
        wanted = [
            (one.id, one.until.as_integer_ratio(), one.blocker, one.margin) for one in self.labels
        ]
        if found != wanted:
            raise Differs(f"{what}: the ends are not those of the whole")
        told = sorted(zip(map(bytes.decode, state.bare.ids.tolist()), state.bare.reasons.tolist()))
        if told != sorted(zip(self.bare, map(REASONS.index, self.reasons))):
            raise Differs(f"{what}: other features than in the whole have no label")
