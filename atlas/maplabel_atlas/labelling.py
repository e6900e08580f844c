"""From features to labels. The engine makes them: it reads features by the thousand under the
asking style.
"""

import gc
import json
from collections import Counter
from dataclasses import dataclass
from pathlib import Path
from typing import Any

import numpy as np
from maplabel_kit import client, explained_maps, files, geojson, program
from maplabel_kit.faults import Refused
from maplabel_kit.labels import Label, read_state

from maplabel_atlas.arrays import Texts, Whole
from maplabel_atlas.engine import Engine
from maplabel_atlas.faults import Fault
from maplabel_atlas.labels import Labels
from maplabel_atlas.parts import REASONS, Part, Survey
from maplabel_atlas.style import Style

MOST_SIDE = 512
MOST_REQUESTS = 1000
NUMBERED = {name: number for number, name in enumerate(REASONS)}


@dataclass(frozen=True)
class LabelCall:
    """The question for the labels of some features, which are told by their texts; `first` is the
    place of the first.
    """

    engine: Engine
    style: Style
    texts: tuple[str, ...]
    first: int

    def __call__(self) -> Part:
        """The labels in the engine's order."""
        self.engine.look()
        is_on = gc.isenabled()
        gc.disable()  # nothing here is a circle, and looking for some takes a third of the time
        try:
            return self._part()
        finally:
            if is_on:
                gc.enable()

    def _part(self) -> Part:
        features = [self._read(number) for number in range(len(self.texts))]
        made = self._ask(range(len(self.texts)), [client.get("/state")])[0].text()
        found = read_state(made)
        lines = np.array([int(one.id) for one in found], dtype=np.int64)
        bare = np.setdiff1d(np.arange(len(features)), lines)
        own = [_own_id(one) for one in features]
        part = Part(
            self._columns([features[k] for k in lines.tolist()], found),
            lines,
            _texts([one or b"" for one in own]),
            np.array([one is not None for one in own], dtype=np.bool_),
            bare,
            self._reasons(bare.tolist()),
            _survey(features),
        )
        self._compare_order(part)
        self._see_sides(part, features)
        return part

    def _read(self, number: int) -> dict[str, Any]:
        """A feature. What is no JSON map at all is found by the engine, which tells more of it."""
        try:
            value = geojson.parse(self.texts[number])
        except (ValueError, RecursionError):
            value = None
        if not isinstance(value, dict) or not value:
            self._ask([number], [])
            raise Fault(f"{self._title(number, {})} is no feature of GeoJSON")
        if "\0" in (_own_id(value) or b"").decode():
            raise Fault(
                f"{self._title(number, value)} has U+0000 in its id, which no table can hold"
            )
        return value

    def _ask(self, numbers: Any, requests: list[bytes]) -> list[client.Reply]:
        """The replies over a map of some features, whose ids are their numbers: of equal keys the
        last counts.
        """
        texts = [f'{self.texts[k].rstrip()[:-1]},"id":"{k}"}}' for k in numbers]
        with files.folder() as at:
            paths = at / "style.toml", at / "map.geojson"
            paths[0].write_text(self.style.asking, encoding="utf-8")
            paths[1].write_text(geojson.collection(texts), encoding="utf-8")
            try:
                return program.pipe(self.engine.path, *paths, requests)
            except Refused as refused:
                raise self._refusal(refused, list(numbers), paths[1]) from None

    def _refusal(self, refused: Refused, numbers: list[int], path: Path) -> Fault:
        """What the engine says against a feature, with its place in the layer and its id."""
        words = refused.line.split(" ")
        if not refused.line.startswith("map refused: ") or len(words) < 5:
            return Fault(refused.line or f"the engine ended with status {refused.code}")
        data = path.read_bytes()
        place = int(words[4])
        if words[3] in ("NotJson", "Deep"):
            place = min(max(data[:place].count(b"\n") - 1, 0), len(numbers) - 1)
        number = numbers[place]
        told = explained_maps.told_of(words[3:], data, "the layer").sentences()
        value = _tried(self.texts[number])
        if words[3] == "OutOfRange":
            told.append("where the layer does not tell its system, --crs EPSG:N does")
        return Fault("; ".join([f"{self._title(number, value)} is refused: {words[3]}", *told]))

    def _title(self, number: int, feature: dict[str, Any]) -> str:
        own = _own_id(feature)
        named = f" (id {own.decode()})" if own is not None else ""
        return f"the feature at place {self.first + number}{named}"

    def _reasons(self, bare: list[int]) -> Whole:
        """Why features have no label, as the engine tells it."""
        found: list[int] = []
        for begin in range(0, len(bare), MOST_REQUESTS):
            some = bare[begin : begin + MOST_REQUESTS]
            replies = self._ask(some, [client.get("/why", id=str(k)) for k in some])
            found += [NUMBERED[reply.json()["reason"]] for reply in replies]
        return np.array(found, dtype=np.int64)

    def _columns(self, features: list[dict[str, Any]], found: list[Label]) -> Labels:
        """The labels as columns; their ids are found when all parts are there."""
        numbers = [one.most.numerator - 1 for one in found]
        classes = [self.style.classes[number] for number in numbers]
        scales = [one.scales() for one in self.style.classes]
        names = [features[k]["properties"][self.style.name] for k in range(len(found))]
        boxes = [box for one in found for box in one.boxes]
        return Labels(
            place=_pairs([(one.x, one.y) for one in found]),
            least=_pairs([scales[number][0].as_integer_ratio() for number in numbers]),
            most=_pairs([scales[number][1].as_integer_ratio() for number in numbers]),
            margin=_whole([one.margin for one in found]),
            number=_whole(numbers),
            priority=_whole([one.priority for one in classes]),
            rank=_whole([self._rank(one) for one in features]),
            first=np.cumsum([0] + [len(one.boxes) for one in found]),
            boxes=_whole(boxes).reshape(-1, 4),
            ids=_texts([one.id.encode() for one in found]),
            texts=_texts([geojson.shown(name).encode() for name in names]),
        )

    def _rank(self, feature: dict[str, Any]) -> int:
        value = feature["properties"].get(self.style.rank)
        return geojson.rank_of(value) if isinstance(value, geojson.Number) else 0

    def _compare_order(self, part: Part) -> None:
        """The engine's order of a part must be that of the priorities and ranks which were read
        here.
        """
        if not (part.labels.order() == np.arange(len(part.labels))).all():
            raise Fault(
                "the engine orders these labels otherwise than by their priorities and ranks"
            )

    def _see_sides(self, part: Part, features: list[dict[str, Any]]) -> None:
        """No side of a widened box may be further than a table takes."""
        wide, first = part.labels.wide(np.arange(len(part.labels)))
        if not len(wide) or np.abs(wide).max() <= MOST_SIDE:
            return
        row = int(np.searchsorted(first, np.abs(wide).max(axis=1).argmax(), side="right")) - 1
        number = int(part.lines[row])
        text, one = part.labels.texts[row].decode(), self.style.classes[part.labels.number[row]]
        raise Fault(
            f"{self._title(number, features[number])} has the name {text!r}, which with the "
            "margin of its class "
            f"({one.title()}, class {one.place} of the style) reaches further than {MOST_SIDE} "
            "pixels from its place; "
            "make the size or the margin of the class smaller, or the name shorter"
        )


def _tried(text: str) -> dict[str, Any]:
    try:
        value = json.loads(text)
        return value if isinstance(value, dict) else {}
    except (ValueError, RecursionError):
        return {}


def _own_id(feature: dict[str, Any]) -> bytes | None:
    own = feature.get("id")
    return own.encode("utf-8", "replace") if isinstance(own, str) else None


def _survey(features: list[dict[str, Any]]) -> Survey:
    kinds = Counter(geojson.kind_of(one.get("geometry")) or "none" for one in features)
    keys = Counter(key for one in features for key in one.get("properties") or {})
    return Survey(kinds, keys)


def _whole(values: list[Any]) -> Whole:
    return np.array(values, dtype=np.int64)


def _pairs(values: list[tuple[int, int]]) -> Whole:
    return _whole(values).reshape(-1, 2)


def _texts(values: list[bytes]) -> Texts:
    return np.array(values, dtype="S") if values else np.zeros(0, dtype="S1")
