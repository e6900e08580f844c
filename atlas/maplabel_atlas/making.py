"""Making an atlas: labels part by part, then ends tier by tier."""

import hashlib
from collections.abc import Iterator
from dataclasses import dataclass

from maplabel_kit import files, geojson, program

from maplabel_atlas.cut import Sizes
from maplabel_atlas.editing import State
from maplabel_atlas.ends import Ends
from maplabel_atlas.faults import Fault
from maplabel_atlas.labelling import LabelCall
from maplabel_atlas.layer import Chunk, Source, chunks
from maplabel_atlas.parts import Bare, Doubles, Part, Survey, together
from maplabel_atlas.style import Style, of_text
from maplabel_atlas.telling import Teller
from maplabel_atlas.tiers import Tiers
from maplabel_atlas.workers import Question, Workers

MOST_KEYS = 12


@dataclass
class Made:
    """What was made: a state, how many features there are, and the account of each tier."""

    state: State
    features: int
    tiers: Tiers


def accepted_style(engine: str, path: str) -> Style:
    """The style of a file, which the engine has accepted; where it refuses, the fault explains
    it.
    """
    text = files.must_read(path, "the style").decode("utf-8-sig", "replace")
    with files.folder() as at:
        empty = at / "empty.geojson"
        empty.write_text(geojson.collection([]), encoding="utf-8")
        program.asked(engine, "view", path, empty, 0, 0, 2, 2, 1)
    found = of_text(text)
    if not found.classes:
        raise Fault(f"the style {path} has no class, so nothing gets a label")
    return found


class Maker:
    """Makes an atlas of a layer with the help of workers."""

    def __init__(self, workers: Workers, style: Style, sizes: Sizes, teller: Teller) -> None:
        self._workers, self._style, self._sizes, self._teller = workers, style, sizes, teller

    def make(self, name: str, source: Source) -> Made:
        """All labels of a layer with their ends and blockers."""
        parts = self._parts(source)
        if not parts:
            raise Fault(f"{name} has no features")
        survey, features = Survey(), sum(len(one.own_ids) for one in parts)
        for one in parts:
            survey.add(one.survey)
        labels, bare, doubles = together(parts)
        self._tell(name, survey, len(labels), bare)
        if doubles is not None:
            self._teller.say(_doubles_told(doubles))
        ends = Ends(labels)
        tiers = Tiers(ends, self._workers, self._sizes, self._teller)
        tiers.find()
        return Made(State(labels, ends.until, ends.blocker, bare), features, tiers)

    def _parts(self, source: Source) -> list[Part]:
        """The labels of a layer, made part by part."""
        found: dict[int, Part] = {}
        self._teller.part("features read")
        count = 0
        for chunk, part in self._workers.answers(self._questions(source)):
            found[chunk.first] = part
            count += len(part.own_ids)
            self._teller.at(count)
        self._teller.end()
        return [found[first] for first in sorted(found)]

    def _questions(self, source: Source) -> Iterator[Question[Chunk, Part]]:
        engine = self._workers.engine
        head = hashlib.sha256(engine.digest.encode() + self._style.text.encode())
        for chunk in chunks(source.texts()):
            known = head.copy()
            for text in chunk.texts:
                known.update(text.encode("utf-8", "surrogatepass"))
                known.update(b"\n")
            call = LabelCall(engine, self._style, chunk.texts, chunk.first)
            where = f"features {chunk.first} to {chunk.first + len(chunk.texts) - 1} of the layer"
            beside = Chunk(chunk.first, ())
            yield Question(beside, known.hexdigest(), where, call)

    def _tell(self, name: str, survey: Survey, labels: int, bare: Bare) -> None:
        """What became of the features; a layer without any label is refused."""
        counts, style = bare.counts(), self._style
        if labels == 0:
            raise Fault(f"no feature of {name} gets a label: {_why_none(counts, survey, style)}")
        told = ", ".join(f"{count:,} {reason}" for reason, count in counts.items())
        self._teller.say(
            f"{labels:,} labels; "
            + (f"{len(bare):,} features without one: {told}" if told else "every feature has one")
        )
        kinds = {kind: count for kind, count in survey.kinds.items() if kind != "none"}
        without = {kind: count for kind, count in kinds.items() if kind not in style.kinds()}
        if len(kinds) > 1 and without:
            mixed = ", ".join(
                f"{count:,} of the kind {kind}" for kind, count in sorted(kinds.items())
            )
            lost = " and ".join(sorted(without))
            self._teller.say(
                f"the layer mixes geometries ({mixed}), and the style has no class for {lost}"
            )


def _doubles_told(doubles: Doubles) -> str:
    return (
        f"{doubles.count:,} features have an id that an earlier one has, first {doubles.id} at "
        f"place {doubles.place}: they get ids by their places (#PLACE), as in the engine, which an "
        "edit of the layer moves; give them ids of their own if the atlas is to be edited"
    )


def _why_none(counts: dict[str, int], survey: Survey, style: Style) -> str:
    """Why a layer has no label at all, for a person."""
    reason = max(counts, key=lambda name: counts[name])
    if reason == "NoName":
        keys = ", ".join(key for key, _ in survey.keys.most_common(MOST_KEYS)) or "none"
        return (
            f"none has a name in the property {style.name!r}, which the style asks for; the"
            f" properties are {keys}"
        )
    if reason == "NoClass":
        kinds = ", ".join(sorted(survey.kinds))
        classes = ", ".join(one.title() for one in style.classes[:MOST_KEYS])
        return f"none fits a class of the style; the kinds are {kinds}, the classes {classes}"
    return ", ".join(f"{count:,} {name}" for name, count in counts.items())
