"""Parts of a layer: the labels of some features, and what became of the features without one."""

from collections import Counter
from dataclasses import dataclass, field

import numpy as np

from maplabel_atlas.arrays import Texts, Truth, Whole
from maplabel_atlas.labels import Labels, join

REASONS = ("NoGeometry", "NoClass", "NoName", "TooWide")


@dataclass
class Survey:
    """What some features are: how many of each kind of geometry, and the keys of their
    properties.
    """

    kinds: Counter[str] = field(default_factory=Counter)
    keys: Counter[str] = field(default_factory=Counter)

    def add(self, other: "Survey") -> None:
        """Counts those of another survey too."""
        self.kinds.update(other.kinds)
        self.keys.update(other.keys)


@dataclass
class Part:
    """The labels of some features, and for each label which feature of the part it is of.

    Of all features the own ids and whether they have one; of those without a label which these
    are, and the numbers of the reasons."""

    labels: Labels
    lines: Whole
    own_ids: Texts
    has_id: Truth
    bare: Whole
    reasons: Whole
    survey: Survey


@dataclass
class Bare:
    """Features without a label: their ids and the numbers of the reasons."""

    ids: Texts
    reasons: Whole

    def __len__(self) -> int:
        return len(self.ids)

    def counts(self) -> dict[str, int]:
        """How many there are for each reason that occurs."""
        numbers = np.bincount(self.reasons, minlength=len(REASONS)).tolist()
        return {name: count for name, count in zip(REASONS, numbers) if count}

    def reason_of(self, name: bytes) -> str | None:
        """Why a feature has no label, or none."""
        rows = np.flatnonzero(self.ids == name)
        return REASONS[self.reasons[rows[0]]] if len(rows) else None

    def ids_for(self, reason: str) -> Texts:
        """The ids of the features that have no label for this reason."""
        found: Texts = self.ids[self.reasons == REASONS.index(reason)]
        return found

    def without(self, names: Texts) -> "Bare":
        """The features but those with some ids."""
        is_kept = ~np.isin(self.ids, names)
        return Bare(self.ids[is_kept], self.reasons[is_kept])

    def plus(self, other: "Bare") -> "Bare":
        """These features and others."""
        return Bare(
            np.concatenate([self.ids, other.ids]), np.concatenate([self.reasons, other.reasons])
        )


@dataclass(frozen=True)
class Doubles:
    """Features whose own id an earlier one has: how many there are, and place and id of the
    first.
    """

    count: int
    place: int
    id: str


def together(parts: list[Part]) -> tuple[Labels, Bare, Doubles | None]:
    """The labels of all parts in priority order, and the features without one.

    All get the ids that a map of all features would give them. The list is empty then, so that no
    label is held twice."""
    own = np.concatenate([one.own_ids for one in parts])
    ids, doubles = all_ids(own, np.concatenate([one.has_id for one in parts]))
    sizes = [len(one.own_ids) for one in parts]
    shifts = np.cumsum([0, *sizes[:-1]])
    rows = np.concatenate([one.lines + shift for one, shift in zip(parts, shifts)])
    bare = np.concatenate([one.bare + shift for one, shift in zip(parts, shifts)])
    reasons = np.concatenate([one.reasons for one in parts])
    columns = [one.labels for one in parts]
    parts.clear()
    labels = join(columns)
    columns.clear()
    labels.ids = ids[rows]
    found = None
    if len(doubles):
        found = Doubles(len(doubles), int(doubles[0]), own[doubles[0]].decode())
    return labels.take(labels.order()), Bare(ids[bare], reasons), found


def all_ids(own: Texts, has_id: Truth) -> tuple[Texts, Whole]:
    """The id of each feature, and the places of those whose own id an earlier one has.

    A feature has its own id where no feature before it has that, else its place with signs before.
    """
    if has_id.all() and len(np.unique(own)) == len(own):
        return own, np.zeros(0, dtype=np.int64)
    taken: set[bytes] = set()
    found, doubles = [], []
    for place, (one, is_told) in enumerate(zip(own.tolist(), has_id.tolist())):
        if is_told and one in taken:
            doubles.append(place)
        name = one if is_told and one not in taken else b"#%d" % place
        while name in taken:
            name = b"#" + name
        taken.add(name)
        found.append(name)
    return np.array(found, dtype="S"), np.array(doubles, dtype=np.int64)
