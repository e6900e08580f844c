"""An edit of an atlas: some features are put in, put in the place of those with their ids, or taken
away.
"""

from dataclasses import dataclass

import numpy as np

from maplabel_atlas.arrays import Texts, Whole
from maplabel_atlas.ends import NONE
from maplabel_atlas.engine import Engine
from maplabel_atlas.faults import Fault
from maplabel_atlas.labelling import LabelCall
from maplabel_atlas.labels import Labels
from maplabel_atlas.parts import Bare, Part, together
from maplabel_atlas.splice import Splice
from maplabel_atlas.style import Style

MOST_FEATURES = 30_000


@dataclass(frozen=True)
class Edit:
    """The texts of features that are put in, or in the place of others, and the ids of those that
    are taken away.
    """

    texts: tuple[str, ...] = ()
    removed: tuple[str, ...] = ()

    def __len__(self) -> int:
        return len(self.texts) + len(self.removed)


@dataclass
class State:
    """All labels with their ends and blockers, and the features without a label."""

    labels: Labels
    until: Whole
    blocker: Whole
    bare: Bare


@dataclass
class Edited:
    """A state after an edit, whose ends are still those of before.

    Its new rows, the rows whose blocker is gone, the ids that the edit speaks of, and those which
    nobody had.
    """

    state: State
    new: Whole
    bereft: Whole
    named: Texts
    unknown: list[str]


def edited(state: State, edit: Edit, rules: Style, engine: Engine) -> Edited:
    """Takes the labels of an edit in. What the edit does not speak of stays as it is, and nothing
    is sorted anew.
    """
    part = _part(edit, rules, engine)
    new, bare, _ = together([part])
    removed = _names(list(edit.removed))
    named = np.unique(np.concatenate([part.own_ids, removed]))
    gone = np.flatnonzero(np.isin(state.labels.ids, named))
    known = np.concatenate([state.labels.ids[gone], state.bare.ids])
    unknown = [name.decode() for name in removed[~np.isin(removed, known)].tolist()]
    before = [_place_of(state.labels, new, row) for row in range(len(new))]
    splice = Splice(len(state.labels), gone, np.array(before, dtype=np.int64))
    none = np.full(len(new), NONE, dtype=np.int64)
    row_before = splice.column(np.arange(len(state.labels)), none)
    row_of = np.full(len(state.labels) + 1, NONE, dtype=np.int64)  # the last one is for no blocker
    kept = np.flatnonzero(row_before != NONE)
    row_of[row_before[kept]] = kept
    was = splice.column(state.blocker, none)
    blocker = row_of[was]
    after = State(
        splice.labels(state.labels, new),
        splice.column(state.until, new.most),
        blocker,
        state.bare.without(named).plus(bare),
    )
    bereft = np.flatnonzero((was != NONE) & (blocker == NONE))
    return Edited(after, np.flatnonzero(row_before == NONE), bereft, named, unknown)


def _part(edit: Edit, rules: Style, engine: Engine) -> Part:
    """The labels of the features of an edit, all of which have ids of their own."""
    if len(edit.texts) > MOST_FEATURES:
        raise Fault(
            f"an edit takes at most {MOST_FEATURES} features, and this one has {len(edit.texts)}: "
            "give it in parts, or make the atlas anew, which asks only what is new"
        )
    part = LabelCall(engine, rules, edit.texts, 0)()
    if not part.has_id.all():
        place = int(np.flatnonzero(~part.has_id)[0])
        raise Fault(
            f"the feature at place {place} of the edit has no id, so nobody knows which one it"
            " replaces"
        )
    names, counts = np.unique(part.own_ids, return_counts=True)
    if (counts > 1).any():
        name = names[counts > 1][0].decode()
        raise Fault(
            f"two features of the edit have the id {name}, so nobody knows which one is meant"
        )
    return part


def _names(ids: list[str]) -> Texts:
    return np.array([one.encode() for one in ids], dtype="S") if ids else np.zeros(0, dtype="S1")


def _place_of(labels: Labels, new: Labels, row: int) -> int:
    """The first label that does not stand before a new one in priority order."""
    wanted = _rank_of(new, row)
    low, high = 0, len(labels)
    while low < high:
        middle = (low + high) // 2
        if _rank_of(labels, middle) < wanted:
            low = middle + 1
        else:
            high = middle
    return low


def _rank_of(labels: Labels, row: int) -> tuple[int, int, bytes]:
    return int(labels.priority[row]), -int(labels.rank[row]), bytes(labels.ids[row])
