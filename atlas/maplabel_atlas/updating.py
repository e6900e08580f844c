"""Keeping an atlas true: an edit is taken in, the ends that depend on it are asked for, and the
changed names are noted.
"""

import dataclasses

import numpy as np

from maplabel_atlas.arrays import Texts, union
from maplabel_atlas.cut import Sizes
from maplabel_atlas.editing import Edit, Edited, edited
from maplabel_atlas.ends import Ends
from maplabel_atlas.store import Store
from maplabel_atlas.telling import Teller
from maplabel_atlas.tiers import Tiers
from maplabel_atlas.workers import Workers


class Updater:
    """An atlas in memory, to which edits are made; `save` makes what they came to the next
    generation.
    """

    def __init__(self, store: Store, workers: Workers, teller: Teller) -> None:
        self._store, self._workers, self._teller = store, workers, teller
        self.atlas = store.mapped()
        if self.atlas.about.engine != workers.engine.digest:
            teller.say("the atlas was made by another build of the engine; `atlas audit` compares")
        self._changed: list[Texts] = []

    def apply(self, edit: Edit, log: str | None = None) -> int:
        """Makes an edit, and says how many names it changed.

        `log` is the snapshot behind it of the table that the atlas follows."""
        about = self.atlas.about
        if log is not None:
            self.atlas.about = dataclasses.replace(about, log=log)
        if len(edit) == 0:
            return 0
        done = edited(self.atlas.state, edit, self.atlas.style, self._workers.engine)
        for name in done.unknown:
            self._teller.say(f"there is no feature {name}, so none was removed")
        ends = Ends(done.state.labels)
        ends.take(done.state.until.copy(), done.state.blocker.copy())
        account = Tiers(ends, self._workers, Sizes(), self._teller).edited(done.new, done.bereft)
        changed = _changed(done, ends)
        done.state.until, done.state.blocker = ends.until, ends.blocker
        before = len(self.atlas.state.labels) + len(self.atlas.state.bare)
        after = len(done.state.labels) + len(done.state.bare)
        self.atlas.state = done.state
        self.atlas.about = dataclasses.replace(
            self.atlas.about, features=about.features + after - before
        )
        self._changed.append(changed)
        self._teller.say(
            f"{len(edit)} features edited: {len(done.new)} new labels, asked for by rounds"
            f" {', '.join(map(str, account.rounds)) or 'none'} in {account.tables} tables;"
            f" {len(changed)} names changed"
        )
        return len(changed)

    def save(self) -> None:
        """Makes the edits the next generation, if there were any."""
        if self._changed:
            about = self.atlas.about
            self.atlas.about = dataclasses.replace(about, generation=about.generation + 1)
            self._store.save(self.atlas, np.unique(np.concatenate(self._changed)))
            self._changed.clear()


def _changed(done: Edited, ends: Ends) -> Texts:
    """The ids of the names that are others than before: those of the edit, and those that end
    otherwise now.
    """
    is_other = (done.state.until != ends.until).any(axis=1) | (done.state.blocker != ends.blocker)
    rows = union([np.flatnonzero(is_other), done.new, done.bereft])
    names: Texts = np.unique(np.concatenate([ends.labels.ids[rows], done.named]))
    return names
