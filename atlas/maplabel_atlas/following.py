"""An atlas that follows the table which it was made of, and a published table that follows the
atlas.
"""

from dataclasses import dataclass

from maplabel_atlas import publishing
from maplabel_atlas.editing import Edit
from maplabel_atlas.faults import Fault
from maplabel_atlas.labelling import LabelCall
from maplabel_atlas.sourcetable import SourceTable
from maplabel_atlas.store import Store
from maplabel_atlas.telling import Teller
from maplabel_atlas.updating import Updater
from maplabel_atlas.workers import Workers

PG = "PG:"


@dataclass(frozen=True)
class Published:
    """Where the names of the atlas are published: a database and a table of it."""

    database: str
    table: str


class Follower:
    """Takes the changes of a table into an atlas, and its changed names into a published table."""

    def __init__(
        self, store: Store, workers: Workers, teller: Teller, to: Published | None
    ) -> None:
        self._store, self._workers, self._teller, self._to = store, workers, teller, to
        self._updater = Updater(store, workers, teller)
        about = self._updater.atlas.about
        if about.log is None or not about.layer.startswith(PG) or about.options.layer is None:
            raise Fault(
                f"{store.folder} was not made of a table that tells its changes: attach the table"
                " (deploy/postgis/README.md), and make the atlas of it, as `atlas make"
                ' "PG:dbname=gis" --layer towns`'
            )
        self._table = SourceTable(about.layer.removeprefix(PG), about.options.layer)
        self._snapshot = about.log

    def step(self) -> int:
        """Takes in what has changed, and says how many features that were."""
        found = self._table.changes(self._snapshot)
        self._snapshot = found.snapshot
        edit = found.edit
        if len(edit):
            self._updater.apply(self._sound(edit), found.snapshot)
            self._updater.save()
        if self._to is not None:
            publishing.to_postgis(
                self._store, self._updater.atlas, self._to.database, self._to.table, self._teller
            )
        return len(edit)

    def _sound(self, edit: Edit) -> Edit:
        """An edit without the features that the engine refuses, which stay as they were."""
        try:
            self._ask(edit.texts)
            return edit
        except Fault:
            return Edit(tuple(text for text in edit.texts if self._is_sound(text)), edit.removed)

    def _is_sound(self, text: str) -> bool:
        try:
            self._ask((text,))
            return True
        except Fault as fault:
            self._teller.say(f"left as it was: {fault}")
            return False

    def _ask(self, texts: tuple[str, ...]) -> None:
        LabelCall(self._workers.engine, self._updater.atlas.style, texts, 0)()

    def watch(self, seconds: float) -> None:
        """Goes on for ever: looks when a notification comes, and every so many seconds."""
        with self._table.listening() as listener:
            while True:
                self.step()
                listener.wait(seconds)
