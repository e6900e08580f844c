"""A table of PostGIS as the source of an atlas: one that deploy/postgis/setup.sql has attached.

All rows are read in one snapshot. Later the log of changes is asked for what that snapshot has not
seen. Notifications are hints to look, and nothing else: whoever sends one can change nothing."""

import contextlib
import select
from collections.abc import Iterator
from dataclasses import dataclass
from typing import Any

import psycopg
from psycopg import sql

from maplabel_atlas.databases import connected
from maplabel_atlas.editing import Edit
from maplabel_atlas.faults import Fault

BATCH = 10_000
SNAPSHOT = "SET TRANSACTION ISOLATION LEVEL REPEATABLE READ, READ ONLY"
ANEW = "make the atlas anew (what stayed the same is not asked again)"


@dataclass(frozen=True)
class Changes:
    """What changed since a snapshot, and the snapshot behind it."""

    edit: Edit
    snapshot: str


class SourceTable:
    """An attached table by its name, in a database by its connection string."""

    def __init__(self, database: str, table: str) -> None:
        self._database, self.table = database, table
        self._snapshot: str | None = None

    def is_attached(self) -> bool:
        """Whether the table tells its changes."""
        with connected(self._database) as link:
            if link.execute("SELECT to_regclass('maplabel.changes')").fetchone()[0] is None:
                return False
            return self._source(link) is not None

    def _source(self, link: Any) -> tuple[int, str, str] | None:
        """The number of the table, its name with the schema, and the column of its ids."""
        row = link.execute(
            (
                "SELECT source::oid::bigint, source::text, id_column FROM maplabel.sources "
                "WHERE source = to_regclass(%s)"
            ),
            [self.table],
        ).fetchone()
        return None if row is None else (row[0], row[1], row[2])

    def _must_find(self, link: Any) -> tuple[int, str, str]:
        found = self._source(link)
        if found is None:
            raise Fault(
                f"the table {self.table} is not attached any more: "
                f"SELECT maplabel.attach('{self.table}', ID_COLUMN, GEOMETRY_COLUMN), and {ANEW}"
            )
        return found

    def texts(self) -> Iterator[str]:
        """The text of each row's feature, all in one snapshot."""
        with connected(self._database) as link, link.transaction():
            link.execute(SNAPSHOT)
            _, name, column = self._must_find(link)
            self._snapshot = _snapshot(link)
            statement = "SELECT maplabel.feature(t)::text FROM ONLY {} t ORDER BY t.{}"
            with link.cursor("features") as cursor:
                cursor.itersize = BATCH
                cursor.execute(sql.SQL(statement).format(sql.SQL(name), sql.Identifier(column)))
                for (text,) in cursor:
                    yield text

    def log(self) -> str | None:
        """The snapshot of the last reading of all rows: what it has not seen is in the log."""
        return self._snapshot

    def changes(self, since: str) -> Changes:
        """What a snapshot has not seen: the last state of each feature that the log names."""
        with connected(self._database) as link, link.transaction():
            link.execute(SNAPSHOT)
            number, _, _ = self._must_find(link)
            self._see_log(link, since)
            rows = link.execute(
                "SELECT DISTINCT ON (id) id, feature::text FROM maplabel.changes "
                "WHERE source = %s AND xid >= pg_snapshot_xmin(%s::pg_snapshot) "
                "AND NOT pg_visible_in_snapshot(xid, %s::pg_snapshot) ORDER BY id, n DESC",
                [number, since, since],
            ).fetchall()
            if any(name is None for name, _ in rows):
                raise Fault(f"the table {self.table} was emptied or attached anew: {ANEW}")
            texts = tuple(text for _, text in rows if text is not None)
            removed = tuple(name for name, text in rows if text is None)
            return Changes(Edit(texts, removed), _snapshot(link))

    def _see_log(self, link: Any, since: str) -> None:
        """Sees that the log still holds all that a snapshot has not seen: it is cut at times."""
        statement = "SELECT maplabel.whole_from() <= pg_snapshot_xmin(%s::pg_snapshot)"
        if not link.execute(statement, [since]).fetchone()[0]:
            raise Fault(
                "the log of changes does not reach back to the last reading of "
                f"{self.table}: {ANEW}"
            )

    @contextlib.contextmanager
    def listening(self) -> Iterator["Listener"]:
        """Hears of changes as long as the block goes on."""
        with connected(self._database) as link:
            number = self._must_find(link)[0]
            link.commit()
            link.autocommit = True
            link.execute(sql.SQL("LISTEN {}").format(sql.Identifier(f"maplabel_{number}")))
            yield Listener(link)


class Listener:
    """A connection on which notifications come."""

    def __init__(self, link: "psycopg.Connection[Any]") -> None:
        self._link = link

    def wait(self, seconds: float) -> None:
        """Waits so long for a notification, or until one comes; those that came are forgotten."""
        select.select([self._link.fileno()], [], [], seconds)
        self._link.pgconn.consume_input()
        while self._link.pgconn.notifies() is not None:
            pass


def _snapshot(link: Any) -> str:
    """The snapshot of a transaction."""
    return str(link.execute("SELECT pg_current_snapshot()::text").fetchone()[0])


class Fingerprint:
    """Sees whether a table that tells no changes was changed while it was read."""

    def __init__(self, database: str, table: str) -> None:
        self._database, self._table = database, table
        self._was = self._now()

    def _now(self) -> tuple[Any, ...]:
        with connected(self._database) as link:
            row = link.execute("SELECT to_regclass(%s)::text", [self._table]).fetchone()
            if row is None or row[0] is None:
                raise Fault(f"there is no table {self._table} in the database")
            statement = "SELECT count(*), sum(hashtext(ctid::text || ' ' || xmin::text)) FROM {}"
            return tuple(link.execute(sql.SQL(statement).format(sql.SQL(row[0]))).fetchone())

    def look(self) -> None:
        """Raises a fault where the table is another now."""
        if self._now() != self._was:
            raise Fault(
                f"the table {self._table} was changed while it was read; call the command again"
                " when nobody writes to it, or attach it (deploy/postgis/README.md): then it is"
                " read in one snapshot, and its changes are followed"
            )
