"""A table of PostGIS that `setup.sql` has attached: its features, its changes in the order of the
commits, and the table of refusals."""

import contextlib
import select
from collections.abc import Iterable, Iterator
from dataclasses import dataclass

import psycopg
from psycopg import sql

from maplabel_source import geojson

MOST_DIGITS = 18
MOST_AT_ONCE = 1000  # changes that are read from the log at once


class Gone(Exception):
    """The database does not answer now."""


class Unfit(Exception):
    """The table cannot be followed: asking again does not help."""


@contextlib.contextmanager
def failures() -> Iterator[None]:
    """Tells what psycopg raises as one of the two."""
    try:
        yield
    except (psycopg.OperationalError, psycopg.InterfaceError) as error:
        raise Gone(f"the database does not answer: {' '.join(str(error).split())}") from None
    except psycopg.Error as error:
        raise Unfit(f"the database refuses: {' '.join(str(error).split())}") from None


@dataclass(frozen=True)
class Change:
    """A line of the log: its number, its transaction, and a feature's id and text.

    The id is none where any row may have changed, the text none where the row is gone."""

    number: int
    xid: int
    id: str | None
    text: str | None


@dataclass(frozen=True)
class Told:
    """Changes in the order in which they were told, and how many notifications name no line of
    the log."""

    changes: list[Change]
    empty: int


class Snapshot:
    """Which transactions a reading of the table has seen, as `pg_current_snapshot` tells it."""

    def __init__(self, text: str) -> None:
        low, high, running = text.split(":")
        self.low, self.high = int(low), int(high)
        self.running = {int(one) for one in running.split(",") if one}

    def has_seen(self, xid: int) -> bool:
        """Whether what the transaction did was read."""
        return xid < self.low or xid < self.high and xid not in self.running


def number_of(payload: str) -> int | None:
    """The number that a notification names, or none where it is something else: anybody may send
    one."""
    is_number = payload.isascii() and payload.isdecimal() and len(payload) <= MOST_DIGITS
    return int(payload) if is_number else None


class Table:
    """A table by its name, in a database by its connection string; `open` connects, first and
    anew."""

    def __init__(self, database: str, name: str) -> None:
        self.database, self.name = database, name
        self._links: list[psycopg.Connection[tuple[object, ...]]] = []
        self._waiting: list[str] = []

    def open(self) -> None:
        """Connects, and listens from now on."""
        self.close()
        with failures():
            self._links = [self._connect()]
            self._links.append(self._connect())
            self._find()
            channel = sql.Identifier(f"maplabel_{self.oid}")
            self.listener.execute(sql.SQL("LISTEN {}").format(channel))

    @property
    def link(self) -> "psycopg.Connection[tuple[object, ...]]":
        """The connection for questions."""
        return self._links[0]

    @property
    def listener(self) -> "psycopg.Connection[tuple[object, ...]]":
        """The connection on which notifications come."""
        return self._links[1]

    def _connect(self) -> "psycopg.Connection[tuple[object, ...]]":
        return psycopg.connect(
            self.database,
            autocommit=True,
            client_encoding="UTF8",
            connect_timeout=10,
            application_name="maplabel",
        )

    def close(self) -> None:
        """Ends both connections."""
        for link in self._links:
            with contextlib.suppress(psycopg.Error):
                link.close()
        self._links, self._waiting = [], []

    def _one(self, text: str, values: Iterable[object] = ()) -> tuple[object, ...] | None:
        return self.link.execute(text.encode(), list(values)).fetchone()

    def _find(self) -> None:
        """Looks the table up, and the columns by which it is attached."""
        found = self._one("SELECT to_regclass('maplabel.changes')")
        if found is None or found[0] is None:
            raise Unfit("this database is not set up for maps: run setup.sql in it first")
        found = self._one("SELECT to_regclass(%s)::oid", [self.name])
        if found is None or found[0] is None:
            raise Unfit(f"there is no table {self.name}")
        self.oid = int(str(found[0]))
        row = self._one(
            "SELECT source::text, id_column FROM maplabel.sources WHERE source = %s", [self.oid]
        )
        if row is None:
            raise Unfit(
                f"table {self.name} is not attached: "
                f"SELECT maplabel.attach('{self.name}', ID_COLUMN, GEOMETRY_COLUMN)"
            )
        table, column = sql.SQL(str(row[0])), sql.Identifier(str(row[1]))
        self._all = sql.SQL("SELECT maplabel.feature(t)::text FROM ONLY {} t ORDER BY t.{}").format(
            table, column
        )

    def features(self) -> tuple[dict[str, str], Snapshot]:
        """All features, a dictionary from ids to texts, and the snapshot in which they were
        read."""
        with failures():
            self._find()
        with failures(), self.link.transaction():
            self.link.execute("SET TRANSACTION ISOLATION LEVEL REPEATABLE READ, READ ONLY")
            row = self._one("SELECT pg_current_snapshot()::text")
            assert row is not None
            texts = [str(text) for text, in self.link.execute(self._all)]
        return dict(geojson.read_feature(text) for text in texts), Snapshot(str(row[0]))

    def changes(self, seconds: float) -> Told:
        """The changes that were told, in the order of the commits; waits so long for the first.

        A notification is a hint alone, since anybody may send one: it names a line of the log, and
        what is done is read from there."""
        with failures():
            if not self._waiting:
                select.select([self.listener.fileno()], [], [], seconds)
            self.listener.pgconn.consume_input()
            while (notice := self.listener.pgconn.notifies()) is not None:
                self._waiting.append(notice.extra.decode("utf-8", "replace"))
            payloads = self._waiting[:MOST_AT_ONCE]
            del self._waiting[:MOST_AT_ONCE]
            return self._read([number_of(one) for one in payloads])

    def _read(self, numbers: list[int | None]) -> Told:
        """The lines of the log by their numbers, in this order, each once."""
        wanted = list(dict.fromkeys(number for number in numbers if number is not None))
        if not wanted:
            return Told([], len(numbers))
        rows = self.link.execute(
            (
                "SELECT n, xid::text, id, feature::text FROM maplabel.changes "
                "WHERE source = %s AND n = ANY(%s)"
            ),
            [self.oid, wanted],
        ).fetchall()
        found = {int(str(row[0])): row for row in rows}
        made = [_change(found[number]) for number in wanted if number in found]
        return Told(made, len(numbers) - len(made))

    def refuse(self, name: str, text: str | None, words: str) -> None:
        """Writes down that the server refuses a feature."""
        with failures():
            self.link.execute(
                (
                    "INSERT INTO maplabel.refusals VALUES (%s, %s, %s, %s::jsonb) ON CONFLICT"
                    " (source, id) DO UPDATE SET words = excluded.words, feature ="
                    " excluded.feature, refused_at = excluded.refused_at"
                ),
                [self.oid, name, words, text or "null"],
            )

    def accept(self, name: str) -> None:
        """Strikes out a refusal."""
        with failures():
            self.link.execute(
                "DELETE FROM maplabel.refusals WHERE source = %s AND id = %s", [self.oid, name]
            )

    def refused(self) -> set[str]:
        """The ids of the refusals that are written down."""
        with failures():
            rows = self.link.execute(
                "SELECT id FROM maplabel.refusals WHERE source = %s", [self.oid]
            )
            return {str(name) for name, in rows}


def _change(row: tuple[object, ...]) -> Change:
    """A change of a row of the log."""
    number, xid, name, feature = row
    if name is None:
        return Change(int(str(number)), int(str(xid)), None, None)
    text = None
    if feature is not None:
        text = geojson.feature_text(geojson.read_json(str(feature)), str(name))
    return Change(int(str(number)), int(str(xid)), str(name), text)
