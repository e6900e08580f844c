"""The names of an atlas as a table of PostGIS, of which a view or a tile is one select."""

import contextlib
import re
from collections.abc import Iterator
from dataclasses import dataclass
from pathlib import Path
from typing import Any

import numpy as np

from psycopg import sql

from maplabel_atlas.arrays import Texts, Whole
from maplabel_atlas.databases import connected
from maplabel_atlas.faults import Fault
from maplabel_atlas.names import BATCH, Name, Names
from maplabel_atlas.store import About


SQL = (Path(__file__).parent / "postgis.sql").read_text(encoding="utf-8")
PARTS = dict(re.findall(r"^-- part: (\w+)\n(.*?)(?=^-- part|\Z)", SQL, re.DOTALL | re.MULTILINE))
COLUMNS = (
    "id label class priority rank x y boxes min_n min_d until_n until_d blocker minzoom maxzoom"
    " is_level stem"
).split()
LOWEST = -12.0
NULL = "\\N"
ESCAPES = str.maketrans({"\\": "\\\\", "\t": "\\t", "\n": "\\n", "\r": "\\r"})
STEM = np.dtype([("order", "u1"), ("kind", "<u4"), ("count", "<u4"), ("places", "<f8", (6,))])
LINE_Z = 0x80000002


@dataclass(frozen=True)
class Written:
    """What was written into a table: how many rows were put in or changed, how many taken away."""

    changed: int
    removed: int
    is_new: bool = False


class NamesTable:
    """A table of names by its name, in a database by its connection string."""

    def __init__(self, database: str, table: str) -> None:
        self._database = database
        self._words = table.split(".")
        if len(self._words) > 2 or not all(self._words):
            raise Fault(f"{table} is no name of a table: NAME or SCHEMA.NAME")

    @contextlib.contextmanager
    def _link(self) -> Iterator[Any]:
        with connected(self._database) as link:
            if len(self._words) == 1:
                ((schema,),) = link.execute("SELECT current_schema()").fetchall()
                self._words = [schema, *self._words]
            yield link

    def _put(self, text: str) -> Any:
        """A statement with the names of the table and its functions."""
        schema, name = self._words
        ends = {"table": "", "about": "_about", "view": "_view", "text": "_text", "tile": "_tile"}
        named = {key: sql.Identifier(schema, name + end) for key, end in ends.items()}
        return sql.SQL(text).format(**named)

    def _is_there(self, link: Any) -> bool:
        """Whether the table is there, and is one of an atlas."""
        schema, name = self._words
        rows = link.execute(
            (
                "SELECT attname FROM pg_attribute WHERE attrelid = to_regclass(%s) AND attnum > 0 "
                "AND NOT attisdropped ORDER BY attnum"
            ),
            [f'"{schema}"."{name}"'],
        ).fetchall()
        found = [column for column, in rows]
        if found and found != COLUMNS:
            raise Fault(
                f"the table {schema}.{name} is there and is none of an atlas; choose another by"
                " --table"
            )
        return bool(found)

    def published(self) -> tuple[str, int, int] | None:
        """Which atlas the table holds: its identity, its generation, and the common height; none
        without a table.
        """
        with self._link() as link:
            if not self._is_there(link):
                return None
            row = link.execute(
                self._put("SELECT identity, generation, level FROM {about}")
            ).fetchone()
            return (row[0], row[1], row[2]) if row else None

    def write(self, names: Names, about: About, changed: Texts | None) -> Written:
        """Makes the table hold the names, in one transaction: a reader gets the old ones or the new
        ones.

        `changed` are the ids that may be others than in the table; without them all rows are
        compared.
        """
        rows = names.shown()
        if changed is not None:
            rows = rows[np.isin(names.labels.ids[rows], changed)]
        with self._link() as link, link.cursor() as cursor:
            is_new = not self._is_there(link)
            if is_new:
                cursor.execute(self._put(PARTS["table"]))
            done = (
                self._fill(cursor, names, rows)
                if is_new
                else self._merge(cursor, names, rows, changed)
            )
            if is_new or changed is None:
                cursor.execute(self._put(PARTS["functions"]))
            self._note(cursor, names, about, changed is None)
            return done

    def _fill(self, cursor: Any, names: Names, rows: Whole) -> Written:
        _copy(cursor, self._put("COPY {table} FROM STDIN"), names, rows)
        cursor.execute(self._put(PARTS["index"]))
        return Written(len(rows), 0, True)

    def _merge(self, cursor: Any, names: Names, rows: Whole, changed: Texts | None) -> Written:
        """Brings the rows of a table that is there to what they should be, and writes only those
        that differ.
        """
        cursor.execute(self._put("CREATE TEMP TABLE named (LIKE {table}) ON COMMIT DROP"))
        _copy(cursor, "COPY named FROM STDIN", names, rows)
        cursor.execute("CREATE INDEX ON named (id)")
        cursor.execute("ANALYZE named")
        condition, values = "", []
        if changed is not None:
            condition, values = " AND t.id = ANY(%s)", [[one.decode() for one in changed.tolist()]]
        gone = (
            "DELETE FROM {table} AS t WHERE NOT EXISTS (SELECT FROM named AS n WHERE n.id = t.id)"
        )
        cursor.execute(self._put(gone + condition), values)
        removed = cursor.rowcount
        told = [one for one in COLUMNS if one not in ("id", "stem")]
        old, new = (", ".join(f"{part}.{one}" for one in told) for part in ("t", "excluded"))
        sets = ", ".join(f"{one} = excluded.{one}" for one in [*told, "stem"])
        cursor.execute(
            self._put(
                "INSERT INTO {table} AS t SELECT * FROM named ON CONFLICT (id) DO UPDATE SET "
                f"{sets} WHERE ({old}) IS DISTINCT FROM ({new})"
            )
        )
        return Written(cursor.rowcount, removed)

    def _note(self, cursor: Any, names: Names, about: About, is_whole: bool) -> None:
        """Writes down which generation the table holds; a few rows can only make the greatest box
        greater.
        """
        old = cursor.execute(self._put("SELECT reach FROM {about}")).fetchone()
        reach = max(names.reach(), old[0]) if old and not is_whole else names.reach()
        cursor.execute(self._put("DELETE FROM {about}"))
        cursor.execute(
            self._put("INSERT INTO {about} VALUES (%s, %s, %s, %s)"),
            [about.identity, about.generation, reach, names.level],
        )

    def view(self, window: tuple[int, int, int, int, int, int]) -> str:
        """A view as the engine's JSON. The window is cx, cy, w, h and the scale's numerator and
        denominator.
        """
        with self._link() as link:
            if not self._is_there(link):
                raise Fault(f"there is no table {'.'.join(self._words)}; `atlas publish` makes it")
            row = link.execute(
                self._put(
                    "SELECT {text}(%s::bigint, %s::bigint, %s::int, %s::int, %s::bigint,"
                    " %s::bigint)"
                ),
                window,
            ).fetchone()
            return str(row[0])


def _copy(cursor: Any, statement: Any, names: Names, rows: Whole) -> None:
    with cursor.copy(statement) as copy:
        for begin in range(0, len(rows), BATCH):
            some = rows[begin : begin + BATCH]
            lines = map(_line, names.of(some), _stems(names, some))
            copy.write("".join(lines).encode())


def _line(name: Name, stem: str) -> str:
    """A row as COPY takes it."""
    boxes = ",".join(str(side) for box in name.boxes for side in box)
    fields = [
        name.id.translate(ESCAPES),
        name.text.translate(ESCAPES),
        *(name.number, name.priority, name.rank),
        *name.place,
        f"{{{boxes}}}",
        *name.least,
        *name.until,
        NULL if name.blocker is None else name.blocker.translate(ESCAPES),
        *(name.zooms or (NULL, NULL)),
        "t" if name.is_level else "f",
        stem,
    ]
    return "\t".join(map(str, fields)) + "\n"


def _stems(names: Names, rows: Whole) -> list[str]:
    """The stems of names as the hexadecimal digits of their binary form."""
    labels, until = names.labels, names.state.until[rows]
    least = labels.least[rows]
    stems = np.zeros(len(rows), dtype=STEM)
    stems["order"], stems["kind"], stems["count"] = 1, LINE_Z, 2
    places = stems["places"]
    places[:, 0:2] = places[:, 3:5] = labels.place[rows]
    with np.errstate(divide="ignore"):
        places[:, 2] = np.maximum(np.log10(least[:, 0] / least[:, 1]), LOWEST)
    places[:, 5] = np.log10(until[:, 0] / until[:, 1])
    digits, wide = stems.tobytes().hex(), 2 * STEM.itemsize
    return [digits[at : at + wide] for at in range(0, len(digits), wide)]
