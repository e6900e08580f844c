"""Rows of every kind, refusals, and what is wrong with tables and columns."""

import psycopg

from database import Database
from maplabel_kit.faults import Fault
from served import expect
from followed import Stage, staged, until
from trials import trial


def fail(text: str) -> Fault:
    """The fault that ends this test."""
    return Fault(text)


def refuses(database: Database, text: str, told: str, user: str = "postgres") -> None:
    """The database must refuse the text in these words."""
    try:
        database.execute(text, user=user)
    except psycopg.Error as error:
        if told not in str(error):
            raise fail(f"{text} says {str(error)!r}") from None
        return
    raise fail(f"{text} is not refused")


def bad_input(stage: Stage) -> None:
    """What is wrong is told in a sentence, and nothing is changed."""
    base, server = stage.database, stage.server
    base.execute(
        "CREATE TABLE odd (id int PRIMARY KEY, a int, b int UNIQUE, curve geometry(CircularString),"
        " geom geometry(Point), name text)"
    )
    base.execute("CREATE VIEW looked AS SELECT * FROM odd")
    for columns, told in (
        ("'none', 'id', 'geom'", 'relation "none" does not exist'),
        ("'odd', 'nr', 'geom'", "odd has no column nr"),
        ("'odd', 'id', 'form'", "odd has no column form"),
        ("'odd', 'a', 'geom'", "odd is no id"),
        ("'odd', 'b', 'geom'", "odd is no id"),
        ("'odd', 'id', 'name'", "holds text and no geometry"),
        ("'odd', 'id', 'curve'", "geometry(CircularString), which gets no label"),
        ("'odd', 'id', 'geom', '{name,pop}'", "odd has no column pop"),
        ("'looked', 'id', 'geom'", "looked is no ordinary table"),
    ):
        refuses(base, f"SELECT maplabel.attach({columns})", told)
    before = server.rev()
    base_words = base.words("postgres")
    for words, told in (
        ((server.address, base_words, "none"), "there is no table none"),
        ((server.address, base_words, "odd"), "table odd is not attached"),
        ((server.address, base.words("postgres", "postgres"), "odd"), "is not set up for maps"),
        ((server.address, "host=%s/none" % stage.folder, "odd"), "the database does not answer"),
        (("server", base_words, "odd"), "is no address"),
    ):
        status, said = stage.follow_once(*words)
        if status != 1 or told not in said or said.count("\n") != 1:
            raise fail("follow.py %s ends with %d and says %r" % (" ".join(words), status, said))
    base.execute("SELECT maplabel.attach('odd', 'id', 'geom', '{name}')")
    status, said = stage.follow_once("http://127.0.0.1:1", base_words, "odd")
    if status != 1 or "does not answer" not in said:
        raise fail("follow.py without a server ends with %d and says %r" % (status, said))
    refuses(base, "ALTER TABLE odd DROP COLUMN name", "other objects depend on it")
    expect(stage.follow_once()[0], 2, "the status of no words")
    expect(server.rev(), before, "the revision behind wrong input")
    base.execute("SELECT maplabel.detach('odd')")
    print("wrong tables, columns, servers and words are told, and nothing is changed", flush=True)


def refusals(stage: Stage) -> dict[str, str]:
    return dict(stage.database.rows("SELECT id, words FROM maplabel.refusals"))


def kinds(stage: Stage) -> None:
    """Geometries of all kinds, in one transaction; what has no label of its kind is refused by
    the server."""
    base = stage.database
    base.execute("DELETE FROM towns")
    until("the map of no rows", stage.server.features, {})
    texts = {
        1: "POINT(1 2)",
        2: "POINT Z (1 2 3)",
        3: "MULTIPOINT((1 2))",
        4: "LINESTRING(0 0,1 1)",
        5: "POLYGON((0 0,1 0,1 1,0 0))",
        6: "GEOMETRYCOLLECTION(POINT(1 2))",
        7: "POINT EMPTY",
        8: "CIRCULARSTRING(0 0,1 1,2 0)",
        9: "POINT(300 0)",
    }
    with base.connect() as link, link.transaction():
        for number, text in texts.items():
            link.execute(
                "INSERT INTO towns VALUES (%s, ST_GeomFromText(%s, 4326), %s, 1)",
                [number, text, "Row"],
            )
        link.execute("INSERT INTO towns VALUES (10, NULL, NULL, NULL)")
        link.execute(
            "INSERT INTO towns SELECT 20, ST_Transform('SRID=4326;POINT(8.5 47.25)'::geometry,"
            " 3857), 'Metres', 1"
        )
        link.execute(
            "INSERT INTO towns SELECT 21, ST_SetSRID(ST_MakePoint('NaN', 1), 4326), 'Nowhere', 1"
        )
    until(
        "the refusals",
        lambda: refusals(stage),
        {
            "8": '{"error":"BadGeometry"}',
            "9": '{"error":"OutOfRange"}',
            "21": '{"error":"BadGeometry"}',
        },
    )
    until(
        "the kinds",
        lambda: [
            (name, (one["geometry"] or {}).get("type"))
            for name, one in stage.server.features().items()
        ],
        [
            ("1", "Point"),
            ("2", "Point"),
            ("3", "MultiPoint"),
            ("4", "LineString"),
            ("5", "Polygon"),
            ("6", None),
            ("7", None),
            ("10", None),
            ("20", "Point"),
        ],
    )
    expect(
        stage.server.features()["20"]["geometry"]["coordinates"], [8.5, 47.25], "a point in metres"
    )


def mended_rows(stage: Stage) -> None:
    """A refusal goes where the row is mended, or gone."""
    stage.database.execute("UPDATE towns SET geom = 'SRID=4326;POINT(3 0)' WHERE id = 9")
    stage.database.execute("DELETE FROM towns WHERE id IN (8, 21)")
    until("the refusals of mended rows", lambda: refusals(stage), {})


def one_transaction(stage: Stage) -> None:
    """Back and forth within one transaction, a new id, and a row that is taken back."""
    with stage.database.connect() as link, link.transaction():
        for name in ("B", "C", "B"):
            link.execute("UPDATE towns SET name = %s WHERE id = 1", [name])
        link.execute("UPDATE towns SET id = 11 WHERE id = 2")
        with link.transaction(force_rollback=True):
            link.execute("UPDATE towns SET name = %s WHERE id = 3", ["Never"])
    until(
        "the names behind one transaction",
        lambda: {
            name: one["properties"]["name"]
            for name, one in stage.server.features().items()
            if name in ("1", "2", "3", "11")
        },
        {"1": "B", "3": "Row", "11": "Row"},
    )


def long_rows(stage: Stage) -> None:
    """Features that do not fit into a notification, and an id that does not."""
    long = ", ".join("%d 0" % (number % 180) for number in range(3000))
    stage.database.execute(
        "INSERT INTO towns VALUES (12, ST_GeomFromText('LINESTRING(%s)', 4326), 'Long', 1)" % long
    )
    until(
        "a long line",
        lambda: [
            len(one["geometry"]["coordinates"])
            for name, one in stage.server.features().items()
            if name == "12"
        ],
        [3000],
    )
    stage.database.execute("UPDATE towns SET name = repeat('ä', 5000) WHERE id = 12")
    until("a long name", lambda: stage.server.features()["12"]["properties"]["name"], "ä" * 5000)
    stage.database.execute("DELETE FROM towns WHERE id = 12")
    until("the long row", lambda: "12" in stage.server.features(), False)


def long_id(stage: Stage) -> None:
    """A change of a table whose id has no room in a notification: all is compared. The column of
    the id comes by a change that writes the table anew, for which it is detached and attached again
    in one transaction, while it is followed."""
    base = stage.database
    add = "ALTER TABLE towns ADD COLUMN word text NOT NULL DEFAULT 'w' || gen_random_uuid() UNIQUE"
    with base.connect() as link, link.transaction():
        for text in (
            "SELECT maplabel.detach('towns')",
            add,
            "SELECT maplabel.attach('towns', 'word', 'geom', '{name}')",
        ):
            link.execute(text.encode())
    base.execute(
        "INSERT INTO towns VALUES (13, 'SRID=4326;POINT(0 0)', 'Wide', 1, repeat('w', 9000))"
    )
    until(
        "ids by another column",
        lambda: sorted(
            one["properties"].get("name") or "" for one in stage.server.features().values()
        )[-1],
        "Wide",
    )
    base.execute("TRUNCATE towns")
    until("a table that is truncated", stage.server.features, {})


@trial("rows")
def odd_rows() -> None:
    """Rows of every kind, one after another."""
    with staged() as stage:
        for part in (kinds, mended_rows, one_transaction, long_rows, long_id):
            part(stage)
    print("rows of every kind, refusals, long rows, a new id, transactions, TRUNCATE", flush=True)


@trial("rows")
def refused_before() -> None:
    """A row that was refused in a comparison: its refusal goes as soon as the row is mended."""
    with staged(is_followed=False) as stage:
        stage.database.execute("UPDATE towns SET geom = 'SRID=4326;POINT(300 0)' WHERE id = 9")
        stage.start_follower()
        until("the refusal", lambda: refusals(stage), {"9": '{"error":"OutOfRange"}'})
        stage.database.execute("UPDATE towns SET geom = 'SRID=4326;POINT(3 0)' WHERE id = 9")
        until("the refusal of a mended row", lambda: refusals(stage), {}, 30)
    print("what was refused in a comparison is struck out once the row is mended", flush=True)


@trial("rows")
def wrong_words() -> None:
    """Wrong tables, columns, servers and words."""
    with staged(is_followed=False) as stage:
        bad_input(stage)
