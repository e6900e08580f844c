"""Roles that mean ill: notifications that anybody may send, and types of somebody's own."""

import time

import psycopg

from maplabel_kit.faults import Fault
from rows import refuses
from followed import Stage, staged, until
from trials import trial

EVIL = """
CREATE TYPE evil.pair AS (a int, b int);
CREATE FUNCTION evil.to_json(evil.pair) RETURNS json LANGUAGE plpgsql AS
    $$ BEGIN ALTER ROLE evil SUPERUSER; RETURN '1'; END $$;
CREATE CAST (evil.pair AS json) WITH FUNCTION evil.to_json(evil.pair);
CREATE TABLE evil.towns (id int PRIMARY KEY, geom public.geometry, name text, odd evil.pair);
"""


def notify(stage: Stage, payload: object, source: str = "towns") -> None:
    """A notification of a role without any right."""
    oid = stage.database.rows(f"SELECT '{source}'::regclass::oid::int")[0][0]
    with stage.database.connect("stranger") as link:
        link.execute("SELECT pg_notify(%s, %s)", [f"maplabel_{oid}", str(payload)])


@trial("attack")
def forged() -> None:
    """Notifications that a stranger sends change nothing, end nothing, and are told."""
    with staged() as stage:
        stage.database.execute("CREATE ROLE stranger LOGIN")
        feature = (
            '{"type":"Feature","id":"9999","geometry":{"type":"Point","coordinates":[0,0]},'
            '"properties":{"name":"Forged"}}'
        )
        for payload in (
            '{"n": 7, "xid": "99999999", "id": "9999", "feature": ' + feature + "}",
            '{"n": 8, "xid": "99999999", "id": "1", "feature": null}',
            "x", "", "-1", "1e3", "999999999999", "9" * 400, "\u0661\u0662",
        ):  # fmt: skip
            notify(stage, payload)
        stage.database.execute("UPDATE towns SET name = 'After' WHERE id = 2")
        until("a change behind forged ones", lambda: stage.names().get("2"), "After", 30)
        time.sleep(3)
        if stage.follower is None or not stage.follower.is_running():
            raise Fault(f"forged notifications end it: {stage.said(stage.server).read_text()}")
        if stage.map() != stage.table():
            raise Fault("forged notifications change the map")
        if "were passed over" not in stage.said(stage.server).read_text():
            raise Fault("forged notifications are not told")
    print("notifications of a stranger change nothing, end nothing, and are told", flush=True)


@trial("attack")
def repeated() -> None:
    """Old changes that a stranger names again are not made again."""
    with staged() as stage:
        stage.database.execute("CREATE ROLE stranger LOGIN")
        for name in ("First", "Second", "Third"):
            stage.database.execute(f"UPDATE towns SET name = '{name}' WHERE id = 3")
        stage.database.execute("DELETE FROM towns WHERE id = 4")
        until(
            "three changes",
            lambda: (stage.names().get("3"), "4" in stage.names()),
            ("Third", False),
            30,
        )
        before = stage.server.rev()
        for number in range(1, 300):
            notify(stage, number)
        time.sleep(3)
        if stage.server.rev() != before or stage.map() != stage.table():
            raise Fault("changes that were named again are made again")
        stage.database.execute("UPDATE towns SET name = 'Fourth' WHERE id = 3")
        until("a change behind them", lambda: stage.names().get("3"), "Fourth", 30)
    print("old changes that a stranger names again are not made again", flush=True)


@trial("attack")
def types() -> None:
    """Whoever owns a table gets no rights by a type of his own, whoever attaches it."""
    with staged() as stage:
        base = stage.database
        base.execute("CREATE ROLE evil LOGIN; CREATE SCHEMA evil AUTHORIZATION evil")
        base.execute(EVIL, user="evil")
        refuses(
            base, "SELECT maplabel.attach('evil.towns', 'id', 'geom')", "neither of PostgreSQL nor"
        )
        refuses(
            base,
            "SELECT maplabel.attach('evil.towns', 'id', 'geom', '{name,odd}')",
            "neither of Post",
        )
        base.execute("SELECT maplabel.attach('evil.towns', 'id', 'geom', '{name}')")
        base.execute("INSERT INTO evil.towns VALUES (1, NULL, 'x', (1, 2))", user="evil")
        try:
            base.execute("ALTER TABLE evil.towns ALTER name TYPE evil.pair USING NULL", user="evil")
            base.execute("INSERT INTO evil.towns VALUES (2, NULL, (1, 2), (1, 2))", user="evil")
        except psycopg.Error:
            pass
        if base.rows("SELECT FROM pg_roles WHERE rolname = 'evil' AND rolsuper"):
            raise Fault("an INSERT made the owner of a table a superuser")
        base.execute("DROP TABLE evil.towns CASCADE")
    print("a type of the table's owner gets no rights of whoever attaches it", flush=True)


@trial("attack")
def owner() -> None:
    """What runs with rights of its own belongs to a role that has none, and looks up names in
    places that nobody else can write."""
    with staged(is_followed=False) as stage:
        base = stage.database
        told = base.rows(
            "SELECT proname, rolname, prosecdef, coalesce(array_to_string(proconfig, ','), '') FROM"
            " pg_proc p JOIN pg_roles r ON r.oid = proowner WHERE pronamespace ="
            " 'maplabel'::regnamespace"
        )
        for name, role, is_definer, config in told:
            if role != "maplabel_owner":
                raise Fault(f"the function {name} belongs to {role}")
            if is_definer and not config.startswith("search_path=pg_catalog, "):
                raise Fault(
                    f"the function {name} looks names up by {config or 'the path of its caller'}"
                )
        if sum(definer for _, _, definer, _ in told) != 3:
            raise Fault(f"not three functions run with rights of their own: {told}")
        rights = base.rows(
            "SELECT rolsuper, rolcreaterole, rolcreatedb, rolcanlogin, rolbypassrls, rolreplication"
            " FROM pg_roles WHERE rolname = 'maplabel_owner'"
        )
        if rights != [(False,) * 6]:
            raise Fault(f"the role maplabel_owner has rights: {rights}")
        base.execute("CREATE ROLE stranger LOGIN")
        for right in ("", "GRANT USAGE ON SCHEMA maplabel TO stranger"):
            base.execute(right)
            for text in (
                "SELECT maplabel.attach('towns', 'id', 'geom')",
                "SELECT maplabel.detach('towns')",
                "SELECT maplabel.detach_all()",
                "SELECT maplabel.tell('towns'::regclass, '1', NULL)",
                "SELECT * FROM maplabel.changes",
                "SELECT * FROM maplabel.refusals",
                "INSERT INTO maplabel.changes (source, id) VALUES (1, '1')",
            ):
                refuses(base, text, "permission denied", "stranger")
    print("what runs with rights of its own belongs to a role that has none", flush=True)


@trial("attack")
def held_transaction() -> None:
    """A transaction that is open while all is compared: its change is made once it is committed."""
    with staged() as stage:
        with stage.database.connect("writer") as link:
            with link.transaction():
                link.execute("UPDATE towns SET name = 'Late' WHERE id = 5")
                before = stage.said(stage.server).read_text().count("compared")
                stage.database.execute("SELECT maplabel.tell('towns'::regclass, NULL, NULL)")
                until(
                    "a comparison",
                    lambda: stage.said(stage.server).read_text().count("compared") > before,
                    True,
                    30,
                )
                stage.database.execute("UPDATE towns SET name = 'Early' WHERE id = 6")
                until("a change beside it", lambda: stage.names().get("6"), "Early", 30)
        until("a change that was open over a comparison", lambda: stage.names().get("5"), "Late", 8)
    print(
        "a transaction that is open over a comparison is followed once it is committed", flush=True
    )


@trial("log")
def forgotten() -> None:
    """Of the log the last 200,000 changes stay; from which transaction on it is whole is told."""
    with staged(is_followed=False) as stage:
        base = stage.database
        if base.rows("SELECT maplabel.whole_from()::text") != [("0",)]:
            raise Fault("the log is not whole though nothing was taken from it")
        base.execute("SELECT setval(pg_get_serial_sequence('maplabel.changes', 'n'), 300999)")
        kept = base.rows("SELECT pg_current_xact_id()::text::bigint")[0][0]
        base.execute("UPDATE towns SET pop = 1 WHERE id = 1")
        left = base.rows("SELECT count(*)::int FROM maplabel.changes WHERE n < 300000")[0][0]
        whole = base.rows("SELECT maplabel.whole_from()::text::bigint")[0][0]
        if left or not 0 < whole <= kept:
            raise Fault(f"{left} old changes are kept; whole from {whole}, with {kept} behind it")
        stage.start_follower()
        stage.settle()
    print("of the log the last changes stay, and from where on it is whole is told", flush=True)


@trial("drop")
def dropped() -> None:
    """What is attached can be dropped once it is detached, and what stands in the way is told."""
    with staged() as stage:
        base = stage.database
        base.execute("CREATE TABLE other (id int PRIMARY KEY, geom geometry)")
        base.execute("SELECT maplabel.attach('other', 'id', 'geom')")
        refuses(base, "DROP TABLE other", "other objects depend on it")
        base.execute("SELECT maplabel.detach('other'); DROP TABLE other")
        base.execute("CREATE TABLE other (id int PRIMARY KEY, geom geometry)")
        base.execute("SELECT maplabel.attach('other', 'id', 'geom'); DROP TABLE other CASCADE")
        if base.rows("SELECT maplabel.detach_all()") != [("public.towns",)]:
            raise Fault("detach_all does not tell what was attached")
        until(
            "the end of the follower",
            lambda: stage.follower and stage.follower.is_running(),
            False,
            60,
        )
        if "is not attached" not in stage.said(stage.server).read_text().splitlines()[-1]:
            raise Fault("the follower does not tell that its table is detached")
        base.execute("DROP TABLE towns; DROP SCHEMA maplabel CASCADE")
        with psycopg.connect(base.words("postgres", "postgres"), autocommit=True) as link:
            link.execute("DROP DATABASE gis")
            link.execute("DROP ROLE maplabel_owner")
    print("what is attached is dropped once it is detached, and its role too", flush=True)


@trial("drop")
def again() -> None:
    """setup.sql may be run again, also over what is attached."""
    with staged() as stage:
        stage.database.set_up()
        stage.database.execute("UPDATE towns SET name = 'Again' WHERE id = 7")
        until("a change behind a second setup", lambda: stage.names().get("7"), "Again", 30)
    print("setup.sql may be run again while a table is followed", flush=True)
