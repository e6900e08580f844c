"""Faults of deploy/postgis that the trials must see."""

from sharp import Spoilt

TABLE, FOLLOW = "deploy/postgis/table.py", "deploy/postgis/follow.py"
SETUP, MIRROR = "deploy/postgis/setup.sql", "deploy/maplabel_source/mirror.py"

SPOILT = (
    Spoilt(
        TABLE,
        "xid < self.high and xid not in self.running",
        "xid < self.high",
        "attack.held_transaction",
    ),
    Spoilt(
        TABLE, "return int(payload) if is_number else None", "return int(payload)", "attack.forged"
    ),
    Spoilt(FOLLOW, " or change.number <= self.done.get(change.id, 0)", "", "attack.repeated"),
    Spoilt(FOLLOW, "if self.empty and now >=", "if False and now >=", "attack.forged"),
    Spoilt(FOLLOW, "self.source.accept(change.id)\n", "pass\n", "rows.odd_rows"),
    Spoilt(FOLLOW, "        self.refused = refused\n", "", "rows.refused_before"),
    Spoilt(
        SETUP,
        "PERFORM maplabel.check_types(source, array[id_column, geometry_column] || used);",
        "",
        "attack.types",
    ),
    Spoilt(
        SETUP,
        "EXECUTE format('ALTER FUNCTION %s OWNER TO maplabel_owner', one.name);",
        "NULL;",
        "attack.owner",
    ),
    Spoilt(
        SETUP,
        "LANGUAGE plpgsql SECURITY DEFINER SET search_path = pg_catalog, pg_temp",
        "LANGUAGE plpgsql SECURITY DEFINER",
        "attack.owner",
    ),
    Spoilt(
        SETUP,
        "IF gone IS DISTINCT FROM feature ->> 'id' AND gone IS NOT NULL THEN",
        "IF false THEN",
        "rows.odd_rows",
    ),
    Spoilt(
        SETUP,
        "maplabel.detach(regclass), maplabel.detach_all() FROM PUBLIC;",
        "maplabel.detach_all() FROM PUBLIC;",
        "attack.owner",
    ),
    Spoilt(
        SETUP,
        "EXECUTE format('DROP FUNCTION IF EXISTS maplabel.feature(%s)', source);",
        "",
        "drop.dropped",
    ),
    Spoilt(MIRROR, "self.rev, self.data = made.rev, None", "self.data = None", "rows.odd_rows"),
    Spoilt(
        SETUP,
        "REVOKE ALL ON ALL TABLES IN SCHEMA maplabel FROM PUBLIC;",
        "GRANT SELECT ON ALL TABLES IN SCHEMA maplabel TO PUBLIC;",
        "attack.owner",
    ),
)
