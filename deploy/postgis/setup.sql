-- What a map needs that follows a table of PostGIS: run it once in the database as a superuser, as by `psql -v
-- ON_ERROR_STOP=1 -f setup.sql`, and again when it has changed. Then `SELECT maplabel.attach('towns', 'id', 'geom')`
-- makes the table tell its changes, `maplabel.detach('towns')` ends that. README.md beside this file says the rest.
BEGIN;
-- Names without a schema are those of PostgreSQL itself, whoever runs this.
SET LOCAL search_path = pg_catalog, pg_temp;

DO $$
BEGIN
    IF NOT EXISTS (SELECT FROM pg_extension WHERE extname = 'postgis') THEN
        RAISE EXCEPTION 'this database has no PostGIS: run CREATE EXTENSION postgis first';
    END IF;
    -- Who owns all that stands here. It may do nothing else, so a trigger that runs with its rights cannot either.
    IF NOT EXISTS (SELECT FROM pg_roles WHERE rolname = 'maplabel_owner') THEN
        CREATE ROLE maplabel_owner NOLOGIN NOSUPERUSER NOCREATEDB NOCREATEROLE NOREPLICATION NOBYPASSRLS;
    END IF;
    IF EXISTS (SELECT FROM pg_roles WHERE rolname = 'maplabel_owner' AND (rolsuper OR rolcreaterole OR rolcanlogin))
       OR EXISTS (SELECT FROM pg_auth_members m JOIN pg_roles r ON r.oid = m.member WHERE r.rolname = 'maplabel_owner') THEN
        RAISE EXCEPTION 'the role maplabel_owner has rights of its own: it must have none';
    END IF;
END $$;

CREATE SCHEMA IF NOT EXISTS maplabel;

-- The tables that are followed, each with the column that gives the ids.
CREATE TABLE IF NOT EXISTS maplabel.sources (
    source regclass PRIMARY KEY,
    id_column name NOT NULL
);

-- The features that the server refused last, in its words.
CREATE TABLE IF NOT EXISTS maplabel.refusals (
    source regclass NOT NULL,
    id text NOT NULL,
    words text NOT NULL,
    feature jsonb NOT NULL,
    refused_at timestamptz NOT NULL DEFAULT now(),
    PRIMARY KEY (source, id)
);

-- The log of changes. A notification names a line of it by its number, and nothing else: what is not here is not
-- followed, whoever tells it. Without an id any row may have changed; without a feature the row is gone.
CREATE TABLE IF NOT EXISTS maplabel.changes (
    n bigint GENERATED ALWAYS AS IDENTITY PRIMARY KEY,
    source oid NOT NULL,
    xid xid8 NOT NULL DEFAULT pg_current_xact_id(),
    id text,
    feature jsonb
);
CREATE INDEX IF NOT EXISTS changes_by_transaction ON maplabel.changes (source, xid);

-- Of the log the last 200,000 changes are kept; here stand the latest transactions of those that were not.
CREATE TABLE IF NOT EXISTS maplabel.forgotten (xid xid8 NOT NULL);

-- From which transaction on the log is whole, for those who read it by what a snapshot has not seen.
CREATE OR REPLACE FUNCTION maplabel.whole_from() RETURNS xid8
LANGUAGE sql STABLE SECURITY DEFINER SET search_path = pg_catalog, pg_temp AS $$
    SELECT coalesce((max(xid::text::numeric) + 1)::text, '0')::xid8 FROM maplabel.forgotten
$$;

-- The geometry in GeoJSON, longitude and latitude. What has no such form is no error here, since it must not stop
-- the client that writes the row: it keeps the name of its kind, and the server refuses that. The schema in which
-- PostGIS stands is written into it.
DO $$
DECLARE
    place name := (SELECT nspname FROM pg_extension e JOIN pg_namespace n ON n.oid = e.extnamespace WHERE extname = 'postgis');
BEGIN
    EXECUTE format($f$
        CREATE OR REPLACE FUNCTION maplabel.geometry(shape %1$I.geometry) RETURNS jsonb
        LANGUAGE plpgsql STABLE SET search_path = pg_catalog, %1$I, pg_temp AS $body$
        BEGIN
            IF %1$I.ST_SRID(shape) NOT IN (0, 4326) THEN
                RETURN %1$I.ST_AsGeoJSON(%1$I.ST_Transform(%1$I.ST_Force2D(shape), 4326), 7, 0)::jsonb;
            END IF;
            RETURN %1$I.ST_AsGeoJSON(%1$I.ST_Force2D(shape), 7, 0)::jsonb;
        EXCEPTION WHEN OTHERS THEN
            RETURN jsonb_build_object('type', %1$I.GeometryType(shape), 'fault', SQLERRM);
        END $body$ $f$, place);
END $$;

DROP FUNCTION IF EXISTS maplabel.tell(oid, jsonb);
DROP SEQUENCE IF EXISTS maplabel.change;

-- Writes a change down, and names it to whoever listens. Of the log the last 200,000 changes are kept.
CREATE OR REPLACE FUNCTION maplabel.tell(told_source oid, told_id text, told_feature jsonb) RETURNS void
LANGUAGE plpgsql SET search_path = pg_catalog, pg_temp AS $$
DECLARE
    number bigint;
BEGIN
    INSERT INTO maplabel.changes (source, id, feature) VALUES (told_source, told_id, told_feature) RETURNING n INTO number;
    PERFORM pg_notify('maplabel_' || told_source, number::text);
    IF number % 1000 = 0 THEN
        WITH gone AS (
            DELETE FROM maplabel.changes WHERE n IN (
                SELECT n FROM maplabel.changes WHERE n < number - 200000 ORDER BY n LIMIT 5000 FOR UPDATE SKIP LOCKED)
            RETURNING xid)
        INSERT INTO maplabel.forgotten SELECT max(xid::text::numeric)::text::xid8 FROM gone HAVING count(*) > 0;
    END IF;
END $$;

CREATE OR REPLACE FUNCTION maplabel.tell_row() RETURNS trigger
LANGUAGE plpgsql SECURITY DEFINER SET search_path = pg_catalog, pg_temp AS $$
DECLARE
    feature jsonb;
    gone text;
BEGIN
    IF TG_OP <> 'INSERT' THEN
        gone := maplabel.feature(OLD) ->> 'id';
    END IF;
    IF TG_OP <> 'DELETE' THEN
        feature := maplabel.feature(NEW);
    END IF;
    IF gone IS DISTINCT FROM feature ->> 'id' AND gone IS NOT NULL THEN
        PERFORM maplabel.tell(TG_RELID, gone, NULL);
    END IF;
    IF feature IS NOT NULL THEN
        PERFORM maplabel.tell(TG_RELID, feature ->> 'id', feature);
    END IF;
    RETURN NULL;
END $$;

CREATE OR REPLACE FUNCTION maplabel.tell_all() RETURNS trigger
LANGUAGE plpgsql SECURITY DEFINER SET search_path = pg_catalog, pg_temp AS $$
BEGIN
    PERFORM maplabel.tell(TG_RELID, NULL, NULL);
    RETURN NULL;
END $$;

-- Says what is wrong with the type of a column that is used. A type of somebody's own may have casts of somebody's
-- own, which would run within the trigger: only those of PostgreSQL and of PostGIS are taken.
CREATE OR REPLACE FUNCTION maplabel.check_types(source regclass, used name[]) RETURNS void
LANGUAGE plpgsql STABLE SET search_path = pg_catalog, pg_temp AS $$
DECLARE
    odd record;
BEGIN
    SELECT attname, format_type(atttypid, atttypmod) AS kind INTO odd
        FROM pg_attribute a JOIN pg_type t ON t.oid = a.atttypid
        WHERE a.attrelid = source AND a.attnum > 0 AND NOT a.attisdropped AND a.attname = ANY (used)
        AND t.typnamespace <> 'pg_catalog'::regnamespace
        AND NOT EXISTS (SELECT FROM pg_depend d JOIN pg_extension e ON e.oid = d.refobjid
                        WHERE d.classid = 'pg_type'::regclass AND d.objid = t.oid AND d.deptype = 'e'
                        AND d.refclassid = 'pg_extension'::regclass AND e.extname = 'postgis')
        ORDER BY a.attnum LIMIT 1;
    IF FOUND THEN
        RAISE EXCEPTION 'column % of table % has the type %, which is neither of PostgreSQL nor of PostGIS: leave it out by a '
            'list of properties, or give it a type such as text', odd.attname, source, odd.kind;
    END IF;
END $$;

-- Says what is wrong with a table and the columns that are to be followed; nothing where all is well.
CREATE OR REPLACE FUNCTION maplabel.check_columns(source regclass, id_column name, geometry_column name, properties name[])
RETURNS void LANGUAGE plpgsql STABLE SET search_path = pg_catalog, pg_temp AS $$
DECLARE
    wanted name;
    kind text;
BEGIN
    IF (SELECT relkind <> 'r' OR relispartition FROM pg_class WHERE oid = source) THEN
        RAISE EXCEPTION '% is no ordinary table: a view or a partition cannot tell its changes', source;
    END IF;
    FOREACH wanted IN ARRAY array[id_column, geometry_column] || properties LOOP
        IF NOT EXISTS (SELECT FROM pg_attribute WHERE attrelid = source AND attname = wanted AND attnum > 0) THEN
            RAISE EXCEPTION 'table % has no column %', source, wanted;
        END IF;
    END LOOP;
    IF NOT EXISTS (SELECT FROM pg_index i JOIN pg_attribute a ON a.attrelid = source AND a.attnum = i.indkey[0]
                   WHERE i.indrelid = source AND i.indisunique AND i.indnkeyatts = 1 AND i.indpred IS NULL
                   AND a.attname = id_column AND a.attnotnull) THEN
        RAISE EXCEPTION 'column % of table % is no id: it needs UNIQUE and NOT NULL, as a primary key has', id_column, source;
    END IF;
    SELECT format_type(atttypid, atttypmod) INTO kind FROM pg_attribute WHERE attrelid = source AND attname = geometry_column;
    IF kind !~ '^([^(]+\.)?(geometry|geography)' THEN
        RAISE EXCEPTION 'column % of table % holds % and no geometry', geometry_column, source, kind;
    END IF;
    IF kind ~ '\(' AND kind !~* '\((geometry|(multi)?(point|linestring|polygon))z?m?[,)]' THEN
        RAISE EXCEPTION 'column % of table % holds %, which gets no label: points, lines and polygons do, and several of them',
            geometry_column, source, kind;
    END IF;
END $$;

-- Makes a table tell its changes; who follows it already compares all. `properties` are the columns that the map gets;
-- where none are told, all but the id and what holds geometry. A column that is used can neither be dropped nor get
-- another type before the table is attached without it. Superusers attach, and those who own the table and are
-- members of maplabel_owner.
CREATE OR REPLACE FUNCTION maplabel.attach(source regclass, id_column name, geometry_column name, properties name[] DEFAULT NULL)
RETURNS void LANGUAGE plpgsql SET search_path = pg_catalog, pg_temp AS $$
DECLARE
    used name[];
    listed text;
    place name := (SELECT nspname FROM pg_extension e JOIN pg_namespace n ON n.oid = e.extnamespace WHERE extname = 'postgis');
BEGIN
    PERFORM maplabel.check_columns(source, id_column, geometry_column, coalesce(properties, '{}'));
    SELECT array_agg(attname), string_agg(format('t.%I', attname), ', ' ORDER BY attnum) INTO used, listed FROM pg_attribute
        WHERE attrelid = source AND attnum > 0 AND NOT attisdropped
        AND CASE WHEN properties IS NULL THEN attname <> id_column AND format_type(atttypid, NULL) !~ '(geometry|geography)$'
                 ELSE attname = ANY (properties) END;
    PERFORM maplabel.check_types(source, array[id_column, geometry_column] || used);
    PERFORM maplabel.detach(source);
    EXECUTE format($f$CREATE FUNCTION maplabel.feature(t %s) RETURNS jsonb LANGUAGE sql STABLE
        RETURN jsonb_build_object('type', 'Feature', 'id', t.%I::text, 'geometry', maplabel.geometry(t.%I::%I.geometry),
                                  'properties', (SELECT to_jsonb(p) FROM (SELECT %s) AS p))$f$,
        source, id_column, geometry_column, place, listed);
    EXECUTE format('ALTER FUNCTION maplabel.feature(%s) OWNER TO maplabel_owner', source);
    EXECUTE format('CREATE TRIGGER maplabel_row AFTER INSERT OR UPDATE OR DELETE ON %s
        FOR EACH ROW EXECUTE FUNCTION maplabel.tell_row()', source);
    EXECUTE format('CREATE TRIGGER maplabel_all AFTER TRUNCATE ON %s
        FOR EACH STATEMENT EXECUTE FUNCTION maplabel.tell_all()', source);
    INSERT INTO maplabel.sources VALUES (source, id_column);
END $$;

-- Ends that a table tells its changes. Behind it the table may be dropped as any other.
CREATE OR REPLACE FUNCTION maplabel.detach(source regclass) RETURNS void
LANGUAGE plpgsql SET search_path = pg_catalog, pg_temp AS $$
BEGIN
    EXECUTE format('DROP TRIGGER IF EXISTS maplabel_row ON %s', source);
    EXECUTE format('DROP TRIGGER IF EXISTS maplabel_all ON %s', source);
    EXECUTE format('DROP FUNCTION IF EXISTS maplabel.feature(%s)', source);
    DELETE FROM maplabel.sources s WHERE s.source = detach.source OR NOT EXISTS (SELECT FROM pg_class WHERE oid = s.source);
    DELETE FROM maplabel.refusals r WHERE r.source = detach.source OR NOT EXISTS (SELECT FROM pg_class WHERE oid = r.source);
    PERFORM maplabel.tell(source, NULL, NULL);
END $$;

-- Ends it for all tables, as before `DROP SCHEMA maplabel CASCADE` or DROP DATABASE; which tables there were.
CREATE OR REPLACE FUNCTION maplabel.detach_all() RETURNS SETOF text
LANGUAGE plpgsql SET search_path = pg_catalog, pg_temp AS $$
DECLARE
    one regclass;
BEGIN
    FOR one IN SELECT source FROM maplabel.sources s WHERE EXISTS (SELECT FROM pg_class WHERE oid = s.source) LOOP
        PERFORM maplabel.detach(one);
        RETURN NEXT one::text;
    END LOOP;
    DELETE FROM maplabel.sources;
    DELETE FROM maplabel.refusals;
END $$;

-- All of it belongs to the role without rights; what was made before, too. What is attached is tried again.
DO $$
DECLARE
    one record;
BEGIN
    ALTER SCHEMA maplabel OWNER TO maplabel_owner;
    FOR one IN SELECT oid::regprocedure AS name FROM pg_proc WHERE pronamespace = 'maplabel'::regnamespace LOOP
        EXECUTE format('ALTER FUNCTION %s OWNER TO maplabel_owner', one.name);
    END LOOP;
    FOR one IN SELECT oid::regclass AS name FROM pg_class WHERE relnamespace = 'maplabel'::regnamespace AND relkind = 'r' LOOP
        EXECUTE format('ALTER TABLE %s OWNER TO maplabel_owner', one.name);
    END LOOP;
    FOR one IN SELECT source FROM maplabel.sources s JOIN pg_class c ON c.oid = s.source LOOP
        PERFORM maplabel.check_types(one.source, (
            SELECT array_agg(attname) FROM pg_depend d JOIN pg_attribute a ON a.attrelid = d.refobjid AND a.attnum = d.refobjsubid
            WHERE d.refobjid = one.source AND d.classid = 'pg_proc'::regclass));
    END LOOP;
END $$;

-- Only those who attach call these. The triggers need no right of whoever edits the table, and `feature` may be asked by
-- whoever reads it.
REVOKE ALL ON FUNCTION maplabel.tell(oid, text, jsonb), maplabel.attach(regclass, name, name, name[]),
    maplabel.detach(regclass), maplabel.detach_all() FROM PUBLIC;
REVOKE ALL ON ALL TABLES IN SCHEMA maplabel FROM PUBLIC;

COMMIT;
