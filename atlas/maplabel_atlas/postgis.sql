-- What a published atlas is in PostGIS. Names in braces are put in by postgis.py.
--
-- A name is a stem over its place: a line in three dimensions that goes from the logarithm of the least scale at
-- which it is shown up to that of the scale at which it ends. A view is a flat box at its scale, wider than its
-- window by the greatest box of a name. What the index finds is then compared exactly, in whole numbers.

-- part: table
CREATE TABLE {table} (
    id text COLLATE "C" PRIMARY KEY,
    label text NOT NULL,
    class integer NOT NULL,
    priority integer NOT NULL,
    rank bigint NOT NULL,
    x bigint NOT NULL,
    y bigint NOT NULL,
    boxes integer[] NOT NULL,       -- left, bottom, right, top of each box, in pixels about the place
    min_n bigint NOT NULL,
    min_d bigint NOT NULL,
    until_n bigint NOT NULL,
    until_d bigint NOT NULL,
    blocker text,
    minzoom float8,
    maxzoom float8,
    is_level boolean NOT NULL,      -- whether it may be drawn where y is stretched, as in Web Mercator
    stem geometry(LineStringZ) NOT NULL
);
CREATE TABLE {about} (identity text NOT NULL, generation integer NOT NULL, reach integer NOT NULL, level integer NOT NULL);

-- part: index
CREATE INDEX ON {table} USING gist (stem gist_geometry_ops_nd);
ANALYZE {table};

-- part: functions
-- The names of a window of w by h pixels about (cx, cy) at the scale n/d, in priority order.
CREATE OR REPLACE FUNCTION {view}(cx bigint, cy bigint, w integer, h integer, n bigint, d bigint)
RETURNS SETOF {table} LANGUAGE sql STABLE PARALLEL SAFE AS $$
    SELECT t.* FROM {table} AS t
    WHERE t.stem &&& (SELECT ST_MakeLine(
            ST_MakePoint($1 - ($3 / 2 + a.reach) * $5::float8 / $6 - 1, $2 - ($4 / 2 + a.reach) * $5::float8 / $6 - 1,
                         log($5::float8 / $6) - 1e-9),
            ST_MakePoint($1 + ($3 / 2 + a.reach) * $5::float8 / $6 + 1, $2 + ($4 / 2 + a.reach) * $5::float8 / $6 + 1,
                         log($5::float8 / $6) + 1e-9)) FROM {about} AS a)
      AND t.min_n * $6::numeric <= $5 * t.min_d::numeric AND $5 * t.until_d::numeric < t.until_n * $6::numeric
      AND EXISTS (SELECT FROM generate_series(1, array_length(t.boxes, 1), 4) AS k
                  WHERE 2 * (t.x - $1) * $6::numeric + (2 * t.boxes[k] - $3) * $5 < 0
                    AND 2 * (t.x - $1) * $6::numeric + (2 * t.boxes[k + 2] + $3) * $5 > 0
                    AND 2 * (t.y - $2) * $6::numeric + (2 * t.boxes[k + 1] - $4) * $5 < 0
                    AND 2 * (t.y - $2) * $6::numeric + (2 * t.boxes[k + 3] + $4) * $5 > 0)
    ORDER BY t.priority, t.rank DESC, t.id
$$;

-- The same as the JSON that the engine's /view gives.
CREATE OR REPLACE FUNCTION {text}(cx bigint, cy bigint, w integer, h integer, n bigint, d bigint)
RETURNS text LANGUAGE sql STABLE PARALLEL SAFE AS $$
    SELECT format('{{"labels":[%s],"scale":"%s/%s"}}', string_agg(format(
        '{{"at":[%s,%s],"boxes":[%s],"id":%s,"text":%s,"until":"%s/%s"}}', v.x, v.y,
        (SELECT string_agg(format('[%s,%s,%s,%s]', v.boxes[k], v.boxes[k + 1], v.boxes[k + 2], v.boxes[k + 3]), ','
                           ORDER BY k) FROM generate_series(1, array_length(v.boxes, 1), 4) AS k),
        to_json(v.id), to_json(v.label), v.until_n, v.until_d), ',' ORDER BY v.priority, v.rank DESC, v.id),
        $5 / gcd($5, $6), $6 / gcd($5, $6))
    FROM {view}($1, $2, $3, $4, $5, $6) AS v
$$;

-- The names of a tile of Web Mercator as a vector tile, as pg_tileserv and martin call it: those whose place lies in
-- the tile and which are shown at some zoom from z on and below z + 1. Zoom z is the scale 14062500 / 2^z.
CREATE OR REPLACE FUNCTION {tile}(z integer, x integer, y integer)
RETURNS bytea LANGUAGE sql STABLE PARALLEL SAFE AS $$
    WITH tile AS (
        SELECT $2 * 3.6e9::float8 / 2 ^ $1 - 1.8e9 AS west, ($2 + 1) * 3.6e9::float8 / 2 ^ $1 - 1.8e9 AS east,
               degrees(atan(sinh(pi() * (1 - 2 * ($3 + 1) / 2::float8 ^ $1)))) * 1e7 AS south,
               degrees(atan(sinh(pi() * (1 - 2 * $3 / 2::float8 ^ $1)))) * 1e7 AS north
    )
    SELECT ST_AsMVT(row, 'names', 4096, 'geom') FROM (
        SELECT t.id, t.label AS text, t.class, t.x, t.y,
               (SELECT string_agg(format('%s,%s,%s,%s', t.boxes[k], t.boxes[k + 1], t.boxes[k + 2], t.boxes[k + 3]), ' '
                                  ORDER BY k) FROM generate_series(1, array_length(t.boxes, 1), 4) AS k) AS boxes,
               t.min_n || '/' || t.min_d AS min, t.until_n || '/' || t.until_d AS until, t.minzoom, t.maxzoom,
               ST_AsMVTGeom(ST_Transform(ST_SetSRID(ST_MakePoint(t.x / 1e7, t.y / 1e7), 4326), 3857),
                            ST_TileEnvelope($1, $2, $3), 4096, 64, false) AS geom
        FROM {table} AS t, tile
        WHERE t.stem &&& (SELECT ST_MakeLine(
                ST_MakePoint(b.west, b.south, log(14062500 / 2::float8 ^ ($1 + 1)) - 1e-9),
                ST_MakePoint(b.east, b.north, log(14062500 / 2::float8 ^ $1) + 1e-9)) FROM tile AS b)
          AND t.x >= tile.west AND t.x < tile.east AND t.y > tile.south AND t.y <= tile.north
          AND t.min_n * 2::numeric ^ $1 <= 14062500 * t.min_d::numeric
          AND t.until_n * 2::numeric ^ ($1 + 1) > 14062500 * t.until_d::numeric
          AND t.is_level
        ORDER BY t.priority, t.rank DESC, t.id
    ) AS row
$$;
