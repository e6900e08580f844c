"""Features and map files, good and spoilt."""

from cases.draw import spoil_bytes, step_of
from cases.shapes import draw_places
from cases.json_text import Number, Pairs, Raw, text_of

FULL = b'{"type":"FeatureCollection","features":[' + b",".join([b'{"type":"Feature"}'] * 32768)
NAMES = [
    "ab",
    "ab",
    "ab",
    "i",
    "ii",
    "abc",
    "a b",
    "Z\u00fcrich",
    "e\u0301a",
    "\ud55c\uad6d",
    "Sihl",
    "abcdefgh",
]
ODD_NAMES = [
    "",
    " ",
    "   ",
    "\u0001",
    " a",
    "a ",
    "x" * 64,
    "x" * 65,
    "x" * 103,
    "x" * 130,
    "\u0085\u007f",
    "a\ufffeb\uffff",
    "\ud800",
    "a\udc00b",
    "\ud83d\ude00",
    '&<>"\\/',
]
CHARACTERS = [
    "a",
    "b",
    "i",
    " ",
    "\u00e9",
    "e",
    "\u0301",
    "\u0308",
    "\u200d",
    "\U0001f469",
    "\U0001f467",
    "\u2764",
    "\ufe0f",
    "\U0001f1e8",
    "\U0001f1ed",
    "\u1100",
    "\u1161",
    "\u11a8",
    "\uac00",
    "\uac01",
    "\u0915",
    "\u093f",
    "\u0600",
    "\r",
    "\n",
    "\u200b",
    "\u00ad",
    "\u0e33",
    "&",
    "<",
    '"',
    "\\",
    "\u2028",
    "\U0001f600",
]
KEYS = ["place", "pop", "kind", "rank", "title", "a", "\u00e4"]
IDS = [
    "A",
    "B",
    "C",
    "D",
    "a b",
    "#0",
    "#1",
    "##1",
    "7",
    "",
    "\u00e9",
    "%",
    "&",
    "x" * 70,
    "\ud800",
    "\x01",
]
WRONG_POSITIONS = [
    [],
    [1],
    5,
    None,
    "x",
    ["1", 2],
    [1, "2"],
    [None, 1],
    {"x": 1},
    [[1, 2], 3],
    True,
    [1, [2]],
]
FAR = ["201", "-200.0000001", "1e3", "-1E+400", "200.00000005", "2000000000"]
NEAR = ["200.00000004", "-200", "2e2", "0e99999999999", "-0", "1e-400", "179.99999995"]


def degrees(draw, value):
    """The text of a coordinate of so many 10^-7 degrees, at times not quite."""
    sign, whole, part = "-" if value < 0 else "", abs(value) // 10**7, abs(value) % 10**7
    how = draw.random()
    if how < 0.08:
        return Number(f"{sign}{abs(value)}{draw.pick(['e-7', 'E-7', 'e-07', '.0e-7'])}")
    if how < 0.16:
        extra = draw.pick(["4", "5", "49999999999999999999", "50000000000000000001", "0", "9"])
        return Number(f"{sign}{whole}.{part:07d}{extra}")
    if how < 0.2:
        return Number(f"{sign}{abs(value)}{draw.pick(['00e-9', '0.0E-8'])}")
    digits = f"{part:07d}".rstrip("0")
    return Number(f"{sign}{whole}" + (f".{digits}" if digits else draw.pick(["", ".0"])))


def position(draw, x, y):
    place = [degrees(draw, x), degrees(draw, y)]
    if draw.chance(0.06):
        place.append(draw.pick([Number("408.0"), "x", None, []]))
    if draw.chance(0.004):
        place[draw.up_to(0, 1)] = Number(draw.pick(NEAR))
    return place


def draw_line(draw, unit, count=None):
    """Positions that mostly go one way in x, with turns and steps straight up."""
    count = count or draw.weighted([(1, 4), (2, 20), (3, 30), (4, 20), (6, 15), (9, 6)])
    x, y, step = draw.up_to(-40, 10) * unit, draw.up_to(-5, 5) * unit, draw.pick([1, 1, 1, -1])
    places = []
    for _ in range(count):
        places.append(position(draw, x, y))
        turn = draw.weighted([(1, 80), (0, 8), (-1, 10)])
        x += step * turn * draw.up_to(1, 40) * unit + (draw.up_to(-2, 2) if draw.chance(0.2) else 0)
        y += draw.up_to(-8, 8) * unit
    return places


def shape(draw):
    """The corners of a polygon on a small grid."""
    how = draw.up_to(0, 5)
    if how == 0:
        return [(0, 0), (6, 0), (6, 4), (4, 4), (4, 1), (1, 1), (1, 4), (0, 4)]
    if how <= 2:
        width, height = draw.up_to(1, 9), draw.up_to(0, 7)
        return [(0, 0), (width, 0), (width, height), (0, height)]
    corners = draw.up_to(3, 8)
    return [(draw.up_to(0, 9), draw.up_to(0, 9)) for _ in range(corners)]


def draw_ring(draw, unit, x, y):
    corners = [(x + east * unit, y + north * unit) for east, north in shape(draw)]
    if draw.chance(0.2):
        corners = [(east + draw.up_to(-3, 3), north + draw.up_to(-3, 3)) for east, north in corners]
    if draw.chance(0.7):
        corners.append(corners[0])
    if draw.chance(0.03):
        return []
    return [position(draw, east, north) for east, north in corners]


def draw_polygon(draw, unit):
    if draw.chance(0.03):
        return []
    x, y = draw.up_to(-9, 9) * unit, draw.up_to(-9, 9) * unit
    rings = [draw_ring(draw, unit, x, y)]
    while draw.chance(0.3):
        rings.append(draw_ring(draw, max(1, unit // draw.pick([1, 2, 3])), x + unit, y + unit))
    return rings


def draw_point(draw, unit):
    step = draw.pick([100, 400, 400, 150, 7]) * step_of(unit)
    return position(draw, draw.up_to(-5, 5) * step, draw.pick([0, 0, 1, -1]) * step)


def far_point(draw, unit):
    """A point about the edges of the cells that an index of places may have."""
    cell = draw.pick([128, 1024, 1024, 3072]) * 2 ** draw.up_to(0, 17)
    return [
        degrees(draw, draw.up_to(-3, 3) * cell + draw.pick([0, 0, 1, -1, 5 * unit]))
        for _ in range(2)
    ]


def some(draw, make, unit):
    if draw.chance(0.04):
        return []
    return [make(draw, unit) for _ in range(draw.weighted([(1, 50), (2, 35), (3, 15)]))]


def draw_geometry(draw, unit):
    kind = draw.weighted(
        [
            ("Point", 50),
            ("MultiPoint", 8),
            ("LineString", 16),
            ("MultiLineString", 6),
            ("Polygon", 13),
            ("MultiPolygon", 7),
            ("none", 3),
            ("GeometryCollection", 2),
        ]
    )
    if kind == "none":
        return None
    if kind == "GeometryCollection":
        return {"type": kind, "geometries": [5]}
    make = {"Point": draw_point, "LineString": draw_line, "Polygon": draw_polygon}
    if kind in make:
        coordinates = [] if draw.chance(0.02) else make[kind](draw, unit)
    else:
        coordinates = some(draw, make[kind[5:]], unit)
    members = [("type", kind), ("coordinates", coordinates)]
    if draw.chance(0.2):
        members.reverse()
    return Pairs(members)


def draw_name(draw):
    how = draw.random()
    if how < 0.66:
        return draw.pick(NAMES)
    if how < 0.8:
        return "".join(draw.pick(CHARACTERS) for _ in range(draw.up_to(1, 9)))
    if how < 0.92:
        return draw.pick(ODD_NAMES)
    return draw.pick(
        [
            None,
            True,
            False,
            [1],
            {"a": 1},
            Number("12"),
            Number("-1.50"),
            Number("1e3"),
            Number("0"),
        ]
    )


def draw_value(draw):
    return draw.pick(
        [
            "city",
            "city",
            "town",
            "true",
            "12",
            "",
            True,
            False,
            None,
            Number("12"),
            Number("1.0"),
            [1],
            {},
        ]
    )


def draw_rank(draw):
    return draw.pick(
        [
            Number(text)
            for text in [
                "1",
                "2",
                "3",
                "3",
                "-5",
                "12.9",
                "1e400",
                "9007199254740993",
                "0.99e1",
                "1e-3",
                "-0",
            ]
        ]
        + ["7", None, True]
    )


def draw_properties(draw, keys=("name", "pop")):
    if draw.chance(0.03):
        return draw.pick([None, 5, "x", [], {}])
    members = [(keys[0], draw_name(draw))] if draw.chance(0.97) else []
    if draw.chance(0.7):
        members.append((keys[1], draw_rank(draw)))
    if draw.chance(0.6):
        members.append(("place", draw_value(draw)))
    while draw.chance(0.15):
        members.append((draw.pick(KEYS), draw_value(draw)))
    draw.shuffle(members)
    return Pairs(members)


def draw_id(draw):
    """A value of `id`, or None for no such member."""
    how = draw.random()
    if how < 0.3:
        return None
    if how < 0.42:
        return draw.pick([Number("7"), Number("0"), Number("-1.50"), True, [1], {}, Raw("null")])
    return draw.pick(IDS) if draw.chance(0.7) else draw.pick("ABCDEFG")


def draw_feature(draw, unit, ident=None, keys=("name", "pop")):
    """A good feature, as pairs."""
    ident = draw_id(draw) if ident is None else ident
    members = [("type", "Feature"), ("properties", draw_properties(draw, keys))]
    geometry = draw_geometry(draw, unit)
    if geometry is not None or draw.chance(0.7):
        members.append(("geometry", geometry))
    if ident is not None:
        members.append(("id", ident))
    if draw.chance(0.3):
        draw.shuffle(members)
    if draw.chance(0.05):
        members.insert(
            draw.up_to(0, len(members)),
            draw.pick([("bbox", [0, 0]), ("title", {}), ("type", "Feature")]),
        )
    return Pairs(members)


def replace(pairs, key, value):
    """The pairs with one member's value replaced, or the member added."""
    done = Pairs((name, value if name == key else old) for name, old in pairs)
    if all(name != key for name, _ in done):
        done.append((key, value))
    return done


def spoilt_positions(draw, places):
    """A list of positions with one that is none, or far away."""
    places = list(places) or [[Number("0"), Number("0")]]
    at = draw.up_to(0, len(places) - 1)
    if draw.chance(0.5):
        places[at] = draw.pick(WRONG_POSITIONS)
    else:
        far = [Number("1"), Number("1")]
        far[draw.up_to(0, 1)] = Number(draw.pick(FAR))
        places[at] = far
    return places


def spoilt_geometry(draw, unit):
    """A geometry that refuses its feature; at times with more than one fault."""
    how = draw.up_to(0, 8)
    if how == 0:
        return draw.pick(
            [
                5,
                "x",
                [],
                True,
                {},
                {"type": "point", "coordinates": [0, 0]},
                {"type": 5},
                {"type": "Point"},
                {"type": "Point", "coordinates": None},
                {"coordinates": [0, 0]},
                {"type": "LineString", "coordinates": {}},
                {"type": "Polygon", "coordinates": "x"},
            ]
        )
    if how == 1:
        kind = draw.pick(["LineString", "Polygon", "MultiPolygon", "MultiLineString", "MultiPoint"])
        return {"type": kind, "coordinates": [0, 0]}
    if how == 2:
        return {"type": "Point", "coordinates": spoilt_positions(draw, [[]])[0]}
    if how == 3:
        kind = draw.pick(["LineString", "MultiPoint"])
        return {"type": kind, "coordinates": spoilt_positions(draw, draw_line(draw, unit))}
    if how == 4:
        lines = [
            draw_line(draw, unit),
            draw.pick([5, None, {}, spoilt_positions(draw, draw_line(draw, unit))]),
        ]
        draw.shuffle(lines)
        return {"type": "MultiLineString", "coordinates": lines}
    rings = draw_polygon(draw, unit)
    wrong = draw.pick(
        [
            draw_line(draw, unit, draw.up_to(1, 2)),
            spoilt_positions(draw, draw_line(draw, unit, 5)),
            7,
            spoilt_positions(draw, draw_line(draw, unit, 2)),
        ]
    )
    rings.insert(draw.up_to(0, len(rings)), wrong)
    if how <= 6:
        return {"type": "Polygon", "coordinates": rings}
    parts = [draw_polygon(draw, unit), rings] + ([5] if draw.chance(0.2) else [])
    return {"type": "MultiPolygon", "coordinates": parts}


def spoilt_feature(draw, unit, ident=None):
    """A feature that is refused, for what it is or for its geometry."""
    feature = draw_feature(draw, unit, ident)
    if draw.chance(0.25):
        return draw.pick(
            [
                5,
                None,
                [],
                "Feature",
                {},
                replace(feature, "type", "feature"),
                replace(feature, "type", 5),
                Pairs(pair for pair in feature if pair[0] != "type"),
            ]
        )
    return replace(feature, "geometry", spoilt_geometry(draw, unit))


def deep(draw):
    """Brackets and braces within one another, about as deep as may be."""
    depth = draw.pick([3, 62, 63, 64, 65, 66, 70])
    opening = "".join(draw.pick(["[", '{"a":', "[0,"]) for _ in range(depth))
    return Raw(opening + draw.pick(["1", "", "x", "]"]))


def collection_of(draw, features):
    members = [("type", "FeatureCollection"), ("features", features)]
    while draw.chance(0.15):
        members.append(
            draw.pick(
                [("name", "m"), ("crs", {"type": "name", "properties": {}}), ("bbox", [0.5, 1])]
            )
        )
    if draw.chance(0.3):
        draw.shuffle(members)
    return Pairs(members)


def wrong_collection(draw, features):
    return draw.pick(
        [
            features,
            features[0] if features else 5,
            5,
            {},
            {"type": "Topology"},
            "x",
            None,
            {"type": "FeatureCollection"},
            {"type": "FeatureCollection", "features": {}},
            {"type": ["FeatureCollection"], "features": []},
            {"type": "Point", "coordinates": [0, 0]},
            {"features": features},
        ]
    )


def bytes_of(draw, value):
    data = text_of(draw, value, draw.pick([0, 0, 0.05, 0.4])).encode("utf-8", "surrogatepass")
    return b"\xef\xbb\xbf" + data if draw.chance(0.04) else data


def long_ids_map(draw, unit, keys):
    """A good map whose ids are so long that a view of it is no short text."""
    features = []
    for number in range(draw.up_to(10, 25)):
        props = Pairs([(keys[0], "ab"), (keys[1], Number(number))])
        geometry = Pairs([("type", "Point"), ("coordinates", draw_point(draw, unit))])
        ident = draw.pick("abc\u00e9") * draw.pick([1000, 4000, 9000]) + str(number)
        features.append(
            Pairs(
                [("type", "Feature"), ("id", ident), ("geometry", geometry), ("properties", props)]
            )
        )
    return bytes_of(draw, collection_of(draw, features))


def crowded_feature(draw, unit, keys, ident=None):
    """A point that stands in the way of others, mostly on a line with equal steps."""
    props = Pairs(
        [(keys[0], draw.pick(["ab", "ab", "ab", "i", "abcd"])), (keys[1], Number(draw.up_to(0, 9)))]
    )
    if draw.chance(0.3):
        props.append(("place", draw.pick(["city", "town"])))
    step = 400 * step_of(unit)
    place = position(draw, draw.up_to(-6, 6) * step, draw.pick([0, 0, 0, 1, -1]) * step)
    members = [
        ("type", "Feature"),
        ("geometry", Pairs([("type", "Point"), ("coordinates", place)])),
        ("properties", props),
    ]
    return Pairs(members if ident is None else [*members, ("id", ident)])


def shaped_map(draw, unit, keys):
    """A good map of points in a row, a column, a lattice or at one anchor, whose ranks mostly fall
    in their order.
    """
    places = draw_places(draw, draw.pick([100, 400, 400, 800]) * step_of(unit))
    name, falls = draw.pick(["ab", "ab", "i", "abcd"]), draw.chance(0.8)
    features = []
    for number, (x, y) in enumerate(places):
        rank = len(places) - number if falls else draw.up_to(0, 3)
        props = Pairs([(keys[0], name), (keys[1], Number(rank))])
        geometry = Pairs([("type", "Point"), ("coordinates", position(draw, x, y))])
        ident = "ABCDEFG"[number] if number < 7 else f"p{number}"
        features.append(
            Pairs(
                [("type", "Feature"), ("id", ident), ("geometry", geometry), ("properties", props)]
            )
        )
    return bytes_of(draw, collection_of(draw, features))


def crowded_map(draw, unit, keys):
    """A good map of many points close together, whose labels stand in one another's way."""
    if draw.chance(0.3):
        return shaped_map(draw, unit, keys)
    is_far = draw.chance(0.25)
    features = [crowded_feature(draw, unit, keys) for _ in range(draw.up_to(4, 24))]
    if is_far:
        features = [
            replace(feature, "geometry", {"type": "Point", "coordinates": far_point(draw, unit)})
            for feature in features
        ]
    return bytes_of(draw, collection_of(draw, features))


def draw_map(draw, unit, refused=0.42, keys=("name", "pop"), most=12):
    """The bytes of a map file, refused in about such a share of draws."""
    count = draw.weighted([(0, 3), (1, 10), (2, 15), (4, 30), (6, 25), (9, 15), (most, 6)])
    features = [draw_feature(draw, unit, keys=keys) for _ in range(min(count, most))]
    if not draw.chance(refused):
        return bytes_of(draw, collection_of(draw, features))
    fault = draw.weighted(
        [
            ("bytes", 24),
            ("feature", 40),
            ("collection", 14),
            ("deep", 12),
            ("utf8", 8),
            ("full", 3.5),
        ]
    )
    if fault == "full":
        return FULL + draw.pick([b',{"type":"Feature"}]}', b',{"type":"Feature"}]}', b",5]}"])
    if fault == "bytes":
        return spoil_bytes(draw, bytes_of(draw, collection_of(draw, features)))
    if fault == "collection":
        return bytes_of(draw, wrong_collection(draw, features))
    if fault == "utf8":
        data = bytes_of(draw, collection_of(draw, features))
        at = data.find(b"name") if draw.chance(0.5) else draw.up_to(0, len(data))
        odd = draw.pick(
            [
                b"\xff",
                b"\xc3",
                b"\xed\xa0\x80",
                b"\xf4\x90\x80\x80",
                b"\xe0\x80\x80",
                b"\xc0\x80",
                b"\x80",
                b"\xf0\x9f\x98",
                b"\xef\xbb\xbf",
                b"\xe2\x82\xac",
            ]
        )
        return data[:at] + odd + data[at:]
    wrong = deep(draw) if fault == "deep" else spoilt_feature(draw, unit)
    if fault == "deep" and draw.chance(0.5):
        wrong = replace(
            draw_feature(draw, unit), draw.pick(["bbox", "properties", "geometry"]), wrong
        )
    features.insert(draw.up_to(0, len(features)), wrong)
    if draw.chance(0.15):
        features.append(spoilt_feature(draw, unit))
    return bytes_of(draw, collection_of(draw, features))
