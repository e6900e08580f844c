"""Generated maps, and the sums that `gen` prints over their edits."""

from fractions import Fraction

import ml_editor
from ml_geojson import Feature, collection_text, feature_text, read_collection
from ml_json import Num
from ml_style import read_style
from ml_view import View, shown

FACTOR, TERM = 6364136223846793005, 1442695040888963407
STYLE = """version = 1
name = "name"
rank = "pop"
[fonts.sans]
units = 1000
default = 500
advances = { "i" = 250, "\\u0301" = 0 }
"""
CLASS = """[[class]]
geometry = "{}"
font = "sans"
size = 20
priority = {}
min = "0"
max = "{}"
{}
"""
CLASSES = [
    ("point", 1, 1000, 'key = "place"\nvalue = "city"'),
    ("point", 2, 1000, ""),
    ("line", 3, 2000, "ref = 1000"),
    ("area", 4, 100000, ""),
]


def places_of(count, seed):
    """Where each group stands."""
    places, z = [], seed
    for group in range(count):
        z = (z * FACTOR + TERM) % 2**64
        places.append(
            (
                group % 80 * 10000000 - 400000000 + (z >> 32) % 100000,
                group // 80 * 10000000 - 400000000 + z % 100000,
            )
        )
    return places


def group_features(group, x, y):
    """Three towns, a river and an area."""
    towns = [
        Feature(
            f"g{group}{letter}",
            ("Point", (x + east, y)),
            {"name": "ab", "place": "city", "pop": Num(rank)},
        )
        for letter, east, rank in [("a", 0, "3"), ("b", 400, "2"), ("c", 800, "1")]
    ]
    river = ((x, y + 4000000), (x + 1000000, y + 4100000), (x + 2000000, y + 4000000))
    low, high = y + 7000000, y + 8000000
    ring = ((x, low), (x + 1000000, low), (x + 1000000, high), (x, high), (x, low))
    return [
        *towns,
        Feature(f"g{group}r", ("LineString", river), {"name": "river"}),
        Feature(f"g{group}p", ("Polygon", (ring,)), {"name": "area"}),
    ]


def gen_line(count, seed):
    """The line that `gen` prints."""
    places = places_of(count, seed)
    features = [
        feature for group, at in enumerate(places) for feature in group_features(group, *at)
    ]
    style = read_style((STYLE + "".join(CLASS.format(*made) for made in CLASSES)).encode())
    state = ml_editor.load(style, read_collection(collection_text(features).encode()))
    towns = [(edit + seed) % count for edit in range(count)]
    sums = [0, 0, 0]
    for is_removal in (True, False):
        for group in towns:
            before, ident = state, f"g{group}a"
            if is_removal:
                state, changes = ml_editor.remove(state, None, ident)
            else:
                state, changes = ml_editor.add(
                    state, None, feature_text(features[5 * group]).encode()
                )
            x, y = places[group]
            seen = shown(state.labels, state.spans, View(x + 400, y, 1024, 1024, Fraction(30)))
            sums = [
                total + more
                for total, more in zip(
                    sums, (len(seen), len(changes), ml_editor.cost(before, state, ident))
                )
            ]
    return (
        f"groups {count} features {len(state.features)} labels {len(state.labels)} "
        f"edits {2 * count} "
        f"shown {sums[0]} changes {sums[1]} evaluated {sums[2]} rev {state.rev}\n"
    )
