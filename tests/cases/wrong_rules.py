"""Forty wrong rules, to be put into the oracle one at a time.

Each stands for a mistake that a program might make. A rule replaces one name of one
module of the oracle; `cases.sharp` puts it in wherever that name was imported.
"""

import re
from fractions import Fraction
from math import floor

import ml_anchor
import ml_cert
import ml_cone
import ml_conflict
import ml_editor
import ml_flight
import ml_follow
import ml_gaps
import ml_geojson
import ml_http
import ml_json
import ml_label
import ml_pass
import ml_ratio
import ml_river
import ml_style
import ml_text
import ml_tile
import ml_watch
from ml_pass import Refused


def touching_overlaps(conditions, over, under):
    return all(u * under <= v * over for u, v in conditions)


def no_margin(label, box):
    return box


def window_of_widened(label, box, view, right=ml_cone.window_conditions):
    return right(label, ml_cone.widened(label, box), view)


def no_upper_end(conditions, start, stop, right=ml_conflict.first_overlap):
    return right([(u, v) for u, v in conditions if v > 0], start, stop)


def cut_without_blocker(low, high, until, right=ml_conflict.limit):
    return right(low, high, high.max)


def active_at_end(begin, until, scale):
    return begin <= scale <= until


def last_blocker(labels, ends, place):
    low, end = labels[place], ends[place]
    found = [
        before
        for before in range(place)
        if end < low.max and ml_conflict.ends_just_there(low, end, labels[before], ends[before])
    ]
    return found[-1] if found else None


def strictest_clash(labels, ends, place):
    limits = [
        (ml_conflict.limit(labels[place], labels[before], ends[before]), before)
        for before in range(place)
    ]
    allowed, before = min(limits, default=(ends[place], None))
    return (before, allowed) if allowed < ends[place] else None


def empty_lines_uncounted(data, right=ml_pass.lines_of):
    return [line for line in right(data) if line]


def last_cr_passed_over(data, right=ml_pass.lines_of):
    return [line.removesuffix(b"\r") for line in right(data)]


def reduced_first(text):
    parts = re.fullmatch("([0-9]{1,10})(?:/([0-9]{1,10}))?", text)
    if not parts or int(parts[2] or "1") == 0:
        return None
    value = Fraction(int(parts[1]), int(parts[2] or "1"))
    return value if value.numerator <= 2**32 and value.denominator <= 65536 else None


def cut_decimals(number, right=ml_json.e7):
    is_negative, digits, power, length = ml_json.decimal_of(number)
    if right(number) is None or digits == 0 or power >= -7 or power < -length - 7:
        return right(number)
    value = digits // 10 ** (-power - 7)
    return -value if is_negative else value


def half_upwards(number, right=ml_json.e7):
    is_negative, digits, power, length = ml_json.decimal_of(number)
    if not is_negative or right(number) is None or not -60 < power < -7:
        return right(number)
    return floor(Fraction(-digits, 10 ** (-power - 7)) + Fraction(1, 2))


def fault_at_token(data, right=ml_json.first_wrong):
    wrong = right(data)
    token = re.search(rb"[0-9.eE+-]*\Z|[a-z]*\Z", data[:wrong])
    return wrong - len(token[0])


def string_ids_alone(value, place, right=ml_geojson.read_one):
    own, geometry, props = right(value, place)
    return own if not isinstance(value.get("id"), ml_json.Num) else None, geometry, props


def sign_behind(own, place, taken):
    if own is not None and own not in taken:
        return own
    ident = f"#{place}"
    while ident in taken:
        ident += "#"
    return ident


def ring_stays_open(value):
    ring = ml_geojson.read_parts(value, 1, False)
    if ring and len(ring) + (ring[0] != ring[-1]) < 4:
        raise ml_geojson.Fault("ShortRing")
    return ring


def last_part_at_tie(parts):
    return max(reversed(parts), key=lambda part: ml_anchor.box_area(part[0]))


def holes_are_inside(part, height, right=ml_anchor.crossings):
    return right(part[:1], height)


def eastern_stretch(kind, parts, right=ml_anchor.area_anchor):
    part = parts if kind == "Polygon" else ml_anchor.largest_part(parts)
    _, bottom, _, top = ml_anchor.box_of(part[0])
    if bottom == top:
        return right(kind, parts)
    places = ml_anchor.crossings(part, Fraction(bottom + top, 2))
    west, east = max(
        reversed(list(zip(places[::2], places[1::2]))), key=lambda pair: pair[1] - pair[0]
    )
    return (west + east) // 2, (bottom + top) // 2


def level_edges_count(part, height):
    found = []
    for ring in part:
        for (x1, y1), (x2, y2) in zip(ring, ring[1:]):
            if y1 != y2 and min(y1, y2) <= height <= max(y1, y2):
                found.append(floor(x1 + (height - y1) * Fraction(x2 - x1, y2 - y1)))
    return sorted(found)


def characters_are_clusters(text):
    return list(text)


def width_rounded_down(font, size, text):
    return max(1, ml_text.advance(font, text) * size // font.units)


def narrow_clusters(advances, size, units, whole, right=ml_river.sides_of):
    sides = right(advances, size, units, whole)
    return [
        (low, high)
        for low, high in zip(
            [sides[0][0], *(high for _, high in sides)], [high for _, high in sides]
        )
    ]


def margin_in_version_1(table, version, right=ml_style.read_class):
    return right(table, 2)


def fonts_as_they_stand(value):
    fonts = (
        {name: ml_style.read_font(font) for name, font in value.items()}
        if isinstance(value, dict)
        else {}
    )
    for name, font in fonts.items():
        if font is None:
            raise Refused(3, "BadFont", name)
    return fonts


def moved_lines(made, whole):
    left, bottom = made.dx - whole // 2, made.dy - made.size // 2
    return left, bottom, left + whole, bottom + made.size


def plus_is_plus(part, right=ml_http.unescaped):
    return right(part.replace("+", "%2B"))


def first_of_two(pairs, name, read, is_needed=True, right=ml_http.value_of):
    return right(
        list({key: (key, value) for key, value in reversed(pairs)}.values()), name, read, is_needed
    )


def revision_last(state, rev, body, right=ml_editor.replace):
    after = right(state, None, body)
    ml_editor.check_revision(state, rev)
    return after


def replaced_goes_last(state, rev, body):
    ml_editor.check_revision(state, rev)
    feature = ml_geojson.read_feature(body)
    if feature.id not in state.features:
        raise Refused(4, "Unknown", feature.id)
    others = {key: value for key, value in state.features.items() if key != feature.id}
    return ml_editor.next_state(state, state.style, {**others, feature.id: feature})


def spans_alone(before, after, right=ml_watch.changes_between):
    return [change for change in right(before, after) if change[1] != change[2]]


def rows_southwards(depth, column, row, right=ml_tile.tile_view):
    return right(depth, column, row)._replace(cy=-ml_tile.middle_of(depth, row))


def closed_stays(label, until, view, right=ml_flight.stays):
    return [(begin, begin > 0, end) for begin, _, end in right(label, until, view)]


def last_longest_gap(best, gap):
    return gap if gap[1] - gap[0] >= best[1] - best[0] else best


def cost_of_rivals_alone(before, after, ident, right=ml_editor.cost):
    return right(before, after, ident) - (ident in after.standing)


def equal_revision_adopted(held, rev):
    return held is not None and rev < held


RULES = [
    (
        "touching overlaps",
        ml_cone,
        "hold_at",
        touching_overlaps,
        "boxes that touch overlap, and a box that touches a window is in it",
    ),
    ("no margin", ml_cone, "widened", no_margin, "margins widen no box"),
    (
        "margin in views",
        ml_cone,
        "window_conditions",
        window_of_widened,
        "a view is of boxes with their margins",
    ),
    (
        "no upper end",
        ml_conflict,
        "first_overlap",
        no_upper_end,
        "two labels that overlap at a scale overlap at all above it",
    ),
    (
        "blocker not active",
        ml_conflict,
        "limit",
        cut_without_blocker,
        "a label limits others above its own end too",
    ),
    ("active at the end", ml_cone, "is_active", active_at_end, "a label is active at its end too"),
    ("last blocker", ml_pass, "blocker_of", last_blocker, "of several blockers the last is named"),
    (
        "strictest clash",
        ml_cert,
        "first_clash",
        strictest_clash,
        "a clash names the label with the least limit",
    ),
    ("empty lines", ml_pass, "lines_of", empty_lines_uncounted, "empty lines are not counted"),
    (
        "last CR",
        ml_pass,
        "lines_of",
        last_cr_passed_over,
        "a CR at the end of a last line without LF is passed over",
    ),
    (
        "reduced first",
        ml_ratio,
        "read_fraction",
        reduced_first,
        "a fraction is judged in lowest terms",
    ),
    ("cut decimals", ml_json, "e7", cut_decimals, "coordinates are cut after seven decimals"),
    ("half upwards", ml_json, "e7", half_upwards, "a half of a coordinate is rounded up"),
    (
        "fault at token",
        ml_json,
        "first_wrong",
        fault_at_token,
        "JSON goes wrong where the token begins that is wrong",
    ),
    ("one deeper", ml_json, "DEEPEST", 65, "65 lists and maps may be open"),
    ("text ids alone", ml_geojson, "read_one", string_ids_alone, "a number is no id"),
    ("sign behind", ml_geojson, "free_id", sign_behind, "a taken id gets its further signs behind"),
    ("open ring", ml_geojson, "read_ring", ring_stays_open, "an open ring is not closed"),
    (
        "last part",
        ml_anchor,
        "largest_part",
        last_part_at_tie,
        "of polygons as large the last counts",
    ),
    ("no holes", ml_anchor, "crossings", holes_are_inside, "holes are inside"),
    (
        "eastern stretch",
        ml_anchor,
        "area_anchor",
        eastern_stretch,
        "of stretches as wide the last counts",
    ),
    (
        "corners twice",
        ml_anchor,
        "crossings",
        level_edges_count,
        "a level line through a corner crosses both edges",
    ),
    ("characters", ml_text, "clusters", characters_are_clusters, "each character is a cluster"),
    ("width down", ml_text, "width", width_rounded_down, "widths are rounded down"),
    (
        "narrow clusters",
        ml_river,
        "sides_of",
        narrow_clusters,
        "a box begins where that before it ends",
    ),
    (
        "margin in version 1",
        ml_style,
        "read_class",
        margin_in_version_1,
        "margins count in version 1 too",
    ),
    (
        "fonts in order",
        ml_style,
        "read_fonts",
        fonts_as_they_stand,
        "the first wrong font of the file is told",
    ),
    ("moved lines", ml_label, "straight_box", moved_lines, "texts of lines are moved too"),
    ("plus is plus", ml_http, "unescaped", plus_is_plus, "a plus in a query is a plus"),
    (
        "first of two",
        ml_http,
        "value_of",
        first_of_two,
        "of names that stand twice the first counts",
    ),
    ("revision last", ml_editor, "replace", revision_last, "a moved revision is told last"),
    ("longer head", ml_http, "LONGEST_HEAD", 16385, "a head may have 16,385 bytes"),
    ("one request more", ml_http, "MOST_REQUESTS", 1001, "a connection has 1,001 requests"),
    (
        "replaced goes last",
        ml_editor,
        "replace",
        replaced_goes_last,
        "a feature that replaces one stands last",
    ),
    (
        "spans alone",
        ml_watch,
        "changes_between",
        spans_alone,
        "a label that changes, but not its range, is no change",
    ),
    ("rows southwards", ml_tile, "tile_view", rows_southwards, "rows of tiles count southwards"),
    (
        "equal revision",
        ml_follow,
        "is_stale",
        equal_revision_adopted,
        "a state of the revision that is held is judged",
    ),
    ("closed stays", ml_flight, "stays", closed_stays, "a stay above 0 always holds its lower end"),
    ("last gap", ml_gaps, "longer", last_longest_gap, "of free ranges as long the last counts"),
    (
        "cost of rivals",
        ml_editor,
        "cost",
        cost_of_rivals_alone,
        "the label that comes is not counted as evaluated",
    ),
]
