"""The kinds of cases: one for each command, and one for wrong words."""

from cases import maps, tables
from cases.case import LONG_FILE, Case
from cases.draw import BAD_FRACTIONS, Draw
from cases.maps import draw_map
from cases.requests import (
    Stream,
    draw_feature,
    bytes_of,
    draw_request,
    draw_stream,
    tile_stream,
    view_words,
)
from cases.styles import draw_style
from ml_geojson import read_collection
from ml_pass import Refused

PIPE_ROOM = 60000
UNITS = [1, 10, 10, 100, 1000, 100000]
KEYS = [("name", "pop")] * 6 + [("title", "rank"), ("name", "name")]
FORMS = {
    "show": 6,
    "slots": 1,
    "check": 2,
    "view": 7,
    "gaps": 1,
    "gapview": 6,
    "zoom": 6,
    "pipe": 2,
    "serve": 4,
    "gen": 2,
    "follow": 1,
}
WRONG_DOORS = [["0", "1"], ["65536", "1"], ["PORT", "0"], ["PORT", "1000001"], ["PORT"], ["x", "1"]]
WRONG_WINDOW = [
    None,
    ("2000000001", "-2000000001", "", "1.5", "x"),
    ("2000000001", "x", "+1"),
    ("0", "1", "4098", "1023", "-2", "x"),
    ("0", "3", "5000", "x", ""),
    ("0", "0/1", "268435456", "536870912/2", *BAD_FRACTIONS),
]


def wrong_number(draw, words, first):
    """The words of a view or a window, from place `first` on, with one out of bounds."""
    place = draw.up_to(0, len(words) - first - 1)
    words[first + place] = draw.pick(WRONG_WINDOW[place + 1])


def in_the_way(draw, case):
    """At times takes a file away, puts a folder or a file too long there, or fills the output."""
    if draw.chance(0.03) and case.files:
        name = draw.pick(sorted(case.files))
        what = draw.weighted([("gone", 50), ("folder", 30), ("other", 20), ("long", 5)])
        if what == "gone":
            del case.files[name]
        elif what == "other":
            other = draw.pick(["", "nowhere", "a/b", "\u00e9", "../files/" + name, "./" + name])
            case.words = [other if word == name else word for word in case.words]
        else:
            case.files[name] = None if what == "folder" else LONG_FILE
    if draw.chance(0.008):
        case.is_out_full = True
    return case


def table_case(draw, kind):
    """`slots`, `gaps`, `show` or `gapview`."""
    words = [kind, "table"]
    if kind in ("show", "gapview"):
        words += view_words(draw, draw.pick([1, 10]))
        if draw.chance(0.06):
            wrong_number(draw, words, 2)
    return in_the_way(draw, Case(kind, words, {"table": tables.draw_table(draw)}))


def check_case(draw, kind):
    if draw.chance(0.12):
        files = {"table": tables.draw_table(draw), "slots": b"A 1000/1 -\n"}
    else:
        data, labels = tables.good_table(draw)
        files = {"table": data, "slots": tables.draw_slots(draw, labels)}
    return in_the_way(draw, Case(kind, [kind, "table", "slots"], files))


def map_files(draw, refused, most=12):
    """A style and a map, with the unit of length and the keys that both use."""
    unit, keys = draw.pick(UNITS), draw.pick(KEYS)
    style = draw_style(draw, unit, refused * 0.5, keys)
    return unit, keys, {"style": style, "map": draw_map(draw, unit, refused * 0.6, keys, most)}


def ids_of(data):
    """The ids of a map's features; none where it is refused."""
    try:
        return [feature.id for feature in read_collection(data)]
    except Refused:
        return []


def map_case(draw, kind):
    """`view` or `zoom`."""
    unit, keys, files = map_files(draw, 0.55)
    if draw.chance(0.12):
        files["map"] = maps.crowded_map(draw, unit, keys)
    words = [kind, "style", "map", *view_words(draw, unit)]
    if kind == "zoom":
        del words[-1]
    if draw.chance(0.05):
        wrong_number(draw, words, 3)
    return in_the_way(draw, Case(kind, words, files))


def many_requests(draw):
    """As many requests as a connection may have, and a few more."""
    ask = b"GET /rev HTTP/1.1\r\nHost: a\r\n\r\n"
    return ask * draw.pick([999, 1000, 1001])


def full_stream(draw, unit):
    """A map with no room for one more feature, and additions to it."""
    data = maps.FULL + b"]}"
    requests = b""
    for _ in range(3):
        body = bytes_of(draw, draw_feature(draw, unit, draw.pick(["A", "#7", "#32767"])))
        method = draw.pick([b"POST", b"POST", b"PUT"])
        requests += (
            method
            + b" /feature HTTP/1.1\r\nHost: a\r\nContent-Length: %d\r\n\r\n" % len(body)
            + body
        )
    return data, requests


def pipe_case(draw, kind):
    unit, keys, files = map_files(draw, 0.06, 8)
    is_crowded = draw.chance(0.3)
    if is_crowded:
        files["map"] = maps.crowded_map(draw, unit, keys)
    odd = draw.random()
    if odd < 0.0015:
        stdin = many_requests(draw)
    elif odd < 0.005:
        files["map"], stdin = full_stream(draw, unit)
    elif odd < 0.008:
        stdin = None
    elif odd < 0.012:
        make = draw.pick([maps.crowded_map, maps.long_ids_map])
        files["map"] = make(draw, unit, keys)
        stdin = tile_stream(draw, unit, keys, ids_of(files["map"]))
    else:
        stdin = draw_stream(draw, unit, keys, ids_of(files["map"]), is_crowded)
    case = in_the_way(draw, Case(kind, [kind, "style", "map"], files, stdin))
    if stdin and draw.chance(0.15) and len(stdin) < PIPE_ROOM:
        case.pieces = pieces_of(draw, stdin)
    return case


def serve_case(draw, kind):
    """`serve` with a few connections in turn, each in pieces."""
    unit, keys, files = map_files(draw, 0.12, 6)
    links = []
    for _ in range(draw.pick([1, 1, 2, 3])):
        stream = Stream(draw, unit, keys, ids_of(files["map"]))
        data = b"".join(whole_request(stream) for _ in range(draw.up_to(1, 4)))
        links.append(pieces_of(draw, data))
    words = [kind, "style", "map", "PORT", str(len(links))]
    case = Case(kind, words, files, links=links)
    if draw.chance(0.1):
        case.words[3:] = draw.pick(WRONG_DOORS)
    elif draw.chance(0.2):
        case.is_port_taken, case.links = True, []
    case = in_the_way(draw, case)
    case.is_out_full = False
    return case


def whole_request(stream):
    """A request that does not close its connection, so that none stands unread behind it."""
    while True:
        data, is_last = draw_request(stream)
        head = data.split(b"\r\n\r\n")[0].lower()
        if not is_last and b"close" not in head and b"http/1.0" not in head and len(head) < 9000:
            return data


def pieces_of(draw, data):
    cuts = sorted(draw.up_to(0, len(data)) for _ in range(draw.pick([0, 1, 3])))
    return [data[low:high] for low, high in zip([0, *cuts], [*cuts, len(data)])]


def follow_case(draw, kind):
    """States of a map that changes, some stale, wrong or broken."""
    rev, data = draw.pick([0, 0, 3]), ""
    for _ in range(draw.weighted([(0, 4), (1, 26), (2, 40), (3, 30)])):
        text, labels, slots = tables.draw_state(draw, rev)
        if draw.chance(0.3) and labels:
            text = tables.wrong_state(draw, rev, labels, slots)
        data += text
        if draw.chance(0.4):
            kept = tables.same_map(draw, labels)
            data += tables.state_text(rev + 1, kept, tables.longest_choice(kept))
        rev = draw.pick([rev + 1, rev + 2, rev, max(0, rev - 1), 2**53])
    data = data.encode()
    if draw.chance(0.3):
        data = tables.break_state(draw, data)
    return in_the_way(draw, Case(kind, [kind, "states"], {"states": data}))


def gen_case(draw, kind):
    count, seed = draw.weighted([(1, 40), (2, 40), (3, 20)]), draw.pick(
        [0, 1, 7, draw.up_to(0, 4294967295)]
    )
    words = [kind, str(count), str(seed)]
    if draw.chance(0.5):
        words = draw.pick(
            [
                [kind, draw.pick(["0", "6001", "-1", "x", "", "1.0"]), "7"],
                [kind, "1", draw.pick(["-1", "4294967296", "x", "", "12345678901"])],
                [kind, "1"],
                [kind, "1", "1", "1"],
            ]
        )
    return Case(kind, words, is_out_full=draw.chance(0.05))


def words_case(draw, kind):
    """Words that are none of the forms, or just about one."""
    command = draw.pick([*FORMS, "", "View", "help", "--help", "--version", "show ", "gaps2"])
    count = FORMS.get(command, 1) + draw.pick([0, 0, -1, 1, 2])
    words = [command] + [
        draw.pick(["table", "0", "2", "1", "style", "-5", ""]) for _ in range(max(0, count))
    ]
    if draw.chance(0.04):
        words = []
    if draw.chance(0.08) and len(words) > 1:
        words[draw.up_to(1, len(words) - 1)] = b"\xff\xc3"
    if words and words[0] == "serve":
        words[3:] = words[3:][:1]
    files = {
        "table": b"A 0 0 0 1 0,0,1,1\n",
        "style": b"version = 1\n",
        "0": b"",
        "2": b"version = 2\n",
        "1": b"[]",
    }
    return Case(kind, words, files, is_out_full=draw.chance(0.03))


MAKERS = {
    "show": table_case,
    "slots": table_case,
    "check": check_case,
    "gaps": table_case,
    "gapview": table_case,
    "view": map_case,
    "zoom": map_case,
    "pipe": pipe_case,
    "serve": serve_case,
    "follow": follow_case,
    "gen": gen_case,
    "words": words_case,
}
SHARES = [
    ("pipe", 44),
    ("view", 12),
    ("zoom", 8),
    ("slots", 7),
    ("check", 8),
    ("show", 5),
    ("gaps", 5),
    ("gapview", 4),
    ("follow", 7),
    ("words", 2),
    ("gen", 1),
    ("serve", 0.8),
]


def draw_case(kind, seed, place):
    """The case at a place of the cases of a kind and a seed."""
    draw = Draw(f"{kind} {seed} {place}")
    if kind == "all":
        kind = draw.weighted(SHARES)
    return MAKERS[kind](draw, kind)
