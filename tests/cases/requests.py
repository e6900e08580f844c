"""Streams of HTTP requests: views, tiles, edits and styles, good and spoilt."""

from cases.draw import spoil_bytes, step_of
from cases.maps import (
    IDS,
    bytes_of,
    collection_of,
    crowded_feature,
    deep,
    draw_feature,
    replace,
    spoilt_feature,
)
from cases.styles import draw_style

METHODS = ["GET", "POST", "PUT", "DELETE", "HEAD", "OPTIONS", "PATCH", "get", "GET2", "!"]
PATHS = [
    "/",
    "/x",
    "/View",
    "/view/",
    "//view",
    "/%76iew",
    "/feature/A",
    "/*",
    "/view;a",
    "/styles",
    "/\u00e9",
]
FORM_PLAIN = "ABCDEFGHIJKLMNOPQRSTUVWXYZabcdefghijklmnopqrstuvwxyz0123456789-._~"
OTHER_PAIRS = ["x=1", "", "=", "a", "CX=1", "%", "%zz=%", "\u00e9=\u00e9", "%FF=%80"]
HOSTS = ["a", "localhost:1", "", "\u00e9 x"]
CLOSING = ["close", "Close", "keep-alive, close", "x,\tCLOSE ,y", ",close", "close,"]
WRONG_REVS = ["", "-1", "+0", "x", "1.0", "00000000000000000", "12345678901234567", " 1", "0x0"]


class Stream:
    """What the draws of one stream share."""

    def __init__(self, draw, unit, keys, ids=(), is_crowded=False):
        self.draw, self.unit, self.keys, self.is_crowded = draw, unit, keys, is_crowded
        self.edits = 0
        self.ids = list(ids)

    def known_id(self):
        """An id that a feature has, often."""
        draw = self.draw
        return (
            draw.pick(self.ids) if self.ids and draw.chance(0.8) else draw.pick(["#0", "#1", *IDS])
        )

    def new_id(self):
        draw = self.draw
        return draw.pick(IDS) if draw.chance(0.4) else draw.pick("ABCDEFGHIJKLMNOPQ")

    def expect(self, method, ident):
        """Keeps an account of the edit as if it were made, where it can be."""
        is_there = ident in self.ids
        if is_there == (method == "POST"):
            return
        self.edits += self.draw.chance(0.8)
        if method == "DELETE":
            self.ids.remove(ident)
        elif method == "POST":
            self.ids.append(ident)

    def revision(self):
        """A revision that is present, often."""
        draw = self.draw
        return str(
            draw.weighted([(self.edits, 70), (max(0, self.edits - 1), 15), (draw.up_to(0, 9), 15)])
        )


def form_text(draw, text):
    """A text as a part of a query."""
    parts = []
    for char in text:
        if char in FORM_PLAIN and not draw.chance(0.03):
            parts.append(char)
        elif char == " " and draw.chance(0.5):
            parts.append("+")
        elif ord(char) > 127 and draw.chance(0.2) and not "\ud800" <= char <= "\udfff":
            parts.append(char)
        elif char in "/<>\"!$'()*,:;@[]|" and draw.chance(0.3):
            parts.append(char)
        else:
            code = "".join(f"%{byte:02X}" for byte in char.encode("utf-8", "surrogatepass"))
            parts.append(code.lower() if draw.chance(0.2) else code)
    return "".join(parts)


def query_text(draw, pairs):
    """A query of these pairs, at times with names that no route knows."""
    pairs = list(pairs)
    if draw.chance(0.1):
        draw.shuffle(pairs)
    parts = [f"{form_text(draw, name)}={form_text(draw, value)}" for name, value in pairs]
    if draw.chance(0.08):
        parts.insert(draw.up_to(0, len(parts)), draw.pick(OTHER_PAIRS))
    return "&".join(parts)


def spoil_query(draw, pairs, wrong):
    """Pairs of which one is missing, stands twice or has a wrong value."""
    pairs = list(pairs)
    for _ in range(draw.pick([1, 1, 2])):
        if not pairs:
            return pairs
        at = draw.up_to(0, len(pairs) - 1)
        name, value = pairs[at]
        how = draw.up_to(0, 3)
        if how == 0:
            del pairs[at]
        elif how == 1:
            pairs.insert(draw.up_to(0, len(pairs)), (name, draw.pick([value, "0", ""])))
        else:
            pairs[at] = (name, draw.pick(wrong.get(name, ["", "x"])))
    return pairs


WRONG_VIEW = {
    "cx": ["", "x", "2000000001", "-2000000001", "1.5", "+1", " 1"],
    "cy": ["", "x", "2000000001", "-2000000001", "1.5", "12345678901"],
    "w": ["0", "1", "3", "4098", "-2", "1023", "x", ""],
    "h": ["0", "1", "3", "4098", "-2", "767", "x", "2.0"],
    "s": ["0", "0/1", "268435456", "1/0", "-1", "x", "", "1/65537", "1.5", "536870912/2"],
}
WRONG_TILE = {
    "z": ["22", "-1", "x", "", "1.0"],
    "i": ["x", "", "2000000", "-2000000", "12345678901"],
    "j": ["x", "", "2000000", "-2000000", "1/1"],
}


def view_words(draw, unit):
    """The five numbers of a good view."""
    if draw.chance(0.02):
        centre = draw.pick([-2000000000, 2000000000]), draw.pick([0, 2000000000])
    else:
        step = draw.pick([100, 400, 1]) * step_of(unit)
        centre = draw.up_to(-4, 4) * step, draw.pick([0, 0, 1, -1]) * step
    sides = [
        draw.weighted([(2, 4), (10, 5), (100, 14), (256, 17), (1024, 40), (4096, 20)])
        for _ in range(2)
    ]
    scale = draw.near(unit)
    if draw.chance(0.12):
        scale = draw.pick(
            ["1", "1/3", "999", "1000", "268435455", f"{draw.up_to(1, 2000)}/{draw.up_to(1, 30)}"]
        )
    return [draw.spelt(centre[0]), draw.spelt(centre[1]), *map(draw.spelt, sides), scale]


def view_target(stream, path):
    draw = stream.draw
    pairs = list(zip(["cx", "cy", "w", "h", "s"], view_words(draw, stream.unit)))
    if draw.chance(0.22):
        pairs = spoil_query(draw, pairs, WRONG_VIEW)
    return f"{path}?{query_text(draw, pairs)}"


def tile_target(stream):
    draw = stream.draw
    near = max(0, min(21, step_of(stream.unit).bit_length() + draw.up_to(-1, 4)))
    depth = near if draw.chance(0.75) else draw.pick([0, 1, 20, 21])
    edge = 2000000000 // (1024 << depth)
    weights = [(0, 40), (-1, 20), (1, 10), (edge, 4), (-edge - 1, 4), (edge + 1, 3), (-edge - 2, 2)]
    pairs = [("z", str(depth))] + [(name, str(draw.weighted(weights))) for name in ("i", "j")]
    if draw.chance(0.25):
        pairs = spoil_query(draw, pairs, WRONG_TILE)
    return f"/tile?{query_text(draw, pairs)}"


def why_target(stream):
    draw = stream.draw
    pairs = [("id", stream.known_id())]
    if draw.chance(0.12):
        pairs = spoil_query(draw, pairs, {"id": ["nobody", ""]})
    return f"/why?{query_text(draw, pairs)}"


def rev_pairs(stream):
    draw = stream.draw
    how = draw.random()
    if how < 0.65:
        return []
    if how < 0.92:
        return [("rev", stream.revision())]
    if how < 0.97:
        return [("rev", draw.pick(WRONG_REVS))]
    return [("rev", "0"), ("rev", stream.revision())]


def edit_body(stream, ident):
    """The body of an addition or a replacement."""
    draw = stream.draw
    how = draw.weighted(
        [("good", 64), ("feature", 20), ("bytes", 7), ("noid", 3), ("deep", 2.5), ("other", 3.5)]
    )
    make = crowded_feature if stream.is_crowded and draw.chance(0.8) else draw_feature
    feature = make(draw, stream.unit, keys=stream.keys, ident=ident)
    if how == "feature":
        feature = spoilt_feature(draw, stream.unit, ident)
    elif how == "noid":
        feature = replace(feature, "id", draw.pick([None, True, [], {}]))
    elif how == "deep":
        feature = replace(feature, draw.pick(["properties", "bbox", "geometry"]), deep(draw))
    elif how == "other":
        whole = bytes_of(draw, collection_of(draw, [feature]))
        return draw.pick([b"", b"x", b"[]", b"{}", b"\xff", b"[" * 65, b"null", whole])
    data = bytes_of(draw, feature)
    if how == "bytes":
        return spoil_bytes(draw, data)
    return data


def edit_request(stream):
    """Method, target and body of an edit of a feature or of the style."""
    draw = stream.draw
    method = draw.weighted([("POST", 30), ("PUT", 32), ("DELETE", 24), ("style", 14)])
    pairs = rev_pairs(stream)
    if method == "style":
        keys = stream.keys if draw.chance(0.8) else draw.pick([("name", "pop"), ("title", "pop")])
        body = draw_style(draw, stream.unit, 0.4, keys)
        return "PUT", "/style" + ("?" + query_text(draw, pairs) if pairs else ""), body
    ident = stream.new_id() if method == "POST" else stream.known_id()
    stream.expect(method, ident)
    if method == "DELETE":
        pairs = [("id", ident), *pairs]
        if draw.chance(0.12):
            pairs = spoil_query(draw, pairs, {"id": ["nobody", ""], "rev": WRONG_REVS})
        return method, "/feature?" + query_text(draw, pairs), b""
    return (
        method,
        "/feature" + ("?" + query_text(draw, pairs) if pairs else ""),
        edit_body(stream, ident),
    )


def read_request(stream):
    """Method, target and body of a request that changes nothing."""
    draw = stream.draw
    what = draw.weighted(
        [
            ("/view", 30),
            ("/svg", 14),
            ("/tile", 20),
            ("/why", 18),
            ("/map", 6),
            ("/rev", 6),
            ("/state", 50 if stream.is_crowded else 8),
        ]
    )
    if what in ("/view", "/svg"):
        target = view_target(stream, what)
    elif what == "/tile":
        target = tile_target(stream)
    elif what == "/why":
        target = why_target(stream)
    else:
        target = what + draw.pick(["", "", "?", "?a=b"])
    return "GET", target, b"x" * draw.up_to(1, 9) if draw.chance(0.03) else b""


def wrong_request(stream):
    """A request with a path or a method that is none."""
    draw = stream.draw
    method, target, body = draw.pick([edit_request, read_request])(stream)
    if draw.chance(0.5):
        return method, draw.pick(PATHS) + draw.pick(["", "?cx=0"]), body
    return draw.pick(METHODS), target, body


def draw_fields(draw, body, is_old):
    """The fields of a good head."""
    fields = []
    if not is_old or draw.chance(0.5):
        fields.append((draw.pick(["Host", "Host", "host", "HOST"]), draw.pick(HOSTS)))
    if body or draw.chance(0.1):
        length = str(len(body)).rjust(draw.pick([1, 1, 1, 10]), "0")
        fields.append((draw.pick(["Content-Length", "content-length"]), length))
    while draw.chance(0.15):
        fields.append(
            draw.pick(
                [
                    ("Accept", "*/*"),
                    ("Expect", "100-continue"),
                    ("X", ""),
                    ("Connection", "keep-alive"),
                    ("Cookie", "a=b; c"),
                    ("Connection", "closed, x"),
                    ("Content-Type", "application/json"),
                ]
            )
        )
    if draw.chance(0.012):
        fields.append(("Connection", draw.pick(CLOSING)))
    draw.shuffle(fields)
    return fields


def head_text(draw, method, target, version, fields):
    blank = draw.pick([" ", " ", " ", "", "\t ", "  "])
    end = "\r\n" if draw.chance(0.94) else draw.pick(["\n", "\r\n"])
    lines = [f"{method} {target} HTTP/{version}"]
    lines += [f"{name}:{blank}{value}{draw.pick(['', '', ' '])}" for name, value in fields]
    front = "\r\n" if draw.chance(0.02) else ""
    return front + "".join(line + end for line in lines[:-1]) + lines[-1] + "\r\n\r\n"


def without(fields, name):
    return [field for field in fields if field[0].lower() != name]


def spoil_length(draw, fields):
    """Fields with a length that is refused."""
    wrong = draw.pick(
        [
            ["0", "0"],
            ["1048577"],
            ["9999999999"],
            ["1048577"],
            ["", "-1"],
            [""],
            ["-1"],
            ["+1"],
            ["1.0"],
            ["x"],
            ["00000000000"],
            ["1, 1"],
            ["0x1"],
            ["1 1"],
        ]
    )
    name = draw.pick(["Content-Length", "content-LENGTH"])
    return without(fields, "content-length") + [(name, value) for value in wrong]


def spoil_fields(draw, fields):
    """Fields that one of the rules refuses."""
    how = draw.up_to(0, 8)
    if how == 0:
        return without(fields, "host")
    if how == 1:
        return fields + [("hOST", "b"), ("Host", "b")]
    if how == 2:
        return fields + [(f"X{number}", "1") for number in range(65 - len(fields))]
    if how == 3:
        name = draw.pick(["Transfer-Encoding", "transfer-encoding"])
        return fields + [(name, draw.pick(["chunked", "identity", ""]))]
    if how <= 5:
        return spoil_length(draw, fields)
    if how == 6:
        return fields + [("X", "y" * draw.pick([16300, 16384, 20000]))]
    if how == 7:
        return (
            fields
            + [("Transfer-Encoding", "x"), ("Content-Length", "x"), ("Host", "b")][
                draw.up_to(0, 2) :
            ]
        )
    odd = draw.pick(
        [
            ("A ", "1"),
            ("", "1"),
            ("A\x00", "1"),
            ("B", "a\x00b"),
            ("B", "a\rb"),
            ("\u00e9", "1"),
            ("A(", "1"),
            ("B", "1\r\n folded"),
            ("B", "x\x7fy"),
            ("B", "\x1f"),
        ]
    )
    return [odd, *fields] if draw.chance(0.5) else [*fields, odd]


def spoil_line(draw, method, target):
    """Method, target and version of a first line that is refused."""
    how = draw.up_to(0, 3)
    if how == 0:
        return method, draw.pick(["http://a/rev", "rev", "*", "", "?a", "a/b"]), "1.1"
    if how == 1:
        return method, target, draw.pick(["1.2", "2.0", "1", "0.9", "1.10", "1.1 ", "x"])
    if how == 2:
        return draw.pick(["", "G T", "G(T", "GET ", "\tGET", "G\u00e9T"]), target, "1.1"
    return method, draw.pick(["/a b", "/\t", "/a\x7f", "/\x01", "/\udcff", "/view?\udc80=1"]), "1.1"


def spoil_head(draw, method, target, fields, body):
    """A head that is often refused, as bytes, with its body."""
    how = draw.weighted([("fields", 58), ("line", 28), ("none", 6), ("bytes", 8)])
    if how == "none":
        return b"a" * draw.pick([16383, 16384, 16385, 5]), b""
    version = "1.1"
    if how == "fields":
        fields = spoil_fields(draw, fields)
    elif how == "line":
        method, target, version = spoil_line(draw, method, target)
    head = head_text(draw, method, target, version, fields).encode("utf-8", "surrogateescape")
    return (spoil_bytes(draw, head) if how == "bytes" else head), body


def edge_head(draw):
    """A head whose length is about 16,384 bytes, or that has about 64 fields."""
    if draw.chance(0.5):
        front, end = b"GET /rev HTTP/1.1\r\nHost: a\r\nX: ", b"\r\n\r\n"
        return front + b"y" * (draw.pick([16383, 16384, 16385]) - len(front) - len(end)) + end
    return b"GET /rev HTTP/1.1\r\nHost: a\r\n" + b"X: y\r\n" * draw.pick([62, 63, 64]) + b"\r\n"


def draw_request(stream):
    """The bytes of one request, and whether it was meant to end the connection."""
    draw = stream.draw
    if draw.chance(0.006):
        return edge_head(draw), False
    make = draw.weighted([(read_request, 42), (edit_request, 50), (wrong_request, 8)])
    method, target, body = make(stream)
    is_old = draw.chance(0.01)
    fields = draw_fields(draw, body, is_old)
    if draw.chance(0.045):
        head, body = spoil_head(draw, method, target, fields, body)
        return head + body, True
    head = head_text(draw, method, target, "1.0" if is_old else "1.1", fields)
    return head.encode("utf-8", "surrogateescape") + body, False


def tile_stream(draw, unit, keys, ids):
    """More tiles than are held at once, some asked again, with edits in between."""
    stream = Stream(draw, unit, keys, ids)
    depth = step_of(unit).bit_length()
    parts = []
    for _ in range(draw.pick([40, 300, 600])):
        side = draw.pick([0, 1, 12])
        if draw.chance(0.04):
            method, target, body = edit_request(stream)
        else:
            place = draw.up_to(-side, side), draw.up_to(-side, side)
            method, target, body = "GET", f"/tile?z={depth}&i={place[0]}&j={place[1]}", b""
        head = f"{method} {target} HTTP/1.1\r\nHost: a\r\nContent-Length: {len(body)}\r\n\r\n"
        parts.append(head.encode("utf-8", "surrogateescape") + body)
    return b"".join(parts)


def draw_stream(draw, unit, keys, ids, is_crowded):
    """The bytes of one connection, over a map with these ids."""
    stream = Stream(draw, unit, keys, ids, is_crowded)
    count = draw.weighted([(0, 1), (1, 8), (3, 20), (6, 30), (10, 30), (16, 11)])
    data = b""
    for _ in range(count):
        request, is_last = draw_request(stream)
        data += request
        if is_last and draw.chance(0.7):
            break
    if draw.chance(0.06):
        return spoil_bytes(draw, data)
    return data
