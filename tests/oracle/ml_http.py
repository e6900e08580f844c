"""The requests of a stream by the rules in order, and the replies of a map to them."""

import re
from collections import namedtuple
from itertools import islice

import ml_editor
from ml_answer import (
    edit_json,
    fault_json,
    query_json,
    reason_json,
    rev_json,
    slot_json,
    svg_text,
    view_json,
)
from ml_follow import state_text
from ml_geojson import collection_text
from ml_pass import Refused
from ml_ratio import read_digits
from ml_tile import read_depth, read_place, tile_view
from ml_view import NAMES, READERS, View, shown
from ml_watch import change_lines

HEAD_END, LONGEST_HEAD, MOST_FIELDS = b"\r\n\r\n", 16384, 64
LONGEST_BODY, MOST_REQUESTS = 1048576, 1000
PHRASES = {
    200: "OK",
    400: "Bad Request",
    404: "Not Found",
    405: "Method Not Allowed",
    409: "Conflict",
    413: "Content Too Large",
    422: "Unprocessable Content",
    431: "Request Header Fields Too Large",
    501: "Not Implemented",
}
METHODS = {
    "/view": ["GET"],
    "/svg": ["GET"],
    "/tile": ["GET"],
    "/why": ["GET"],
    "/map": ["GET"],
    "/rev": ["GET"],
    "/state": ["GET"],
    "/feature": ["POST", "PUT", "DELETE"],
    "/style": ["PUT"],
}
JSON = "application/json"
_TOKEN = rb"[!#$%&'*+\-.^_`|~0-9A-Za-z]+"
_HEAD = re.compile(
    rb"(?:\r?\n)*(" + _TOKEN + rb") ([^\x00-\x20\x7f]+) HTTP/1\.([01])\r?\n((?:[^\n]+\n)*?)\r?\n"
)
_FIELD = re.compile(rb"(" + _TOKEN + rb"):([^\x00-\x08\x0a-\x1f\x7f]*?)\r?\n")

Event = namedtuple("Event", "method path query body closes")
Reply = namedtuple("Reply", "status body kind allow", defaults=(JSON, None))


class Bad(Exception):
    """A head that a rule refuses, with its status and the name of the error."""


def read_fields(data):
    """The fields of a head, names in lower case; None where a line is none."""
    fields, at = [], 0
    while at < len(data):
        field = _FIELD.match(data, at)
        if not field:
            return None
        fields.append((field[1].lower(), field[2].strip(b" \t")))
        at = field.end()
    return fields


def read_head(data):
    """Method, target, minor version and fields, or None."""
    head = _HEAD.fullmatch(data)
    fields = head and read_fields(head[4])
    if fields is None or len(fields) > MOST_FIELDS:
        return None
    try:
        target = head[2].decode("utf-8")
    except UnicodeDecodeError:
        return None
    return head[1].decode(), target, int(head[3]), fields


def judge_head(data):
    """Method, target, length of the body, and whether the reply closes, by the rules in order."""
    head = read_head(data)
    if head is None or not head[1].startswith("/"):
        raise Bad(400, "request")
    method, target, minor, fields = head
    values = {
        name: [value for key, value in fields if key == name]
        for name in (b"host", b"transfer-encoding", b"content-length", b"connection")
    }
    hosts = len(values[b"host"])
    if hosts > 1 or (minor == 1 and hosts == 0):
        raise Bad(400, "request")
    if values[b"transfer-encoding"]:
        raise Bad(501, "coding")
    lengths = [read_digits(value.decode("latin-1"), 10) for value in values[b"content-length"]] or [
        0
    ]
    if len(lengths) > 1 or lengths[0] is None:
        raise Bad(400, "request")
    if lengths[0] > LONGEST_BODY:
        raise Bad(413, "size")
    items = [
        item.strip(b" \t").lower() for value in values[b"connection"] for item in value.split(b",")
    ]
    return method, target, lengths[0], minor == 0 or b"close" in items


def events_of(data):
    """The requests of a stream, up to the first whose reply closes; a refused head is a Bad."""
    at = 0
    for number in range(1, MOST_REQUESTS + 1):
        end = data.find(HEAD_END, at, at + LONGEST_HEAD)
        if end < 0:
            if len(data) - at >= LONGEST_HEAD:
                yield Bad(431, "head")
            return
        end += len(HEAD_END)
        try:
            method, target, length, closes = judge_head(data[at:end])
        except Bad as bad:
            yield bad
            return
        if len(data) - end < length:
            return
        path, _, query = target.partition("?")
        closes = closes or number == MOST_REQUESTS
        yield Event(method, path, query, data[end : end + length], closes)
        if closes:
            return
        at = end + length


def unescaped(part):
    """The text of a name or value of a query."""
    data = part.replace("+", " ").encode()
    data = re.sub(rb"%([0-9A-Fa-f]{2})", lambda code: bytes([int(code[1], 16)]), data)
    return data.decode("utf-8", "replace")


def read_query(query):
    """The pairs of a query."""
    pairs = [part.partition("=") for part in query.split("&") if part]
    return [(unescaped(name), unescaped(value)) for name, _, value in pairs]


class WrongQuery(Exception):
    """The name that is missing, stands twice or has a wrong value."""


def value_of(pairs, name, read, is_needed=True):
    """What a name's value reads as; None where it may be missing and is."""
    values = [value for key, value in pairs if key == name]
    if not values and not is_needed:
        return None
    value = read(values[0]) if len(values) == 1 else None
    if value is None:
        raise WrongQuery(name)
    return value


def query_view(pairs):
    return View(*[value_of(pairs, name, read) for name, read in zip(NAMES, READERS)])


def query_tile(pairs):
    depth = value_of(pairs, "z", read_depth)
    places = [value_of(pairs, name, lambda text: read_place(text, depth)) for name in ("i", "j")]
    return tile_view(depth, *places)


class Map:
    """A map that answers requests, and the lines of the changes that it told."""

    def __init__(self, state):
        self.state = state
        self.lines = []

    def view_reply(self, view):
        state = self.state
        places = shown(state.labels, state.spans, view)
        return Reply(
            200,
            view_json(
                view.scale, [(state.labels[place], state.spans[place][1]) for place in places]
            ),
        )

    def svg_reply(self, view):
        places = shown(self.state.labels, self.state.spans, view)
        return Reply(
            200, svg_text(view, [self.state.labels[place] for place in places]), "image/svg+xml"
        )

    def why_reply(self, ident):
        state = self.state
        standing = state.standing.get(ident)
        if standing is None:
            return Reply(404, fault_json(Refused(4, "Unknown", ident)))
        if isinstance(standing, str):
            return Reply(200, reason_json(ident, standing))
        until, blocker = state.slots[state.labels.index(standing)]
        return Reply(
            200, slot_json(standing, until, None if blocker is None else state.labels[blocker].id)
        )

    def read_reply(self, path, pairs):
        """The reply to a request that changes nothing."""
        state = self.state
        if path == "/view":
            return self.view_reply(query_view(pairs))
        if path == "/svg":
            return self.svg_reply(query_view(pairs))
        if path == "/tile":
            return self.view_reply(query_tile(pairs))
        if path == "/why":
            return self.why_reply(value_of(pairs, "id", str))
        if path == "/map":
            return Reply(200, collection_text(state.features.values()), "application/geo+json")
        if path == "/rev":
            return Reply(200, rev_json(state.rev, len(state.features), len(state.labels)))
        return Reply(200, state_text(state.rev, state.labels, state.slots), "text/plain")

    def edit_reply(self, event, pairs):
        """The reply to an edit, which is then made where it is not refused."""
        ident = value_of(pairs, "id", str) if event.method == "DELETE" else None
        rev = value_of(pairs, "rev", lambda text: read_digits(text, 16), False)
        edits = {"POST": ml_editor.add, "PUT": ml_editor.replace, "DELETE": ml_editor.remove}
        edit = ml_editor.restyle if event.path == "/style" else edits[event.method]
        try:
            self.state, changes = edit(self.state, rev, event.body if ident is None else ident)
        except Refused as fault:
            return Reply(409 if fault.name == "RevMoved" else 422, fault_json(fault))
        self.lines.append(change_lines(changes))
        return Reply(200, edit_json(self.state.rev, changes))

    def reply(self, event):
        """The reply to a whole request."""
        methods = METHODS.get(event.path)
        if methods is None:
            return Reply(404, '{"error":"path"}')
        if event.method not in methods:
            return Reply(405, '{"error":"method"}', allow=", ".join(methods))
        pairs = read_query(event.query)
        try:
            if event.path in ("/feature", "/style"):
                return self.edit_reply(event, pairs)
            return self.read_reply(event.path, pairs)
        except WrongQuery as name:
            return Reply(400, query_json(str(name)))

    def connection(self, data, most=None):
        """All that a connection gets for the bytes that it brings, or for its first requests."""
        written = []
        for event in islice(events_of(data), most):
            if isinstance(event, Bad):
                status, name = event.args
                written.append(reply_bytes(Reply(status, f'{{"error":"{name}"}}'), True))
            else:
                written.append(reply_bytes(self.reply(event), event.closes))
        return b"".join(written)


def reply_bytes(reply, closes):
    body = reply.body.encode()
    head = [
        f"HTTP/1.1 {reply.status} {PHRASES[reply.status]}",
        f"Content-Type: {reply.kind}",
        f"Content-Length: {len(body)}",
    ]
    head += [f"Allow: {reply.allow}"] if reply.allow else []
    head += ["Connection: close"] if closes else []
    return "\r\n".join([*head, "", ""]).encode() + body
