"""The requests that a source sends to `maplabel serve`, straight or by way of a proxy.

The server serves one connection at a time, so a connection that is open without a request lets all
others wait: whoever uses this closes it as soon as nothing is to be sent. The server ends a
connection behind its 1,000th reply; the next request opens another one by itself."""

import http.client
import json
import urllib.parse
from typing import Any, NoReturn


LONGEST_BODY = 1_048_576


class Lost(Exception):
    """No reply came, so the server may or may not have made an edit; or it cannot answer now."""


class Moved(Exception):
    """Another client has edited the map."""


class Unfit(Exception):
    """What answers is no such server, or lets nobody edit: asking again does not help."""


class Refused(Exception):
    """The server refuses an edit: its words, as they came."""


class Made:
    """What the server says of an edit that it made: the revision and the changes."""

    def __init__(self, body: bytes) -> None:
        reply = json.loads(body)
        self.rev, self.changes = reply["rev"], reply["changes"]


def _span(value: list[str] | None) -> str:
    return "-" if value is None else "..".join(value)


def change_line(change: dict[str, Any]) -> str:
    """The line of a change, as docs/FORMATS.md has it ("Change lines")."""
    name = urllib.parse.quote(change["id"], safe="-._~#") or "%"
    return "%s %s %s\n" % (name, _span(change["before"]), _span(change["after"]))


class Server:
    """A server by its address, as `http://127.0.0.1:47100`; a path stands before the program's
    own."""

    def __init__(self, address: str, timeout: float = 60) -> None:
        parsed = urllib.parse.urlsplit(address)
        kinds = {"http": http.client.HTTPConnection, "https": http.client.HTTPSConnection}
        try:
            if parsed.scheme not in kinds or not parsed.hostname or parsed.query or parsed.fragment:
                raise ValueError
            self._link = kinds[parsed.scheme](parsed.hostname, parsed.port, timeout=timeout)
        except ValueError:
            raise Unfit("%s is no address such as http://127.0.0.1:47100" % address) from None
        self._address, self._path = address, parsed.path.rstrip("/")

    def close(self) -> None:
        """Ends the connection."""
        self._link.close()

    def _ask(
        self, method: str, target: str, body: bytes | None = None, closes: bool = False
    ) -> tuple[int, bytes]:
        """The status and the body of a reply."""
        fields = {"X-Edit": "1"}
        if closes:
            fields["Connection"] = "close"
        try:
            self._link.request(method, self._path + target, body, fields)
            reply = self._link.getresponse()
            return reply.status, reply.read()
        except (OSError, http.client.HTTPException) as error:
            self.close()
            raise Lost(
                "%s does not answer: %s" % (self._address, error or type(error).__name__)
            ) from None

    def _fail(self, asked: str, status: int, body: bytes) -> NoReturn:
        """Raises what a reply means that is neither good nor a refusal of the program's rules."""
        self.close()
        kind = Lost if status >= 500 else Unfit
        words = ": " + body.decode("utf-8", "replace") if body.startswith(b"{") else ""
        raise kind("%s answers %s with %d%s" % (self._address, asked, status, words))

    def _get(self, target: str, closes: bool) -> bytes:
        status, body = self._ask("GET", target, closes=closes)
        if status != 200:
            self._fail("GET " + target, status, body)
        return body

    def rev(self, closes: bool = True) -> dict[str, int]:
        """The reply to /rev: its numbers of features and labels, and the revision."""
        try:
            reply = json.loads(self._get("/rev", closes))
            return {name: reply[name] for name in ("features", "labels", "rev")}
        except (ValueError, KeyError, TypeError):
            raise Unfit("%s/rev does not answer as maplabel does" % self._address) from None

    def map(self) -> tuple[bytes, int]:
        """The bytes of the map and its revision; the connection is closed behind them."""
        for _ in range(5):
            before = self.rev(closes=False)
            data = self._get("/map", closes=False)
            if self.rev()["rev"] == before["rev"]:
                return data, before["rev"]
        raise Moved

    def edit(
        self, method: str, rev: int, name: str, text: str | None, closes: bool = False
    ) -> Made:
        """Sends one edit that is made at this revision alone: Made, or Refused, Moved or Lost is
        raised.

        With `closes` the server ends the connection by itself, so it does not wait for this program
        to do so.
        """
        query: dict[str, object] = {"rev": rev} if method != "DELETE" else {"id": name, "rev": rev}
        body = None if text is None else text.encode("utf-8")
        if body is not None and len(body) > LONGEST_BODY:
            raise Refused('{"error":"size"}')  # what the server answers before it has read the body
        status, reply = self._ask(method, "/feature?" + urllib.parse.urlencode(query), body, closes)
        if status == 200:
            return Made(reply)
        if status == 409:
            raise Moved
        if status in (413, 414, 422, 431):
            raise Refused(
                reply.decode("utf-8", "replace") if reply.startswith(b"{") else "status %d" % status
            )
        self._fail("%s /feature" % method, status, reply)
