"""The pages of web/ and the engine's names from one origin, for one's own machine."""

import contextlib
import http.client
import http.server
import json
import mimetypes
import posixpath
import re
import threading
import tomllib
from collections.abc import Sequence
from pathlib import Path
from typing import ClassVar
from urllib.parse import unquote_to_bytes

from maplabel_kit.faults import Fault
from maplabel_kit.ports import taken
from maplabel_site import bundle
from maplabel_site.names import described
from maplabel_site.site import LEAFLET, WEB

READS = ("/view", "/svg", "/why", "/rev", "/map", "/state", "/tile")
EDITS = ("/feature", "/style")
SECONDS = 10
MOST_BODY = 1 << 20
PAGE = re.compile(r"(?:[a-z_-]+/)*[a-z_.-]+\.(?:html|js|css|svg|png)")
LOCAL = ("localhost", "127.0.0.1", "[::1]")
WRONG_HOST = "this server is not called so: tell it by --host NAME, where that is a name of yours\n"


class Server(http.server.ThreadingHTTPServer):
    """A server of pages before an engine: its port, the style beside the pages, and the names that
    it answers to.
    """

    daemon_threads = True
    allow_reuse_address = True

    def __init__(
        self, bind: str, port: int, engine: int, style: bytes, hosts: Sequence[str]
    ) -> None:
        self.engine = engine
        self.style = style_text(style)
        self.turn = threading.Lock()
        called = [*LOCAL, *hosts]
        self.hosts = {name.lower() for name in called} | {
            f"{name.lower()}:{port}" for name in called
        }
        try:
            super().__init__((bind, port), Handler)
        except OSError as error:
            if error.errno == 98:
                raise taken(port) from None
            raise Fault(f"{bind} port {port} cannot be listened at: {error.strerror}") from None

    def learn_style(self, style: bytes) -> None:
        """The engine has another style."""
        with contextlib.suppress(ValueError):
            self.style = style_text(style)


def style_text(style: bytes) -> bytes:
    """What pages ask of a style, as JSON; nothing where no style is told."""
    if not style:
        return b""
    tree = tomllib.loads(style.decode("utf-8-sig"))
    return json.dumps(described(tree), ensure_ascii=False).encode()


def page_of(target: str) -> Path | None:
    """The file of a page, a style sheet, a script or a picture; nothing else is handed out, and no
    folder is listed.
    """
    path = unquote_to_bytes(target.partition("?")[0].partition("#")[0])
    name = path.decode("ascii", "replace").removeprefix("/") or "index.html"
    if not PAGE.fullmatch(name) or posixpath.normpath(name) != name:
        return None
    below = name.removeprefix("leaflet/")
    file = LEAFLET / below if below != name else WEB / name
    return file if file.is_file() else None


class Handler(http.server.BaseHTTPRequestHandler):
    """Answers one connection."""

    server: Server
    protocol_version = "HTTP/1.1"
    disable_nagle_algorithm: ClassVar[bool] = True

    def log_message(self, *_: object) -> None:
        """Says nothing."""

    def handle(self) -> None:
        # The client has gone away.
        try:
            super().handle()
        except (BrokenPipeError, ConnectionResetError):
            self.close_connection = True

    def is_called(self) -> bool:
        """Whether the request is to this server by a name of its own; else a page of elsewhere may
        stand behind it.
        """
        hosts: list[str] = self.headers.get_all("Host", [])
        if len(hosts) == 1 and hosts[0].lower() in self.server.hosts:
            return True
        self.close_connection = True
        self.tell(421, WRONG_HOST)
        return False

    def route(self) -> str:
        return self.path.partition("?")[0]

    def do_GET(self) -> None:
        if not self.is_called():
            return
        if self.route() in READS:
            self.pass_on(None)
        elif self.route() == "/style.json" and self.server.style:
            self.answer(200, "application/json", self.server.style)
        elif self.route() == "/maplabel.js":
            self.answer(200, "text/javascript", bundle.bundled(WEB / "maplabel").encode())
        elif file := page_of(self.path):
            kind = mimetypes.guess_type(file.name)[0] or "application/octet-stream"
            self.answer(200, kind, file.read_bytes())
        else:
            self.tell(404, "there is no such page\n")

    do_HEAD = do_GET

    def edit(self) -> None:
        if not self.is_called():
            return
        told = self.headers.get("Content-Length", "0")
        if not (told.isascii() and told.isdecimal() and len(told) <= 10):
            self.close_connection = True
            self.tell(400, "Content-Length is no number\n")
        elif int(told) > MOST_BODY:
            self.close_connection = True
            self.tell(413, "the body is longer than a mebibyte\n")
        else:
            self.edit_with(self.rfile.read(int(told)))

    def edit_with(self, body: bytes) -> None:
        if self.route() not in EDITS:
            self.tell(404, "there is no such page\n")
        elif "X-Edit" not in self.headers:
            self.tell(403, "an edit wants a field X-Edit\n")
        elif self.pass_on(body) == 200 and self.route() == "/style":
            self.server.learn_style(body)

    do_POST = do_PUT = do_DELETE = edit

    def pass_on(self, body: bytes | None) -> int:
        """Asks the engine, and sends on what it answers."""
        with self.server.turn:
            link = http.client.HTTPConnection("127.0.0.1", self.server.engine, timeout=SECONDS)
            try:
                link.request(self.command, self.path, body, {"Connection": "close"})
                reply = link.getresponse()
                status, text = reply.status, reply.read()
                kind = reply.getheader("Content-Type") or "application/octet-stream"
            except TimeoutError:
                status, kind, text = 504, "text/plain", b"the engine is held by another client\n"
            except (OSError, http.client.HTTPException, ValueError):
                status, kind, text = 502, "text/plain", b"the engine does not answer\n"
            finally:
                link.close()
        self.answer(status, kind, text)
        return status

    def tell(self, status: int, sentence: str) -> None:
        self.answer(status, "text/plain", sentence.encode())

    def answer(self, status: int, kind: str, text: bytes) -> None:
        self.send_response(status)
        fields = {"Content-Type": kind, "Content-Length": len(text), "Cache-Control": "no-store"}
        for name, value in fields.items():
            self.send_header(name, str(value))
        if self.close_connection:
            self.send_header("Connection", "close")
        self.end_headers()
        if self.command != "HEAD":
            self.wfile.write(text)


def address_of(bind: str, port: int) -> str:
    """How a browser of this machine calls the server."""
    name = "127.0.0.1" if bind in ("", "0.0.0.0") else f"[{bind}]" if ":" in bind else bind
    return f"http://{name}:{port}"
