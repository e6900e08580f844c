"""The engine over a map, the pages in front of it, nginx before both, and files that any host
serves.
"""

import contextlib
import functools
import http.server
import json
import os
import signal
import tempfile
import threading
import time
import urllib.request
from collections.abc import Sequence
from pathlib import Path
from typing import Any

from chromium import Fault
from maplabel_kit.files import TOP
from maplabel_kit.ports import free_port
from maplabel_kit.server import Child, Server

DATA = TOP / "crates" / "maplabel" / "data"
STYLE, WORLD = DATA / "world.toml", DATA / "world.geojson"
WEB = TOP / "web"
TRIES = 20


class Engine:
    """`serve` over a map, which can be ended and started again at its port."""

    def __init__(
        self,
        program: str | Path,
        port: int | None = None,
        style: str | Path = STYLE,
        map_file: str | Path = WORLD,
    ) -> None:
        self.program = str(program)
        self.style, self.map_file = style, map_file
        self.server = Server(program, style, map_file, port)
        self.port = self.server.port

    def start(self) -> None:
        """Starts it again, at the port that it had."""
        self.server = Server(self.program, self.style, self.map_file, self.port, patience=20)

    def end(self) -> None:
        self.server.end()

    def __enter__(self) -> "Engine":
        return self

    def __exit__(self, *_: object) -> None:
        self.end()


def serve(
    *words: object, port: int | None = None, before: Sequence[object] = ()
) -> tuple[Child, int]:
    """`web/serve` with some words, and its port: a free one, where none is told. Where another
    program takes that before it is listened at, another one is tried.
    """
    for _ in range(1 if port else TRIES):
        number = port or free_port()
        child = Child([*before, WEB / "serve", "--port", number, *words])
        if child.first_line():
            return child, number
        child.end()
    raise Fault(f"web/serve does not start at port {number}")


class Pages:
    """`web/serve` in front of an engine."""

    def __init__(self, engine: int | Engine, port: int | None = None, *words: object) -> None:
        if isinstance(engine, Engine):
            self.engine = engine
        number = engine.port if isinstance(engine, Engine) else engine
        self.child, self.port = serve("--engine", number, *words, port=port)
        self.base = f"http://127.0.0.1:{self.port}"

    def ask(self, path: str, method: str = "GET", body: bytes | None = None) -> Any:
        """The JSON value of a reply."""
        request = urllib.request.Request(self.base + path, body, {"X-Edit": "1"}, method=method)
        with urllib.request.urlopen(request, timeout=20) as reply:
            return json.load(reply)

    def connections(self) -> int:
        """How many connections clients have to these pages."""
        lines = [line.split() for line in Path("/proc/net/tcp").read_text().splitlines()[1:]]
        return sum(words[1].endswith(f":{self.port:04X}") and words[3] == "01" for words in lines)

    def end(self) -> None:
        self.child.end()

    def __enter__(self) -> "Pages":
        return self

    def __exit__(self, *_: object) -> None:
        self.end()


class Nginx(Pages):
    """nginx in front of an engine, as deploy/nginx.conf has it, with other ports and folders."""

    def __init__(self, engine: Engine) -> None:
        self.engine = engine
        self.folder = tempfile.TemporaryDirectory(prefix="maplabel-nginx-")
        at = Path(self.folder.name)
        at.chmod(0o711)  # nginx's workers are others
        self.published = at / "published"
        self.published.mkdir()
        for _ in range(TRIES):
            self.port = free_port()
            self.base = f"http://127.0.0.1:{self.port}"
            self._configure(at)
            self.child = _nginx(at, f"include {at}/site.conf;")
            if answers(self.child, self.base + "/rev"):
                return
        told = (at / "errors").read_text(encoding="utf-8")
        self.end()
        raise Fault(f"nginx does not answer: {told[-300:]}")

    def _configure(self, at: Path) -> None:
        """Writes deploy/nginx.conf with ports and folders of one's own."""
        changes = {
            "/opt/maplabel/deploy/": f"{at}/",
            "/opt/maplabel": str(TOP),
            "8080": str(self.port),
            "47101": str(free_port()),
            "47100": str(self.engine.port),
            "/var/lib/nginx/maplabel": f"{at}/cache",
            "/run/maplabel/published": f"{at}/published",
        }
        for source in (TOP / "deploy" / "nginx.conf", *(TOP / "deploy").glob("nginx-*.inc")):
            text = source.read_text(encoding="utf-8")
            for here, there in changes.items():
                text = text.replace(here, there)
            (at / source.name.replace("nginx.conf", "site.conf")).write_text(text, encoding="utf-8")

    def end(self) -> None:
        super().end()
        self.folder.cleanup()


def _nginx(at: Path, servers: str) -> Child:
    """nginx with some servers, whose own files lie in a folder."""
    kinds = ("client_body", "proxy", "fastcgi", "uwsgi", "scgi")
    folders = " ".join(f"{kind}_temp_path {at}/{kind};" for kind in kinds)
    (at / "nginx.conf").write_text(
        f"daemon off; pid {at}/pid; events {{}} http {{ include /etc/nginx/mime.types;"
        f" access_log off; {folders} {servers} }}\n",
        encoding="utf-8",
    )
    return Child(["nginx", "-e", at / "errors", "-c", at / "nginx.conf"])


def answers(child: Child, address: str) -> bool:
    """Awaits an answer of a server; where there is none, its process is ended."""
    until = time.monotonic() + 20
    while child.is_running() and time.monotonic() < until:
        with contextlib.suppress(OSError):
            urllib.request.urlopen(address, timeout=20).close()
            return True
        time.sleep(0.05)
    child.end()
    return False


class StaticNginx:
    """nginx as a host of files, which sends packed what lies packed beside a file."""

    def __init__(self, folder: str | Path) -> None:
        self.own = tempfile.TemporaryDirectory(prefix="maplabel-nginx-")
        at = Path(self.own.name)
        at.chmod(0o711)
        for _ in range(TRIES):
            port = free_port()
            self.base = f"http://127.0.0.1:{port}"
            served = f"listen 127.0.0.1:{port}; root {folder}; gzip_static on;"
            self.child = _nginx(at, f"server {{ {served} }}")
            if answers(self.child, self.base + "/"):
                return
        raise Fault(f"nginx does not serve {folder}")

    def __enter__(self) -> "StaticNginx":
        return self

    def __exit__(self, *_: object) -> None:
        self.child.end()
        self.own.cleanup()


class _Quiet(http.server.SimpleHTTPRequestHandler):
    def log_message(self, *_: object) -> None:
        pass


class Files:
    """A folder as any static host serves it: Python's own server, which neither packs nor
    unpacks.
    """

    def __init__(self, folder: str | Path, port: int = 0) -> None:
        handler = functools.partial(_Quiet, directory=str(folder))
        self.server = http.server.ThreadingHTTPServer(("127.0.0.1", port), handler)
        self.port: int = self.server.server_address[1]
        self.base = f"http://127.0.0.1:{self.port}"
        threading.Thread(target=self.server.serve_forever, daemon=True).start()

    def __enter__(self) -> "Files":
        return self

    def __exit__(self, *_: object) -> None:
        self.server.shutdown()
        self.server.server_close()


def is_alive(number: int) -> bool:
    """Whether a process is there."""
    try:
        os.kill(number, 0)
    except ProcessLookupError:
        return False
    return True


def end_process(number: int) -> None:
    os.kill(number, signal.SIGKILL)
