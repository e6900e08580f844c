"""What `web/serve` hands out and what it refuses, and that nothing of it is left when it ends."""

import http.client
import json
import os
import re
import signal
import socket
import subprocess
import time
from pathlib import Path

from chromium import Fault
from servers import STYLE, WEB, WORLD, Pages, is_alive, serve

# Targets and the statuses that they are answered with.
TARGETS = {
    "/": 200,
    "/mercator.html": 200,
    "/maplabel.js": 200,
    "/maplabel/draw.js": 200,
    "/leaflet/leaflet.js": 200,
    "/maplabel/": 404,
    "/leaflet/": 404,
    "/sample/": 404,
    "/serve": 404,
    "/export": 404,
    "/README.md": 404,
    "/maplabel_site/pages.py": 404,
    "/maplabel_kit/faults.py": 404,
    "/%00": 404,
    "/%2e%2e/README.md": 404,
    "/../README.md": 404,
    "/leaflet/../../../../etc/passwd": 404,
    "/\u00ff": 404,
}


def _raw(port: int, text: str) -> bytes:
    """All that comes back for some bytes."""
    with socket.create_connection(("127.0.0.1", port), 5) as link:
        link.sendall(text.encode("latin-1"))
        found = b""
        while part := link.recv(65536):
            found += part
        return found


def _status(
    port: int, target: str, host: str, method: str = "GET", more: str = "", body: str = ""
) -> int:
    head = f"{method} {target} HTTP/1.1\r\nHost: {host}\r\nConnection: close\r\n{more}\r\n"
    reply = _raw(port, head + body)
    if b"Traceback" in reply or not reply.startswith(b"HTTP/1.1 "):
        raise Fault(f"{method} {target} was answered with {reply[:200]!r}")
    return int(reply.split(b" ")[1])


def _targets(pages: Pages) -> None:
    own = f"127.0.0.1:{pages.port}"
    for target, wanted in TARGETS.items():
        if (got := _status(pages.port, target, own)) != wanted:
            raise Fault(f"{target} was answered with {got}, not with {wanted}")
    print(f"serve: {len(TARGETS)} targets, no folder listed, no script handed out")


def _hosts(pages: Pages) -> None:
    """A name that leads here from elsewhere reads nothing and changes nothing."""
    port = pages.port
    for host, wanted in (
        (f"localhost:{port}", 200),
        (f"[::1]:{port}", 200),
        ("maps.example.org", 200),
        ("evil.example", 421),
        (f"evil.example:{port}", 421),
        ("127.0.0.1:1", 421),
    ):
        for target in ("/rev", "/mercator.html"):
            if (got := _status(port, target, host)) != wanted:
                raise Fault(f"{target} of {host} was answered with {got}, not with {wanted}")
    edit = "X-Edit: 1\r\nContent-Length: 0\r\n"
    if _status(port, "/feature?id=%23186", "evil.example", "DELETE", edit) != 421:
        raise Fault("an edit by another name was not refused")
    if pages.ask("/rev")["rev"] != 0:
        raise Fault("an edit by another name was made")


def _edits(pages: Pages) -> None:
    own = f"127.0.0.1:{pages.port}"
    for more, body, wanted in (
        ("Content-Length: x\r\n", "", 400),
        ("Content-Length: -1\r\n", "", 400),
        ("Content-Length: \u00b2\r\n", "", 400),
        ("Content-Length: 9999999\r\n", "", 413),
        ("Content-Length: 0\r\n", "", 403),
        ("Content-Length: 2\r\n", "{}", 403),
        ("X-Edit: 1\r\nContent-Length: 0\r\n", "", 422),
        ("X-Edit: 1\r\nContent-Length: 2\r\n", "{}", 422),
    ):
        if (got := _status(pages.port, "/feature", own, "POST", more, body)) != wanted:
            raise Fault(f"an edit with {more!r} was answered with {got}, not with {wanted}")


def _style(program: str) -> None:
    """A page is told the style, and the new one once it is replaced."""
    served, port = serve("--program", program, STYLE, WORLD)
    with served:
        link = http.client.HTTPConnection("127.0.0.1", port, timeout=20)
        link.request("GET", "/style.json")
        before = json.loads(link.getresponse().read())
        body = STYLE.read_bytes().replace(b'value = "country 1"', b'value = "realm 1"')
        link.request("PUT", "/style", body, {"X-Edit": "1"})
        link.getresponse().read()
        link.request("GET", "/style.json")
        after = json.loads(link.getresponse().read())
        link.close()
    if (before["classes"][0]["value"], after["classes"][0]["value"]) != ("country 1", "realm 1"):
        raise Fault(f"the style beside the page was {before['classes'][0]}")


def _ends(program: str) -> None:
    """A signal ends the server and its engine, also of one in the background; its folder goes."""
    for number in (signal.SIGTERM, signal.SIGINT, signal.SIGHUP):
        # The shell has told a process in the background to ignore SIGINT.
        shell = ("sh", "-c", 'trap "" INT; exec "$@"', "sh")
        served, _ = serve("--project", "--program", program, STYLE, WORLD, before=shell)
        path = f"/proc/{served.process.pid}/task/{served.process.pid}/children"
        with open(path, encoding="ascii") as file:
            (engine,) = map(int, file.read().split())
        with open(f"/proc/{engine}/cmdline", "rb") as file:
            folder = re.search(rb"(/[^\0]*)/style.toml", file.read())
        served.process.send_signal(number)
        served.process.wait(20)
        until = time.monotonic() + 5
        while is_alive(engine) and time.monotonic() < until:
            time.sleep(0.05)
        if is_alive(engine) or folder is None or _is_there(folder[1]):
            raise Fault(f"signal {number} leaves the engine {engine} or its folder {folder}")
        served.end()
    print("serve: SIGTERM, SIGINT and SIGHUP end the engine and its folder")


def _is_there(path: bytes) -> bool:
    return os.path.exists(path)


def _taken(pages: Pages) -> None:
    """A port that is in use is told with who has it and what to do."""
    words: list[str | Path] = [WEB / "serve", "--engine", "1", "--port", str(pages.port)]
    done = subprocess.run(words, capture_output=True, check=False)
    told = done.stderr.decode()
    who = f"port {pages.port} is in use by serve (process {pages.child.process.pid})"
    if done.returncode != 1 or who not in told or "tell another port" not in told:
        raise Fault(f"a port that is in use was told as: {told}")


def serving(pages: Pages, _folder: str) -> None:
    with Pages(pages.engine, None, "--host", "maps.example.org") as called:
        _targets(called)
        _hosts(called)
        _edits(called)
        _taken(called)
    _style(pages.engine.program)
    _ends(pages.engine.program)
