"""What all parts of this test stand on: ports, a folder, a server, proxies, and single requests."""

import contextlib
import http.client
import json
import os
import random
import shutil
import signal
import socket
import subprocess
import time
from collections.abc import Callable, Iterator, Mapping
from pathlib import Path
from typing import IO
from urllib.parse import quote

from maplabel_kit import program as kit_program
from maplabel_kit.faults import Fault
from maplabel_kit.files import TOP
from maplabel_kit.ports import HOST
from maplabel_kit.server import Child

DEPLOY = TOP / "deploy"
DATA = TOP / "crates" / "maplabel" / "data"
LONG = 60.0  # seconds that a busy machine may take
LIMITS: dict[str, str] = {}  # what is changed in configurations, to measure without limits


def low_ports(count: int) -> list[int]:
    """Free ports below those that the system gives to clients, so that no client takes one
    meanwhile."""
    found: list[int] = []
    while len(found) < count:
        port = random.randrange(10_000, 32_000)
        with contextlib.suppress(OSError), socket.socket() as door:
            door.bind((HOST, port))
            if port not in found:
                found.append(port)
    return found


PORT, UNCACHED, PROXY, BETWEEN, TLS, TLS_EDITS = low_ports(6)


def fail(text: str) -> Fault:
    """The fault that ends this test: something is not as it should be."""
    return Fault(text)


def say(text: str) -> None:
    """Tells what was seen."""
    print(text, flush=True)


def program() -> str:
    """The program that is tried."""
    return str(kit_program.find())


def copy_map(folder: Path, towns: int = 0) -> tuple[str, str]:
    """A style and a map of one's own, which may be written: the sample, or so many towns."""
    style, path = folder / "style.toml", folder / "live.geojson"
    shutil.copyfile(DATA / "world.toml", style)
    if towns:
        write_towns(path, towns)
    else:
        shutil.copyfile(DATA / "world.geojson", path)
    return str(style), str(path)


def write_towns(path: Path, count: int) -> None:
    """A map file of so many towns."""
    made = ",".join(town(f"town{number}", number) for number in range(count))
    path.write_text('{"type":"FeatureCollection","features":[' + made + "]}")


def end_process(process: "subprocess.Popen[bytes]", number: int = signal.SIGTERM) -> int:
    """Ends a process of this test, if it still runs; its status."""
    if process.poll() is None:
        process.send_signal(number)
    return process.wait()


@contextlib.contextmanager
def bare_server(style: str, path: str, count: int = 1_000_000) -> Iterator[Child]:
    """`serve` by itself."""
    with Child([program(), "serve", style, path, PORT, count]) as child:
        if child.first_line() != b"ready\n":
            raise fail("the server is not ready")
        yield child


class Run:
    """`deploy/run`, and the lines that it said."""

    def __init__(
        self,
        folder: Path,
        *words: object,
        towns: int = 0,
        said: int | IO[bytes] = subprocess.DEVNULL,
        before: tuple[str, ...] = (),
        env: Mapping[str, str] | None = None,
    ) -> None:
        self.style, self.map = copy_map(folder, towns)
        self.log, self.words, self.said_to = folder / "log", words, said
        self.before, self.env = before, env
        try:
            self.start()
        except BaseException:
            self.surely_end()
            raise

    def start(self) -> None:
        """Starts it, and waits until the map is served."""
        self.launch()
        wait_for(
            lambda: self.said("ready") > 0 or self.process.poll() is not None,
            lambda: f"deploy/run is not ready: {self.lines()}",
            300,
        )
        if not self.said("ready"):
            raise fail(f"deploy/run ended with {self.process.returncode}: {self.lines()}")

    def launch(self) -> None:
        """Starts it."""
        words = [*self.before, str(DEPLOY / "run"), self.style, self.map, str(PORT)]
        with open(self.log, "wb") as log:
            self.process = subprocess.Popen(
                [*words, *map(str, self.words)],
                stdout=log,
                stderr=self.said_to,
                env={**os.environ, **(self.env or {})},
            )

    def lines(self) -> list[str]:
        """What it said so far."""
        return self.log.read_text().splitlines()

    def said(self, words: str) -> int:
        """How many lines have these words."""
        return sum(words in line for line in self.lines())

    def server(self) -> int:
        """The process of the server."""
        ready = [line for line in self.lines() if "ready: process" in line]
        return int(ready[-1].split("process ")[1].split()[0])

    def end(self, number: int = signal.SIGTERM) -> int:
        """Ends it; its status."""
        return end_process(self.process, number)

    def surely_end(self) -> None:
        """Ends it and its server, however they stand."""
        if self.process.poll() is None:
            with contextlib.suppress(IndexError, ValueError, ProcessLookupError):
                os.kill(self.server(), signal.SIGKILL)
            self.process.kill()
            self.process.wait()


@contextlib.contextmanager
def running(folder: Path, *words: object, towns: int = 0) -> Iterator[Run]:
    """A `deploy/run` that is gone behind the block."""
    run = Run(folder, *words, towns=towns)
    try:
        yield run
    finally:
        run.surely_end()


def wait_for(
    is_so: Callable[[], bool], text: str | Callable[[], str], seconds: float = 90
) -> float:
    """Waits until it is so; how long that took."""
    begin = time.monotonic()
    while time.monotonic() < begin + seconds:
        if is_so():
            return time.monotonic() - begin
        time.sleep(0.02)
    raise fail(text if isinstance(text, str) else text())


def example(name: str, folder: Path, others: Mapping[str, str] | None = None) -> str:
    """A configuration of deploy/ with the ports and folders of this test, some of them others."""
    text = (DEPLOY / name).read_text()
    changes = {
        "/opt/maplabel/deploy/nginx-": f"{folder}/nginx-",
        "/opt/maplabel": str(TOP),
        "/run/maplabel": str(folder),
        "/var/lib/nginx/maplabel": str(folder / "cache"),
        "/etc/maplabel": str(folder),
        "47101": str(UNCACHED),
        "8080": str(PROXY),
        "listen 443": f"listen {TLS}",
        "listen 8443": f"listen {TLS_EDITS}",
    }
    for here, there in (changes | LIMITS | dict(others or {})).items():
        text = text.replace(here, there)
    return text.replace("47100", str(PORT)).replace("8081", str(PROXY))


@contextlib.contextmanager
def nginx(
    folder: Path, engine: int | None = None, has_tls: bool = False, others: Mapping[str, str] = {}
) -> Iterator[None]:
    """nginx with deploy/nginx.conf within Debian's configuration around it."""
    names = ["nginx.conf", "nginx-tls.conf"] if has_tls else ["nginx.conf"]
    changes = {**others, **({"47100": str(engine)} if engine else {})}
    for path in DEPLOY.glob("nginx-*.inc"):
        (folder / path.name).write_text(example(path.name, folder, changes))
    places = ("client_body", "proxy", "fastcgi", "uwsgi", "scgi")
    head = [
        "daemon off;",
        "user root;" if os.geteuid() == 0 else "",
        f"worker_processes 4; worker_rlimit_nofile 8192; pid {folder}/pid;",
        f"error_log {folder}/error.log; events {{ worker_connections 4096; }}",
        "http { include /etc/nginx/mime.types; access_log off;",
        *(f"{place}_temp_path {folder}/{place};" for place in places),
    ]
    text = "\n".join([*head, *(example(name, folder, changes) for name in names), "}\n"])
    (folder / "nginx.whole").write_text(text)
    with proxy(["nginx", "-p", str(folder), "-c", str(folder / "nginx.whole")], PROXY):
        yield


@contextlib.contextmanager
def haproxy(folder: Path, port: int | None = None) -> Iterator[None]:
    """HAProxy with deploy/haproxy.cfg."""
    path = folder / "haproxy.cfg"
    path.write_text(example("haproxy.cfg", folder, {"8081": str(port or PROXY)}))
    with proxy(["haproxy", "-db", "-f", str(path)], port or PROXY):
        yield


@contextlib.contextmanager
def both(folder: Path) -> Iterator[None]:
    """nginx before HAProxy."""
    with haproxy(folder, BETWEEN), nginx(folder, BETWEEN):
        yield


@contextlib.contextmanager
def proxy(command: list[str], port: int) -> Iterator[None]:
    """A proxy that answers for the server."""
    child = Child(command, stdout=subprocess.DEVNULL, stderr=None)
    with child:
        wait_for(
            lambda: ask("GET", "/rev", port=port)[0] == 200, f"{command[0]} does not answer for it"
        )
        yield


def ask(
    method: str,
    target: str,
    body: str | bytes | None = None,
    fields: Mapping[str, str] | None = None,
    port: int | None = None,
    source: str = HOST,
    seconds: float = LONG,
) -> tuple[int, bytes]:
    """The status and the body of one reply, 0 and nothing where none came."""
    link = http.client.HTTPConnection(
        HOST, PROXY if port is None else port, timeout=seconds, source_address=(source, 0)
    )
    try:
        data = body.encode() if isinstance(body, str) else body
        link.request(method, target, data, dict(fields or {}))
        reply = link.getresponse()
        return reply.status, reply.read()
    except (OSError, http.client.HTTPException):
        return 0, b""
    finally:
        link.close()


def served_map() -> bytes:
    """The map, also where the server is just being restarted."""
    got: list[bytes] = []

    def is_there() -> bool:
        status, text = ask("GET", "/map", port=PORT)
        got.append(text)
        return status == 200

    wait_for(is_there, "the server does not come back")
    return got[-1]


def hold(port: int | None = None) -> socket.socket:
    """A connection that is open and sends nothing."""
    return socket.create_connection((HOST, PORT if port is None else port))


def town(name: str, number: int = 0) -> str:
    """The text of a town."""
    place = [number % 360 - 180, number // 360 % 120 - 60]
    return json.dumps(
        {
            "type": "Feature",
            "id": name,
            "properties": {"place": "city", "name": name},
            "geometry": {"type": "Point", "coordinates": place},
        }
    )


def add(name: str, number: int = 0, port: int | None = None) -> int:
    """Adds a town; the status of the reply."""
    return ask("POST", "/feature", town(name, number), {"X-Edit": "1"}, port)[0]


def remove(name: str, port: int | None = None) -> int:
    """Removes a town; the status of the reply."""
    return ask("DELETE", f"/feature?id={quote(name)}", None, {"X-Edit": "1"}, port)[0]


def ids(text: str | bytes) -> set[str]:
    """The ids of the features that this test added to a map."""
    told = (str(feature.get("id")) for feature in json.loads(text)["features"])
    return {one for one in told if one.startswith("added-")}


def ids_in(path: str) -> set[str]:
    """The same of a map file."""
    return ids(Path(path).read_bytes())


def loads(style: str, path: str) -> bool:
    """Whether the program loads the file."""
    return kit_program.run(program(), "pipe", style, path).status == 0
