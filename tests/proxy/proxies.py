"""nginx and HAProxy before `deploy/run`: what is refused, what is cached, how many are served,
and what a restart costs."""

import contextlib
import json
import os
import signal
import socket
import subprocess
import time
import tomllib
from collections.abc import Callable, Iterator
from contextlib import AbstractContextManager
from dataclasses import dataclass
from pathlib import Path

from crowd import Editors, Lookers, idle_clients
from maplabel_kit.files import TOP, folder
from maplabel_kit.ports import HOST
from maplabel_run.process import opened
from stage import (
    DEPLOY,
    PORT,
    PROXY,
    Run,
    add,
    ask,
    both,
    fail,
    haproxy,
    hold,
    ids,
    ids_in,
    nginx,
    running,
    say,
    served_map,
    town,
    wait_for,
)
from trials import TRIALS, Seconds

EDIT = {"X-Edit": "1"}
Wanted = tuple[str, str, str | None, dict[str, str], int]
VIEW = "/view?cx=-1760000000&cy=-600000000&w=1024&h=512&s=200000"  # where the first towns stand
PAGES = (".html", ".js", ".css", ".svg", ".png")


@dataclass(frozen=True)
class Front:
    """A way to put a proxy before the server."""

    name: str
    start: Callable[[Path], AbstractContextManager[None]]
    has_pages: bool

    @contextlib.contextmanager
    def served(self, *words: object, towns: int = 0) -> Iterator[Run]:
        """A server behind this proxy, over the sample map or so many towns."""
        with folder() as at:
            at.chmod(0o755)
            options = ("--drain", at / "drain", "--publish", at / "published", *words)
            with running(at, *options, towns=towns) as run, self.start(at):
                yield run


FRONTS = (
    Front("nginx", nginx, True),
    Front("haproxy", haproxy, False),
    Front("both", both, True),
)


REFUSALS: tuple[Wanted, ...] = (
    ("POST", "/feature", town("x"), {}, 403),
    ("PUT", "/style", "version = 2", {}, 403),
    ("DELETE", "/feature?id=x", None, {}, 403),
    ("POST", "/view", "x", {}, 403),
    ("POST", "/map", "x", {}, 403),
    ("GET", "/nothing", None, {}, 404),
    ("GET", "/map/", None, {}, 404),
    ("GET", "/why?id=x", None, {}, 404),
    ("GET", "/state", None, {}, 200),
    ("GET", "/tile?z=21&i=0&j=0", None, {}, 200),
    ("PUT", "/style", "x", EDIT, 422),
    ("POST", "/feature", town("x"), EDIT, 200),
    ("DELETE", "/feature?id=x", None, EDIT, 200),
    ("DELETE", "/feature?id=x", None, EDIT | {"X-Forwarded-For": "192.0.2.7"}, 403),
)


def refusals(front: Front) -> None:
    """What the proxy refuses by itself; and that the same edit passes with its field."""
    with front.served() as run:
        for method, target, body, fields, want in REFUSALS:
            got, text = ask(method, target, body, fields)
            if got != want:
                raise fail(
                    f"{front.name}: {method} {target} {fields}: {got}, not {want}: {text[:200]!r}"
                )
        got = ask("POST", "/feature", town("added-a"), EDIT, source="127.0.0.9")[0]
        if got != 403:
            raise fail(f"{front.name}: an edit from another address was answered with {got}")
        if front.has_pages:
            (Path(run.map).parent / "drain").touch()
            if (got := ask("POST", "/feature", town("added-d"), EDIT)[0]) != 503:
                raise fail(f"{front.name}: an edit during a restart was answered with {got}")
        if there := ids(ask("GET", "/map", port=PORT)[1]):
            raise fail(f"{front.name}: edits that were refused were made: {there}")
    say(f"{front.name}: edits without the field, other methods and other paths are refused")


def hosts(front: Front) -> None:
    """A page of another origin that was given a name of this machine neither reads nor edits."""
    with front.served():
        for host in (f"evil.example:{PROXY}", "evil.example", "localhost.evil.example", ""):
            for method, target in (("POST", "/feature"), ("GET", "/rev"), ("GET", "/map")):
                body = town("added-x") if method == "POST" else None
                got = ask(method, target, body, EDIT | {"Host": host})[0]
                if got not in (400, 421):
                    raise fail(f"{front.name}: {method} {target} with Host {host!r} has {got}")
        if ids(ask("GET", "/map", port=PORT)[1]):
            raise fail(f"{front.name}: an edit by another name of the machine was made")
        for host in ("localhost", f"localhost:{PROXY}", f"127.0.0.1:{PROXY}", f"[::1]:{PROXY}"):
            if (got := ask("GET", "/rev", fields={"Host": host})[0]) != 200:
                raise fail(f"{front.name}: Host {host} has {got}")
    say(f"{front.name}: other names of this machine than those of the list are refused")


def cached(front: Front) -> None:
    """After an edit a name may be old, but by no more than a second; the revision and the reason
    never are, and neither is the map for an editor."""
    with front.served("--save", "3600"):
        old = 0
        for number in range(8):
            old += _one_edit(front, number)
        if old == 0:
            raise fail(f"{front.name} keeps no view")
    say(f"{front.name}: {old} of 8 views were old right after an edit, and none a second later")


def _one_edit(front: Front, number: int) -> bool:
    """Whether the view was old right after an edit."""
    one = f"added-c{number}"
    time.sleep(1.02 - time.time() % 1)
    for target in (VIEW, VIEW, VIEW):
        ask("GET", target)
    if add(one, number) != 200 or one.encode() not in ask("GET", VIEW, port=PORT)[1]:
        raise fail(f"{front.name}: no edit that is seen")
    is_old = one.encode() not in ask("GET", VIEW)[1]
    known = (ask("GET", f"/why?id={one}")[0], one in ids(ask("GET", "/map", fields=EDIT)[1]))
    if known != (200, True) or ask("GET", "/rev") != ask("GET", "/rev", port=PORT):
        raise fail(f"{front.name}: a reply is old that must not be")
    time.sleep(1.02)
    for target in (VIEW, "/state", "/map"):
        here = HOST if front.start is haproxy else f"127.0.0.{number + 10}"
        if ask("GET", target, source=here) != ask("GET", target, port=PORT):
            raise fail(f"{front.name}: {target} is more than a second old")
    return is_old


def pages(front: Front) -> None:
    """Each page of web/ comes as it is, and no script of it; Leaflet beside it where it is
    installed."""
    top, count = TOP / "web", 0
    with front.served():
        for path in top.rglob("*"):
            name = path.relative_to(top)
            if not path.is_file() or name.parts[0].startswith((".", "maplabel_kit", "node_")):
                continue
            is_page = path.suffix in PAGES and not name.name.startswith(".")
            got = ask("GET", f"/{name}")
            if got != (200, path.read_bytes()) if is_page else got[0] != 404:
                raise fail(f"{path} was answered with {got[0]}")
            count += is_page
        if (
            ask("GET", "/") != ask("GET", "/index.html")
            or ask("POST", "/index.html", "x")[0] != 403
        ):
            raise fail("the first page is not index.html, or it takes a POST")
        leaflet = os.path.exists("/usr/share/javascript/leaflet")
        if leaflet and ask("GET", "/leaflet/leaflet.js")[0] != 200:
            raise fail("Leaflet is not served")
    say(f"{front.name}: the {count} pages of web/ are served, and nothing else of it")


def style_told(front: Front) -> None:
    """Pages are told the style that is served, also once `deploy/style` has put another one in its
    place."""
    with front.served("--save", "0.5") as run:
        new = Path(run.map).parent / "new.toml"
        new.write_text(Path(run.style).read_text().replace("size = ", "size = 1"))
        for is_new in (False, True):
            if is_new:
                words = [str(DEPLOY / "style"), str(new), run.style, run.map, str(PORT)]
                subprocess.run(words, stdout=subprocess.DEVNULL, check=True)
            tree = tomllib.loads(Path(run.style).read_text())
            want = [(one.get("value"), one["size"]) for one in tree["class"]], set(tree["fonts"])
            wait_for(lambda: _told_style() == want, lambda: f"pages are told {_told_style()}", 20)
        run.process.send_signal(signal.SIGHUP)
        wait_for(lambda: run.said("ready") == 2, "SIGHUP does not restart the server")
        if _told_style() != want or ask("PUT", "/style.json", "x")[0] != 403:
            raise fail(f"{front.name}: behind a restart pages are told {_told_style()}")
    say(f"{front.name}: pages are told the style, and another one that takes its place")


def _told_style() -> object:
    """The classes with their sizes, and the fonts, as pages are told."""
    status, text = ask("GET", "/style.json")
    if status != 200:
        return status
    told = json.loads(text)
    return [(one.get("value"), one["size"]) for one in told["classes"]], set(told["fonts"])


def limited(front: Front) -> None:
    """One client that asks too often is told so, and another one is answered."""
    with front.served():
        begin, got = time.monotonic(), {200: 0}
        while sum(got.values()) < 1000 and time.monotonic() < begin + 10:
            target = f"/view?cx={sum(got.values())}&cy=0&w=64&h=64&s=1000"
            status = ask("GET", target, source="127.0.0.9")[0]
            got[status] = got.get(status, 0) + 1
        seconds, count = time.monotonic() - begin, sum(got.values())
        most = 201 + 50 * seconds
        if not min(200, count) <= got[200] <= most or set(got) - {200, 429}:
            raise fail(f"{front.name}: {count} views of one client in {seconds:.1f} s: {got}")
        if ask("GET", "/rev")[0] != 200:
            raise fail(f"{front.name}: another client is not answered")
    say(
        f"{front.name}: of {count} views one client wanted in {seconds:.1f} s, {got[200]} were"
        " given"
    )


def chunked(front: Front) -> None:
    """A body in chunks, without its length."""
    text = town("added-x").encode()
    want = 200 if front.has_pages else 501
    with front.served():
        with socket.create_connection((HOST, PROXY), timeout=20) as link:
            link.sendall(
                b"POST /feature HTTP/1.1\r\nHost: localhost\r\nX-Edit: 1\r\n"
                b"Transfer-Encoding: chunked\r\n\r\n%x\r\n%s\r\n0\r\n\r\n" % (len(text), text)
            )
            got = int(link.recv(1000).split()[1])
        if got != want:
            raise fail(f"{front.name}: a body in chunks was answered with {got}")
    say(f"{front.name}: a body in chunks is answered with {got}")


def fields(front: Front) -> None:
    """A request with more fields than the engine takes does not reach it, or not with all of
    them."""
    with front.served():
        many = {f"X-Field-{number}": "x" for number in range(70)}
        status, body = ask("GET", "/rev", fields=many)
        if status == 400 and body.startswith(b'{"error":'):
            raise fail(f"{front.name}: 70 fields reached the engine")
        if status != (400 if front.start is haproxy else 200):
            raise fail(f"{front.name}: 70 fields were answered with {status}")
    say(f"{front.name}: 70 fields are answered with {status}, and the engine does not see them")


def held(front: Front) -> None:
    """A client that goes past the proxy, and holds the server."""
    with front.served():
        with hold():
            begin = time.monotonic()
            status = ask("GET", "/rev")[0]
            seconds = time.monotonic() - begin
        begin = time.monotonic()
        if not 500 <= status <= 504 or ask("GET", "/rev")[0] != 200:
            raise fail(f"{front.name}: {status} beside a client that holds the server")
        late = 1000 * (time.monotonic() - begin)
    say(
        f"{front.name}: beside a client that holds the server {status} after {seconds:.1f} s, and"
        f" 200 after {late:.0f} ms once that is gone"
    )


def crowd(front: Front) -> None:
    """Many clients beside idle ones."""
    with front.served():
        idle, lookers = idle_clients(), Lookers(50)
        seconds = min(Seconds.told, 5)
        time.sleep(seconds)
        said = lookers.end()
        for link in idle:
            link.close()
        say(f"{front.name}: 50 clients beside 20 idle ones, {seconds:.0f} s: {said}")
        if lookers.bad or lookers.good < 100:
            raise fail(f"{front.name}: not all were answered")
        if ask("GET", "/rev", port=PORT, seconds=2)[0] != 200:
            raise fail(f"{front.name} holds the server though it has nothing to ask")


def restarts(front: Front) -> None:
    """50 clients and four editors, while the connections of several servers are used up; where
    HAProxy waits for the server, no client sees it."""
    seconds, count = Seconds.told, int(max(_rate(front), 50) * max(Seconds.told / 8, 5))
    options = ("--count", count, "--reserve", count // 3, "--save", "2")
    with front.served(*options) as run:
        begin, lookers, editors = time.monotonic(), Lookers(50), Editors(4)
        time.sleep(seconds)
        while run.said("are used up") < 3 and time.monotonic() < begin + 60 + seconds:
            time.sleep(1)
        editors.end()
        said, seconds = lookers.end(), time.monotonic() - begin
        there, made = ids(served_map()), set(editors.made)
        times, crashes = run.said("are used up"), run.said("by itself")
        say(f"{front.name}: {times} restarts in {seconds:.0f} s: {said}")
        say(
            f"{front.name}: {len(made)} additions answered as made, others by status: "
            f"{editors.refused or 'none'}; lost {len(made - there)}, made without an answer "
            f"{len(there - made)}"
        )
        if made != there or crashes or times < 3:
            raise fail(
                f"{front.name}: lost {len(made - there)}, {len(there - made)} made without an"
                f" answer, {crashes} ends, {times} restarts"
            )
        if front.start is not nginx and lookers.bad:
            raise fail(f"{front.name}: a restart is seen")
        if run.end() != 0 or made - ids_in(run.map):
            raise fail(f"{front.name}: the planned end lost an edit: {run.lines()[-3:]}")


def reloads(front: Front) -> None:
    """nginx takes its configuration anew again and again, and nobody sees it. Its workers keep
    connections to each other, and an old one closes those: a read that was just sent on one of them
    is sent again on another."""
    count, again = 0, 0
    with front.served("--save", "3600") as run:
        at, until = Path(run.map).parent, time.monotonic() + Seconds.told
        lookers, editors = Lookers(20, pause=0.05, is_kept=False), Editors(2)
        while count < 20 or (again < 5 and time.monotonic() < until):
            os.kill(int((at / "pid").read_text()), signal.SIGHUP)
            count += 1
            time.sleep(0.1)
            again = (at / "error.log").read_text().count("while reading response header")
        editors.end()
        said, there, made = lookers.end(), ids(served_map()), set(editors.made)
    told = f"{count} reloads of nginx, {again} reads sent again, {len(made)} edits"
    say(f"{front.name}: {told}: {said}")
    if lookers.bad or editors.refused or made != there or not made:
        raise fail(
            f"{front.name}: a reload of nginx is seen: reads {lookers.bad or 'none'}, edits "
            f"{editors.refused or 'none'}; lost {len(made - there)}, made without an answer "
            f"{len(there - made)}"
        )


def _rate(front: Front) -> float:
    """How many requests of such a crowd reach the server in a second."""
    with front.served():
        before, lookers, editors = opened(), Lookers(50), Editors(4)
        time.sleep(3)
        editors.end()
        lookers.end()
        return (opened() - before) / 3


def _enter() -> None:
    """Makes each of these a trial of each proxy."""
    for front in FRONTS:
        for function in (refusals, hosts, cached, chunked, fields, held, crowd, restarts):
            TRIALS[f"{front.name}.{function.__name__}"] = _bound(function, front)
        if front.has_pages:
            for function in (pages, style_told, limited, reloads):
                TRIALS[f"{front.name}.{function.__name__}"] = _bound(function, front)


def _bound(function: Callable[[Front], None], front: Front) -> Callable[[], None]:
    return lambda: function(front)


_enter()
