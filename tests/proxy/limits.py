"""How much one address, and all together, may have at once and in a while; and what is written down
for them."""

import contextlib
import http.client
import os
import select
import signal
import socket
import threading
import time
from collections.abc import Callable
from pathlib import Path

from attacks import ADDRESSES, HAPROXY, HEAD, NGINX, TOWNS, answer_well, connect, stand_in
from maplabel_kit.files import folder
from maplabel_kit.ports import HOST
from maplabel_run.process import connections
from proxies import EDIT, VIEW
from stage import PORT, PROXY, ask, fail, haproxy, ids, say, town, wait_for
from trials import trial

ONE, OTHER = "127.0.0.9", "127.0.0.10"


def post(name: str) -> bytes:
    """A whole request that adds a town."""
    body = town(name).encode()
    return b"POST /feature" + HEAD + b"X-Edit: 1\r\nContent-Length: %d\r\n\r\n" % len(body) + body


def status_of(link: socket.socket) -> int:
    """The status of the reply that comes next, 0 where none comes."""
    try:
        return int(link.recv(12).split()[1])
    except (OSError, IndexError):
        return 0


@trial("nginx")
def edits_queue() -> None:
    """Of all edits so many wait in the engine's queue; the others are told to wait, and are not
    made."""
    with contextlib.ExitStack() as stack:
        run = stack.enter_context(NGINX.served("--save", "3600"))
        os.kill(run.server(), signal.SIGSTOP)
        try:
            links = [stack.enter_context(connect(HOST, PROXY)) for _ in range(50)]
            for number, link in enumerate(links):
                link.sendall(post(f"added-{number}"))
            time.sleep(2)
            waiting = sum(one.unread for one in connections(PORT) if one.is_listening)
        finally:
            os.kill(run.server(), signal.SIGCONT)
        told = [status_of(link) for link in links]
        made = len(ids(ask("GET", "/map", port=PORT)[1]))
        say(f"nginx: of 50 edits {waiting} wait in the engine's queue, {told.count(429)} get 429")
        # One may have been accepted in the moment in which the server was stopped.
        if waiting not in (31, 32) or told.count(200) != 32 or told.count(429) != 18 or made != 32:
            raise fail(f"{waiting} edits wait in the engine's queue, {made} are made; {told}")


@trial("nginx")
def slow_clients() -> None:
    """A body that stops is given up after five seconds, and a client that reads nothing after
    ten."""
    with NGINX.served("--save", "3600", towns=TOWNS) as run:
        place = Path(run.map).parent / "published" / "map.0.geojson.gz"
        wait_for(place.exists, "the first map is not published")
        body = b"POST /feature" + HEAD + b"X-Edit: 1\r\nContent-Length: 1000\r\n\r\n{"
        reader = b"GET /map?rev=0" + HEAD + b"\r\n"
        for what, text, least, most in (("body", body, 3, 9), ("reader", reader, 8, 30)):
            seconds = _seconds_until_gone(text)
            say(f"nginx: a {what} that stops is given up after {seconds:.1f} s")
            if not least < seconds < most:
                raise fail(f"a {what} that stops is not given up in time")


def _seconds_until_gone(text: bytes) -> float:
    """How long a connection stays on which nothing is done behind a text."""
    with connect(ONE if text.startswith(b"GET") else HOST, PROXY) as link:
        link.setsockopt(socket.SOL_SOCKET, socket.SO_RCVBUF, 4096)
        link.sendall(text)
        watch = select.poll()
        watch.register(link, select.POLLRDHUP)
        begin = time.monotonic()
        watch.poll(60_000)
        return time.monotonic() - begin


@trial("nginx")
def many_at_once() -> None:
    """One address has so many requests at once, and the next ones are told to wait; another one is
    answered."""
    with contextlib.ExitStack() as stack:
        run = stack.enter_context(NGINX.served("--save", "3600", towns=TOWNS))
        place = Path(run.map).parent / "published" / "map.0.geojson.gz"
        wait_for(place.exists, "the first map is not published")
        links = []
        for _ in range(100):
            links.append(stack.enter_context(connect(ONE, PROXY)))
            links[-1].setsockopt(socket.SOL_SOCKET, socket.SO_RCVBUF, 4096)
            links[-1].sendall(b"GET /map?rev=0" + HEAD + b"\r\n")
        told = [status_of(link) for link in links]
        other = ask("GET", "/rev", source=OTHER)[0]
        say(f"nginx: of 100 slow readers of one address {told.count(200)} are served")
        if told.count(200) != 60 or told.count(429) != 40 or other != 200:
            raise fail(f"one address has {told.count(200)} requests at once; another gets {other}")


@trial("nginx")
def costly_in_a_while() -> None:
    """One address may ask for what costs most so often and no more; another one, and an editor of
    this machine, may ask on."""
    with NGINX.served("--save", "3600"):
        told: list[int] = []
        while len(told) < 60 and 429 not in told:
            for target in ("/map", "/state"):
                told.append(ask("GET", target, source=ONE)[0])
            time.sleep(1.02 - time.time() % 1)
        others = ask("GET", "/state", source=OTHER)[0]
        editors = {ask("GET", "/map", fields=EDIT)[0] for _ in range(30)}
        say(f"nginx: one address gets {told.count(200)} times /map or /state, then 429")
        if not 11 <= told.count(200) <= 20 or set(told) != {200, 429}:
            raise fail(f"what one address gets of /map and /state: {told}")
        if others != 200 or editors != {200}:
            raise fail(f"another address gets {others}, an editor {editors}")


@trial("nginx")
def written_down() -> None:
    """A view that only one client asks for once is not written down; one that is asked for again
    is."""
    with NGINX.served("--save", "3600") as run:
        place = Path(run.map).parent / "cache"
        time.sleep(2.1)
        time.sleep(1.02 - time.time() % 1)
        for number in range(20):
            ask("GET", f"/view?cx={number}&cy=0&w=64&h=64&s=1000")
        once = sum(path.is_file() for path in place.rglob("*"))
        time.sleep(1.02 - time.time() % 1)
        for _ in range(3):
            ask("GET", VIEW)
        again = sum(path.is_file() for path in place.rglob("*")) - once
        say(f"nginx: of 20 views that were asked for once {once} are written down")
        if once != 0 or again != 1:
            raise fail(f"{once} views that were asked for once are written down, then {again}")


@trial("haproxy")
def too_often() -> None:
    """One address that asks more often than it may is told so, and another one is answered."""
    with HAPROXY.served():
        link = http.client.HTTPConnection(HOST, PROXY, timeout=20, source_address=(ONE, 0))
        told: dict[int, int] = {}
        begin = time.monotonic()
        with contextlib.closing(link):
            while (seconds := time.monotonic() - begin) < 1:
                link.request("GET", VIEW)
                reply = link.getresponse()
                reply.read()
                told[reply.status] = told.get(reply.status, 0) + 1
        other = ask("GET", "/rev", source=OTHER)[0]
        say(f"HAProxy: what one address gets in {seconds:.1f} s: {told}")
        if sum(told.values()) < 260:
            raise fail("this machine is too busy for 260 requests a second")
        if told.get(200, 0) > 260 or set(told) != {200, 429} or other != 200:
            raise fail(f"one address is given {told} in a second; another gets {other}")


@trial("haproxy")
def edits_first() -> None:
    """An edit goes before all reads that wait."""

    def act(link: socket.socket, text: bytes) -> None:
        time.sleep(0.5)
        answer_well(link)

    with folder() as at, stand_in(act) as asked, haproxy(at):
        asked.clear()
        acts: list[Callable[[], object]] = [
            lambda: ask("GET", "/why?id=x", source=address) for address in ADDRESSES
        ]
        acts.append(lambda: ask("POST", "/feature", town("added-1"), EDIT))
        threads = [threading.Thread(target=one, daemon=True) for one in acts]
        for number, thread in enumerate(threads):
            time.sleep(0.3 if number == len(threads) - 1 else 0)
            thread.start()
        for thread in threads:
            thread.join()
    place = [one.startswith(b"POST") for one in asked].index(True)
    say(f"HAProxy: an edit that comes behind {len(ADDRESSES)} reads is asked for behind {place}")
    if len(asked) != len(ADDRESSES) + 1 or place > 2:
        raise fail("HAProxy: an edit waits for reads that came before it")
