"""Remote clients that mean ill, from eight addresses: what others see of them."""

import contextlib
import gzip
import http.client
import os
import random
import shutil
import signal
import socket
import subprocess
import threading
import time
from collections.abc import Callable, Iterator
from pathlib import Path

from crowd import Editors
from maplabel_kit.files import folder
from maplabel_kit.ports import HOST
from maplabel_run.process import connections
from proxies import EDIT, FRONTS
from stage import (
    PORT,
    PROXY,
    Run,
    add,
    ask,
    fail,
    haproxy,
    ids_in,
    nginx,
    running,
    say,
    town,
    wait_for,
)
from trials import Seconds, trial

NGINX, HAPROXY, _ = FRONTS
TOWNS = 32_000
ADDRESSES = [f"127.0.2.{number}" for number in range(1, 9)]
ANSWER_WITHIN = 5.0
HEAD = b" HTTP/1.1\r\nHost: localhost\r\n"


class Attack:
    """Threads that each do one thing again and again, from an address of their own, until ended."""

    def __init__(self, act: Callable[["Attack", str], None], each: int) -> None:
        self.going = True
        self.acts = self.answers = 0
        self.threads = [
            threading.Thread(target=self._run, args=(act, address), daemon=True)
            for address in ADDRESSES
            for _ in range(each)
        ]
        for thread in self.threads:
            thread.start()

    def _run(self, act: Callable[["Attack", str], None], address: str) -> None:
        while self.going:
            with contextlib.suppress(OSError, http.client.HTTPException):
                act(self, address)
            self.acts += 1

    def end(self) -> None:
        """Ends it."""
        self.going = False
        for thread in self.threads:
            thread.join()


@contextlib.contextmanager
def attacked(act: Callable[[Attack, str], None], each: int) -> Iterator[Attack]:
    """An attack that goes on as long as the block."""
    attack = Attack(act, each)
    try:
        yield attack
    finally:
        attack.end()


def costly(attack: Attack, address: str, port: int = PROXY) -> None:
    """Asks for all that there is, over a connection that stays open."""
    link = http.client.HTTPConnection(HOST, port, timeout=20, source_address=(address, 0))
    with contextlib.closing(link):
        while attack.going:
            for target in ("/map", "/state", f"/map?rev={random.randrange(10**6)}"):
                link.request("GET", target)
                reply = link.getresponse()
                reply.read()
                attack.answers += reply.status == 200
                if reply.status != 200:
                    time.sleep(0.05)


def unfinished(attack: Attack, address: str, port: int = PROXY) -> None:
    """Many heads that do not end."""
    links = [connect(address, port) for _ in range(50)]
    for link in links:
        link.sendall(b"GET /rev" + HEAD)
    while attack.going and any(is_open(link) for link in links):
        time.sleep(0.2)
    for link in links:
        link.close()


def slow_reader(attack: Attack, address: str, port: int = PROXY, target: str = "/map") -> None:
    """Asks for much, and reads a little of it now and then."""
    with connect(address, port) as link:
        link.setsockopt(socket.SOL_SOCKET, socket.SO_RCVBUF, 4096)
        link.sendall(b"GET " + target.encode() + HEAD + b"\r\n")
        while attack.going and link.recv(512):
            time.sleep(0.5)


def slow_body(attack: Attack, address: str, port: int = PROXY) -> None:
    """A read with a body that comes slowly behind its first 20,000 bytes."""
    with connect(address, port) as link:
        link.sendall(b"GET /rev" + HEAD + b"Content-Length: 1000000\r\n\r\n" + b"x" * 20_000)
        until = time.monotonic() + 60
        while attack.going and time.monotonic() < until and is_open(link):
            link.sendall(b"x")
            time.sleep(1)


def connect(address: str, port: int) -> socket.socket:
    """A connection from an address."""
    return socket.create_connection((HOST, port), 20, source_address=(address, 0))


def is_open(link: socket.socket) -> bool:
    """Whether the other side has not ended the connection, as far as can be seen without
    waiting."""
    try:
        return link.recv(1000, socket.MSG_DONTWAIT) != b""
    except BlockingIOError:
        return True
    except OSError:
        return False


def bound(seconds: float) -> float:
    """How long another client may wait at most: so many seconds, and more on a machine that is busy
    with other work, as far as that is seen before the attack."""
    return seconds + 10 * slowest(2)


def slowest(seconds: float, port: int = PROXY, pause: float = 0.05) -> float:
    """The longest time until a read of another client is answered well, over so many seconds."""
    longest, begin, last = 0.0, time.monotonic(), time.monotonic()
    while time.monotonic() < begin + seconds:
        if ask("GET", "/rev", port=port, source="127.0.0.7", seconds=40)[0] == 200:
            longest, last = max(longest, time.monotonic() - last), time.monotonic()
        time.sleep(pause)
    return max(longest, time.monotonic() - last)


def edits_a_second() -> float:
    """How many edits two editors get through where nobody attacks: few on a busy machine."""
    begin, editors = time.monotonic(), Editors(2, name="before-")
    time.sleep(4)
    editors.end()
    return len(editors.made) / (time.monotonic() - begin)


@trial("attack")
def nginx_costly() -> None:
    """160 connections of eight addresses that ask for what costs most: edits are made, saves come
    through, and a kill loses no more than is told."""
    seconds = max(min(Seconds.told, 40), 15)
    with NGINX.served("--save", "2", towns=TOWNS) as run:
        least = min(2.0, edits_a_second() / 8)
        with attacked(costly, 20) as attack:
            time.sleep(1)
            editors, saved = Editors(2), run.said("saved revision")
            time.sleep(seconds)
            saved = run.said("saved revision") - saved
            os.kill(run.server(), signal.SIGKILL)
            at = time.monotonic()
            editors.going = False
            editors.end()
        wait_for(lambda: run.said("ready") == 2, "the server is not started again")
        lost = set(editors.made) - ids_in(run.map)
        oldest = max([at - editors.made[name] for name in lost] or [0])
        say(
            f"nginx beside 160 connections that ask for /map and /state and get {attack.answers},"
            f" {TOWNS} towns, {seconds:.0f} s: {len(editors.made)} edits, the slowest after"
            f" {editors.slowest:.1f} s, others {editors.refused or 'none'}; {saved} saves; a kill"
            f" lost edits of the last {oldest:.1f} s"
        )
        if len(editors.made) < least * seconds or editors.slowest > ANSWER_WITHIN or saved < 2:
            raise fail(f"the attack stops edits or saves: {run.lines()[-5:]}")
        if oldest > 2 + 10:
            raise fail("more is lost than the pause between saves and the time of one")


@trial("attack")
def nginx_unfinished() -> None:
    """1,600 heads that do not end, again and again: others are answered all the while."""
    with NGINX.served():
        most = bound(6)
        with attacked(unfinished, 4):
            time.sleep(1)
            longest = slowest(12)
        say(
            f"nginx beside 1,600 heads that do not end: another client waited {longest:.1f} s at"
            " most"
        )
        if longest > most:
            raise fail("heads that do not end keep others out")


@trial("attack")
def nginx_slow_readers() -> None:
    """160 slow readers of the map: what they do not read stands in no file of nginx."""
    with NGINX.served("--save", "3600", towns=TOWNS) as run:
        at, most = Path(run.map).parent, bound(2)
        wait_for((at / "published" / "map.0.geojson.gz").exists, "the first map is not published")
        with attacked(
            lambda attack, address: slow_reader(attack, address, PROXY, "/map?rev=0"), 20
        ):
            time.sleep(6)
            size, longest = size_of(at / "proxy"), slowest(4)
        say(
            f"nginx beside 160 slow readers of the map of {TOWNS} towns: {size / 1e6:.1f} MB in"
            f" files; another client waited {longest:.1f} s at most"
        )
        if size > 40_000_000 or longest > most:
            raise fail("slow readers fill the disk, or keep others waiting")


def size_of(top: Path) -> int:
    """The bytes of all files of a folder."""
    found = 0
    for path in top.rglob("*"):
        with contextlib.suppress(FileNotFoundError):
            found += path.stat().st_size if path.is_file() else 0
    return found


@trial("nginx")
def published() -> None:
    """The map of a revision that was saved comes from a file, compressed, and the engine is not
    asked."""
    with NGINX.served("--save", "0.5") as run:
        add("added-p", 1)
        rev = ask("GET", "/rev", port=PORT)[1]
        wait_for(lambda: run.said("saved revision 1") > 0, "no save")
        text = ask("GET", "/map", port=PORT)[1]
        os.kill(run.server(), signal.SIGSTOP)
        try:
            link = http.client.HTTPConnection(HOST, PROXY, timeout=3)
            link.request("GET", "/map?rev=1", headers={"Accept-Encoding": "gzip"})
            reply = link.getresponse()
            packed, fields = reply.read(), dict(reply.getheaders())
            plain = ask("GET", "/map?rev=1", seconds=3)
        finally:
            os.kill(run.server(), signal.SIGCONT)
        if reply.status != 200 or gzip.decompress(packed) != text or plain != (200, text):
            raise fail(f"the map of revision 1 is not published ({reply.status}; {rev!r})")
        if fields.get("Content-Type") != "application/geo+json":
            raise fail(f"the published map has the type {fields.get('Content-Type')}")
        for target in ("/map?rev=7", "/map?rev=../style", "/map?rev=1x"):
            if (got := ask("GET", target, fields=EDIT)) != (200, text):
                raise fail(f"{target} was answered with {got[0]}")
        say(f"nginx: the map of a saved revision is a file of {len(packed)} bytes, for {len(text)}")


@trial("nginx")
def healthz() -> None:
    """Whether names are served can be asked without end, and costs the engine one request a
    second."""
    with NGINX.served():
        text = ask("GET", "/rev", port=PORT)
        time.sleep(1.02 - time.time() % 1)
        got = [ask("GET", "/healthz", source="127.0.0.8") for _ in range(300)]
        if any(one != text for one in got):
            raise fail(f"/healthz: {set(got)} in place of {text}")
        say("nginx: /healthz answers 300 requests of one client, as /rev")


@trial("haproxy")
def read_with_body() -> None:
    """A read with a body is refused at once, however slowly the body comes."""
    for front in (HAPROXY, NGINX):
        with front.served():
            most = bound(2)
            with attacked(slow_body, 2):
                time.sleep(0.5)
                longest = slowest(8)
            say(
                f"{front.name} beside 16 reads with slow bodies: others waited {longest:.2f} s at"
                " most"
            )
            if longest > most:
                raise fail(f"{front.name}: a read with a slow body holds the server")
    with HAPROXY.served():
        for text in (
            b"Content-Length: 3\r\n\r\nabc",
            b"Transfer-Encoding: chunked\r\n\r\n0\r\n\r\n",
        ):
            with connect(HOST, PROXY) as link:
                link.sendall(b"GET /rev" + HEAD + text)
                if not (got := link.recv(1000)).startswith(b"HTTP/1.1 400 "):
                    raise fail(f"HAProxy: a read with a body was answered with {got[:60]!r}")
        if ask("GET", "/rev", fields={"Content-Length": "0"})[0] != 200:
            raise fail("HAProxy: a read with a body of no bytes is refused")


@trial("haproxy")
def slow_edit() -> None:
    """The body of an edit that comes slowly, behind more bytes than HAProxy keeps by itself:
    others are answered, and it is given up after five seconds."""
    with HAPROXY.served():
        most = bound(2)
        with connect(HOST, PROXY) as link:
            link.sendall(b"POST /feature" + HEAD + b"X-Edit: 1\r\nContent-Length: 1000000\r\n\r\n")
            link.sendall(b"x" * 40_000)
            begin = time.monotonic()
            longest = slowest(4)
            link.settimeout(20)
            got, seconds = link.recv(1000), time.monotonic() - begin
        say(
            f"HAProxy: an edit that stops in its body gets {got[9:12].decode()} after"
            f" {seconds:.1f} s, and others waited {longest:.2f} s at most"
        )
        if longest > most or not got.startswith(b"HTTP/1.1 408 ") or seconds > 10:
            raise fail("HAProxy: a slow edit holds the server")


@trial("haproxy")
def large_bodies() -> None:
    """The longest bodies pass, and what is longer is refused, by either proxy."""
    for front in FRONTS[:2]:
        with front.served():
            name = "x" * 1_000_000
            body = town("added-l").replace('"city"', f'"city", "long": "{name}"')
            if (got := ask("POST", "/feature", body, EDIT)[0]) != 200:
                raise fail(f"{front.name}: a body of {len(body)} bytes was answered with {got}")
            got = ask("POST", "/feature", body + " " * 100_000, EDIT)[0]
            if got not in (0, 400, 413):
                raise fail(f"{front.name}: a body that is too long was answered with {got}")
    say("a body of a million bytes passes each proxy, a longer one than a mebibyte does not")


@trial("haproxy")
def costly_reads() -> None:
    """What is longer than HAProxy keeps is given to this machine alone; a slow reader holds
    nobody."""
    with HAPROXY.served("--save", "3600", towns=TOWNS):
        for target in ("/map", "/state"):
            if (got := ask("GET", target, source="127.0.0.9")[0]) != 403:
                raise fail(f"HAProxy: {target} from another address was answered with {got}")
            if (got := ask("GET", target)[0]) != 200:
                raise fail(f"HAProxy: {target} from this machine was answered with {got}")
        view = "/view?cx=-1700000000&cy=-500000000&w=1024&h=1024&s=100000"
        act: Callable[[Attack, str], None] = lambda attack, address: slow_reader(
            attack, address, PROXY, view
        )
        most = bound(2)
        with attacked(act, 4):
            time.sleep(1)
            longest = slowest(6)
        say(f"HAProxy beside 32 slow readers of a view: others waited {longest:.2f} s at most")
        if longest > most:
            raise fail("HAProxy: a slow reader of a view holds the server")


@trial("haproxy")
def many_connections() -> None:
    """One address has so many connections and no more; another one is answered."""
    with HAPROXY.served():
        links = []
        for _ in range(200):
            with contextlib.suppress(OSError):
                links.append(connect(ADDRESSES[0], PROXY))
        time.sleep(0.5)
        there = sum(is_open(link) for link in links)
        if ask("GET", "/rev", source="127.0.0.8")[0] != 200 or there > 61:
            raise fail(f"HAProxy: one address keeps {there} connections")
        for link in links:
            link.close()
        say(f"HAProxy: of 200 connections of one address {there} stay")


CLOCK = """
#define _GNU_SOURCE
#include <dlfcn.h>
#include <sys/time.h>
#include <time.h>
#include <unistd.h>
#include <stdlib.h>
static int is_back(void) { return access(getenv("CLOCK_BACK"), F_OK) == 0; }
int gettimeofday(struct timeval *at, void *zone) {
  int (*real)(struct timeval *, void *) = dlsym(RTLD_NEXT, "gettimeofday");
  int status = real(at, zone);
  if (is_back()) at->tv_sec -= 120;
  return status;
}
"""


@trial("nginx")
def clock() -> None:
    """A clock that is set back by two minutes: no view is older than a second all the same."""
    if not shutil.which("gcc"):
        say("gcc is not installed: a clock that is set back is not tried")
        return
    with folder() as at:
        (at / "clock.c").write_text(CLOCK)
        words = ["gcc", "-shared", "-fPIC", "-o", f"{at}/clock.so", f"{at}/clock.c", "-ldl"]
        subprocess.run(words, check=True)
        os.environ |= {"CLOCK_BACK": f"{at}/back", "LD_PRELOAD": f"{at}/clock.so"}
        at.chmod(0o755)
        try:
            with contextlib.ExitStack() as stack:
                del os.environ["LD_PRELOAD"]
                run = stack.enter_context(running(at, "--save", "3600"))
                os.environ["LD_PRELOAD"] = f"{at}/clock.so"
                stack.enter_context(nginx(at))
                _over_clock(run, at / "back")
        finally:
            os.environ.pop("LD_PRELOAD", None)
    say("nginx: with a clock that is set back by 120 s no view is more than a second old")


def _over_clock(run: Run, back: Path) -> None:
    """Views before and behind the moment at which the clock is set back."""
    view = "/view?cx=-1760000000&cy=-600000000&w=1024&h=512&s=200000"
    for number in range(4):
        for _ in range(3):
            ask("GET", view)
        add(f"added-t{number}", number)
        if number == 1:
            back.touch()
        time.sleep(1.1)
        if ask("GET", view) != ask("GET", view, port=PORT):
            raise fail(f"a view is more than a second old, {run.map}, edit {number}")


@trial("nginx")
def queue() -> None:
    """However many clients ask, nginx has no more than 16 reads in the engine's queue, so that a
    save finds room."""
    with NGINX.served("--save", "3600") as run:
        os.kill(run.server(), signal.SIGSTOP)
        try:
            links = []
            for number in range(60):
                links.append(connect(f"127.0.3.{number + 1}", PROXY))
                links[-1].sendall(
                    b"GET /view?cx=%d&cy=0&w=64&h=64&s=1000" % number + HEAD + b"\r\n"
                )
            time.sleep(2)
            waiting = sum(one.unread for one in connections(PORT) if one.is_listening)
            refused = sum(not is_open(link) or _is_refused(link) for link in links)
        finally:
            os.kill(run.server(), signal.SIGCONT)
        for link in links:
            link.close()
    say(f"nginx: of 60 reads {waiting} wait in the engine's queue")
    if not 10 <= waiting <= 17:
        raise fail(f"{waiting} reads wait in the engine's queue; {refused} were refused")


def _is_refused(link: socket.socket) -> bool:
    """Whether a reply has come."""
    try:
        return link.recv(12, socket.MSG_DONTWAIT | socket.MSG_PEEK) != b""
    except OSError:
        return False


@trial("nginx")
def slow_head() -> None:
    """A head that does not end is given up after five seconds."""
    with NGINX.served():
        with connect(HOST, PROXY) as link:
            link.sendall(b"GET /rev" + HEAD)
            begin = time.monotonic()
            link.settimeout(20)
            with contextlib.suppress(OSError):
                link.recv(100)
            seconds = time.monotonic() - begin
    say(f"nginx: a head that does not end is given up after {seconds:.1f} s")
    if not 3 < seconds < 9:
        raise fail("a head that does not end is not given up in time")


@contextlib.contextmanager
def stand_in(act: Callable[[socket.socket, bytes], None]) -> Iterator[list[bytes]]:
    """In the place of the engine a server that takes a request over each connection, and does with
    it what is told; the requests."""
    asked: list[bytes] = []

    def serve() -> None:
        while True:
            try:
                link, _ = door.accept()
            except OSError:
                return
            with link, contextlib.suppress(OSError):
                asked.append(link.recv(65536))
                act(link, asked[-1])

    with socket.create_server((HOST, PORT)) as door:
        thread = threading.Thread(target=serve, daemon=True)
        thread.start()
        try:
            yield asked
        finally:
            door.shutdown(socket.SHUT_RDWR)  # else the port is taken as long as accept waits
            thread.join()


def answer_well(link: socket.socket) -> None:
    """The reply to a request of which nothing is wanted but that it is answered."""
    link.sendall(b"HTTP/1.1 200 OK\r\nContent-Length: 2\r\nConnection: close\r\n\r\n{}")


@trial("haproxy")
def repeats() -> None:
    """An edit whose connection breaks once it was sent is not sent again, since it may have been
    made; a view is."""

    def act(link: socket.socket, text: bytes) -> None:
        if text.startswith(b"GET /rev HTTP"):
            answer_well(link)

    with folder() as at, stand_in(act) as asked, haproxy(at):
        got = ask("POST", "/feature", town("added-r"), EDIT, seconds=20)[0]
        edits = sum(one.startswith(b"POST") for one in asked)
        ask("GET", "/rev?again", seconds=3)
        views = sum(one.startswith(b"GET /rev?again") for one in asked)
    say(f"HAProxy: an edit that broke off was sent {edits} time and answered {got}, a view {views}")
    if edits != 1 or not 500 <= got <= 504 or views < 2:
        raise fail("HAProxy sends an edit again, or a view never")
