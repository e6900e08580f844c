"""What single clients meet at the bare port: long bodies, many requests at once, HEAD, Expect."""

import contextlib
import os
import shutil
import socket
import subprocess
import time
from collections.abc import Iterator
from pathlib import Path

from maplabel_kit.files import folder
from maplabel_kit.ports import HOST
from stage import PORT, ask, bare_server, copy_map, fail, say
from trials import trial

TRIES = 20
ONE = b"GET /rev HTTP/1.1\r\nHost: a\r\n\r\n"


@contextlib.contextmanager
def served() -> Iterator[Path]:
    """A folder, and a server by itself."""
    with folder() as at, bare_server(*copy_map(at)):
        yield at


def read_all(link: socket.socket) -> tuple[bytes, bool]:
    """All bytes that come, up to the end or to a fault, and whether it was a fault."""
    got = b""
    try:
        while piece := link.recv(65536):
            got += piece
    except OSError:
        return got, True
    return got, False


def send_then_read(text: bytes) -> tuple[bytes, bool]:
    """What a client gets that sends all before it reads, and whether the connection broke."""
    with socket.create_connection((HOST, PORT), timeout=20) as link:
        is_broken = False
        try:
            link.sendall(text)
        except OSError:
            is_broken = True
        got, is_reset = read_all(link)
        return got, is_broken or is_reset


def by_curl(path: Path) -> bool:
    """Whether curl tells 413 of a body that is too long, sent without leave."""
    form = "%{http_code} %{exitcode}"
    words = ["curl", "-s", "-o", os.devnull, "-w", form, "-H", "Expect:", "-X", "POST"]
    where = ["--data-binary", f"@{path}", f"http://{HOST}:{PORT}/feature"]
    done = subprocess.run([*words, *where], capture_output=True, text=True, check=False)
    return done.stdout == "413 0"


@trial("sockets")
def long_body() -> None:
    """A body above the limit: how often its refusal is read. Told; whether it is read depends on
    the socket."""
    with served() as at:
        path = at / "long"
        path.write_bytes(b"x" * 2_000_000)
        head = b"POST /feature HTTP/1.1\r\nHost: a\r\nContent-Length: 2000000\r\n\r\n"
        replies = [send_then_read(head + path.read_bytes()) for _ in range(TRIES)]
        curl = sum(by_curl(path) for _ in range(TRIES))
        python = sum(
            ask("POST", "/feature", path.read_bytes(), port=PORT)[0] == 413 for _ in range(TRIES)
        )
    read = sum(got.startswith(b"HTTP/1.1 413 ") for got, _ in replies)
    broken = sum(fault for _, fault in replies)
    say(
        f"a body of 2,000,000 bytes: of {TRIES} clients each, {read} read their 413 though the "
        f"connection broke for {broken} of them; curl tells it to {curl}, Python to {python}"
    )
    if any(got and not got.startswith(b"HTTP/1.1 413 ") for got, _ in replies):
        raise fail("another reply than 413 to a body that is too long")


@trial("sockets")
def many_requests() -> None:
    """1,500 requests without waiting, of which 1,000 are answered: how many of these replies
    arrive."""
    with served():
        counts = sorted(
            send_then_read(ONE * 1500)[0].count(b"HTTP/1.1 200 OK\r\n") for _ in range(TRIES)
        )
        last = ONE.replace(b"\r\n\r\n", b"\r\nConnection: close\r\n\r\n")
        exact = send_then_read(ONE * 999 + last)[0].count(b" 200 OK\r\n")
    say(
        f"1,500 requests at once: {counts[0]} to {counts[-1]} of the 1,000 replies arrive, all of "
        f"them in {counts.count(1000)} of {TRIES} tries"
    )
    if counts[-1] > 1000 or exact != 1000:
        raise fail("1,000 requests are not answered by 1,000 replies")


@trial("sockets")
def head() -> None:
    """HEAD is a method like another: 405, with a body, which HTTP's clients do not look for."""
    with served(), socket.create_connection((HOST, PORT), timeout=20) as link:
        link.sendall(b"HEAD /rev HTTP/1.1\r\nHost: a\r\nConnection: close\r\n\r\n")
        got, _ = read_all(link)
    if not got.startswith(b"HTTP/1.1 405 ") or not got.endswith(b'\r\n\r\n{"error":"method"}'):
        raise fail(f"HEAD: {got!r}")
    say("HEAD is answered by 405 with a body of 18 bytes")


@trial("sockets")
def expect() -> None:
    """Expect is passed over: the body is waited for, and nothing is said before it has come."""
    with served():
        with socket.create_connection((HOST, PORT), timeout=1) as link:
            link.sendall(
                b"POST /feature HTTP/1.1\r\nHost: a\r\nExpect: 100-continue\r\nContent-Length:"
                b" 2\r\n\r\n"
            )
            if (early := read_all(link)) != (b"", True):
                raise fail(f"something is said before the body: {early}")
            if ask("GET", "/rev", port=PORT, seconds=1)[0] != 0:
                raise fail("another client is answered while the body is waited for")
            link.sendall(b"{}")
            if not link.recv(100).startswith(b"HTTP/1.1 422 "):
                raise fail("the body is not answered")
        begin = time.monotonic()
        words = ["curl", "-s", "-H", "Expect: 100-continue", "-d", "{}"]
        url = f"http://{HOST}:{PORT}/feature"
        subprocess.run([*words, url], stdout=subprocess.DEVNULL, check=False)
        seconds = time.monotonic() - begin
    say(f"Expect: 100-continue is passed over; curl waits {seconds:.1f} s for leave")


CURLS = {
    "curl -Z --parallel-immediate": ["curl", "-Z", "--parallel-immediate"],
    "with -H 'Connection: close'": [
        "curl",
        "-Z",
        "--parallel-immediate",
        "-H",
        "Connection: close",
    ],
    "in one call without -Z": ["curl"],
    "by xargs -P": ["xargs", "-P", "8", "-n", "1", "curl"],
}


@trial("sockets")
def curl() -> None:
    """Eight addresses asked for by curl in several ways: all are answered but where curl opens
    connections that it does not use."""
    told = {}
    for name, words in CURLS.items():
        with served() as at:
            urls = [f"http://{HOST}:{PORT}/rev?n={number}" for number in range(8)]
            many = words if words[0] == "curl" else words + ["-s", "-m", "10"]
            more = ["-s", "-m", "10", *urls] if words[0] == "curl" else []
            text = "" if more else "\n".join(urls)
            path = at / "got"
            with open(path, "wb") as out:
                words, data = [*many, *more], text.encode()
                subprocess.run(
                    words, input=data, stdout=out, stderr=subprocess.DEVNULL, check=False
                )
            told[name] = path.read_bytes().count(b'"rev"')
    say("of eight addresses are answered: " + ", ".join(f"{n} {name}" for name, n in told.items()))
    if list(told.values())[1:] != [8, 8, 8]:
        raise fail("not all are answered")


NODE = """
const http = require('http'), url = 'http://%s:%d/rev'
const agent = new http.Agent({ keepAlive: true, maxSockets: 1 })
const ask = method => new Promise(done => {
  const asked = http.request(url, { method, agent }, reply => {
    reply.resume()
    reply.on('end', () => done(reply.statusCode))
  })
  asked.on('error', fault => done(fault.message)).end()
})
const told = fault => (fault.cause ?? fault).message
const fetched = method => fetch(url, { method }).then(reply => reply.status, told)
async function all() {
  console.log('node, http.request: HEAD:', await ask('HEAD') + '; then GET:', await ask('GET'))
  agent.destroy()
  console.log('node, fetch: HEAD:', await fetched('HEAD') + '; then GET:', await fetched('GET'))
  const begin = Date.now()
  const since = () => (Date.now() - begin) / 1000
  const times = await Promise.all([1, 2, 3, 4].map(() => fetched('GET').then(since)))
  const seconds = times.map(time => time.toFixed(1)).join(', ')
  console.log('node, four fetches at once: answered after', seconds, 's')
}
all()
"""


@trial("sockets")
def node() -> None:
    """What node makes of it. Told, where node is installed."""
    if not shutil.which("node"):
        say("node is not installed: its fetch is not tried")
        return
    with served():
        words = ["node", "-e", NODE % (HOST, PORT)]
        try:
            done = subprocess.run(words, capture_output=True, text=True, timeout=90, check=False)
        except subprocess.TimeoutExpired:
            raise fail("node does not come to an end in 90 s") from None
    said = done.stdout.strip()
    if not said.startswith("node, http.request: HEAD:"):
        raise fail(f"node: {done.stderr.strip()[-300:]}")
    say(said)
