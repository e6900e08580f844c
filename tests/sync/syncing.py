"""What deploy/sync makes of a server and a file."""

import contextlib
import http.server
import json
import os
import random
import subprocess
import threading
import time
import urllib.parse
from collections.abc import Callable, Iterable, Iterator
from pathlib import Path

from maplabel_kit import files, program
from maplabel_kit.client import Client, request
from maplabel_kit.faults import Fault
from maplabel_source import geojson
from served import DEPLOY, Served, collection, expect, run_script, style, town, write
from trials import TRIALS

SYNC = DEPLOY / "sync"
PLAIN = ("--settle", "0", "--most-removed", "1")


def fail(text: str) -> Fault:
    """The fault that ends this test."""
    return Fault(text)


def over(function: Callable[[Served, Path], None]) -> Callable[[Served, Path], None]:
    """Makes a function a trial, over a server without features of its own."""

    def run() -> None:
        with files.folder() as at:
            empty = write(at, "empty.geojson", collection([]))
            server = Served(str(program.find()), at, style(at), empty)
            try:
                function(server, at)
            finally:
                server.kill()

    TRIALS[f"sync.{function.__name__}"] = run
    return function


def sync(*words: object, status: int = 0, more: tuple[str, ...] = PLAIN) -> str:
    """What deploy/sync prints; it must end with the status."""
    got, said = run_script(SYNC, *words, *more)
    expect(got, status, f"the status of sync {' '.join(map(str, words))}, which says {said}")
    return str(said)


def towns(numbers: Iterable[int], pop: int = 0) -> list[str]:
    """The texts of towns by their numbers."""
    return [
        town("t%d" % number, number % 300 * 1_000_000, number // 300 * 1_000_000, pop)
        for number in numbers
    ]


def texts_of(server: Served) -> dict[str, str]:
    """The features of the map, as canonical texts."""
    return geojson.read_export(server.get("/map"))


def check_held(server: Served, path: Path, what: str) -> None:
    """The server holds what the program itself reads from the file."""
    with open(path, "rb") as file:
        expect(texts_of(server), geojson.read_map(file.read()), what)


@over
def fewest(server: Served, folder: Path) -> None:
    """From one map to another of which it is known what differs."""
    chance = random.Random(1)
    for number in range(10):
        here = towns(range(400))
        chance.shuffle(here)
        gone, changed = chance.randrange(50), chance.randrange(50)
        there = towns(range(gone, gone + changed), pop=number + 1) + towns(
            range(gone + changed, 400)
        )
        chance.shuffle(there)
        new = towns(range(1000, 1000 + chance.randrange(50)))
        for one in new:
            there.insert(chance.randrange(len(there)), one)
        sync(server.address, write(folder, "a.geojson", collection(here)))
        before, path = server.rev(), write(folder, "b.geojson", collection(there))
        edits = gone + changed + len(new)
        expect(
            sync(server.address, path, "--dry-run").splitlines()[-1],
            "%d edits to send, nothing sent" % edits,
            "a dry run",
        )
        expect(server.rev(), before, "the revision behind a dry run")
        said = sync(server.address, path)
        expect(
            said.split(";")[0],
            "removed %d, replaced %d, added %d, refused 0" % (gone, changed, len(new)),
            "the counts",
        )
        expect(server.rev(), before + edits, "the revision")
        check_held(server, path, "the map")
        sync(server.address, path)
        expect(server.rev(), before + edits, "the revision, where nothing differs")
    print("10 pairs of maps: as few edits as can be, and none where nothing differs", flush=True)


@over
def order(server: Served, folder: Path) -> None:
    """The order of the file is reached by removals and additions, as few as can be."""
    first = write(folder, "first.geojson", collection(towns(range(10))))
    sync(server.address, first)
    sync(server.address, first, "--order")
    moved = towns([0, 1, 2, 20, 3, 5, 4, 6, 7, 8, 9])
    path = write(folder, "moved.geojson", collection(moved))
    expect(sync(server.address, path).split()[-1], "another", "the order")
    expect(
        sync(server.address, path, "--order").split(";")[0],
        "removed 7, replaced 0, added 7, refused 0",
        "the edits of an order",
    )
    expect(list(texts_of(server)), [json.loads(one)["id"] for one in moved], "the order")
    behind = write(folder, "behind.geojson", collection(moved[:2] + moved[4:] + towns([30, 31])))
    expect(
        sync(server.address, behind).rpartition(";")[2].split()[-1],
        "same",
        "the order where what is new stands last",
    )
    print("the order of a file is reached", flush=True)


@over
def refusals(server: Served, folder: Path) -> None:
    """What is refused is told by its name and id, and the rest is sent."""
    bad = {
        "far": '{"type":"Point","coordinates":[300,1]}',
        "curve": '{"type":"CircularString","coordinates":[]}',
        "ring": '{"type":"Polygon","coordinates":[[[0,0],[1,0]]]}',
        "wide": '{"type":"MultiPoint","coordinates":[%s]}'
        % ",".join(["[1.0000000,2.0000000]"] * 50_000),
    }
    listed = [
        '{"type":"Feature","id":"%s","geometry":%s,"properties":{"name":"x"}}' % pair
        for pair in bad.items()
    ]
    path = write(folder, "bad.geojson", collection(towns([0]) + listed + towns([1])))
    said = sync(server.address, path, status=1).splitlines()
    expect(
        said[:-1],
        [
            'refused: %s {"error":"%s"}' % pair
            for pair in (
                ("far", "OutOfRange"),
                ("curve", "BadGeometry"),
                ("ring", "ShortRing"),
                ("wide", "size"),
            )
        ],
        "the refusals",
    )
    expect(list(texts_of(server)), ["t0", "t1"], "what is held beside refusals")
    print("refusals are told by their names and ids", flush=True)


@over
def limit(server: Served, folder: Path) -> None:
    """A full map: removals come before additions, and what is too much is refused."""
    sync(
        server.address,
        write(folder, "full.geojson", collection(towns(range(32_768)))),
    )
    path = write(folder, "other.geojson", collection(towns(range(100, 32_868))))
    expect(
        sync(server.address, path).split(";")[0],
        "removed 100, replaced 0, added 100, refused 0",
        "the edits of a full map",
    )
    check_held(server, path, "a full map")
    path = write(folder, "more.geojson", collection(towns(range(100, 32_871))))
    said = sync(server.address, path, status=1).splitlines()
    expect(
        said[:-1],
        ['refused: t%d {"error":"Full"}' % number for number in (32_868, 32_869, 32_870)],
        "the refusals of a full map",
    )
    print("32,768 features: the limit is never passed", flush=True)


@over
def emptied(server: Served, folder: Path) -> None:
    """All features of a full map are removed."""
    sync(server.address, write(folder, "full.geojson", collection(towns(range(32_768)))))
    begin = time.monotonic()
    sync(server.address, write(folder, "none.geojson", collection([])))
    expect(texts_of(server), {}, "what an empty file leaves")
    print("a full map is emptied in %.0f s" % (time.monotonic() - begin), flush=True)


@over
def bad_input(server: Served, folder: Path) -> None:
    """What is wrong is told in a sentence, and nothing is changed."""
    good = write(folder, "good.geojson", collection(towns(range(5))))
    before = server.rev()
    for words, status, told in (
        (("http://127.0.0.1:1", good), 1, "does not answer"),
        (("127.0.0.1", good), 1, "is no address"),
        ((server.address + "/elsewhere", good), 1, "answers GET /rev with 404"),
        ((server.address, folder / "none"), 1, "is not read: No such file"),
        ((server.address, folder), 1, "is not read: Is a directory"),
        (
            (
                server.address,
                write(folder, "cut.geojson", collection(towns([1]))[:-3]),
            ),
            1,
            "is no map file: it is no",
        ),
        ((server.address, write(folder, "list.geojson", "[]")), 1, "is no map file"),
        ((server.address, good, "--changes", folder), 1, "is not written"),
        ((server.address,), 2, "usage"),
        ((server.address, good, "--watch", "0"), 2, "above 0"),
        ((server.address, good, "--watch", "1", "--dry-run"), 2, "usage"),
    ):
        if told not in (said := sync(*words, status=status)):
            raise fail("sync %s says %r" % (" ".join(map(str, words)), said))
    expect(server.rev(), before, "the revision behind wrong input")
    print("wrong files, addresses and words are told, and nothing is changed", flush=True)


@over
def changes(server: Served, folder: Path) -> None:
    """The lines of changes are those that the server writes."""
    path = folder / "changes"
    start = os.path.getsize(server.lines)
    sync(
        server.address,
        write(folder, "p.geojson", collection(towns(range(50)))),
        "--changes",
        path,
    )
    odd = (
        '{"type":"Feature","id":"a'
        ' b%ü","geometry":{"type":"Point","coordinates":[0,0]},"properties":{"name":"x","pop":9}}'
    )
    sync(
        server.address,
        write(folder, "q.geojson", collection(towns(range(25, 90)) + [odd])),
        "--changes",
        path,
    )
    with open(server.lines, "rb") as lines, open(path, "rb") as kept:
        lines.seek(start)
        want, got = lines.read(), kept.read()
    expect(got, want, "the lines of changes")
    if got.count(b"\n") < 100:
        raise fail("there are but %d lines of changes" % got.count(b"\n"))
    print("the %d lines of changes are those that the server writes" % got.count(b"\n"), flush=True)


def ask(server: Served, method: str, path: str, body: str | None = None, **query: object) -> int:
    """The status of a request of another client."""
    with Client(server.port, 60) as client:
        return client.one(request(method, path, query, body)).status


@over
def watching(server: Served, folder: Path) -> None:
    """A watch follows the file and mends what others change; beside it the server is free."""
    path = write(folder, "w.geojson", collection(towns(range(100))))
    watch = subprocess.Popen(
        [SYNC, server.address, path, "--watch", "0.3", "--settle", "0", "--most-removed", "1"],
        stdout=subprocess.PIPE,
        stderr=subprocess.PIPE,
    )
    slowest = 0.0
    for number in range(3):
        write(folder, "w.new", collection(towns(range(number, 100), pop=number)))
        os.replace(folder / "w.new", path)
        ask(server, "DELETE", "/feature", id="t50")
        end = time.monotonic() + 3
        while time.monotonic() < end:
            begin = time.monotonic()
            server.get("/rev")
            slowest = max(slowest, time.monotonic() - begin)
            time.sleep(0.01)
        check_held(server, path, "the map that is watched")
    write(folder, "w.geojson", '{"type":')
    time.sleep(1)
    write(folder, "w.geojson", collection(towns(range(7))))
    time.sleep(2)
    server.kill()
    time.sleep(1)
    server.start()
    time.sleep(2)
    check_held(server, path, "the map behind a restart")
    watch.terminate()
    said = watch.communicate()[1].decode()
    expect(watch.returncode, 0, "the status of a watch that is ended")
    if "is no map file" not in said or "does not answer" not in said:
        raise fail("the watch says %r" % said)
    print(
        "a watch follows its file; another client waited %.0f ms at most" % (1000 * slowest),
        flush=True,
    )


@over
def other_editor(server: Served, folder: Path) -> None:
    """Another client edits meanwhile: no edit of it stays behind."""
    sync(server.address, write(folder, "x.geojson", collection([])))
    path = write(folder, "x.geojson", collection(towns(range(3000))))
    going = threading.Event()

    def edit() -> None:
        for number in range(400):
            ask(server, "POST", "/feature", town("other%d" % number, number, 0))
            time.sleep(0.005)
        going.set()

    thread = threading.Thread(target=edit)
    thread.start()
    while not going.is_set():
        subprocess.run(
            [SYNC, server.address, path, "--settle", "0", "--most-removed", "1"],
            stdout=subprocess.DEVNULL,
            stderr=subprocess.DEVNULL,
        )
    thread.join()
    sync(server.address, path)
    check_held(server, path, "the map behind another editor")
    print("another client that edits leaves nothing behind", flush=True)


@over
def guarded_edits(server: Served, folder: Path) -> None:
    """Each edit is made at the revision that was compared, or not at all: another client edits just
    before each of them."""
    with program_of_others(server) as address:
        sync(address, write(folder, "mine.geojson", collection(towns(range(30)))))
        path = write(folder, "mine.geojson", collection(towns(range(5, 35), pop=1)))
        status, said = run_script(SYNC, address, path, *PLAIN)
    if status != 0 and "other clients edit" not in said:
        raise fail(f"beside another editor sync says {said!r}")
    if server.rev() == 0 or ASKED.unguarded:
        raise fail(f"{ASKED.unguarded} of {ASKED.edits} edits name no revision")
    print(f"each of {ASKED.edits} edits names the revision that was compared", flush=True)


class ASKED:
    """What a proxy of this test saw."""

    edits = unguarded = 0


class Passing(http.server.BaseHTTPRequestHandler):
    """Hands each request on, and looks whether edits name a revision."""

    port = 0
    protocol_version = "HTTP/1.1"

    def log_message(self, *_: object) -> None:
        """Says nothing."""

    def pass_on(self) -> None:
        """One request."""
        body = self.rfile.read(int(self.headers.get("Content-Length", 0)))
        if self.command != "GET":
            ASKED.edits += 1
            ASKED.unguarded += "rev=" not in self.path
        path, _, query = self.path.partition("?")
        fields = dict(urllib.parse.parse_qsl(query))
        with Client(self.port, 60) as client:
            reply = client.one(request(self.command, path, fields, body or None))
        self.send_response(reply.status)
        self.send_header("Content-Length", str(len(reply.body)))
        if self.close_connection:
            self.send_header("Connection", "close")
        self.end_headers()
        self.wfile.write(reply.body)

    do_GET = do_POST = do_PUT = do_DELETE = pass_on


@contextlib.contextmanager
def program_of_others(server: Served) -> Iterator[str]:
    """The address of such a proxy before a server."""
    ASKED.edits = ASKED.unguarded = 0
    handler = type("Handler", (Passing,), {"port": server.port})
    with http.server.ThreadingHTTPServer(("127.0.0.1", 0), handler) as proxy:
        threading.Thread(target=proxy.serve_forever, daemon=True).start()
        yield f"http://127.0.0.1:{proxy.server_port}"
        proxy.shutdown()


@over
def guard(server: Served, folder: Path) -> None:
    """A file that lost more than a part of what is served, or all of it, is refused, and nothing
    is sent."""
    many = write(folder, "many.geojson", collection(towns(range(1000))))
    sync(server.address, many, more=())
    before = server.rev()
    for count, words, status in (
        (0, (), 1),
        (499, (), 1),
        (500, (), 0),
        (100, ("--most-removed", "0.9"), 0),
        (0, ("--most-removed", "0.9"), 1),
        (0, ("--most-removed", "1"), 0),
        (50, (), 0),
        (1, (), 0),
        (0, (), 1),
    ):
        path = write(folder, "few.geojson", collection(towns(range(count))))
        said = sync(server.address, path, "--settle", "0", status=status, more=words)
        if status == 1:
            expect(server.rev(), before, f"the revision behind a file of {count} features")
            if "--most-removed" not in said or said.count("\n") != 1:
                raise fail(f"a file that lost too much is told by {said!r}")
        before = server.rev()
    print("a file that lost more than a part of the features is refused", flush=True)


@over
def in_place(server: Served, folder: Path) -> None:
    """A file that is overwritten in place, slowly, is taken once it stands still: no mixture is
    sent."""
    path = write(folder, "place.geojson", collection(towns(range(400), pop=1)))
    sync(server.address, path, more=())
    with open(folder / "said", "wb") as said:
        words = [str(SYNC), server.address, str(path), "--watch", "0.1", "--settle", "3"]
        watch = subprocess.Popen(words, stdout=said, stderr=said)
    try:
        for number in range(2, 6):
            overwrite(path, collection(towns(range(400), pop=number)))
            end = time.monotonic() + 60
            while (there := pops(server)) != {str(number)}:
                if time.monotonic() > end:
                    raise fail(f"version {number} is not served, but {there}")
                time.sleep(0.2)
        end = time.monotonic() + 20
        while len((folder / "said").read_text().splitlines()) < 4 and time.monotonic() < end:
            time.sleep(0.2)  # what was sent is told once the server was asked for it again
    finally:
        watch.terminate()
        watch.wait()
    told = [line.split(";")[0] for line in (folder / "said").read_text().splitlines()]
    expect(
        told, ["removed 0, replaced 400, added 0, refused 0"] * 4, "what was sent of four versions"
    )
    print("a file that is overwritten in place is read once it stands still", flush=True)


def pops(server: Served) -> set[str]:
    """The populations that the map tells."""
    return {str(one["properties"]["pop"]) for one in server.features().values()}


def overwrite(path: Path, text: str) -> None:
    """Writes a text over another of the same length, piece by piece, as some programs do."""
    with open(path, "r+b", buffering=0) as file:
        data = text.encode()
        for at in range(0, len(data), len(data) // 8 + 1):
            file.write(data[at : at + len(data) // 8 + 1])
            time.sleep(0.25)
        file.truncate()
