"""How fast a table is followed, and what it withstands: restarts, crashes and other editors."""

import os
import subprocess
import time
import json
from pathlib import Path

from maplabel_kit.faults import Fault
from maplabel_kit.server import Child
from served import Served, write
from followed import Settings, Stage, staged, until
from trials import trial
from writers import Writers


def fail(text: str) -> Fault:
    """The fault that ends this test."""
    return Fault(text)


def middle(times: list[float]) -> str:
    """Times in words."""
    ordered = sorted(times)
    return "of %d, %.1f ms in the middle, %.1f for 19 of 20, %.1f at most" % (
        len(times),
        1000 * ordered[len(times) // 2],
        1000 * ordered[len(times) * 19 // 20],
        1000 * ordered[-1],
    )


def throughput(stage: Stage, seconds: float = 15) -> None:
    """How many edits a second get through where the writers never wait."""
    before = stage.server.rev()
    writers = Writers(stage.database, 4, stage.towns, 0)
    time.sleep(seconds)
    made = stage.server.rev() - before
    writers.end()
    late = stage.settle()
    print(
        "four writers without a pause: %.0f commits with %.0f rows a second; %.0f edits a second"
        " got through; held %.1f s after the last"
        % (writers.commits / seconds, writers.rows / seconds, made / seconds, late),
        flush=True,
    )


def bulk(stage: Stage) -> None:
    """How many edits a second get through of one statement that changes all rows."""
    before = stage.server.rev()
    with stage.database.connect("writer") as link:
        begin = time.monotonic()
        rows = link.execute("UPDATE towns SET pop = pop + 1").rowcount
    committed = time.monotonic()
    while stage.server.rev() < before + rows and time.monotonic() < committed + 180:
        time.sleep(0.05)
    took = time.monotonic() - committed
    stage.settle()
    print(
        "one UPDATE of %d rows: the statement took %.2f s, its edits %.2f s, %.0f a second"
        % (rows, committed - begin, took, rows / took),
        flush=True,
    )


def delay_of_one(stage: Stage) -> None:
    """From a commit to a revision that is greater, one commit after another."""
    times = []
    for number in range(200):
        before = stage.server.rev()
        with stage.database.connect() as link:
            link.execute(
                "INSERT INTO towns VALUES (%s, 'SRID=4326;POINT(1 1)', 'One', 1)",
                [9_000_000 + number],
            )
            begin = time.monotonic()
        while stage.server.rev() == before:
            if time.monotonic() > begin + 60:
                raise fail("the revision does not rise behind a commit")
        times.append(time.monotonic() - begin)
    if sorted(times)[len(times) // 2] > 0.5:
        raise fail("an edit comes late: " + middle(times))
    print("one writer, from commit to /rev: " + middle(times), flush=True)


def delay_of_four(stage: Stage, seconds: float = 15) -> None:
    """From a commit to the server's line of the change, with four writers that pause."""
    seen: dict[str, float] = {}
    with open(stage.server.lines) as lines:
        lines.seek(0, os.SEEK_END)
        writers = Writers(stage.database, 4, stage.towns, 0.02)
        end = time.monotonic() + seconds
        while time.monotonic() < end:
            now = time.monotonic()
            for line in lines.read().splitlines():
                name, before, _ = (line + "  ").split(" ")[:3]
                if before == "-":
                    seen.setdefault(name, now)
            time.sleep(0.0005)
        writers.end()
    stage.settle()
    times = [max(seen[name] - born, 0) for name, born in writers.born.items() if name in seen]
    print(
        "four writers, %.0f commits a second, from commit to the line of the change: %s"
        % (writers.commits / seconds, middle(times)),
        flush=True,
    )


def storm(stage: Stage, seconds: float) -> None:
    """Writers through two ends of the server and a restart of the database."""
    start = write(stage.folder, "start.geojson", stage.server.get("/map").decode())
    writers = Writers(stage.database, 4, stage.towns, 0.005)
    step = seconds / 4
    for path in (start, None, stage.empty):
        time.sleep(step)
        if path is None:
            stage.database.control("restart", "-m", "fast")
        else:
            revive(stage, path)
    time.sleep(step)
    writers.end()
    late = stage.settle()
    print(
        "%d seconds, %d commits with %d rows, the server killed twice, the database restarted: %d"
        " features, held %.1f s after the last commit; %s"
        % (seconds, writers.commits, writers.rows, len(stage.map()), late, stage.judge()),
        flush=True,
    )


def twins(stage: Stage, seconds: float = 5) -> None:
    """Two servers that follow the same table, from the same map on, give the same bytes."""
    servers: list[Served] = []
    followers: list[Child] = []
    try:
        for _ in range(2):
            servers.append(Served(stage.program, stage.folder, stage.style, stage.empty))
            followers.append(stage.follower_of(servers[-1]))
        until(
            "the maps of two followers",
            lambda: [len(one.features()) for one in servers],
            [len(stage.table())] * 2,
        )
        writers = Writers(stage.database, 4, stage.towns, 0)
        time.sleep(seconds)
        writers.end()
        until(
            "the revisions of two followers",
            lambda: servers[0].rev() == servers[1].rev() and stage.map() == stage.table(),
            True,
        )
        time.sleep(1)
        for target in ("/rev", "/map", "/state"):
            if servers[0].get(target) != servers[1].get(target):
                raise fail("two servers that follow one table give different bytes for %s" % target)
        print(
            "two servers that follow one table give the same bytes at revision %d"
            % servers[0].rev(),
            flush=True,
        )
    finally:
        for one in followers:
            one.end()
        for server in servers:
            server.kill()


def revive(stage: Stage, path: Path) -> None:
    """Kills the server, and starts it over another map."""
    stage.server.kill()
    time.sleep(1)
    stage.server.start(path)


def recovery(stage: Stage) -> None:
    """How long a server that starts with an empty map is behind the table."""
    stage.server.kill()
    time.sleep(3)
    stage.server.start(stage.empty)
    late = stage.settle()
    print(
        "a server that starts with an empty map holds the %d features %.1f s later"
        % (len(stage.map()), late),
        flush=True,
    )


def other_editor(stage: Stage) -> None:
    """What another client edits is mended, though the table does not change."""
    name, there = next(iter(stage.server.features().items()))
    there["properties"]["name"] = "Edited by another"
    run = subprocess.run(
        ["curl", "-sf", "-X", "PUT", "--data-binary", "@-", stage.server.address + "/feature"],
        input=json.dumps(there).encode(),
        stdout=subprocess.DEVNULL,
    )
    if run.returncode != 0:
        raise fail("curl ends with status %d" % run.returncode)
    print("what another client edits is mended after %.1f s" % stage.settle(), flush=True)


def detached(stage: Stage) -> None:
    """A follower compares again and again, and ends where its table is detached."""
    stage.start_follower("--minutes", "0.02")
    time.sleep(6)
    stage.database.execute("SELECT maplabel.detach('towns')")
    assert stage.follower is not None
    status = stage.follower.process.wait(timeout=60)
    lines = stage.said(stage.server).read_text().splitlines()
    compared = sum("compared" in line for line in lines)
    if status != 1 or "is not attached" not in lines[-1] or compared < 3:
        raise fail(f"the follower of a detached table ends with {status} and said {lines}")


def end_follower(stage: Stage) -> None:
    """A follower that is ended says so by its status."""
    assert stage.follower is not None
    if (status := stage.follower.end()) != 0:
        raise fail(f"the follower that was ended has status {status}")


@trial("speed")
def rates() -> None:
    """How many edits get through, and how late."""
    with staged(Settings.towns) as stage:
        throughput(stage)
        bulk(stage)
        delay_of_one(stage)
        delay_of_four(stage)


@trial("storm")
def crashes() -> None:
    """Writers through ends of the server and a restart of the database; other editors; twins."""
    with staged(Settings.towns) as stage:
        storm(stage, Settings.seconds)
        twins(stage)
        recovery(stage)
        other_editor(stage)


@trial("storm")
def end_and_detach() -> None:
    """A follower that is ended, and one whose table is detached."""
    with staged() as stage:
        end_follower(stage)
        detached(stage)
