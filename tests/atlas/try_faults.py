"""Faults while an atlas is made: in the end it has the same bytes, and only what is left is
asked.
"""

import contextlib
import re
import shutil
import signal
import subprocess
import sys
import time
from collections.abc import Iterator
from dataclasses import dataclass
from pathlib import Path

from maplabel_kit.ports import free_port
from maplabel_kit.server import Child

from maplabel_atlas.store import Store
from stage import COMMAND, Layer, atlas, columns, environment, folder, layer

PLACES, CELL = 40_000, 500
PATIENCE = 600
MOUNT = "16m"
# The engine, but for tables with one place while a file is there: these it does not answer.
POISONED = """#!/bin/sh
if [ "$1" = slots ] && [ -e {mark} ] && grep -q ' {x} {y} ' "$2"; then exit 9; fi
exec {engine} "$@"
"""


@dataclass
class Stage:
    """A layer, the bytes that an atlas of it should have, and the engine."""

    at: Path
    engine: Path
    layer: Layer
    wanted: dict[str, bytes]

    def words(self, out: Path, *more: object) -> list[object]:
        """The words of `make`."""
        made = self.layer
        return ["make", made.places, made.six, out, "--cell", CELL, "--workers", 2, *more]

    def compare(self, out: Path, what: str) -> None:
        """Sees that an atlas has the bytes that it should have."""
        assert columns(out) == self.wanted, f"{what}: other bytes"

    def begin(self, out: Path, *more: object, engine: Path | None = None) -> subprocess.Popen[str]:
        """Starts a command."""
        return subprocess.Popen(
            [str(COMMAND), *map(str, self.words(out, *more))],
            env=environment(engine or self.engine),
            stdout=subprocess.DEVNULL,
            stderr=subprocess.PIPE,
            text=True,
        )


def wait_for_answers(out: Path, count: int, run: subprocess.Popen[str]) -> None:
    """Waits until the memo holds so many answers and the command still works."""
    end = time.monotonic() + PATIENCE
    while len(list(out.glob("memo/*/*/*"))) < count:
        assert run.poll() is None, f"the command ended too early: {run.communicate()[1]}"
        assert time.monotonic() < end, "the command does not come on"
        time.sleep(0.02)


def known_of(said: str) -> tuple[int, int]:
    """How many questions a command asked, and how many were known from before."""
    found = re.search(r"made: (\d+) questions asked, (\d+) known", said)
    assert found, f"it does not tell what it asked: {said}"
    return int(found[1]), int(found[2])


@contextlib.contextmanager
def scheduler(
    workers: int, folders: list[Path] | None = None
) -> Iterator[tuple[str, Child, list[Child]]]:
    """A Dask scheduler and workers, each a process of its own, over TCP."""
    port = free_port()
    address = f"tcp://127.0.0.1:{port}"
    path = {"PYTHONPATH": str(COMMAND.parent), "PATH": "/usr/bin:/bin", "HOME": "/tmp"}
    python = [sys.executable, "-m"]
    words = [
        "distributed.cli.dask_scheduler",
        "--host",
        "127.0.0.1",
        "--port",
        port,
        "--no-dashboard",
    ]
    with contextlib.ExitStack() as stack:
        first = stack.enter_context(Child([*python, *words], env=path))
        others = []
        for number in range(workers):
            words = [
                "distributed.cli.dask_worker",
                address,
                "--nthreads",
                "1",
                "--no-nanny",
                "--no-dashboard",
            ]
            where = folders[number] if folders else COMMAND.parent
            local = stack.enter_context(folder())
            child = Child([*python, *words, "--local-directory", local], env=path, cwd=where)
            others.append(stack.enter_context(child))
        yield address, first, others


def worker_killed(stage: Stage) -> str:
    """A worker is killed while tables are asked: the others go on."""
    out = stage.at / "worker"
    with scheduler(3) as (address, _, workers):
        run = stage.begin(out, "--scheduler", address)
        wait_for_answers(out, 12, run)
        workers[0].process.kill()
        said = run.communicate(timeout=PATIENCE)[1]
        assert run.returncode == 0, f"without one worker: {said}"
    stage.compare(out, "a worker killed")
    return "a worker killed"


def command_killed(stage: Stage) -> str:
    """The command is killed: a second start asks only what is left."""
    out = stage.at / "command"
    run = stage.begin(out)
    wait_for_answers(out, 15, run)
    run.kill()
    run.communicate()
    asked, known = known_of(atlas(stage.engine, *stage.words(out)).said)
    assert known >= 15 and asked > 0, f"{known} known, {asked} asked"
    stage.compare(out, "the command killed")
    asked, known = known_of(atlas(stage.engine, *stage.words(out)).said)
    assert asked == 0, f"a third start asks {asked} questions"
    stage.compare(out, "made once more")
    return "the command killed"


def scheduler_lost(stage: Stage) -> str:
    """The scheduler ends: the command says so, and a second start goes on from there."""
    out = stage.at / "scheduler"
    with scheduler(2) as (address, first, _):
        run = stage.begin(out, "--scheduler", address)
        wait_for_answers(out, 12, run)
        first.process.kill()
        said = run.communicate(timeout=PATIENCE)[1]
        assert run.returncode == 1 and "was lost; what was answered is kept" in said, said
        assert "Traceback" not in said, said
    none = atlas(stage.engine, *stage.words(out, "--scheduler", address), status=1).said
    assert "no scheduler answers at" in none, none
    with scheduler(2) as (address, _, _):
        asked, known = known_of(atlas(stage.engine, *stage.words(out, "--scheduler", address)).said)
        assert known >= 12 and asked > 0, f"{known} known, {asked} asked"
    stage.compare(out, "the scheduler lost")
    return "the scheduler lost"


def region_poisoned(stage: Stage) -> str:
    """The engine gives no answer for one region: it is named, all others are answered."""
    at, out, mark = stage.at, stage.at / "poisoned", stage.at / "poison"
    x, y = Store(stage.at / "good").load().state.labels.place[-1].tolist()
    longitude, latitude = x / 1e7, y / 1e7
    engine = at / "engine"
    engine.write_text(POISONED.format(mark=mark, x=x, y=y, engine=stage.engine), encoding="ascii")
    engine.chmod(0o755)
    mark.touch()
    run = atlas(engine, *stage.words(out), status=1)
    named = re.findall(
        r"longitude (-?[\d.]+) to (-?[\d.]+), latitude (-?[\d.]+) to (-?[\d.]+): .*status 9",
        run.said,
    )
    assert len(named) == 1, f"not one region is named: {run.said}"
    west, east, south, north = map(float, named[0])
    assert west <= longitude <= east and south <= latitude <= north, f"another region: {run.said}"
    assert not (out / "now").exists(), "there is an atlas though a region is wanting"
    mark.unlink()
    asked, known = known_of(atlas(engine, *stage.words(out)).said)
    assert asked <= 3, f"with the cause removed {asked} questions are asked, {known} known"
    stage.compare(out, "a region poisoned")
    return f"a region poisoned ({asked} of {asked + known} questions asked anew)"


def disk_full(stage: Stage) -> str:
    """The disk is full: the command says so; with room it goes on from there."""
    at = stage.at / "disk"
    at.mkdir()
    mounted = subprocess.run(
        ["mount", "-t", "tmpfs", "-o", f"size={MOUNT}", "atlas-test", str(at)],
        capture_output=True,
        check=False,
    )
    if mounted.returncode != 0:
        return "the disk full: not tried, since nothing can be mounted here"
    try:
        filler = at / "filler"
        filler.write_bytes(b"x" * 13_500_000)
        out = at / "out"
        run = atlas(stage.engine, *stage.words(out), status=1)
        assert "No space left on device" in run.said and "Make room" in run.said, run.said
        assert not (out / "now").exists(), "there is an atlas though the disk was full"
        filler.unlink()
        subprocess.run(["mount", "-o", "remount,size=200m", str(at)], check=True)
        asked, known = known_of(atlas(stage.engine, *stage.words(out)).said)
        assert known > 0, f"{known} known, {asked} asked"
        stage.compare(out, "the disk full")
        return f"the disk full ({known} answers kept)"
    finally:
        subprocess.run(["umount", str(at)], check=True)


def other_engine(stage: Stage) -> str:
    """A worker has another engine at the same path: it is named, and nothing of it is taken."""
    mine, other = stage.at / "mine", stage.at / "other"
    for one in (mine, other):
        one.mkdir()
        shutil.copy(stage.engine, one / "engine")
    with (other / "engine").open("ab") as file:
        file.write(b"\\0")
    out = stage.at / "engines"
    with scheduler(2, [mine, other]) as (address, _, _):
        run = subprocess.run(
            [str(COMMAND), *map(str, stage.words(out, "--scheduler", address))],
            env=environment(Path("/proc/self/cwd/engine")),
            cwd=mine,
            capture_output=True,
            text=True,
            check=False,
        )
        assert (
            run.returncode == 1 and "has another engine at /proc/self/cwd/engine" in run.stderr
        ), run.stderr
    return "another engine"


def broken_off(stage: Stage) -> str:
    """SIGTERM: the command ends at once with its processes, and a second start goes on."""
    out = stage.at / "ended"
    run = stage.begin(out)
    wait_for_answers(out, 10, run)
    run.send_signal(signal.SIGTERM)
    said = run.communicate(timeout=PATIENCE)[1]
    assert run.returncode == 143 and "ended before it was done" in said, said
    atlas(stage.engine, *stage.words(out))
    stage.compare(out, "SIGTERM")
    return "SIGTERM"


def run(engine: Path) -> str:
    """Tries all faults."""
    with folder() as at:
        made, out = layer(at, PLACES), at / "good"
        stage = Stage(at, engine, made, {})
        atlas(engine, *stage.words(out))
        stage.wanted = columns(out)
        tries = (
            worker_killed,
            command_killed,
            scheduler_lost,
            region_poisoned,
            disk_full,
            other_engine,
            broken_off,
        )
        told = [one(stage) for one in tries]
    return f"the same bytes in the end after: {', '.join(told)}"
