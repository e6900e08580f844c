"""`deploy/run` and its parts, and the server, with faults that strace puts into their calls of the
system."""

import contextlib
import errno
import os
import re
import shutil
import subprocess
import time
from collections.abc import Iterator
from pathlib import Path

from crowd import Editors
from maplabel_kit.files import folder
from maplabel_kit.server import DOOR_FAULT, Child
from stage import (
    DEPLOY,
    PORT,
    Run,
    add,
    ask,
    bare_server,
    copy_map,
    fail,
    ids_in,
    loads,
    program,
    running,
    say,
    wait_for,
)
from trials import trial

TOUCHING = ("openat", "write", "fsync", "rename", "renameat2") + (
    "pwrite64",
    "ftruncate",
    "copy_file_range",
    "sendfile",
)


@trial("killed")
def at_each_call() -> None:
    """`save` is killed at each call by which it touches the map's files: the file is whole each
    time."""
    if not shutil.which("strace"):
        say("strace is not installed: kills at each call are not tried")
        return
    with folder() as at:
        style, path = copy_map(at)
        with bare_server(style, path) as server:
            saver = [str(DEPLOY / "save"), str(server.process.pid), style, path, str(PORT)]
            kills = made = 0
            for call in TOUCHING:
                for number in range(1, 100):
                    made += 1
                    if _is_whole(saver, style, path, f"{call}:signal=KILL:when={number}", made):
                        break
                    kills += 1
            if ids_in(path) != {f"added-{one}" for one in range(1, made + 1)} or kills < 4:
                raise fail(f"killed {kills} times, save does not hold each edit")
    say(f"save: killed at each of {kills} calls on its files it leaves a map that is loaded")


def _is_whole(saver: list[str], style: str, path: str, inject: str, made: int) -> bool:
    """Whether a save came to its end though a kill was to come at a call; the file is whole then
    or not."""
    if add(f"added-{made}", made, PORT) != 200:
        raise fail("no edit")
    before = Path(path).read_bytes()
    words = ["strace", "-f", "-qq", "-o", path + ".trace", "-P", path, "-P", path + ".new"]
    done = subprocess.run(
        [*words, "-e", "inject=" + inject, *saver], capture_output=True, check=False
    )
    if Path(path).read_bytes() != before and not loads(style, path):
        raise fail(f"killed at {inject}, save leaves a map that is broken")
    return done.returncode == 0


@trial("killed")
def stop_lets_go_late() -> None:
    """`stop` with a pause before it ends the server: no edit is made in that pause."""
    if not shutil.which("strace"):
        say("strace is not installed: a pause before the end is not tried")
        return
    with folder() as at:
        style, path = copy_map(at)
        with bare_server(style, path) as server:
            editors = Editors(4, PORT, 0.001)
            time.sleep(0.5)
            words = [
                "strace",
                "-f",
                "-qq",
                "-o",
                str(at / "trace"),
                "-e",
                "inject=kill:delay_enter=2000000",
            ]
            stop = [str(DEPLOY / "stop"), str(server.process.pid), style, path, str(PORT)]
            done = subprocess.run([*words, *stop], capture_output=True, text=True, check=False)
            editors.end()
            lost = set(editors.made) - ids_in(path)
            if done.returncode != 0 or lost or server.is_running():
                raise fail(
                    f"stop with a pause before the kill: status {done.returncode}, lost"
                    f" {len(lost)} of {len(editors.made)}: {done.stderr}"
                )
    say(f"stop: with two seconds before the kill none of {len(editors.made)} edits is lost")


DOORS = ("ECONNABORTED", "EMFILE", "ENFILE", "ENOBUFS", "ENOMEM", "EPROTO", "EPERM")


@contextlib.contextmanager
def short_of(error: str, when: str) -> Iterator[Child]:
    """A server whose calls to accept a connection fail, those that are told."""
    with folder() as at:
        style, path = copy_map(at)
        inject = f"inject=accept,accept4:error={error}:when={when}"
        words = ["strace", "-f", "-qq", "-o", str(at / "trace"), "-e", "trace=accept,accept4"]
        words += ["-e", inject, program(), "serve", style, path]
        with Child([*words, PORT, 100]) as child:
            if child.first_line() != b"ready\n":
                raise fail("the server is not ready")
            yield child


def has_strace() -> bool:
    """Whether faults can be put in; told where not."""
    if not shutil.which("strace"):
        say("strace is not installed: faults of accept are not tried")
        return False
    return True


@trial("doors")
def accept() -> None:
    """A connection that fails while it is accepted: the server serves the next one."""
    if not has_strace():
        return
    for name in DOORS:
        with short_of(name, "2") as child:
            add("added-1", 1, PORT)
            got = [ask("GET", "/rev", port=PORT, seconds=10)[0] for _ in range(3)]
            if got != [200] * 3 or not child.is_running():
                raise fail(f"accept that fails once with {name}: {got}, {child.process.poll()}")
    say(f"serve: accept that fails once with any of {', '.join(DOORS)} is tried again")


@trial("doors")
def shortage() -> None:
    """Descriptors are wanting for a while: no connection is lost, and the server waits between its
    tries."""
    if not has_strace():
        return
    with short_of("EMFILE", "2..31") as child:
        add("added-1", 1, PORT)
        begin = time.monotonic()
        status, seconds = ask("GET", "/rev", port=PORT, seconds=60)[0], time.monotonic() - begin
        if status != 200 or not 2 < seconds < 30 or not child.is_running():
            raise fail(f"30 times EMFILE: {status} after {seconds:.1f} s, {child.process.poll()}")
    say(f"serve: accept that fails 30 times with EMFILE: the client waited {seconds:.1f} s")


@trial("doors")
def gone() -> None:
    """A door that is really gone, and a shortage that lasts for a minute, end the server with its
    status for that."""
    if not has_strace():
        return
    told = []
    for name, least, most in (("EBADF", 0.0, 20.0), ("ENOMEM", 50.0, 120.0)):
        with short_of(name, "2+") as child:
            begin = time.monotonic()
            add("added-1", 1, PORT)
            wait_for(lambda: not child.is_running(), f"{name} without an end ends no server", 150)
            seconds = time.monotonic() - begin
            if child.process.returncode != DOOR_FAULT or not least <= seconds < most:
                raise fail(f"{name}: status {child.process.returncode} after {seconds:.1f} s")
            told.append(f"{name} after {seconds:.0f} s")
    say(f"serve: accept that fails without an end ends it with {DOOR_FAULT}: {', '.join(told)}")


CALL = r"\b(\w+)\((?:\d+<([^>]*)>|.*\"([^\"]*)\", \"([^\"]*)\")"
REFUSED = (("openat", "EROFS"), ("write", "ENOSPC"), ("fsync", "EIO"), ("rename", "EDQUOT"))


@contextlib.contextmanager
def injected(process: int, path: str, call: str, error: str) -> Iterator[None]:
    """A fault of a call that a process makes on a file, as long as the block."""
    words = ["strace", "-f", "-qq", "-o", path + ".trace", "-p", str(process)]
    words += ["-P", path, "-e", f"trace={call}", "-e", f"inject={call}:error={error}"]
    with Child(words, stdout=subprocess.DEVNULL):
        wait_for(lambda: _is_traced(process), "strace does not come to the process")
        yield
    wait_for(lambda: not _is_traced(process), "strace does not go")


def _is_traced(process: int) -> bool:
    """Whether all threads of a process are traced."""
    return all(
        "TracerPid:\t0\n" not in (one / "status").read_text()
        for one in Path(f"/proc/{process}/task").iterdir()
    )


@trial("disk")
def refused() -> None:
    """A disk that can no more be written, is full, has faults or is used up, while the map is
    served: the server goes on, it is told, and what was edited is saved as soon as it can be."""
    if not shutil.which("strace") or os.geteuid() != 0:
        say("strace is not installed, or this is not root: a disk with faults is not tried")
        return
    with folder() as at, running(at, "--save", "0.5") as run:
        for number, (call, error) in enumerate(REFUSED):
            failed, saved = run.said("not saved"), run.said("saved revision")
            with injected(run.process.pid, run.map + ".new", call, error):
                if add(f"added-{number}", number, PORT) != 200:
                    raise fail(f"{error}: an edit is not made")
                wait_for(lambda: _said_why(run, failed, error), lambda: f"{error}: {run.lines()}")
                time.sleep(1)
                if run.process.poll() is not None or ask("GET", "/rev", port=PORT)[0] != 200:
                    raise fail(f"{error} ends the server")
                if f"added-{number}" in ids_in(run.map) or not loads(run.style, run.map):
                    raise fail(f"{error}: the map is not as it was")
            wait_for(lambda: run.said("saved revision") > saved, f"{error}: nothing is saved again")
        if run.end() != 0 or len(ids_in(run.map)) != len(REFUSED):
            raise fail("an edit is lost")
    say(f"run: beside {', '.join(error for _, error in REFUSED)} it goes on, and saves once it can")


def _said_why(run: Run, failed: int, error: str) -> bool:
    """Whether a save has failed, and by the error that was put in."""
    lines = [line for line in run.lines() if "not saved" in line]
    return len(lines) > failed and os.strerror(getattr(errno, error)) in lines[-1]


@trial("killed")
def on_disk() -> None:
    """A save has the map on the disk before that takes the place of the old one, and the folder
    then: where the machine stops, there is the one or the other."""
    if not shutil.which("strace"):
        say("strace is not installed: the order in which a map is written is not tried")
        return
    with folder() as at:
        style, path = copy_map(at)
        with bare_server(style, path) as server:
            add("added-1", 1, PORT)
            words = ["strace", "-f", "-qq", "-y", "-o", str(at / "trace")]
            words += ["-e", "trace=write,fsync,fdatasync,rename,renameat,renameat2"]
            saver = [str(DEPLOY / "save"), str(server.process.pid), style, path, str(PORT)]
            subprocess.run([*words, *saver], stdout=subprocess.DEVNULL, check=True)
        there = os.path.realpath(at)
        order = []
        for line in (at / "trace").read_text().splitlines():
            if found := re.search(CALL, line):
                order.append((found[1], found[2] or f"{found[3]} {found[4]}"))
        want = [
            ("write", f"{there}/live.geojson.new"),
            ("fsync", f"{there}/live.geojson.new"),
            ("rename", f"{path}.new {path}"),
            ("fsync", there),
        ]
        places = [len(order) - 1 - order[::-1].index(one) for one in want if one in order]
        if len(places) < len(want) or places != sorted(places):
            raise fail(f"the order in which a map is written: {order}")
    say("save: the map is on the disk before it has its name, and the name is behind that")
