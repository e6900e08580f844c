"""`deploy/run` and its parts while the disk, the folder, the readers and the server itself have
faults."""

import contextlib
import os
import signal
import subprocess
import threading
import time
from collections.abc import Callable, Iterator
from pathlib import Path

from crowd import Editors
from maplabel_kit.files import folder
from stage import (
    DATA,
    DEPLOY,
    PORT,
    Run,
    add,
    ask,
    copy_map,
    end_process,
    fail,
    hold,
    ids,
    ids_in,
    loads,
    low_ports,
    program,
    running,
    say,
    served_map,
    wait_for,
)
from trials import trial

ROOM = "4m"
NOBODY = ("setpriv", "--reuid=nobody", "--regid=nogroup", "--clear-groups", "--")


@contextlib.contextmanager
def disk() -> Iterator[Path | None]:
    """A small disk of its own, or none where none can be mounted."""
    with folder() as at:
        words = ["mount", "-t", "tmpfs", "-o", f"size={ROOM},mode=777", "tmpfs", str(at)]
        if subprocess.run(words, capture_output=True, check=False).returncode != 0:
            say("no disk can be mounted: faults of a disk are not tried (run this as root)")
            yield None
            return
        try:
            yield at
        finally:
            subprocess.run(["umount", "-l", str(at)], check=True)


def remount(at: Path, how: str) -> None:
    """Makes the disk one that can be written, or one that cannot."""
    subprocess.run(["mount", "-o", f"remount,{how}", str(at)], check=True)


def fill(at: Path) -> Path:
    """Takes all room of the disk."""
    path = at / "filler"
    with contextlib.suppress(OSError), open(path, "wb", buffering=0) as file:
        while True:
            file.write(b"x" * 4096)
    return path


def expect_started(run: Run, number: int) -> None:
    """An edit of its own is made."""
    if add(f"added-{number}", number, PORT) != 200:
        raise fail(f"an edit is not made: {run.lines()}")


@trial("disk")
def read_only() -> None:
    """A folder that becomes one which cannot be written: the server goes on, and what was edited is
    saved as soon as it can be."""
    with disk() as at:
        if at is None:
            return
        run = Run(at, "--save", "0.5", before=NOBODY)
        try:
            expect_started(run, 1)
            wait_for(lambda: run.said("saved revision") > 0, "no save")
            at.chmod(0o555)
            expect_started(run, 2)
            time.sleep(4)
            if run.process.poll() is not None or ask("GET", "/rev", port=PORT)[0] != 200:
                raise fail("a folder that cannot be written ends the server")
            if not run.said("not saved") or not run.said("no save has succeeded"):
                raise fail(f"a folder that cannot be written is not told: {run.lines()}")
            at.chmod(0o777)
            wait_for(lambda: "added-2" in ids_in(run.map), "what was edited meanwhile is not saved")
            if run.end() != 0 or ids_in(run.map) != {"added-1", "added-2"}:
                raise fail("an edit is lost")
        finally:
            run.surely_end()
    say("run: in a folder that cannot be written the server goes on, and saves once it can be")


@trial("disk")
def unfit_start() -> None:
    """Where nothing can be saved, no server is started, and a sentence says why."""
    with disk() as at:
        if at is not None:
            _unfit_starts(at)


def _unfit_starts(at: Path) -> None:
    """`run` is started under each fault of a disk, which is mended behind it."""
    style, path = copy_map(at)
    text, port = Path(style).read_text(), str(low_ports(1)[0])
    acts: dict[str, Callable[[], object]] = {
        "a disk that cannot be written": lambda: remount(at, "ro"),
        "a folder that cannot be written": lambda: at.chmod(0o555),
        "a full disk": lambda: fill(at),
        "a foreign lock": lambda: _foreign_lock(path),
        "a spoilt style": lambda: Path(style).write_text("x ="),
    }
    for fault, act in acts.items():
        act()
        words = [*NOBODY, str(DEPLOY / "run"), style, path, port]
        try:
            done = subprocess.run(words, capture_output=True, text=True, timeout=60, check=False)
        except subprocess.TimeoutExpired:
            raise fail(f"{fault} is no reason to run not to serve") from None
        remount(at, "rw")
        at.chmod(0o777)
        Path(style).write_text(text)
        for one in (at / "filler", Path(path + ".run"), Path(path + ".lock")):
            one.unlink(missing_ok=True)
        said = done.stderr.strip()
        is_told = said.startswith("run: ") and "Traceback" not in said
        if done.returncode != 1 or "ready" in done.stdout or not is_told:
            raise fail(f"{fault}: run ends with {done.returncode}: {said}")
        if fault != "a spoilt style" and "\n" in said:
            raise fail(f"{fault} is told in more than a sentence: {said}")
    say(f"run: {', '.join(acts)} are told at the start")


def _foreign_lock(path: str) -> None:
    """A lock that another user alone may open."""
    Path(path + ".lock").touch(mode=0o600)
    os.chmod(path + ".lock", 0o600)


@trial("disk")
def foreign_lock() -> None:
    """The lock of the map becomes another user's while the map is served: the server goes on."""
    with disk() as at:
        if at is None:
            return
        run = Run(at, "--save", "0.5", before=NOBODY)
        try:
            expect_started(run, 1)
            wait_for(lambda: run.said("saved revision") > 0, "no save")
            os.unlink(run.map + ".lock")
            _foreign_lock(run.map)
            expect_started(run, 2)
            time.sleep(3)
            if run.process.poll() is not None or ask("GET", "/rev", port=PORT)[0] != 200:
                raise fail("a lock of another user ends the server")
            os.unlink(run.map + ".lock")
            wait_for(lambda: "added-2" in ids_in(run.map), "nothing is saved once the lock is free")
            if run.end() != 0:
                raise fail(f"run does not end: {run.lines()[-3:]}")
        finally:
            run.surely_end()
    say("run: a lock of another user stops no server, and what was edited is saved later")


@trial("disk")
def full_at_end() -> None:
    """A full disk at the end: `run` goes on trying, and ends once there is room; nothing is
    lost."""
    with disk() as at:
        if at is None:
            return
        with running(at, "--save", "3600") as run:
            expect_started(run, 1)
            filler = fill(at)
            run.process.terminate()
            time.sleep(8)
            if run.process.poll() is not None or not run.said("tried again"):
                raise fail(f"a full disk at the end: {run.process.poll()}, {run.lines()}")
            filler.unlink()
            seconds = wait_for(lambda: run.process.poll() is not None, "it does not end with room")
            if run.process.returncode != 0 or ids_in(run.map) != {"added-1"}:
                raise fail(f"a full disk at the end loses: {run.process.returncode}")
    say(f"run: told to end on a full disk it waits, and ends {seconds:.1f} s after there is room")


@trial("disk")
def given_up() -> None:
    """A second signal ends it on a full disk, with loss, which is told."""
    with disk() as at:
        if at is None:
            return
        with running(at, "--save", "3600") as run:
            expect_started(run, 1)
            fill(at)
            run.process.terminate()
            time.sleep(0.2)
            run.process.terminate()
            wait_for(lambda: run.said("tried again") > 0, "the full disk is not told")
            time.sleep(4)
            if run.process.poll() is not None:
                raise fail("a signal that comes twice within a second counts as two")
            if run.end() != 3 or not run.said("is lost"):
                raise fail(f"a second signal on a full disk: {run.lines()}")
            if not loads(run.style, run.map):
                raise fail("the map of a full disk is not loaded")
    say("run: on a full disk a second signal ends it with loss, which it tells")


@trial("disk")
def full_at_count() -> None:
    """The connections run out on a full disk: edits are no more made before they are used up,
    and none that was answered is lost."""
    with disk() as at:
        if at is None:
            return
        options = ("--save", "3600", "--count", "1000", "--reserve", "400", "--drain", at / "drain")
        with running(at, *options) as run:
            filler = fill(at)
            editors = Editors(3, PORT, 0.002)
            wait_for(lambda: run.said("nobody is answered") > 0, "edits are taken to the end", 60)
            if not (at / "drain").exists():
                raise fail("the proxy is not told to refuse edits")
            before = len(editors.made)
            time.sleep(4)
            if run.said("by itself") or len(editors.made) > before:
                raise fail("edits are made though nothing can be saved and connections run out")
            filler.unlink()
            wait_for(lambda: run.said("ready") == 2, lambda: f"no restart: {run.lines()[-3:]}")
            time.sleep(1)
            editors.end()
            lost = set(editors.made) - ids(served_map())
            if lost or run.said("by itself"):
                raise fail(f"{len(lost)} edits of {len(editors.made)} are lost on a full disk")
            say(
                f"run: connections run out on a full disk: of {len(editors.made)} edits none is"
                " lost"
            )


@trial("disk")
def second_run() -> None:
    """A second `run` on one map, by another port and another name of the file, says who has it."""
    with folder() as at, running(at, "--save", "0.5") as run:
        other = at / "other.geojson"
        other.symlink_to(run.map)
        for path in (run.map, str(other)):
            words = [str(DEPLOY / "run"), run.style, path, str(low_ports(1)[0])]
            try:
                done = subprocess.run(words, capture_output=True, text=True, timeout=8, check=False)
            except subprocess.TimeoutExpired:
                raise fail("a second run on one map serves it") from None
            if done.returncode != 1 or f"process {run.process.pid}" not in done.stderr:
                raise fail(f"a second run on one map: {done.returncode}, {done.stderr}")
        if run.end() != 0:
            raise fail("the first run does not end well")
        run.start()
    say("run: a second one on the same map says which process has it, and ends with status 1")


@trial("lines")
def stopped_reader() -> None:
    """Whoever reads standard error has stopped: the server goes on, lines are dropped, which is
    told."""
    reader, writer = os.pipe()
    with folder() as at, open(reader, "rb", buffering=0), open(writer, "wb") as said:
        run = Run(at, "--save", "3600", towns=32_000, said=said)
        try:
            expect_started(run, 1)
            begin = time.monotonic()
            done = threading.Event()

            def restyle() -> None:
                text = (DATA / "world.toml").read_bytes().replace(b"size = 1", b"size = 2")
                for _ in range(2):
                    ask("PUT", "/style", text, port=PORT, seconds=60)
                    text = text.replace(b"size = 2", b"size = 3")
                done.set()

            threading.Thread(target=restyle, daemon=True).start()
            if not done.wait(40) or ask("GET", "/rev", port=PORT, seconds=10)[0] != 200:
                raise fail("a reader of standard error that has stopped holds the server")
            seconds = time.monotonic() - begin
            wait_for(lambda: run.said("are dropped") > 0, "it is not told that lines are dropped")
            if run.end() != 0 or ids_in(run.map) != {"added-1"}:
                raise fail("run does not end well beside a reader that has stopped")
        finally:
            run.surely_end()
    say(
        f"run: two styles of 32,000 towns took {seconds:.1f} s while nobody read the lines of"
        " changes"
    )


@trial("lines")
def stopped_log() -> None:
    """Whoever reads what `run` itself tells has stopped: it serves, saves and ends all the same."""
    reader, writer = os.pipe()
    with folder() as at, open(reader, "rb", buffering=0), open(writer, "wb", buffering=0) as said:
        os.set_blocking(writer, False)
        while said.write(b"x" * 4096):
            pass
        os.set_blocking(writer, True)
        style, path = copy_map(at)
        words = [str(DEPLOY / "run"), style, path, str(PORT), "--save", "0.3"]
        process = subprocess.Popen(words, stdout=said, stderr=subprocess.DEVNULL)
        try:
            wait_for(lambda: ask("GET", "/rev", port=PORT)[0] == 200, "nothing is served")
            for number in range(2):
                add(f"added-{number}", number, PORT)
                wait_for(lambda: len(ids_in(path)) == number + 1, "nothing is saved")
            process.send_signal(signal.SIGHUP)
            wait_for(lambda: add("added-2", 2, PORT) == 200, "no edit is made")
            wait_for(lambda: len(ids_in(path)) == 3, "nothing is saved behind a restart")
            if end_process(process) != 0:
                raise fail(f"run ends with {process.returncode} beside a reader that has stopped")
        finally:
            end_process(process, signal.SIGKILL)
    say("run: where nobody reads its own lines it serves, saves, restarts and ends")


@trial("lines")
def whole_lines() -> None:
    """What the server says on standard error comes through whole, where someone reads it."""
    with folder() as at:
        with open(at / "said", "wb") as said:
            run = Run(at, "--save", "3600", said=said)
        with contextlib.ExitStack() as stack:
            stack.callback(run.surely_end)
            for number in range(50):
                add(f"added-{number}", number, PORT)
            run.end()
        lines = (at / "said").read_text().splitlines()
        told = {line.split()[0] for line in lines if line.startswith("added-")}
        if told != {f"added-{number}" for number in range(50)}:
            raise fail(f"of 50 edits {len(told)} are told on standard error")
    say("run: the lines of changes come through standard error")


@trial("hung")
def hung() -> None:
    """A server that is stopped is told and started again; one that a client holds is not."""
    with folder() as at, running(at, "--save", "0.5", "--hung", "3") as run:
        expect_started(run, 1)
        wait_for(lambda: run.said("saved revision") > 0, "no save")
        with hold():
            time.sleep(6)
        if run.said("ready") != 1 or run.said("hung"):
            raise fail(f"a client that holds the server: {run.lines()}")
        os.kill(run.server(), signal.SIGSTOP)
        seconds = wait_for(lambda: run.said("ready") == 2, "a server that is stopped stays so")
        if not run.said("has hung") or ids(ask("GET", "/map", port=PORT)[1]) != {"added-1"}:
            raise fail(f"a hung server: {run.lines()}")
    say(f"run: a stopped server is served again after {seconds:.1f} s; one that is held is left")


@trial("hung")
def hung_while_held() -> None:
    """A server that is stopped while a client has its connection is no less hung."""
    with folder() as at, running(at, "--save", "0.5", "--hung", "3") as run:
        with hold() as link:
            link.sendall(b"GET /rev HTTP/1.1\r\n")
            time.sleep(0.5)
            os.kill(run.server(), signal.SIGSTOP)
            link.sendall(b"Host: a\r\n\r\n")
            wait_for(lambda: run.said("ready") == 2, "a stopped server that a client has stays so")
    say("run: a stopped server that a client has is served again too")


STUB = """#!/usr/bin/python3
import os, socket, sys, time
if sys.argv[1] == "serve" and os.path.exists({mark!r}):
    with open({mark!r}) as file:
        is_taken = file.read() == "it does not read what was sent to it"
    os.remove({mark!r})
    door = socket.create_server(("127.0.0.1", int(sys.argv[4])))
    print("ready", flush=True)
    kept = [door.accept() for _ in range(is_taken)]
    time.sleep(600)
os.execv({program!r}, [{program!r}, *sys.argv[1:]])
"""


@trial("hung")
def idle() -> None:
    """A server that runs, and takes no connection or reads nothing though some wait for it, is
    started again too."""
    for how in ("it takes no connection, though some wait", "it does not read what was sent to it"):
        with folder() as at:
            stub, mark = at / "stub", at / "mark"
            stub.write_text(STUB.format(mark=str(mark), program=program()))
            stub.chmod(0o755)
            mark.write_text(how)
            with running(at, "--save", "0.5", "--hung", "3", "--program", stub) as run:
                wait_for(
                    lambda: run.said("ready") == 2,
                    lambda: f"a server that does nothing stays so: {run.lines()}",
                )
                is_told = any(" has hung for " in line and how in line for line in run.lines())
                if not is_told or add("added-1", 1, PORT) != 200:
                    raise fail(f"a server that does nothing: {run.lines()}")
    say("run: a server that takes or reads nothing, though it runs, is started again")
