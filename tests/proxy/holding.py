"""A client that holds the server while it is to be ended or restarted."""

import os
import pwd
import signal
import socket
import subprocess
import threading
import time

from maplabel_kit.files import folder
from maplabel_kit.ports import HOST
from maplabel_kit.server import Child
from stage import (
    DEPLOY,
    PORT,
    add,
    ask,
    bare_server,
    copy_map,
    fail,
    hold,
    ids,
    ids_in,
    running,
    say,
    town,
    wait_for,
)
from trials import trial


def stop(server: Child, style: str, path: str, *words: str) -> tuple[int, str, float]:
    """The status of `deploy/stop`, what it says, and how long it took."""
    begin = time.monotonic()
    command = [str(DEPLOY / "stop"), str(server.process.pid), style, path, str(PORT), *words]
    done = subprocess.run(command, capture_output=True, text=True, check=False)
    return done.returncode, done.stderr, time.monotonic() - begin


def held_stop(
    words: tuple[str, ...], is_freed: bool, want: int, is_alive: bool, kept: set[str]
) -> float:
    """One `stop` beside a client that holds the server, and lets it go after a second where it
    is so."""
    with folder() as at:
        style, path = copy_map(at)
        with bare_server(style, path) as server:
            add("added-x", port=PORT)
            with hold() as holder:
                if is_freed:
                    threading.Timer(1, holder.close).start()
                status, said, seconds = stop(server, style, path, *words)
            if (status, server.is_running(), ids_in(path)) != (want, is_alive, kept):
                raise fail(
                    f"stop {words} beside a held server: {status} after {seconds:.1f} s, {said}"
                )
            if (want == 0) != (said == "") or (want == 3) != ("is lost" in said):
                raise fail(f"stop {words} says: {said}")
            return seconds


@trial("holding")
def stops() -> None:
    """`stop` beside a client that holds the server: gives up, ends with loss, or waits for it."""
    seconds = held_stop(("--wait", "2", "--never"), False, 1, True, set())
    say(f"stop --wait 2 --never beside a held server gives up after {seconds:.1f} s")
    seconds = held_stop(("--wait", "2"), False, 3, False, set())
    say(f"stop --wait 2 beside it tells what is lost, and ends the server after {seconds:.1f} s")
    seconds = held_stop((), True, 0, False, {"added-x"})
    say(f"stop beside a client that goes after a second loses nothing, after {seconds:.1f} s")


@trial("holding")
def run_waits() -> None:
    """`run` beside a client that holds the server restarts it only once that goes, and ends with
    loss when it is told to end."""
    with folder() as at, running(at, "--wait", "2") as run:
        holder = hold()
        run.process.send_signal(signal.SIGHUP)
        wait_for(lambda: run.said("goes on") > 0, "a restart of a held server does not give up", 90)
        holder.close()
        wait_for(lambda: run.said("ready") == 2, "a planned restart is not tried again")
        if add("added-x", port=PORT) != 200 or ask("GET", "/rev", port=PORT)[0] != 200:
            raise fail("the server is not there after a restart")
        with hold() as link:
            edit_over(link, "added-y")
            status = run.end()
        if status != 3 or ids_in(run.map) or not run.said("is lost"):
            raise fail(f"run ended with {status} beside a held server: {run.lines()}")
    say(
        "run beside a client that holds the server: no restart until it goes; its end tells the"
        " loss"
    )


def edit_over(link: socket.socket, name: str) -> None:
    """An edit over a connection that stays open."""
    text = town(name).encode()
    link.sendall(
        b"POST /feature HTTP/1.1\r\nHost: a\r\nContent-Length: %d\r\n\r\n%s" % (len(text), text)
    )
    if not link.recv(4096).startswith(b"HTTP/1.1 200 "):
        raise fail("a client that holds the server cannot edit")


@trial("holding")
def run_never() -> None:
    """With --never a client that holds the server is no reason to lose what it edited: the server
    goes on, and takes edits."""
    with folder() as at, running(at, "--wait", "2", "--never", "--drain", at / "drain") as run:
        with hold() as link:
            edit_over(link, "added-x")
            run.process.terminate()
            wait_for(lambda: run.said("goes on") > 0, "run --never is not told to go on", 30)
            time.sleep(1.5)
        if run.process.poll() is not None or (at / "drain").exists():
            raise fail(f"run --never beside a held server: {run.lines()}")
        if add("added-y", port=PORT) != 200:
            raise fail("behind an end that did not come about no edit is made")
        if run.end() != 0 or ids_in(run.map) != {"added-x", "added-y"}:
            raise fail(f"run --never loses an edit: {run.lines()}")
    say("run --never: beside a client that holds it the server goes on, and nothing is lost")


@trial("holding")
def run_held_long() -> None:
    """While a client holds the server nothing is saved, and that client alone can edit; behind it
    all is saved, and an edit whose client gave up is made."""
    with folder() as at, running(at, "--save", "0.5") as run:
        with hold() as link:
            edit_over(link, "added-x")
            late = ask("POST", "/feature", town("added-y"), port=PORT, seconds=1)[0]
            time.sleep(3)
            edit_over(link, "added-z")
            if late != 0 or ids_in(run.map) or not run.said("no save has succeeded"):
                raise fail(f"beside a client that holds it: {late}, {run.lines()}")
            who = f"port {link.getsockname()[1]} of user {pwd.getpwuid(os.getuid()).pw_name} has"
            if not run.said(who):
                raise fail(f"it is not told that {who} held the server: {run.lines()}")
        wait_for(
            lambda: ids_in(run.map) == {"added-x", "added-y", "added-z"},
            lambda: f"behind a client that held it {ids_in(run.map)} is saved",
        )
    say("run: a client that holds the server edits alone, and nothing is saved until it goes")


@trial("holding")
def run_given_up() -> None:
    """A second signal to end, beside a client that holds the server, is obeyed at once."""
    with folder() as at, running(at) as run:
        with hold():
            run.process.terminate()
            time.sleep(1.5)
            begin = time.monotonic()
            status, seconds = run.end(), time.monotonic() - begin
        if status != 3 or seconds > 10:
            raise fail(f"a second signal beside a held server: {status} after {seconds:.1f} s")
    say(
        f"run: a second signal ends a server that is held after {seconds:.1f} s, and tells the loss"
    )


def take_port() -> None:
    """Takes the port as soon as no server listens, and holds it for a second."""
    with socket.socket() as link:
        link.setsockopt(socket.SOL_SOCKET, socket.SO_REUSEADDR, 1)
        for _ in range(20_000):
            try:
                link.bind((HOST, PORT))
                break
            except OSError:
                time.sleep(0.0005)
        else:
            raise fail("the port is never free")
        link.listen()
        time.sleep(1)


@trial("holding")
def taken_port() -> None:
    """A restart while another socket has the port for a moment, as a client's may have it by
    chance."""
    with folder() as at, running(at) as run:
        if add("added-x", port=PORT) != 200:
            raise fail("no edit")
        run.process.send_signal(signal.SIGHUP)
        take_port()
        wait_for(
            lambda: run.said("ready") == 2, lambda: f"the server does not come back: {run.lines()}"
        )
        if ids(ask("GET", "/map", port=PORT)[1]) != {"added-x"}:
            raise fail("the edit is lost")
    say("run: another socket has the port for a second during a restart: the server comes back")
