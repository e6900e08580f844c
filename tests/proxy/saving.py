"""The file of the map: it always loads, and it is behind the server by no more than is told."""

import os
import random
import signal
import subprocess
import time
from pathlib import Path

from crowd import Editors
from maplabel_kit.files import folder
from maplabel_run.process import opened
from stage import (
    DATA,
    DEPLOY,
    PORT,
    Run,
    add,
    ask,
    bare_server,
    copy_map,
    end_process,
    fail,
    ids_in,
    loads,
    running,
    say,
    wait_for,
)
from trials import trial

KILLS = 60
SLACK = 3.0  # seconds that a save may take by itself on a busy machine, and the look before it


def status(script: str, *words: str) -> int:
    """The status of a script of deploy/."""
    done = subprocess.run([str(DEPLOY / script), *words], capture_output=True, check=False)
    return done.returncode


def save(process: int, style: str, path: str, *words: str) -> "subprocess.Popen[bytes]":
    """A `deploy/save` that is under way."""
    command = [str(DEPLOY / "save"), str(process), style, path, str(PORT), *words]
    return subprocess.Popen(command, stdout=subprocess.DEVNULL)


@trial("saving")
def killed_saver() -> None:
    """`save` is killed at random moments while the map is edited: the file loads each time."""
    lot, changed, before = random.Random(1), 0, b""
    with folder() as at:
        style, path = copy_map(at)
        with bare_server(style, path) as server:
            process, begin = server.process.pid, time.monotonic()
            save(process, style, path).wait()
            seconds = time.monotonic() - begin
            editors = Editors(2, PORT)
            for _ in range(KILLS):
                saver = save(process, style, path, "--every", "0")
                time.sleep(lot.uniform(0, 3 * seconds))
                end_process(saver, signal.SIGKILL)
                changed += before != (before := Path(path).read_bytes())
                if not loads(style, path):
                    raise fail("after a save was killed the file is not loaded")
            editors.end()
            if save(process, style, path).wait() != 0 or ids_in(path) != set(editors.made):
                raise fail("a save by itself does not hold each edit")
    say(
        f"save: takes {seconds:.2f} s; killed {KILLS} times, the file had changed {changed} times "
        f"between, and was loaded each time; then it held all {len(editors.made)} edits"
    )
    if changed < 5:
        raise fail("no save came to its end")


@trial("saving")
def planned() -> None:
    """A planned restart, SIGTERM and Ctrl-C while clients edit: no edit that was answered is lost,
    and none is made without an answer."""
    for number in (signal.SIGHUP, signal.SIGTERM, signal.SIGINT):
        with folder() as at, running(at, "--save", "1") as run:
            editors = Editors(4, PORT)
            time.sleep(2)
            if number == signal.SIGHUP:
                run.process.send_signal(number)
                wait_for(lambda: run.said("ready") == 2, "SIGHUP does not restart the server")
                time.sleep(0.5)
            elif run.end(number) != 0:
                raise fail(f"{number.name}: run ends with {run.process.returncode}")
            editors.end()
            if number == signal.SIGHUP and run.end() != 0:
                raise fail("run does not end well behind a restart")
            made, there = set(editors.made), ids_in(run.map)
            if made != there or not made:
                raise fail(
                    f"{number.name}: of {len(made)} edits {len(made - there)} are lost, and"
                    f" {len(there - made)} were made without an answer"
                )
        say(f"run: {number.name} while clients edit: none of {len(made)} edits is lost")


@trial("saving")
def ended_while_loading() -> None:
    """Told to end while the server loads its map, at the start and at a planned restart, it ends at
    once, with each edit in the file and no server left."""
    with folder() as at:
        run = Run(at, "--save", "3600", towns=32_000)
        try:
            add("added-1", 1, PORT)
            run.process.send_signal(signal.SIGHUP)
            wait_for(lambda: run.said("nothing is lost") > 0, "no planned restart")
            for name, wanted in (("a restart", {"added-1"}), ("a start", {"added-1"})):
                if name == "a start":
                    run.launch()
                    wait_for(lambda: bool(_servers(run)), "no server is started")
                run.process.terminate()
                seconds = wait_for(
                    lambda: run.process.poll() is not None,
                    f"told to end during {name} it stays",
                    30,
                )
                if run.process.returncode != 0 or ids_in(run.map) != wanted or _servers(run):
                    raise fail(
                        f"told to end during {name}: {run.process.returncode}, {run.lines()}"
                    )
        finally:
            run.surely_end()
    say(f"run: told to end while the server loads 32,000 towns it ends in {seconds:.1f} s")


def _servers(run: Run) -> list[str]:
    """The processes that serve the map of a `run`."""
    words = ["pgrep", "-f", f" serve {run.style} {run.map} "]
    return subprocess.run(words, capture_output=True, text=True, check=False).stdout.split()


@trial("saving")
def server_killed() -> None:
    """The server is killed: what is lost is younger than the pause between saves."""
    crash(of_supervisor=False)


@trial("saving")
def run_killed() -> None:
    """`run` is killed: the same."""
    crash(of_supervisor=True)


def crash(of_supervisor: bool) -> None:
    """The server, or what watches it, is killed between saves that are a second apart."""
    with folder() as at, running(at, "--save", "1") as run:
        editors = Editors(4, PORT)
        time.sleep(3.9)
        os.kill(run.process.pid if of_supervisor else run.server(), signal.SIGKILL)
        moment = time.monotonic()
        editors.going = False
        editors.end()
        if of_supervisor:
            run.process.wait()
            wait_for(
                lambda: ask("GET", "/rev", port=PORT)[0] == 0, "the server goes on without run"
            )
            run.start()
        else:
            wait_for(lambda: run.said("ready") == 2, "the server is not started again")
        lost = set(editors.made) - ids_in(run.map)
        oldest = max([moment - editors.made[name] for name in lost] or [0])
        if oldest > 1 + SLACK or not lost < set(editors.made):
            raise fail(f"{oldest:.1f} s are lost, more than the pause between saves")
        if run.end() != 0:
            raise fail("run does not end well behind a crash")
    say(
        f"run: {'by itself' if of_supervisor else 'the server'} killed: {len(lost)} of "
        f"{len(editors.made)} edits lost, the oldest made {oldest:.1f} s before"
    )


@trial("saving")
def kept_style() -> None:
    """A style that comes by `style` is there after a restart; one that is refused changes
    nothing."""
    with folder() as at, running(at) as run:
        text = (DATA / "world.toml").read_text()
        new, bad = at / "new.toml", at / "bad.toml"
        new.write_text(text.replace("size = ", "size = 1") + "\n# other sizes\n")
        bad.write_text("x =")
        words = [run.style, run.map, str(PORT)]
        if status("style", str(bad), *words) != 1:
            raise fail("a bad style is not told")
        if Path(run.style).read_text() != text:
            raise fail("a bad style is kept")
        if status("style", str(new), *words) != 0:
            raise fail("a style is not taken")
        states = ask("GET", "/state", port=PORT)[1].split(b"\n", 1)[1]
        run.process.send_signal(signal.SIGHUP)
        wait_for(lambda: run.said("ready") == 2, "SIGHUP does not restart the server")
        if ask("GET", "/state", port=PORT)[1].split(b"\n", 1)[1] != states:
            raise fail("the style is another one after a restart")
        if ask("PUT", "/style", text, port=PORT)[0] != 200:
            raise fail("a style is not taken")
        if ask("GET", "/state", port=PORT)[1].split(b"\n", 1)[1] == states:
            raise fail("the styles of this test are alike")
        run.process.send_signal(signal.SIGHUP)
        wait_for(lambda: run.said("ready") == 3, "SIGHUP does not restart the server")
        if ask("GET", "/state", port=PORT)[1].split(b"\n", 1)[1] != states:
            raise fail("a style that came by PUT is there after a restart")
    say("style: kept over a restart; a bad one changes nothing; one that came by PUT is gone")


@trial("saving")
def spoilt_style() -> None:
    """Where the map that came is not loaded, the file stays, `stop` ends nothing, and `run` goes
    on until that is mended."""
    with folder() as at:
        style, path = copy_map(at)
        with bare_server(style, path) as server:
            add("added-x", port=PORT)
            Path(style).write_text("x =")
            words = [str(DEPLOY / "stop"), str(server.process.pid), style, path, str(PORT)]
            done = subprocess.run(words, capture_output=True, text=True, check=False)
            if done.returncode != 1 or not server.is_running() or ids_in(path):
                raise fail(f"a map that is not loaded: {done.stderr}")
            if "NotToml" not in done.stderr or ids_in(path + ".new") != {"added-x"}:
                raise fail(f"the map that is not loaded is gone: {done.stderr}")
    with folder() as at, running(at, "--save", "3600") as run:
        text = Path(run.style).read_text()
        add("added-y", port=PORT)
        Path(run.style).write_text("x =")
        run.process.send_signal(signal.SIGHUP)
        wait_for(lambda: run.said("goes on") > 0, "a spoilt style is not told")
        if run.process.poll() is not None or ask("GET", "/rev", port=PORT)[0] != 200:
            raise fail("a spoilt style ends the server")
        Path(run.style).write_text(text)
        wait_for(lambda: run.said("ready") == 2, "no restart once the style is mended")
        if run.end() != 0 or ids_in(run.map) != {"added-y"}:
            raise fail("an edit is lost beside a spoilt style")
    say("under a style that is spoilt nothing is ended, and it is told why")


@trial("saving")
def counted() -> None:
    """A server that ended after its connections had no more than were counted from outside."""
    with folder() as at:
        before = opened()
        with bare_server(*copy_map(at), count=500) as server:
            while server.is_running():
                ask("GET", "/rev", port=PORT, seconds=5)
            said, count = server.out.read(), opened() - before
    if said != b"served 500\n" or count < 500:
        raise fail(f"{said!r}, and {count} connections were opened")
    say(f"run: {count} connections were counted from outside where the server served 500")


@trial("saving")
def bad_words() -> None:
    """What is wrong with the words is told by the status, and nothing is written."""
    with folder() as at:
        style, path = copy_map(at)
        none, port = str(at / "none"), str(PORT)
        wrong = [
            ("run", none, path, port),
            ("run", style, none, port),
            ("stop", "4194305", style, path, port),
            ("save", "4194305", style, path, port),
            ("style", none, style, path, port),
            ("style", style, style, path, port),
        ]
        misused = [
            ("run", style, path),
            ("run", style, path, port, "--reserve", "0"),
            ("run", style, path, port, "--count", "10", "--reserve", "10"),
            ("stop", "x", style, path, port),
        ]
        for want, calls in ((1, wrong), (2, misused)):
            for words in calls:
                if (got := status(*words)) != want:
                    raise fail(f"{' '.join(words)} ends with {got} in place of {want}")
        with bare_server(style, path):
            if status("run", style, path, port) != 1:
                raise fail("run at a port that is in use")
        known = {"style.toml", "live.geojson", "live.geojson.lock", "live.geojson.run", "none.run"}
        if left := {one.name for one in at.iterdir()} - known:
            raise fail(f"left behind: {left}")
    say("bad words and files: status 1 and 2, and nothing is written")
