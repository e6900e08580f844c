"""What `deploy/dist` makes: the same twice, whole, and it runs in an empty folder."""

import os
import signal
import socket
import subprocess
from pathlib import Path

from maplabel_kit.files import folder
from stage import DEPLOY, PORT, ask, copy_map, end_process, fail, program, say, wait_for
from trials import trial


def made(at: Path, name: str) -> tuple[Path, bytes]:
    """The file that dist makes of this checkout and the program that is tried."""
    path = at / name
    words = [str(DEPLOY / "dist"), str(path), "--program", program()]
    done = subprocess.run(words, capture_output=True, text=True, check=False)
    if done.returncode != 0:
        raise fail(f"dist failed: {done.stderr}")
    return path, path.read_bytes()


def unpacked(at: Path) -> Path:
    """The folder of what was made, with its checksums tried."""
    path, before = made(at, "maplabel.tar.gz")
    for _ in range(3):  # more than once, since someone may be writing in the checkout meanwhile
        path, first = made(at, "maplabel.tar.gz")
        if first == before:
            break
        before = first
    else:
        raise fail("dist makes another file each time")
    subprocess.run(["tar", "-C", str(at), "-xzf", str(path)], check=True)
    top = at / "maplabel"
    for is_spoilt in (False, True):
        if is_spoilt:
            with open(top / "README.md", "a", encoding="utf-8") as file:
                file.write("x")
        words = ["sha256sum", "-c", "--quiet", "SHA256SUMS"]
        done = subprocess.run(words, cwd=top, capture_output=True, check=False)
        if (done.returncode != 0) != is_spoilt:
            raise fail(f"checksums, spoilt: {is_spoilt}: {done.stdout!r}")
    say(f"dist: the same {len(first)} bytes twice; checksums hold, and a spoilt file is told")
    return top


@trial("packing")
def runs_there() -> None:
    """The `deploy/run` of what dist made serves the map with its own program, and says when it
    is ready."""
    with folder() as at, socket.socket(socket.AF_UNIX, socket.SOCK_DGRAM) as told:
        top = unpacked(at)
        style, path = copy_map(at)
        told.bind(str(at / "notify"))
        told.settimeout(60)
        env = {"PATH": os.environ["PATH"], "NOTIFY_SOCKET": str(at / "notify")}
        words = [str(top / "deploy" / "run"), style, path, str(PORT)]
        run = subprocess.Popen(
            words, cwd="/", env=env, stdout=subprocess.DEVNULL, stderr=subprocess.DEVNULL
        )
        try:
            while told.recv(1000) != b"READY=1":
                pass
            if ask("GET", "/rev", port=PORT)[0] != 200:
                raise fail("what dist made does not serve")
            run.send_signal(signal.SIGINT)
            if run.wait() != 0:
                raise fail(f"run ends with {run.returncode}")
        finally:
            end_process(run)
    wait_for(lambda: ask("GET", "/rev", port=PORT)[0] == 0, "the server stays")
    say("dist: unpacked in an empty folder, it serves, and says when it is ready")


@trial("packing")
def words_told() -> None:
    """Each script of deploy/ tells its words, and those of a server are all that are wanted."""
    for name in ("run", "save", "stop", "style", "sync", "dist"):
        done = subprocess.run([str(DEPLOY / name), "--help"], capture_output=True, check=False)
        if done.returncode != 0 or b"usage" not in done.stdout:
            raise fail(f"deploy/{name} --help: {done.stderr!r}")
    say("each script of deploy/ tells its words")
