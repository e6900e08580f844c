"""A small repository with the launcher, whose crates a stand-in for the kit proves."""

import contextlib
import fcntl
import os
import pathlib
import pty
import shutil
import signal
import struct
import subprocess
import tempfile
import termios
import time
from collections.abc import Callable, Sequence

HERE = pathlib.Path(__file__).resolve().parent
TOP = HERE.parents[1]
# The crates with those that they use and their lines of code: from `low` to `maplabel` one long
# chain and two short ones.
CRATES = {
    "low": ("", 10),
    "left": ("low", 400),
    "right": ("low std", 20),
    "other": ("low", 30),
    "upper": ("left", 40),
    "apart": ("", 5),
    "maplabel": ("upper right other", 60),
}
NEEDED = [it for it in CRATES if it != "apart"]
# What stands in the small repository as it stands in this one.
COPIED = (
    *("maplabel", "launch", "python", "VERSION", "HANDLES"),
    *("bench/start", "bench/maplabel_kit.py", "bench/maplabel_launch.py"),
    *("deploy/dist", "deploy/maplabel_kit.py", "deploy/maplabel_launch.py"),
)
PAGE = """# A page

The kit is `stand-in` (`rt version`).

## Quick start

```
./maplabel --quick slots 'a b'
```
"""


def write(path: pathlib.Path, text: str) -> None:
    """Writes a file, in folders that may have to be made."""
    path.parent.mkdir(parents=True, exist_ok=True)
    path.write_text(text, encoding="utf-8")


def make_crates(folder: pathlib.Path) -> None:
    """Makes the crates."""
    rows = [f"{name}: {uses}\n" for name, (uses, _) in CRATES.items()]
    write(folder / "crates.txt", "# a comment\n" + "".join(rows))
    for name, (_, lines) in CRATES.items():
        root = "main.rt" if name == "maplabel" else "lib.rt"
        write(folder / "crates" / name / "src" / root, "// a line\n" * lines)
        write(folder / "crates" / name / "specs" / "Lib.antt", "-- a definition\n")
        write(folder / "crates" / name / "proofs" / "Lib.antt", "-- a lemma\n")
    write(folder / "crates" / "maplabel" / "data" / "two.table", "A 0 0 0 1000 -10,-5,10,5\n")


def make_origin(folder: pathlib.Path) -> None:
    """Makes the repository that the checkouts are cloned from."""
    make_crates(folder)
    write(folder / ".gitignore", "out/\n__pycache__/\n")
    ignored = shutil.ignore_patterns("__pycache__")
    for name in COPIED:
        (folder / name).parent.mkdir(exist_ok=True)
        if (TOP / name).is_dir():
            shutil.copytree(TOP / name, folder / name, ignore=ignored)
        else:
            shutil.copy(TOP / name, folder / name)
    write(folder / "launch" / "times.txt", "# none was measured\n")
    write(folder / "README.md", PAGE)
    for name in ("a b", "ä 'x'*", "one", "two"):
        write(folder / name, f"{name}\n")
    formats = (TOP / "docs" / "FORMATS.md").read_text(encoding="utf-8")
    write(folder / "docs" / "FORMATS.md", formats)
    git = ["git", "-C", str(folder), "-c", "user.name=tests", "-c", "user.email=tests@localhost"]
    for words in (["init", "-q"], ["add", "-A"], ["commit", "-q", "-m", "the start"]):
        subprocess.run([*git, *words], check=True)


Ran = subprocess.CompletedProcess[str]


class Checkout:
    """A fresh clone of a repository, with what the stand-in was called with where it stands for the
    kit.
    """

    def __init__(self, origin: str | pathlib.Path, with_kit: bool = False) -> None:
        self.room = tempfile.TemporaryDirectory(prefix="launcher-")
        self.folder = pathlib.Path(os.path.realpath(self.room.name)) / "a clone"
        subprocess.run(["git", "clone", "-q", str(origin), str(self.folder)], check=True)
        self.log = self.folder.parent / "log"
        self.log.touch()
        self.env = {
            **os.environ,
            "XDG_CACHE_HOME": str(self.folder.parent / "cache"),
            "STAND_IN_LOG": str(self.log),
            "STAND_IN_CRATES": str(self.folder / "crates.txt"),
        }
        self.env.pop("MAPLABEL", None)
        if not with_kit:
            self.env["PATH"] = f"{HERE / 'stand_in' / 'bin'}:{os.environ['PATH']}"
        self.program = self.folder / "crates" / "maplabel" / "out" / "maplabel"

    def close(self) -> None:
        """Ends what is at work in the clone, and removes it."""
        for process in self.processes():
            with contextlib.suppress(OSError):
                os.kill(process, signal.SIGKILL)
        self.room.cleanup()

    def run(
        self,
        *words: str,
        launcher: str | pathlib.Path | None = None,
        folder: str | pathlib.Path | None = None,
        before: Sequence[str] = (),
        seconds: float = 120,
        given: str = "",
        **env: str,
    ) -> Ran:
        """Calls the launcher and waits for its end."""
        return subprocess.run(
            [*before, str(launcher or self.folder / "maplabel"), *words],
            cwd=folder or self.folder,
            env={**self.env, **env},
            capture_output=True,
            text=True,
            input=given,
            timeout=seconds,
            check=False,
        )

    def start(self, *words: str, **env: str) -> subprocess.Popen[str]:
        """Calls the launcher and goes on."""
        return subprocess.Popen(
            [str(self.folder / "maplabel"), *words],
            cwd=self.folder,
            env={**self.env, **env},
            stdout=subprocess.PIPE,
            stderr=subprocess.PIPE,
            text=True,
            stdin=subprocess.DEVNULL,
        )

    def on_terminal(
        self,
        *words: str,
        keys: bytes = b"",
        when: Callable[[], bool] = lambda: True,
        seconds: float = 20,
        columns: int = 0,
        **env: str,
    ) -> tuple[str, int]:
        """Calls the launcher on a terminal, types keys once `when` holds, and returns what was seen
        and the status. A terminal of 0 columns tells no width.
        """
        child, terminal = pty.fork()
        if child == 0:
            fcntl.ioctl(0, termios.TIOCSWINSZ, struct.pack("4H", 24, columns, 0, 0))
            os.chdir(self.folder)
            os.execve(str(self.folder / "maplabel"), ["maplabel", *words], {**self.env, **env})
        if keys:
            wait_until(when, seconds)
            os.write(terminal, keys)
        seen = b""
        with contextlib.suppress(OSError):  # the terminal ends with its last process
            while piece := os.read(terminal, 65536):
                seen += piece
        os.close(terminal)
        return seen.decode(errors="replace"), os.waitstatus_to_exitcode(os.waitpid(child, 0)[1])

    def rows(self) -> list[list[str]]:
        """The words of each line of the log."""
        return [line.split() for line in self.log.read_text(encoding="utf-8").splitlines()]

    def calls(self, word: str = "begins") -> list[str]:
        """The crates that the stand-in was called for since the log was emptied, in order."""
        return [row[3] for row in self.rows() if row[1] == word]

    def tries(self) -> int:
        """How often `rt try` was called."""
        return sum(row[1] == "try" for row in self.rows())

    def compiled(self) -> int:
        """How often the sources were compiled without a proof."""
        return sum(row[1] == "compiles" for row in self.rows())

    def begun(self) -> dict[str, tuple[int, int]]:
        """The number of provers and the niceness that each crate began with, the last time."""
        return {row[3]: (int(row[4]), int(row[5])) for row in self.rows() if row[1] == "begins"}

    def together(self) -> list[list[str]]:
        """For each check in the order of their beginnings the crates at work as it began, itself
        last.
        """
        at_work: list[str] = []
        found = []
        for row in self.rows():
            if row[1] == "begins":
                at_work.append(row[3])
                found.append(list(at_work))
            elif row[1] == "ends":
                at_work.remove(row[3])
        return found

    def forget(self) -> None:
        """Empties the log."""
        self.log.write_text("", encoding="utf-8")

    def source(self, name: str) -> pathlib.Path:
        """The root file of a crate."""
        root = "main.rt" if name == "maplabel" else "lib.rt"
        return self.folder / "crates" / name / "src" / root

    def add_line(self, name: str, line: str) -> None:
        """Adds a line to the root file of a crate."""
        with open(self.source(name), "a", encoding="utf-8") as file:
            file.write(f"{line}\n")

    def processes(self) -> list[int]:
        """The processes that work below the checkout's folder."""
        found = []
        for process in filter(str.isdigit, os.listdir("/proc")):
            with contextlib.suppress(OSError):
                if os.readlink(f"/proc/{process}/cwd").startswith(f"{self.folder}/"):
                    found.append(int(process))
        return found

    def commands(self) -> list[str]:
        """What these processes run."""
        found = []
        for process in self.processes():
            with contextlib.suppress(OSError):
                found.append(pathlib.Path(f"/proc/{process}/cmdline").read_text(encoding="utf-8"))
        return found

    def left(self) -> list[str]:
        """What is left of the copy that a build works in."""
        place = self.folder / ".git" / "launch"
        return (
            sorted(it.name for it in place.iterdir() if it.name != "lock") if place.is_dir() else []
        )


def wait_until(holds: Callable[[], bool], seconds: float = 20) -> None:
    """Waits until something holds."""
    end = time.monotonic() + seconds
    while not holds():
        if time.monotonic() > end:
            raise AssertionError("what was waited for did not come")
        time.sleep(0.02)
