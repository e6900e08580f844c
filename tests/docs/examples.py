"""Whether the printed examples are what the program prints: each block of the kind `console` is
run.

A line `$ WORDS` is run by the shell in a folder that has what the checkout has, and the lines
behind it are what it must print. `$ cat NAME` of a file that is not there makes it, of the lines
behind it. What ends with `&` runs until the block is done; the block goes on once it has printed a
line. A line `[..]` stands for any lines.
"""
import os
import re
import shutil
import signal
import subprocess
import tempfile
from collections.abc import Iterator
from typing import Any

from maplabel_kit.ports import free_port
from maplabel_kit.server import Child
from names import Names
from pages import Block, Page

# The examples run with a program that is built, which does what the quick one does.
LAUNCHER = "./maplabel "
QUICK = "./maplabel --quick "
SHOWN_PORT = "47100"
SECONDS = 120
ANY = "[..]"


def steps(block: Block) -> list[tuple[int, str, list[str]]]:
    """The commands of a block, each with its line and the lines that it must print."""
    found: list[tuple[int, str, list[str]]] = []
    for number, line in enumerate(block.lines, block.line + 1):
        if line.startswith("$ "):
            found.append((number, line[2:], []))
        elif found:
            found[-1][2].append(line)
    return found


def is_printed(due: list[str], got: list[str]) -> bool:
    """Whether the lines that are due were printed."""
    pattern = "\n".join("(?:.*\n?)*?" if line == ANY else re.escape(line) for line in due)
    return re.fullmatch(pattern, "\n".join(got)) is not None


class Stage:
    """A folder in which the examples of one page run."""

    def __init__(self, root: str, program: str) -> None:
        self.folder = tempfile.mkdtemp(prefix="examples-")
        self.port = str(free_port())
        self.running: list[Child] = []
        self.made: set[str] = set()
        for name in os.listdir(root):
            if name not in ("maplabel", ".git"):
                os.symlink(os.path.join(root, name), os.path.join(self.folder, name))
        os.symlink(program, os.path.join(self.folder, "maplabel"))

    def close(self) -> None:
        """Ends what runs, and takes the folder away."""
        self.end()
        shutil.rmtree(self.folder)

    def end(self) -> None:
        """Ends what was started with `&`."""
        for child in self.running:
            child.end()
        self.running = []

    def makes(self, command: str, lines: list[str]) -> bool:
        """Whether the command is `cat` of a file that is to be made here; then it is made."""
        name = command.removeprefix("cat ")
        path = os.path.join(self.folder, name)
        if name == command or " " in name or (os.path.exists(path) and name not in self.made):
            return False
        with open(path, "w", encoding="utf-8") as file:
            file.write("".join(line + "\n" for line in lines))
        self.made.add(name)
        return True

    def run(self, command: str, lines: list[str]) -> str | None:
        """What is wrong with one step, or nothing."""
        if self.makes(command, lines):
            return None
        words = command.replace(SHOWN_PORT, self.port).replace(QUICK, LAUNCHER)
        if words.endswith("&"):
            return self.start(words[:-1])
        printed = self.printed(words)
        if printed is None:
            return f"{command} does not end within {SECONDS} seconds"
        got = (
            printed.replace(self.port, SHOWN_PORT)
            .replace("\r\n", "\n")
            .removesuffix("\n")
            .split("\n")
        )
        if is_printed(lines, [] if got == [""] else got):
            return None
        return f"{command}\n    prints   " + "\n             ".join(got)

    def printed(self, words: str) -> str | None:
        """What a command prints; none where it does not end in time, and then it is ended with all
        that it started.
        """
        with subprocess.Popen(
            ["bash", "-c", words],
            cwd=self.folder,
            stdin=subprocess.DEVNULL,
            stdout=subprocess.PIPE,
            stderr=subprocess.STDOUT,
            start_new_session=True,
        ) as process:
            try:
                return process.communicate(timeout=SECONDS)[0].decode("utf-8", "replace")
            except subprocess.TimeoutExpired:
                os.killpg(process.pid, signal.SIGKILL)
                return None

    def start(self, words: str) -> str | None:
        """Starts what goes on beside the next steps, once it has printed a line."""
        child = Child(["bash", "-c", "exec " + words], cwd=self.folder)
        self.running.append(child)
        return None if child.first_line() else f"{words}& ends before it has printed a line"


def examples_hold(pages: list[Page], names: Names, program: str) -> Iterator[Any]:
    """Each printed example is what the program prints."""
    for page in pages:
        blocks = [block for block in page.blocks if block.kind == "console"]
        if not blocks:
            continue
        stage = Stage(names.root, program)
        try:
            for block in blocks:
                for line, command, lines in steps(block):
                    fault = stage.run(command, lines)
                    if fault:
                        yield page.fault(line, fault)
                stage.end()
        finally:
            stage.close()
