"""Runs the commands of a page in order in an empty folder, and compares what they print.

A block of commands begins with ```sh and one of what is to be printed with ```text; it belongs to
the commands before it. All blocks run in one shell, so variables and functions last. Told are `T`,
the checkout, `MAPLABEL`, the program, and `PORT`, a free port.
"""
import difflib
import os
import re
import subprocess
import tempfile
from collections.abc import Sequence
from pathlib import Path

from maplabel_kit.files import TOP

# Commands, and what they print where that is told.
Blocks = list[tuple[str, str | None]]
BLOCK = re.compile(r"^```(sh|text)\n(.*?)^```$", re.M | re.S)


def blocks_of(page: str) -> Blocks:
    """The blocks of commands of a page with what each prints, none where that is not told."""
    found: Blocks = []
    for kind, text in BLOCK.findall(page):
        if kind == "sh":
            found.append((text, None))
        elif found and found[-1][1] is None:
            found[-1] = found[-1][0], text
        else:
            raise AssertionError("a block of output stands without commands before it")
    return found


def script_of(blocks: Blocks, told: str) -> str:
    """One script of all blocks. Each has its own files for what it prints and for its status."""
    parts = ["set -u"]
    for number, (commands, _) in enumerate(blocks):
        parts.append(
            f'{{\n{commands}\n}} > "{told}/{number}.out"\necho $? > "{told}/{number}.status"\n'
        )
    return "\n".join(parts)


def walk(
    page: Path,
    program: str,
    port: int,
    seconds: float = 300,
    more: Sequence[tuple[str, str | None]] = (),
    **variables: str,
) -> list[str]:
    """The faults of a page, as texts: blocks that printed something else, or whose last command
    failed.

    `more` are blocks behind those of the page, and variables are told to the shell. What the shell
    has left running is ended with it.
    """
    blocks = blocks_of(page.read_text("utf-8")) + list(more)
    faults: list[str] = []
    with tempfile.TemporaryDirectory() as folder, tempfile.TemporaryDirectory() as told, open(
        told + "/said", "wb"
    ) as said:
        run = subprocess.Popen(
            ["bash", "-c", script_of(blocks, told)],
            cwd=folder,
            stdin=subprocess.DEVNULL,
            stdout=said,
            stderr=said,
            start_new_session=True,
            env=dict(os.environ, T=str(TOP), MAPLABEL=program, PORT=str(port), **variables),
        )
        try:
            run.wait(seconds)
        except subprocess.TimeoutExpired:
            faults.append(f"not at its end after {seconds} seconds")
        finally:
            end_group(run.pid)
            run.wait()
        for number, (commands, due) in enumerate(blocks):
            faults += _judged(Path(told), number, commands, due)
        return faults + (
            [Path(told, "said").read_text("utf-8", "replace")[-2000:]] if faults else []
        )


def end_group(leader: int) -> None:
    """Ends what the shell has left running: all of its own group."""
    try:
        os.killpg(leader, 15)
    except ProcessLookupError:
        pass


def _judged(told: Path, number: int, commands: str, due: str | None) -> list[str]:
    """The faults of a block."""
    out, status = told / f"{number}.out", told / f"{number}.status"
    if not status.exists():
        return [f"not run to its end:\n{commands}"]
    found = out.read_text("utf-8", "replace")
    if due is not None and found != due:
        lines = difflib.unified_diff(
            due.splitlines(), found.splitlines(), "the page", "printed", lineterm=""
        )
        return [f"{commands}\n" + "\n".join(lines)]
    if status.read_text().strip() != "0" and due is None:
        return [f"status {status.read_text().strip()}:\n{commands}"]
    return []
