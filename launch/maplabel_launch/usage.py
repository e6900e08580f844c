"""What the launcher says of itself: --help, help for a command, and --version."""

import os
import subprocess
from pathlib import Path

from maplabel_launch import build, kit, release
from maplabel_launch.faults import Fault
from maplabel_launch.forms import EXAMPLES, Command

HEAD = """Usage: maplabel COMMAND WORDS..

It runs the proved program in the folder that it is called from. Where that is not built yet, or a
source has changed since, it first proves and builds it; what is done is kept, and a second start
goes on from there. Words and files are looked at before anything is built.

Options of the launcher, before the command:
  --quick COMMAND WORDS..  answer within a minute or so from the sources as they stand, without any
                           proof, and at once from then on; where the proved program is built and
                           fresh, that answers
  --release FILE COMMAND WORDS..
                           answer by the program of a release (a file or its folder, as deploy/dist
                           makes it), which was proved elsewhere, if it was proved from these very
                           sources; without a command, only look whether it was
  --build                  prove and build the program where that is due, and compare it with the
                           release that was used last
  --help, -h, help         print this
  help COMMAND, COMMAND --help
                           print the words of one command, and an example
  --version                print the version, the state of the sources, the kit, and whether the
                           proved program is built

Commands:
"""
TAIL = """
docs/FORMATS.md tells the files, the words and the status of each command. The launcher itself ends
with status 70 where the program cannot be built or run, and with 128 and the signal's number where
a signal ends it.
"""


def help_text(commands: dict[str, Command]) -> str:
    """The text of --help."""
    lines = [f"  {it.form}\n      {it.told}" for it in commands.values()]
    return HEAD + "\n".join(lines) + "\n" + TAIL


def help_of(command: Command) -> str:
    """The words of a command and an example of it."""
    lines = [f"Usage: maplabel {command.form}", "", f"It prints {command.told}."]
    if command.name in EXAMPLES:
        lines += ["", "At the top of the repository, for example:", ""]
        lines += [f"  ./maplabel {command.name} {EXAMPLES[command.name]}"]
    lines += ["", "docs/FORMATS.md tells what each word may be, the files, and the status."]
    return "\n".join(lines) + "\n"


def version(top: str) -> str:
    """The version of the repository."""
    try:
        return Path(f"{top}/VERSION").read_text(encoding="utf-8").strip()
    except OSError:
        return "of no version"


def commit(top: str) -> str:
    """The commit that the sources stand at, where git can tell."""
    command = ["git", "-C", top, "describe", "--always", "--dirty", "--exclude", "*"]
    try:
        told = subprocess.run(command, capture_output=True, text=True, check=True)
        return f"commit {told.stdout.strip()}"
    except (OSError, subprocess.CalledProcessError):
        return "of no commit that git knows"


def state_of_program(top: str, is_fresh: bool, kit_name: str | None) -> str:
    """Whether the proved program is built, by the times of the sources or else by their texts."""
    if is_fresh:
        return "built and fresh"
    if not os.path.isfile(build.program_of(top)):
        return "not built"
    if kit_name is None:
        return "built; without the kit it cannot be told whether from these sources"
    try:
        if build.is_built(build.needed_of(top), kit_name):
            return "built and fresh, by the texts of the sources, though not by their times"
    except (Fault, OSError) as fault:
        return f"built; whether from these sources cannot be told: {fault}"
    return "older than its sources"


def version_text(top: str, is_fresh: bool) -> str:
    """The text of --version."""
    if release.is_release(top):
        return release.version_text(top)
    kit_name: str | None = None
    lines = [f"maplabel {version(top)} ({commit(top)})"]
    try:
        kit_name = kit.name()
        lines.append(f"kit: {kit_name}")
    except Fault:
        lines.append("kit: not found; ./maplabel --release FILE needs none")
    if kit_name and kit.differs(top, kit_name):
        lines.append(f"      README.md names another: {kit.named(top)}")
    lines.append(f"proved program: {state_of_program(top, is_fresh, kit_name)}")
    return "\n".join(lines) + "\n"
