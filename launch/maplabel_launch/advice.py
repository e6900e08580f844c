"""What a status of the program means, told on standard error behind what the program printed.

Words that have no form and files that cannot be read are told by the launcher's own table of forms.
What a refusal of a style or a map means comes from the table of `maplabel_kit`, which the tools use
too; where that package is not there, the form of the command is told alone.
"""

import os
import subprocess
from collections.abc import Sequence

from maplabel_launch import forms
from maplabel_launch.faults import FILE_FAULT, TOO_LONG, USAGE, tell
from maplabel_launch.forms import Command

STYLE_REFUSED, INPUT_REFUSED, DOOR_FAULT, NO_MEMORY = 3, 4, 8, 9
# A command with a style and a map is asked for this view to see what it refuses: it serves nobody
# and reads no standard input.
VIEW = ("0", "0", "2", "2", "1")
# So many seconds the program has for its refusal once more.
PATIENCE = 60


def explain(top: str, program: str, words: Sequence[str], status: int) -> None:
    """Tells what the status means that the program ended with."""
    commands = forms.read(top)
    if status == USAGE:
        _explain_words(commands, words)
    elif status in (FILE_FAULT, TOO_LONG) and words and words[0] in commands:
        found = forms.fault_of_files(commands[words[0]].files(words[1:]))
        if found:
            tell(f"maplabel: {found[0]}")
    elif status in (STYLE_REFUSED, INPUT_REFUSED) and words and words[0] in commands:
        for line in _refusal(program, commands[words[0]], words[1:], status):
            tell(line)
    elif status in (DOOR_FAULT, NO_MEMORY):
        for line in _table_of("", status):
            tell(line)


def _explain_words(commands: dict[str, Command], words: Sequence[str]) -> None:
    """Tells which word is wrong, and the form of the command."""
    found = forms.fault_of_words(commands, words)
    if found:
        tell(f"maplabel: {found}")
    tell(f"maplabel: {forms.how_to_learn(commands, words)}")


def _refusal(program: str, command: Command, given: Sequence[str], status: int) -> list[str]:
    """The explanation of a refusal, where the table and the files can be read."""
    files = command.files(given)
    if not all(map(os.path.isfile, files)):
        return []
    return _table_of(_line(program, command, given, status), status, *files[:2])


def _table_of(line: str, status: int, *files: str) -> list[str]:
    """What the table of `maplabel_kit` tells of a line and a status, where it is there."""
    try:
        from maplabel_kit import explain
    except ImportError:
        return []
    found = explain.lines(line, status, *files)
    return ["maplabel: what that means:", *found] if found else []


def _line(program: str, command: Command, given: Sequence[str], status: int) -> str:
    """The line of the refusal. The program has printed it where its standard output goes, so it is
    asked once more, for something that comes to the same refusal.
    """
    words = [command.name, *given]
    if command.words[:2] == ("STYLE", "MAP"):
        words = ["view", *given[:2], *VIEW]
    try:
        done = subprocess.run(
            [program, *words],
            stdin=subprocess.DEVNULL,
            capture_output=True,
            text=True,
            errors="replace",
            timeout=PATIENCE,
            check=False,
        )
    except subprocess.TimeoutExpired:
        return ""
    return done.stdout.strip().split("\n")[-1] if done.returncode == status else ""
