"""The forms of the commands, as the table in docs/FORMATS.md has them, and what is wrong with words
that have none of them.
"""

import difflib
import os
import re
import shlex
from collections.abc import Callable, Sequence
from dataclasses import dataclass

from maplabel_launch.faults import FILE_FAULT, TOO_LONG, USAGE, Fault

ROW = re.compile(r"\| `([^`]+)` \| (.+) \|")
WHOLE = re.compile(r"-?[0-9]{1,10}")
FRACTION = re.compile(r"([0-9]{1,10})(?:/([0-9]{1,10}))?")
FILES = ("STYLE", "MAP", "TABLE", "SLOTS", "STATES")
# The program takes no longer file.
LONGEST = 67_108_864
STYLE, MAP = "crates/maplabel/data/world.toml", "crates/maplabel/data/world.geojson"
TABLE = "crates/maplabel/data/two.table"
# For each command the words of an example that runs at the top of the repository.
EXAMPLES = {
    "view": f"{STYLE} {MAP} 0 0 1024 512 3515625",
    "show": f"{TABLE} 200 0 1024 768 19/1",
    "slots": TABLE,
    "check": f"{TABLE} slots.txt    # slots.txt being what `slots {TABLE}` printed",
    "gaps": TABLE,
    "gapview": f"{TABLE} 200 0 1024 768 19/1",
    "zoom": f"{STYLE} {MAP} 85000000 468000000 400 300",
    "pipe": f"{STYLE} {MAP} < requests    # requests as docs/FORMATS.md tells them",
    "serve": f"{STYLE} {MAP} 47100 100000",
    "gen": "6000 100",
    "follow": "states.txt    # states.txt being what the path /state of a server gave",
}


@dataclass(frozen=True)
class Command:
    """A command: its name, the names of its words, and what it prints."""

    name: str
    words: tuple[str, ...]
    told: str

    @property
    def form(self) -> str:
        """Its form, as a user writes it."""
        return " ".join([self.name, *self.words])

    def files(self, given: Sequence[str]) -> list[str]:
        """Which of the words that were given name files."""
        return [word for name, word in zip(self.words, given) if name in FILES]


def read(top: str) -> dict[str, Command]:
    """The commands by their names; none where docs/FORMATS.md is not there."""
    try:
        with open(f"{top}/docs/FORMATS.md", encoding="utf-8") as file:
            text = file.read()
    except OSError:
        return {}
    section = text.partition("\n## Commands\n")[2].partition("\n## ")[0]
    found = {}
    for row in filter(None, map(ROW.fullmatch, section.split("\n"))):
        name, *words = row[1].split()
        found[name] = Command(name, tuple(words), row[2].replace("`", ""))
    return found


def whole(least: int, most: int, is_even: bool = False) -> Callable[[str], bool]:
    """Whether a word is a whole number between two."""

    def holds(word: str) -> bool:
        if not WHOLE.fullmatch(word):
            return False
        return least <= int(word) <= most and not (is_even and int(word) % 2)

    return holds


def is_scale(word: str) -> bool:
    """Whether a word is a fraction above 0 and below 268435456."""
    found = FRACTION.fullmatch(word)
    if not found:
        return False
    upper, lower = int(found[1]), int(found[2] or 1)
    return upper <= 4_294_967_296 and 1 <= lower <= 65_536 and 0 < upper < 268_435_456 * lower


COORDINATE = (
    whole(-2_000_000_000, 2_000_000_000),
    "a whole number of 10^-7 degree, from -2000000000 to 2000000000",
)
SIZE = (whole(2, 4096, is_even=True), "a whole number of pixels, even, from 2 to 4096")
# What each word must be that names no file, by its name in the table.
KINDS: dict[str, tuple[Callable[[str], bool], str]] = {
    "CX": COORDINATE,
    "CY": COORDINATE,
    "W": SIZE,
    "H": SIZE,
    "SCALE": (is_scale, "a fraction as 320000 or 39/2, above 0 and below 268435456"),
    "PORT": (whole(1, 65_535), "a whole number from 1 to 65535"),
    "COUNT": (whole(1, 1_000_000), "a whole number from 1 to 1000000"),
    "N": (whole(1, 6_000), "a whole number from 1 to 6000"),
    "K": (whole(0, 4_294_967_295), "a whole number from 0 to 4294967295"),
}


def fault_of_words(commands: dict[str, Command], words: Sequence[str]) -> str | None:
    """What is wrong with words that have the form of no command, or none."""
    if not commands:
        return None
    if not words:
        forms = [f"  {it.form}" for it in commands.values()]
        return "\n".join(["no command is told; the commands are", *forms])
    command = commands.get(words[0])
    if command is None:
        return _unknown(commands, words[0])
    found = _miscounted(command, words[1:]) or _misfit(command, words[1:])
    return f"{found}\n  the form is: {command.form}" if found else None


def _unknown(commands: dict[str, Command], word: str) -> str:
    near = difflib.get_close_matches(word.lower(), commands, 1, 0.6)
    meant = f"; perhaps {near[0]} is meant" if near else ""
    return f"there is no command {shown(word)}{meant}; the commands are {', '.join(commands)}"


def _miscounted(command: Command, given: Sequence[str]) -> str | None:
    """What is wrong with the number of words."""
    if len(given) < len(command.words):
        *left, last = command.words[len(given) :]
        told = f"{', '.join(left)} and {last} are" if left else f"{last} is"
        return f"{command.name}: {told} missing"
    if len(given) > len(command.words):
        more = " ".join(map(shown, given[len(command.words) :]))
        return f"{command.name}: too many words, from {more} on"
    return None


def _misfit(command: Command, given: Sequence[str]) -> str | None:
    """What is wrong with the first word that is none of its kind."""
    for name, word in zip(command.words, given):
        holds, wanted = KINDS.get(name, (lambda _: True, ""))
        if not holds(word):
            return f"{command.name}: {name} is {shown(word)}, but it has to be {wanted}"
    return None


def shown(word: str) -> str:
    """A word as a sentence shows it."""
    return shlex.quote(word)


def fault_of_files(paths: Sequence[str]) -> tuple[str, int] | None:
    """What is wrong with the first of these files that the program could not take, and the status
    that it would end with, or none.
    """
    for path in paths:
        found = fault_of_file(path)
        if found:
            return found
    return None


def fault_of_file(path: str) -> tuple[str, int] | None:
    """What is wrong with a file that the program could not take, or none."""
    if os.path.isdir(path):
        return f"{shown(path)} is a folder, and a file is wanted", FILE_FAULT
    if os.path.exists(path) and not os.path.isfile(path):
        # (a pipe is read once, and by the program)
        return None
    try:
        with open(path, "rb") as file:
            length = os.fstat(file.fileno()).st_size
    except FileNotFoundError:
        return f"there is no file {shown(path)} in {os.getcwd()}", FILE_FAULT
    except (OSError, ValueError) as error:
        return f"{shown(path)} cannot be read: {getattr(error, 'strerror', error)}", FILE_FAULT
    if length > LONGEST:
        return f"{shown(path)} has {length:,} bytes, and at most {LONGEST:,} are taken", TOO_LONG
    return None


def check(commands: dict[str, Command], words: Sequence[str]) -> None:
    """Raises what the program would refuse of the words or the files, before anything is built."""
    found = fault_of_words(commands, words)
    if found:
        raise Fault(f"{found}\n  {how_to_learn(commands, words)}", USAGE)
    if words and words[0] in commands:
        of_files = fault_of_files(commands[words[0]].files(words[1:]))
        if of_files:
            raise Fault(*of_files)


def how_to_learn(commands: dict[str, Command], words: Sequence[str]) -> str:
    """Where more is told of a command."""
    if words and words[0] in commands:
        return f"`./maplabel help {words[0]}` has an example"
    return "`./maplabel --help` tells what each does"
