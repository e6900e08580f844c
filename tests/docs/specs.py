"""The definitions of the crates: where each stands, and which others it uses."""

import glob
import os
import re
from collections.abc import Iterator
from dataclasses import dataclass
from typing import Any

HEAD = re.compile(r"(?:abbrev|unfoldable) pub (\S+)|pub (?:record|data) (\S+)|pub (\w+) :")
MUTUAL = re.compile(r"^(?:\w+ )?mutual\n((?:  .*\n|\n)*)", re.MULTILINE)
USE = re.compile(r"use Rattle\.(\S+?)\.specs\.(\S+?)\.\{([^}]*)\}")
WORD = re.compile(r"[^\W\d][\w']*")
DECLARED = "declared"


@dataclass(frozen=True)
class Definition:
    """A definition: its crate, its module, its name and its text without comments."""

    crate: str
    module: str
    name: str
    text: str


def without_comments(text: str) -> str:
    """The text without what stands behind two dashes."""
    return "\n".join(line.partition("--")[0] for line in text.split("\n"))


def heads(text: str) -> list[tuple[str, str]]:
    """The definitions of a module as pairs of name and text; those that stand within `mutual` are
    like the others.
    """
    text = MUTUAL.sub(
        lambda block: re.sub(r"^  ", "", block.group(1), flags=re.MULTILINE),
        without_comments(text) + "\n",
    )
    parts: list[tuple[str | None, str]] = []
    name: str | None = None
    lines: list[str] = []
    for line in text.split("\n"):
        head = HEAD.match(line)
        if head:
            parts.append((name, "\n".join(lines)))
            name, lines = next(filter(None, head.groups())), []
        lines.append(line)
    parts.append((name, "\n".join(lines)))
    return [(name, body) for name, body in parts if name]


class Specs:
    """All definitions of all crates below a folder."""

    def __init__(self, root: str) -> None:
        self.by_place: dict[tuple[str, str, str], Definition] = {}
        self.uses: dict[tuple[str, str], dict[str, Any]] = {}
        self.by_name: dict[str, list[Definition]] = {}
        for path in sorted(glob.glob(os.path.join(root, "crates", "*", "specs", "*.antt"))):
            self.read(path)

    def read(self, path: str) -> None:
        """Takes in the module at the path."""
        folder, file = os.path.split(path)
        crate, module = os.path.basename(os.path.dirname(folder)), file.removesuffix(".antt")
        if module == "Lib":
            return
        with open(path, encoding="utf-8") as stream:
            text = stream.read()
        uses = {}
        for used, place, names in USE.findall(text):
            for name in WORD.findall(names):
                uses[name] = (used, place)
        self.uses[crate, module] = uses
        for name, body in heads(text):
            definition = Definition(crate, module, name, body)
            self.by_place[crate, module, name] = definition
            self.by_name.setdefault(name, []).append(definition)

    def modules(self) -> set[tuple[str, str]]:
        """The modules, each with its crate."""
        return set(self.uses)

    def used_by(self, definition: Definition) -> Iterator[Definition]:
        """The definitions that a definition uses."""
        uses = self.uses[definition.crate, definition.module]
        for name in sorted(set(WORD.findall(definition.text)) - {definition.name}):
            crate, module = uses.get(name, (definition.crate, definition.module))
            found = self.by_place.get((crate, module, name))
            if found:
                yield found

    def below(self, roots: list[Definition]) -> list[Definition]:
        """The definitions that the roots use, directly or not, and the roots, in the order of first
        use.
        """
        order, seen, wait = [], set(), list(reversed(roots))
        while wait:
            one = wait.pop()
            if one in seen:
                continue
            seen.add(one)
            order.append(one)
            wait.extend(reversed(list(self.used_by(one))))
        return order
