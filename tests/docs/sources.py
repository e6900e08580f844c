"""What the sources of the crates have: functions with their clauses, types, modules and laws."""

import glob
import os
import re
from dataclasses import dataclass, field

FUNCTION = re.compile(r"^\s*(?:pub(?:\([a-z]+\))? )?(?:const )?fn (\w+)")
CLAUSE = re.compile(r"^\s*(?:ensures|ghost(?= \w+ =))\s*(\w*)\s*[{=]")
BLOCK = re.compile(r"^(?:pub )?(impl|trait)\b(?:<[^{]*?>(?= ))?\s+(.*?)\s*(?:\{|where|$)")
TYPE = re.compile(r"^\s*pub(?:\([a-z]+\))? (?:struct|enum|trait|type|union) (\w+)")
MODULE = re.compile(r"^(?:pub(?:\([a-z]+\))? )?mod (\w+);")
WORD = re.compile(r"[^\W\d]\w*")


@dataclass
class Function:
    """A function: its crate, its module, the type or trait that it is of, and the names of its
    clauses.
    """

    crate: str
    module: str
    owner: str
    name: str
    clauses: list[str] = field(default_factory=list)


def owner_of(kind: str, text: str) -> str:
    """The trait that a block is, or the type that it is of: that behind `for`, without its
    arguments.
    """
    if kind == "trait":
        return re.sub(r"\W.*", "", text, flags=re.S)
    text = text.rpartition(" for ")[2]
    return re.sub(r"<.*", "", text).strip().split("::")[-1]


def functions_in(crate: str, module: str, lines: list[str]) -> list[Function]:
    """The functions of a module in their order; a `ghost name =` of a block stands as a function of
    that name.
    """
    owner, found, block = "", [], None
    for line in lines:
        line = line.partition("//")[0]
        start = BLOCK.match(line)
        if start:
            owner = owner_of(*start.groups())
            block = Function(crate, module, owner, owner)
            found.append(block)
        elif line.startswith("}"):
            owner = ""
        head = FUNCTION.match(line)
        if head:
            found.append(Function(crate, module, owner, head.group(1)))
        clause = CLAUSE.match(line)
        if clause and found:
            found[-1].clauses.append(clause.group(1))
    return found


class Sources:
    """The sources of all crates below a folder."""

    def __init__(self, root: str) -> None:
        self.functions: list[Function] = []
        self.types: set[tuple[str, str]] = set()
        self.modules: set[tuple[str, str]] = set()
        self.words: set[str] = set()
        self.crate_words: dict[str, set[str]] = {}
        for path in sorted(
            glob.glob(os.path.join(root, "crates", "*", "src", "**", "*.rt"), recursive=True)
        ):
            self.read(path)
        self.crates = set(self.crate_words)
        self.uses = uses_in(root)

    def read(self, path: str) -> None:
        """Takes in one file."""
        crate = path.split(os.sep + "src" + os.sep)[0].rpartition(os.sep)[2]
        module = os.path.basename(path).removesuffix(".rt")
        with open(path, encoding="utf-8") as stream:
            lines = stream.read().split("\n")
        code = [line.partition("//")[0] for line in lines]
        self.functions += functions_in(crate, module, code)
        self.types |= {(crate, one.group(1)) for one in map(TYPE.match, code) if one}
        self.modules |= {(crate, module)} | {
            (crate, one.group(1)) for one in map(MODULE.match, code) if one
        }
        words = set(WORD.findall("\n".join(code)))
        self.crate_words.setdefault(crate, set()).update(words)
        self.words |= words

    def laws(self) -> dict[str, list[str]]:
        """The laws of each crate, in the order of their file."""
        laws: dict[str, list[str]] = {}
        for one in self.functions:
            if one.module == "laws":
                laws.setdefault(one.crate, []).append(one.name)
        return laws

    def named(self, crate: str, name: str) -> list[Function]:
        """The functions of a crate that a page calls so: `name`, `Type::name`, or a type with all
        that is of it.
        """
        owner, _, last = name.rpartition(" for ")[2].rpartition("::")
        of_crate = [one for one in self.functions if one.crate == crate]
        if owner:
            return [one for one in of_crate if one.name == last and one.owner == owner]
        return [one for one in of_crate if last in (one.name, one.owner)]


def uses_in(root: str) -> dict[str, list[str]]:
    """Which crates each crate uses, as crates.txt tells."""
    with open(os.path.join(root, "crates.txt"), encoding="utf-8") as stream:
        rows = [line.partition(":") for line in stream.read().split("\n") if line.strip()]
    return {name.strip(): uses.split() for name, _, uses in rows}
