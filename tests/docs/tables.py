"""Whether the tables of the pages agree with the crates: laws, clauses, definitions, layers,
commands.
"""
import os
import re
from collections.abc import Iterator
from typing import Any

from names import Names
from pages import Page, names_in
from sources import Function
from specs import Definition, Specs

CLAUSE_HEAD = ("Crate", "Function", "Clause", "What it says")
LAW_HEAD = ("Crate", "Law", "What it says")
DEFINITION_HEAD = ("Words", "Name", "Place")
COMMAND_HEAD = ("Words", "Prints")
TOP, LEAST = ("maplabel", "Run", "IsRun"), (
    ("ml_cone", "Overlap", "RectanglesMeet"),
    ("ml_cone", "Plane", "SideInWindow"),
)


def filled(rows: Iterator[Any]) -> Iterator[tuple[int, str, list[str]]]:
    """The rows of a table with the last crate that was named put into empty first cells."""
    crate = ""
    for line, cells, _ in rows:
        crate = (names_in(cells[0]) or [crate])[0]
        yield line, crate, cells


def page_named(pages: list[Page], name: str) -> Page:
    """The page of this name."""
    return next(page for page in pages if page.name == name)


def laws_are_told(pages: list[Page], names: Names) -> Iterator[Any]:
    """The table of laws has each law of each crate, and no other."""
    page = page_named(pages, "docs/PROVED.md")
    told = set()
    for line, crate, cells in filled(page.rows(*LAW_HEAD)):
        for law in names_in(cells[1]):
            told.add((crate, law))
            if law not in names.sources.laws().get(crate, []):
                yield page.fault(line, f"{crate} has no law {law}")
    for crate, laws in names.sources.laws().items():
        for law in laws:
            if (crate, law) not in told:
                yield page.fault(1, f"the law {law} of {crate} is not in the table of laws")


def functions_named(names: Names, crate: str, cell: str) -> dict[str, list[Function]]:
    """The functions that a cell names, each with what is known of it; a name without a type is of
    the type before it, if it can be.
    """
    found, owner = {}, ""
    for name in names_in(cell):
        owner = name.rpartition("::")[0] or owner
        found[name] = (
            "::" not in name and names.sources.named(crate, f"{owner}::{name}")
        ) or names.sources.named(crate, name)
    return found


def clauses_exist(pages: list[Page], names: Names) -> Iterator[Any]:
    """Each function of the table of clauses is there and has each clause of its row; of its clauses
    with names none is left out.
    """
    page = page_named(pages, "docs/PROVED.md")
    told: dict[Any, Any] = {}
    last_names: dict[Any, Any] = {}
    for line, crate, cells in filled(page.rows(*CLAUSE_HEAD)):
        found = functions_named(names, crate, cells[1])
        for name, functions in found.items():
            if not functions and name.rpartition(" for ")[2] not in names.sources.crate_words.get(
                crate, ()
            ):
                yield page.fault(line, f"{crate} has no {name}")
            last = name.rpartition("::")[2]
            last_names.setdefault((crate, last), set()).update(names_in(cells[2]))
            if " " not in name and any(one.name == last and one.owner != last for one in functions):
                told.setdefault((crate, last), []).append(
                    (line, name, functions, "and " in cells[2])
                )
        yield from clause_faults(page, line, cells[2], found)
    for key, rows in told.items():
        for line, name, functions, is_open in rows:
            left = {clause for one in functions for clause in one.clauses if clause} - last_names[
                key
            ]
            if left and not is_open and not any(other[3] for other in rows):
                yield page.fault(
                    line, f"the clauses of {name} that are not told: {', '.join(sorted(left))}"
                )


def clause_faults(
    page: Page, line: int, cell: str, found: dict[str, list[Function]]
) -> Iterator[Any]:
    """The clauses of a cell that no function of the row has; an empty cell is for clauses without a
    name.
    """
    has = {clause for functions in found.values() for one in functions for clause in one.clauses}
    for name in re.findall(r"\(of `([^`]+)`\)", cell):
        if name not in {one.name for functions in found.values() for one in functions}:
            yield page.fault(line, f"a clause is said to be of {name}, which is not in the row")
    for clause in names_in(re.sub(r"\(of [^)]*\)", "", cell)):
        if clause not in has:
            yield page.fault(line, f"no function of the row has a clause {clause}")
    if not cell:
        named = [
            name
            for name, functions in found.items()
            if functions and not any("" in one.clauses for one in functions)
        ]
        if named:
            yield page.fault(line, f"{named[0]} has clauses with names, and none of them is told")


def definitions_stand(pages: list[Page], names: Names) -> Iterator[Any]:
    """Each definition of the tables of definitions stands in one of the modules of its row, or is a
    type that one uses.
    """
    page = page_named(pages, "docs/DEFINITIONS.md")
    for line, cells, _ in page.rows(*DEFINITION_HEAD):
        places = [
            (crate, module)
            for crate, modules in re.findall(r"`?(ml_\w+|maplabel): ([\w, ]+)", cells[2])
            for module in re.split(r", ", modules)
        ]
        last = places[-1][0] if places else ""
        places += [(last, module) for module in re.findall(r"`(\w+)`", cells[2])]
        for name in names_in(cells[1]):
            if not any(
                (crate, module, name) in names.specs.by_place
                or name in names.specs.uses.get((crate, module), ())
                for crate, module in places
            ):
                yield page.fault(line, f"{name} does not stand in {cells[2]}")


def way_to_overlap(specs: Specs) -> list[Definition]:
    """The definitions on a way from the end of a run down to the overlap of boxes, or to a box in a
    window.
    """
    below = specs.below([specs.by_place[TOP]])
    users: dict[Any, list[Any]] = {}
    for one in below:
        for used in specs.used_by(one):
            users.setdefault(used, []).append(one)
    way, wait = set(), [specs.by_place[least] for least in LEAST]
    while wait:
        one = wait.pop()
        if one not in way:
            way.add(one)
            wait.extend(users.get(one, []))
    return [one for one in below if one in way]


def way_is_told(pages: list[Page], names: Names) -> Iterator[Any]:
    """The page of definitions has each definition on the way from the end of a run down to
    overlap.
    """
    page = page_named(pages, "docs/DEFINITIONS.md")
    told = {
        (crate, name)
        for _, cells, _ in page.rows(*DEFINITION_HEAD)
        for name in names_in(cells[1])
        for crate in re.findall(r"(ml_\w+|maplabel):", cells[2])
    }
    for one in way_to_overlap(names.specs):
        if (one.crate, one.name) not in told:
            yield page.fault(
                1,
                f"{one.name} ({one.crate}: {one.module}) lies on the way to overlap "
                "and is not told",
            )


def layers_agree(pages: list[Page], names: Names) -> Iterator[Any]:
    """Each crate stands once in the picture of layers, on a line above those of all that it
    uses.
    """
    page = page_named(pages, "docs/ARCHITECTURE.md")
    block = next(
        (one for one in page.blocks if any("ml_ratio" in line for line in one.lines)), None
    )
    if block is None:
        yield page.fault(1, "there is no picture of layers")
        return
    height, layer = {}, 0
    for line in block.lines:
        layer += 1
        for crate in re.findall(r"\b(?:ml_\w+|maplabel)\b", re.split(r" {3,}", line.strip())[0]):
            if crate in height:
                yield page.fault(block.line, f"{crate} stands twice in the picture of layers")
            height[crate] = layer
    for crate, uses in names.sources.uses.items():
        if crate not in height:
            yield page.fault(block.line, f"{crate} is not in the picture of layers")
            continue
        for used in uses:
            if used in names.sources.uses and height.get(used, 0) <= height[crate]:
                yield page.fault(block.line, f"{crate} uses {used}, and does not stand above it")


def commands_are_told(pages: list[Page], names: Names) -> Iterator[Any]:
    """The table of commands has each command of the program, and no other."""
    page = page_named(pages, "docs/FORMATS.md")
    text = names.specs.by_place["ml_command", "Commands", "name_of"].text
    commands = set(re.findall(r'codes "(\w+)"', text))
    told = {names_in(cells[0])[0].split(" ")[0] for _, cells, _ in page.rows(*COMMAND_HEAD)}
    for name in sorted(commands ^ told):
        yield page.fault(
            1,
            f"the command {name} is not in the table"
            if name in commands
            else f"there is no command {name}",
        )


def codes_agree(pages: list[Page], names: Names) -> Iterator[Any]:
    """The table of exit codes has each code of the program."""
    page = page_named(pages, "docs/FORMATS.md")
    codes = set(re.findall(r"= (\d+)", names.specs.by_place["maplabel", "Codes", "code_of"].text))
    told = {cells[0] for _, cells, _ in page.rows("Exit code", "What is printed", "When")}
    for code in sorted(codes ^ told, key=int):
        yield page.fault(1, f"the table of exit codes and the program do not agree on {code}")


def lemma_files_are_told(pages: list[Page], names: Names) -> Iterator[Any]:
    """Of each crate with a section of the page on proofs, the table has just the files of lemmas
    that it lists.
    """
    page = page_named(pages, "docs/PROOFS.md")
    told: dict[Any, Any] = {}
    for line, cells, section in page.rows("File", "Idea"):
        for name in names_in(cells[0]):
            told.setdefault(section.strip("`").partition("`")[0], {})[name] = line
    for crate, files in told.items():
        with open(
            os.path.join(names.root, "crates", crate, "proofs", "Lib.antt"), encoding="utf-8"
        ) as stream:
            listed = set(re.findall(r"^mod (\w+)", stream.read(), re.MULTILINE))
        for name in sorted(listed - set(files)):
            yield page.fault(min(files.values()), f"the file {name} of {crate} is not told")
        for name in sorted(set(files) - listed):
            yield page.fault(files[name], f"{crate} has no file of lemmas {name}")
