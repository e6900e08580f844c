"""Whether the numbers and names that stand in prose are those of the sources: edits, pages of
facts, crates in a chain, functions of many parameters, long lines, steps, words of the house.
"""

import glob
import os
import re
from collections.abc import Iterator
from typing import Any

from names import Names
from pages import Page, names_in
from tables import page_named

NUMBERS = (
    "zero one two three four five six seven eight nine ten eleven twelve thirteen fourteen "
    "fifteen sixteen seventeen eighteen nineteen twenty"
).split()
MOST_PARAMETERS, COLUMNS = 7, 200
HOUSE_HEAD = ("Word", "Meaning", "Where")
OWNER_HEAD = ("Who", "Owns", "Contracts see")
SNAKE = re.compile(r"\b[a-z]+(?:_[a-z0-9]+)+\b")
METHOD = re.compile(r"\b([A-Z]\w+)::([a-z]\w*)\b")
HEAD = re.compile(r"\bfn (\w+)")
DECISION = re.compile(
    r"\*\*[^*]+\*\* \(\d+ [A-Z][a-z]+\)\. \*[^*]+\?\* .+ \*Revisit if\* .+\.", re.DOTALL
)


def number_of(word: str) -> int:
    """The number that a word or digits stand for."""
    return NUMBERS.index(word) if word in NUMBERS else int(word.replace(",", ""))


def said(page: Page, pattern: str) -> list[tuple[int, re.Match[str]]]:
    """Where a page says what fits the pattern."""
    return [(line, one) for line, text in page.paragraphs() for one in re.finditer(pattern, text)]


def told(
    pages: list[Page], name: str, pattern: str, due: tuple[int, ...], what: str
) -> Iterator[Any]:
    """A page tells some numbers by a pattern, at least once, and they are those that are due."""
    page = page_named(pages, name)
    places = said(page, pattern)
    if not places:
        yield page.fault(1, f"nothing is said of {what}")
    for line, found in places:
        if tuple(number_of(one) for one in found.groups()) != due:
            numbers = " to ".join(str(one) for one in due)
            yield page.fault(line, f"{what}: {numbers}, and not as told: {found.group(0)}")


def paths(names: Names, *parts: str) -> list[str]:
    """The paths below the crates that fit."""
    return sorted(glob.glob(os.path.join(names.root, "crates", *parts), recursive=True))


def edits_are_counted(pages: list[Page], names: Names) -> Iterator[Any]:
    """How many must-fail edits there are, and in a crate, is as told."""
    counts: dict[str, int] = {}
    for path in paths(names, "*", "must-fail", "*.edit"):
        crate = os.path.basename(os.path.dirname(os.path.dirname(path)))
        counts[crate] = counts.get(crate, 0) + 1
    bounds = min(counts.values()), max(counts.values())
    pattern = r"A crate has (\w+) to (\w+) edits"
    yield from told(pages, "CONTRIBUTING.md", pattern, bounds, "edits a crate")
    total = (sum(counts.values()),)
    yield from told(pages, "docs/COSTS.md", r"tries ([\d,]+) edits", total, "edits")


def fact_pages_are_told(pages: list[Page], names: Names) -> Iterator[Any]:
    """The public pages of facts are those told: how many crates have some, and each page."""
    facts: dict[str, list[str]] = {}
    for path in paths(names, "*", "proofs", "lemmas", "*.antt"):
        crate = os.path.relpath(path, os.path.join(names.root, "crates")).split(os.sep)[0]
        facts.setdefault(crate, []).append(os.path.basename(path).removesuffix(".antt"))
    due = (len(facts),)
    pattern = r"Public pages of facts, `proofs/lemmas/`, of (\w+) crates"
    yield from told(pages, "docs/ARCHITECTURE.md", pattern, due, "crates with pages of facts")
    pattern = r"(\w+) crates have public pages of facts"
    yield from told(pages, "docs/DECISIONS.md", pattern, due, "crates with pages of facts")
    page = page_named(pages, "docs/ARCHITECTURE.md")
    for line, found in said(page, r"Public pages of facts.*"):
        for crate, modules in facts.items():
            for one in [crate, *modules]:
                if f"`{one}`" not in found.group(0):
                    yield page.fault(line, f"the page of facts {one} of {crate} is not told")


def lemma_crates_are_counted(pages: list[Page], _names: Names) -> Iterator[Any]:
    """How many crates the page on proofs has tables for is as it says."""
    page = page_named(pages, "docs/PROOFS.md")
    count = len({section for _, _, section in page.rows("File", "Idea")})
    yield from told(
        pages, page.name, r"lemma files of (\w+) crates", (count,), "crates with lemma files"
    )


def longest_chain(uses: dict[str, list[str]]) -> int:
    """How many crates stand above one another at most, tests left out."""
    lengths: dict[str, int] = {}

    def length(crate: str) -> int:
        if crate not in lengths:
            below = [length(used) for used in uses[crate] if used in uses]
            lengths[crate] = 1 + max(below, default=0)
        return lengths[crate]

    return max(length(crate) for crate in uses if not crate.startswith("ml_tests"))


def chain_is_told(pages: list[Page], names: Names) -> Iterator[Any]:
    """The longest chain of crates has as many as told, and the one that is named is a chain."""
    uses = names.sources.uses
    most = longest_chain(uses)
    yield from told(
        pages, "docs/DECISIONS.md", r"longest chain of crates is (\w+)", (most,), "the chain"
    )
    page = page_named(pages, "docs/DECISIONS.md")
    for line, found in said(page, r"From fractions to the program it goes: ([^.]*)\."):
        chain = names_in(found.group(1))
        if len(chain) != most:
            yield page.fault(line, f"the chain that is named has {len(chain)}, of {most}")
        for low, high in zip(chain, chain[1:], strict=False):
            if low not in uses.get(high, ()):
                yield page.fault(line, f"{high} does not use {low}")


def order_is_told(pages: list[Page], names: Names) -> Iterator[Any]:
    """Where crates.txt is said to be in the order of the build, each crate stands behind all that
    it uses.
    """
    uses = names.sources.uses
    order = list(uses)
    early = [
        (crate, used)
        for crate in order
        for used in uses[crate]
        if used in uses and order.index(used) > order.index(crate)
    ]
    for page in pages:
        for line, text in page.paragraphs():
            if early and "crates.txt" in text and "order of the build" in text:
                crate, used = early[0]
                yield page.fault(line, f"crates.txt has {crate} before {used}, which it uses")


def parameters(text: str) -> Iterator[tuple[str, int]]:
    """The functions of a source with the numbers of their parameters."""
    for head in HEAD.finditer(text):
        depth, commas, last, at = 0, 0, "", head.end()
        angles = 0
        while at < len(text):
            sign = text[at]
            if sign == "<":
                angles += 1
            elif sign == ">" and text[at - 1] != "-":
                angles -= 1
            elif sign in "([{" and (depth or not angles):
                depth += 1
            elif sign in ")]}" and depth:
                depth -= 1
                if not depth:
                    break
            elif sign == "," and depth == 1 and not angles:
                commas += 1
            if depth and not sign.isspace():
                last = sign
            at += 1
        yield head.group(1), commas + (last not in ",(")


def many_parameters_are_told(pages: list[Page], names: Names) -> Iterator[Any]:
    """The functions of more than seven parameters are those that are named, tests left out."""
    many = set()
    for path in paths(names, "*", "src", "**", "*.rt"):
        if "ml_tests" not in path:
            with open(path, encoding="utf-8") as stream:
                lines = [line.partition("//")[0] for line in stream]
            many |= {one for one, count in parameters("\n".join(lines)) if count > MOST_PARAMETERS}
    page = page_named(pages, "docs/DECISIONS.md")
    places = said(page, rf"More than {NUMBERS[MOST_PARAMETERS]} parameters ha(?:s|ve) ([^.]*)\.")
    if not places:
        yield page.fault(1, "nothing is said of functions of many parameters")
    for line, found in places:
        named = {one.rpartition("::")[2] for one in names_in(found.group(1))}
        for one in sorted(many ^ (named - names.sources.crates)):
            fault = "is not named" if one in many else "has no more"
            yield page.fault(line, f"{one} {fault} among functions of many parameters")


def long_lines_are_counted(pages: list[Page], names: Names) -> Iterator[Any]:
    """How many lines of definitions and proofs are long is as told."""
    pattern = r"Of definitions and proofs, (\w+) lines? ha(?:s|ve) over (\d+) columns"
    count = 0
    for folder in ("specs", "proofs"):
        for path in paths(names, "*", folder, "**", "*.antt"):
            with open(path, encoding="utf-8") as stream:
                count += sum(len(one.rstrip("\n")) > COLUMNS for one in stream)
    yield from told(pages, "docs/DECISIONS.md", pattern, (count, COLUMNS), "long lines")


def steps_are_counted(pages: list[Page], _names: Names) -> Iterator[Any]:
    """How many steps the reading of the headline has is as it says."""
    page = page_named(pages, "docs/READING.md")
    steps = [int(one) for one in re.findall(r"^\*\*(\d+)\. ", page.text, re.MULTILINE)]
    if steps != list(range(1, len(steps) + 1)):
        yield page.fault(1, f"the steps are numbered {steps}")
    yield from told(pages, page.name, r"In (\w+) steps", (len(steps),), "steps")


def ways_name_functions(pages: list[Page], names: Names) -> Iterator[Any]:
    """Each name in a figure of the ways of a run, a request or an edit is a function, a type's
    method, or a crate.
    """
    page = page_named(pages, "docs/ARCHITECTURE.md")
    functions = {one.name for one in names.sources.functions} | names.sources.crates
    methods = {(one.owner, one.name) for one in names.sources.functions}
    for block in page.blocks:
        if any("ml_ratio" in line for line in block.lines):
            continue
        for number, line in enumerate(block.lines, block.line + 1):
            for one in SNAKE.findall(line):
                if one not in functions:
                    yield page.fault(number, f"no function {one}")
            for owner, one in METHOD.findall(line):
                if (owner, one) not in methods:
                    yield page.fault(number, f"{owner} has no {one}")


def house_words_stand(pages: list[Page], names: Names) -> Iterator[Any]:
    """Each word of the house is a type, a definition, or a word of the crate that the table names;
    who owns what is a type.
    """
    page = page_named(pages, "docs/ARCHITECTURE.md")
    types = {name for _, name in names.sources.types} | set(names.specs.by_name)
    rows = list(page.rows(*HOUSE_HEAD))
    owners = list(page.rows(*OWNER_HEAD))
    if not rows or not owners:
        yield page.fault(1, "there is no table of words, or of owners")
    for line, cells, _ in rows:
        for place in names_in(cells[2]):
            words = {place.partition("_")[2], *names.sources.crate_words.get(place, ())}
            if place in names.sources.crates and cells[0] not in words:
                yield page.fault(line, f"{place} has no word {cells[0]}")
            elif place not in names.sources.crates and place not in types:
                yield page.fault(line, f"there is no type or definition {place}")
    for line, cells, _ in owners:
        for one in names_in(cells[0]):
            if one not in types:
                yield page.fault(line, f"there is no type {one}")


def decisions_have_their_form(pages: list[Page], _names: Names) -> Iterator[Any]:
    """Each decision has its day, its question, and what would show that it no longer holds."""
    page = page_named(pages, "docs/DECISIONS.md")
    for line, text in page.paragraphs():
        if text.startswith("**") and not DECISION.fullmatch(text):
            yield page.fault(line, f"a decision without day, question or end: {text[:40]}..")
