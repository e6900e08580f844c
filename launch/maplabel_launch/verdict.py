"""Whether the compiler says that a crate is proved, by the last line of what it printed.

A status of 0 is not enough. The line may tell of what was assumed or left out, so each word of it
is known here or the crate does not count as proved; a word of a later compiler is none that is
known. The words are those that the gate of the kit takes for the crates of a repository.
"""

import re
from collections.abc import Collection

# What a line may tell besides: how much was proved, for which machine, the bounds of `main`, and of
# how many functions of the system's C library the contracts are trusted.
KNOWN = {"functions", "axioms", "target", "cpu", "threads", "main", "may-wait", "sum"}
# What a proof of this repository may not rest on, and what each says.
REFUSED = {
    "foreign": "functions of C are declared in the crate, and their contracts are assumed",
    "hides": "a function or a dyn value is handed out, so that a contract may say nothing",
    "bugs": "the check refused, or could not finish, a part of what the compiler itself made",
    "may-abort": "a function may end the process, and then meets any contract",
    "partial": "a function may not return",
    "may-serve": "a function may serve for ever",
    "tests": "what was proved are tests, not the crate",
}
# How the line ends: what the verdict trusts, and nothing besides.
ENDS = (
    "native=nat,char,string",
    "logic-built=trusted",
    "libraries-built=trusted",
    "statements=trusted",
)
HANDLES = re.compile(r"Handles allowed: (none|[A-Za-z, ]+)\.\s*")


def handles(top: str) -> frozenset[str]:
    """The handles that the file HANDLES lets `main` take."""
    try:
        with open(f"{top}/HANDLES", encoding="utf-8") as file:
            found = HANDLES.fullmatch(file.read())
    except OSError:
        found = None
    if not found or found[1] == "none":
        return frozenset()
    return frozenset(found[1].split(", "))


def why_not(said: str, allowed: Collection[str] = ()) -> str | None:
    """Why what the compiler printed is no verdict that the crate is proved, or none where it is;
    `allowed` are the handles that `main` may take.
    """
    lines = said.rstrip("\n").split("\n")
    head, *words = lines[-1].split(" ")
    if head != "logic=proved":
        return "its last line does not begin with logic=proved"
    if tuple(words[-len(ENDS) :]) != ENDS:
        return f"its last line does not end with {' '.join(ENDS)}"
    told = [it.partition("=") for it in words[: -len(ENDS)]]
    for name, _, value in told:
        if name in REFUSED:
            return f"its last line has {name}={value}: {REFUSED[name]}"
        if name not in KNOWN or not value:
            return f"its last line has a word that the launcher does not know: {name}={value}"
    values = {name: value for name, _, value in told}
    if "functions" not in values:
        return "its last line does not tell how many functions were proved"
    taken = {*filter(None, values.get("main", "").split("+"))}
    taken |= {"Wait"} if "may-wait" in values else set()
    if beyond := sorted(taken - set(allowed)):
        return f"main takes handles that the file HANDLES does not allow: {', '.join(beyond)}"
    return None
