"""What is told of a fault: the value from which an explanation is made."""

import difflib
from collections.abc import Iterable, Mapping, Sequence
from dataclasses import dataclass

from maplabel_kit.excerpts import Place


@dataclass(frozen=True)
class Told:
    """What was found, what it may be and what to do, each a sentence or nothing, and where it
    stands.
    """

    found: str = ""
    may_be: str = ""
    todo: str = ""
    place: Place | None = None

    def sentences(self) -> list[str]:
        """The sentences that are told."""
        return [one for one in (self.found, self.may_be, self.todo) if one]


def near(word: str, words: Iterable[str]) -> str:
    """The likely meaning of a word among others, as the end of a sentence: `; perhaps "margin" is
    meant`.
    """
    found = nearest(word, words)
    return f'; perhaps "{found}" is meant' if found else ""


def nearest(word: str, words: Iterable[str]) -> str | None:
    """The word among others that is likely meant, or none."""
    lower = {one.lower(): one for one in sorted(words, reverse=True)}
    asked = word.lower()
    begins = sorted(one for one in lower if one and _is_start(one, asked))
    found = begins or difflib.get_close_matches(asked, lower, 1, 0.6)
    return lower[found[0]] if found else None


def _is_start(one: str, other: str) -> bool:
    return one.startswith(other) or other.startswith(one)


def listed(counts: Mapping[str, int], most: int = 6) -> str:
    """The commonest of some things with how often each is there: `kind (241), name (240)`."""
    told = sorted(counts.items(), key=lambda item: (-item[1], str(item[0])))
    more = f" and {len(told) - most} more" if len(told) > most else ""
    return ", ".join(f"{name} ({count})" for name, count in told[:most]) + more


def some(ids: Sequence[str], most: int = 5) -> str:
    """The first of some ids: `c1, c2, c3 and 4 more`."""
    more = f" and {len(ids) - most:,} more" if len(ids) > most else ""
    return ", ".join(ids[:most]) + more
