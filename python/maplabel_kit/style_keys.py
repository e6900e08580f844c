"""Keys of a style that the program passes over: often they are misspelt."""

import tomllib
from collections.abc import Iterable
from typing import Any

from maplabel_kit import excerpts
from maplabel_kit.style import CLASS_KEYS, FONT_KEYS, KEYS
from maplabel_kit.told import near


def unknown(text: str) -> list[str]:
    """A sentence for each key of a style that has no meaning, with its line and what may be meant.

    A class may have a `title`, by which the tools call it.
    """
    try:
        tree = tomllib.loads(text)
    except ValueError:
        return []
    found = [_sentence(text, key, "the style", KEYS) for key in _odd(tree, KEYS)]
    for name, font in _items(tree.get("fonts")):
        odd = _odd(font, FONT_KEYS)
        found += [_sentence(text, key, f"the font {name}", FONT_KEYS) for key in odd]
    for key, places in _odd_of_classes(tree.get("class")).items():
        what = f"class {places[0]}" if len(places) == 1 else f"{len(places)} classes"
        found.append(_sentence(text, key, what, CLASS_KEYS))
    return found


def _odd(table: object, known: Iterable[str]) -> list[str]:
    return [key for key in table if key not in known] if isinstance(table, dict) else []


def _items(value: object) -> list[tuple[str, Any]]:
    return list(value.items()) if isinstance(value, dict) else []


def _odd_of_classes(classes: object) -> dict[str, list[int]]:
    """The unknown keys of classes, each with the numbers of the classes that have it."""
    found: dict[str, list[int]] = {}
    for number, one in enumerate(classes if isinstance(classes, list) else []):
        for key in _odd(one, (*CLASS_KEYS, "title")):
            found.setdefault(key, []).append(number)
    return found


def _sentence(text: str, key: str, what: str, known: Iterable[str]) -> str:
    place = excerpts.first_match(text, rf'\s*"?{excerpts.quoted(key)}"?\s*[=.]')
    line = f" (line {place.line})" if place else ""
    return f'the key "{key}" of {what}{line} has no meaning and is passed over{near(key, known)}.'
