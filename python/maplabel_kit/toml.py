"""Texts and keys as TOML writes them."""

import re
import unicodedata


def text(value: str) -> str:
    """A text in quotes. What cannot stand alone or cannot be seen is escaped: marks, controls, odd
    spaces.
    """
    return '"' + "".join(map(_character, value)) + '"'


def key(value: str) -> str:
    """A key, in quotes where it must be."""
    return value if re.fullmatch(r"[A-Za-z0-9_-]+", value) else text(value)


def _character(one: str) -> str:
    if one in '"\\':
        return "\\" + one
    if one != " " and unicodedata.category(one)[0] in "MCZ":
        return f"\\u{ord(one):04x}" if ord(one) < 0x10000 else f"\\U{ord(one):08x}"
    return one
