"""The text of a label, its width and its grapheme clusters."""

import re

import regex


_BLANKED = re.compile("[\x00-\x1f\x7f-\x9f\ufffe\uffff]")


def property_text(value):
    """The text of a property, None for null and for none."""
    if value is None:
        return None
    if isinstance(value, bool):
        return "true" if value else "false"
    return str(value)


def label_text(value):
    """The text that a name property makes, or None where it is no name."""
    if value is None or isinstance(value, bool):
        return None
    text = _BLANKED.sub(" ", str(value))
    return text if text.strip(" ") else None


def advance(font, text):
    """The summed advances of the characters of a text."""
    return sum(font.advances.get(char, font.default) for char in text)


def width(font, size, text):
    """How many pixels wide a text is."""
    return max(1, -(-advance(font, text) * size // font.units))


def clusters(text):
    return regex.findall(r"\X", text)
