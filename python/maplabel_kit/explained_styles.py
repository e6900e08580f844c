"""What is wrong with a style that the program refuses."""

import re
import tomllib
from typing import Any

from maplabel_kit import excerpts
from maplabel_kit.excerpts import Place
from maplabel_kit.told import Told, near

CLASS = re.compile(r"\s*\[\[\s*class\s*\]\]")
SIDES = "a whole number from -256 to 256"
SCALE = 'a text with a number or a fraction from 0 to 268435456, as "0", "1000" or "39/2"'
# What each field of a class may be, and an example.
FIELDS = {
    "geometry": ('"point", "line" or "area"', '"point"'),
    "key": ("a text, and then `value` is one too; or both are absent", '"place"'),
    "value": ("a text, and then `key` is one too; or both are absent", '"city"'),
    "font": ("the name of a font, as a text", '"sans"'),
    "size": ("a whole number from 1 to 256", "14"),
    "priority": ("a whole number from 0 to 65535", "1"),
    "ref": ("a whole number from 1 to 268435455", "1000"),
    "dx": (SIDES, "0"),
    "dy": (SIDES, "0"),
    "min": (SCALE, '"0"'),
    "max": (SCALE + ", and above 0", '"1000"'),
    "margin": ("a whole number from 0 to 64", "2"),
}


def told_of(words: list[str], data: bytes) -> Told:
    """What is known of a style's fault, from the words of the program's line behind `style refused:
    N`.
    """
    name, rest = words[0], words[1:]
    text = data.decode("utf-8", "replace").removeprefix("\ufeff")
    if name == "NotToml":
        return _not_toml(data, text)
    tree = _tree(text)
    if name == "Version":
        return _version(text, tree)
    if name == "BadFont":
        return _bad_font(text, tree, " ".join(rest))
    if name == "UnknownFont":
        return _unknown_font(text, tree, int(rest[0]))
    if name == "EmptyRange":
        return _empty_range(text, tree, int(rest[0]))
    return _bad_class(text, tree, int(rest[0]), rest[1])


def _tree(text: str) -> dict[str, Any]:
    try:
        return tomllib.loads(text)
    except ValueError:
        return {}


def kind_of(value: object) -> str:
    """What a value of TOML looks like, with the value."""
    if isinstance(value, bool):
        return f"the truth value {str(value).lower()}"
    if isinstance(value, int):
        return f"the number {value}"
    if isinstance(value, float):
        return f"{value}, a number that is not whole"
    if isinstance(value, str):
        return f'the text "{value}"'
    if isinstance(value, list):
        return "a list"
    return "a table" if isinstance(value, dict) else str(value)


def _not_toml(data: bytes, text: str) -> Told:
    """Where Python's reader of TOML stops, which knows the place."""
    try:
        tomllib.loads(data.decode("utf-8"))
    except UnicodeDecodeError as error:
        return Told(
            "these bytes are no UTF-8",
            "the file may have another character set",
            "`iconv -f ISO-8859-1 -t UTF-8` turns it",
            excerpts.at_byte(data, error.start),
        )
    except ValueError as error:
        found = re.search(r"at line (\d+), column (\d+)", str(error))
        last = text.rstrip("\n").count("\n") + 1
        line, column = (int(found[1]), int(found[2])) if found else (last, 1)
        return Told(
            str(error),
            "a text wants quotes, and a key stands once in its table",
            place=excerpts.at(text, line, column),
        )
    return Told("no TOML text for the program", "a number may have more than 64 bits")


def _version(text: str, tree: dict[str, Any]) -> Told:
    value = tree.get("version")
    found = "there is no version" if value is None else f"the version is {kind_of(value)}"
    place = excerpts.first_match(text, r"\s*version\s*=")
    return Told(found, "it may be 1 or 2", "begin the file with the line `version = 2`", place)


def _bad_font(text: str, tree: dict[str, Any], font: str) -> Told:
    """What is wrong with a font."""
    pattern = rf'\s*\[\s*fonts\s*\.\s*"?{re.escape(font)}"?\s*[\].]'
    place = excerpts.first_match(text, pattern)
    fonts = tree.get("fonts")
    value = fonts.get(font) if isinstance(fonts, dict) else None
    if not isinstance(value, dict):
        return Told(
            f"the font {font} is {kind_of(value)}",
            "it may be a table with `units`, `default` and perhaps `advances`",
            f"write [fonts.{font}], and its keys beneath",
            place,
        )
    for key, least, example in (("units", 1, "1000"), ("default", 0, "500")):
        if not _is_whole(value.get(key), least, 65535):
            found = f"is {kind_of(value[key])}" if key in value else "is not there"
            return Told(
                f"`{key}` of the font {font} {found}",
                f"it may be a whole number from {least} to 65535",
                f"write {key} = {example}; tools/advances tells the numbers of a font",
                place,
            )
    return Told(_bad_advance(font, value.get("advances")), place=place)


def _bad_advance(font: str, advances: object) -> str:
    """What is wrong with the advances of a font."""
    if not isinstance(advances, dict):
        return f"`advances` of the font {font} is {kind_of(advances)}, and not a table"
    for key, value in advances.items():
        if len(key) != 1:
            return f'the advance of "{key}" is not that of one character'
        if not _is_whole(value, 0, 65535):
            return f'the advance of "{key}" is {kind_of(value)}, and not 0 to 65535'
    return f"the font {font} is not as it may be"


def _is_whole(value: object, least: int, most: int) -> bool:
    return isinstance(value, int) and not isinstance(value, bool) and least <= value <= most


def _class(tree: dict[str, Any], number: int) -> dict[str, Any]:
    classes = tree.get("class")
    if not isinstance(classes, list) or number >= len(classes):
        return {}
    value = classes[number]
    return value if isinstance(value, dict) else {}


def _unknown_font(text: str, tree: dict[str, Any], number: int) -> Told:
    font = str(_class(tree, number).get("font"))
    fonts = tree.get("fonts")
    names = sorted(fonts) if isinstance(fonts, dict) else []
    there = f"the fonts that are there: {', '.join(names)}" if names else "there is no font at all"
    return Told(
        f'class {number} asks for the font "{font}", which is not there{near(font, names)}',
        there,
        f"correct the name, or add the font under [fonts.{font}]",
        _field(text, number, "font"),
    )


def _empty_range(text: str, tree: dict[str, Any], number: int) -> Told:
    one = _class(tree, number)
    return Told(
        f"min of class {number} is {one.get('min')} and its max is {one.get('max')}",
        "min is below max: they are scales, and the greater is further out",
        "exchange the two, or make max greater",
        _field(text, number, "min"),
    )


def _bad_class(text: str, tree: dict[str, Any], number: int, name: str) -> Told:
    """What is wrong with a field of a class."""
    if name == "class":
        return _no_class(text, tree, number)
    may_be, example = FIELDS[name]
    one = _class(tree, number)
    found = f"it is {kind_of(one[name])}" if name in one else "it is not there"
    return Told(
        f"`{name}` of class {number} has a wrong value: {found}",
        f"it may be {may_be}",
        f"write {name} = {_example(name, one.get(name), example)}",
        _field(text, number, name),
    )


def _example(name: str, value: object, example: str) -> str:
    """What to write: the same value in the form that is wanted, where that can be told, else an
    example.
    """
    if name in ("min", "max") and _is_whole(value, 0, 268435456):
        return f'"{value}"'
    if isinstance(value, float) and name not in ("min", "max") and abs(value) < 65536:
        return str(round(value))
    if isinstance(value, str) and value.isdecimal() and example.isdecimal():
        return value
    return example


def _no_class(text: str, tree: dict[str, Any], number: int) -> Told:
    value = tree.get("class")
    if isinstance(value, list):
        return Told(f"class {number} is no table", todo="write classes as [[class]]")
    place = excerpts.first_match(text, r"\s*(\[\s*class\s*\]|class\s*=|\[\s*class\s*\.)")
    return Told(
        f"`class` is {kind_of(value)}",
        "it may be a list of tables",
        "write each class as [[class]], with two brackets",
        place,
    )


def _field(text: str, number: int, field: str) -> Place | None:
    """The field of a class, or the head of the class where the field is missing."""
    lines = text.split("\n")
    heads = [place for place, line in enumerate(lines) if CLASS.match(line)]
    if number >= len(heads):
        return None
    begin = heads[number]
    after = (k for k in range(begin + 1, len(lines)) if re.match(r"\s*\[", lines[k]))
    end = next(after, len(lines))
    found = excerpts.first_match(text, rf'\s*"?{re.escape(field)}"?\s*=', begin, end)
    return found or excerpts.at(text, begin + 1, 1)
