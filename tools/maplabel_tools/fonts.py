"""Font files: the units of the em, and how far each character moves the pen (fontTools)."""

import unicodedata
from collections import Counter
from collections.abc import Iterable, Mapping, Sequence
from pathlib import Path
from typing import Protocol

from maplabel_kit import toml
from maplabel_kit.faults import Fault
from maplabel_kit.files import must_read

try:
    from fontTools.ttLib import TTFont, TTLibError
except ImportError:
    TTFont = None

# Where Debian puts the fonts that are taken where none is told, the first that is there.
DEFAULTS = (
    "/usr/share/fonts/truetype/liberation/LiberationSans-Regular.ttf",
    "/usr/share/fonts/truetype/liberation2/LiberationSans-Regular.ttf",
    "/usr/share/fonts/truetype/noto/NotoSans-Regular.ttf",
    "/usr/share/fonts/truetype/dejavu/DejaVuSans.ttf",
)


class Widths(Protocol):
    """A font that tells the advances of its characters, in its units."""

    units: int
    family: str
    path: str

    def __contains__(self, code: int) -> bool:
        ...

    def advance(self, code: int) -> int:
        """The advance of a character that the font has."""


class FontFile:
    """A TrueType or OpenType file, the first font of a collection."""

    def __init__(self, path: str | Path) -> None:
        if TTFont is None:
            raise Fault("fontTools is missing (Debian: apt install python3-fonttools)")
        must_read(path, "the font")
        try:
            font = TTFont(path, fontNumber=0)
            self._widths, self._glyphs = font["hmtx"], font.getBestCmap() or {}
            self.units: int = font["head"].unitsPerEm
            names = font["name"]
            self.family: str = names.getDebugName(16) or names.getDebugName(1) or ""
        except (TTLibError, KeyError, OSError, AssertionError) as error:
            raise Fault(f"{path} is no TrueType or OpenType font: {error}") from None
        self.path = str(path)

    def __contains__(self, code: int) -> bool:
        return code in self._glyphs

    def advance(self, code: int) -> int:
        """The advance of a character that the font has, in its units."""
        return int(self._widths[self._glyphs[code]][0])


def default_file() -> str:
    """The font that is taken where none is told."""
    for path in DEFAULTS:
        if Path(path).exists():
            return path
    raise Fault("no font is told, and none of Debian's is there: apt install fonts-liberation")


def widths(characters: Iterable[str], files: Sequence[Widths]) -> tuple[dict[str, int], list[str]]:
    """The advance of each character in the units of the first file, and those that no file has.

    A character is taken from the first file that has it. One that none has is an em wide where it
    is a wide one by Unicode (Chinese, Japanese, Korean); others are left out, so that they get the
    default.
    """
    units, lacking = files[0].units, []
    found: dict[str, int] = {}
    for one in sorted(characters):
        holder = next((file for file in files if ord(one) in file), None)
        if holder is not None:
            found[one] = -(-holder.advance(ord(one)) * units // holder.units)
        else:
            lacking.append(one)
            if unicodedata.east_asian_width(one) in "WF":
                found[one] = units
    return found, lacking


def default_of(found: Mapping[str, int], units: int) -> int:
    """The commonest advance that is not 0, the least of several; half an em where there is none."""
    counts = Counter(width for width in found.values() if width > 0)
    return min(counts, key=lambda width: (-counts[width], width)) if counts else units // 2


def font_part(
    name: str, files: Sequence[Widths], characters: Iterable[str]
) -> tuple[list[str], list[str]]:
    """The lines of a style that tell a font, and the characters that no file has.

    A character whose advance is the default has no line.
    """
    found, lacking = widths(characters, files)
    told = {one: width for one, width in found.items() if one not in lacking}
    default = default_of(told, files[0].units)
    lines = [
        f"[fonts.{toml.key(name)}]",
        *([f"family = {toml.text(files[0].family)}"] if files[0].family else []),
        f"units = {files[0].units}",
        f"default = {default}",
        "",
        f"[fonts.{toml.key(name)}.advances]",
    ]
    lines += [f"{toml.text(one)} = {width}" for one, width in found.items() if width != default]
    return lines, lacking


def told_fonts(words: Sequence[str]) -> dict[str, FontFile]:
    """The fonts told as NAME=FILE, as open files by their names."""
    found = {}
    for word in words:
        name, sign, path = word.partition("=")
        if not sign or not path:
            raise Fault(f"a font is told as NAME=FILE, and not as {word}")
        found[name] = FontFile(path)
    return found
