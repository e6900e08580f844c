"""A font file as letters are measured in it: the pen's advance and the box of the ink of a letter 1
pixel high.
"""

import unicodedata
from dataclasses import dataclass
from pathlib import Path
from typing import Any

from maplabel_kit.along.curve import Box
from maplabel_kit.along.scripts import clusters, is_whole
from maplabel_kit.faults import Fault

DEFAULT_FONTS = (
    "/usr/share/fonts/truetype/liberation/LiberationSerif-Regular.ttf",
    "/usr/share/fonts/truetype/liberation2/LiberationSerif-Regular.ttf",
)
MARK_ABOVE = 0.2
RUN_INK = (-0.05, -0.33, 0.05, 0.85)
UNKNOWN_BOTTOM, UNKNOWN_TOP = -0.25, 0.75


def default_font() -> str:
    """The file of Liberation Serif, which the pages name first, where Debian puts it."""
    for path in DEFAULT_FONTS:
        if Path(path).exists():
            return path
    raise Fault(
        f"Liberation Serif is not at {DEFAULT_FONTS[0]}; install the package fonts-liberation, "
        "or name a font by --font"
    )


@dataclass(frozen=True)
class Letter:
    """A letter, or a run that is written whole: the pen's advance, and the box of its ink about the
    pen's place; none of a space. All for a text 1 pixel high.
    """

    text: str
    wide: float
    ink: Box | None


class Face:
    """The first font of a TrueType or OpenType file."""

    def __init__(self, font: Any, path: str) -> None:
        self.path = path
        self.units: int = font["head"].unitsPerEm
        names = font["name"]
        self.family: str = names.getDebugName(16) or names.getDebugName(1) or ""
        self._glyph_of: dict[int, str] = font.getBestCmap() or {}
        self._advances = font["hmtx"]
        self._glyphs = font.getGlyphSet()
        self._outlines = font["glyf"] if "glyf" in font else None
        self._boxes: dict[str, Box | None] = {}

    @classmethod
    def read(cls, path: str) -> "Face":
        """The face of a file, or a fault that names it."""
        try:
            from fontTools.ttLib import TTFont, TTLibError
        except ImportError:
            raise Fault(
                "fontTools is missing; install the Debian package python3-fonttools"
            ) from None
        try:
            return cls(TTFont(path, fontNumber=0), path)
        except (TTLibError, KeyError, OSError, AssertionError) as error:
            raise Fault(f"{path} is no font that can be read: {error}") from None

    def advance(self, character: str) -> float:
        """The advance of a character; of a mark 0, and half the height where the font does not have
        it.
        """
        if unicodedata.category(character) in ("Mn", "Me"):
            return 0.0
        name = self._glyph_of.get(ord(character))
        return 0.5 if name is None else float(self._advances[name][0]) / self.units

    def letter(self, cluster: str) -> Letter:
        """A letter with its marks."""
        wide = sum(map(self.advance, cluster))
        if cluster.isspace():
            return Letter(cluster, wide, None)
        name = self._glyph_of.get(ord(cluster[0]))
        if name is None:
            return Letter(cluster, wide, (0.0, UNKNOWN_BOTTOM, wide, UNKNOWN_TOP))
        ink = self._ink(name)
        if ink is not None and len(cluster) > 1:
            ink = ink[0], ink[1], ink[2], ink[3] + MARK_ABOVE
        return Letter(cluster, wide, ink)

    def letters(self, text: str) -> list[Letter]:
        """The letters of a text as they are drawn: one run where its script is written whole."""
        parts = [self.letter(one) for one in clusters(text)]
        if not is_whole(text):
            return parts
        wide = sum(one.wide for one in parts)
        left, bottom, right, top = RUN_INK
        return [Letter(text, wide, (left, bottom, wide + right, top))]

    def _ink(self, name: str) -> Box | None:
        """The box of a glyph's outline, none of one without."""
        if name not in self._boxes:
            self._boxes[name] = self._box_of(name)
        return self._boxes[name]

    def _box_of(self, name: str) -> Box | None:
        if self._outlines is not None:
            glyph = self._outlines[name]
            if glyph.numberOfContours == 0:
                return None
            found = glyph.xMin, glyph.yMin, glyph.xMax, glyph.yMax
        else:
            from fontTools.pens.boundsPen import BoundsPen

            pen = BoundsPen(self._glyphs)
            self._glyphs[name].draw(pen)
            if pen.bounds is None:
                return None
            found = pen.bounds
        left, bottom, right, top = (value / self.units for value in found)
        return left, bottom, right, top
