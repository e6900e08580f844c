"""Names along lines: how a page draws a name in its boxes, letter by letter, and the same for other
programs.

The engine gives a name along a line a box for each of its letters. A page draws the letters along
the smooth curve that these boxes follow, each turned, at the greatest height at which the ink of
every letter stays within the boxes. `web/maplabel/along.js` reckons the same in a browser.
"""

from maplabel_kit.along.curve import Box, Curve, Point, Shape, curve_of
from maplabel_kit.along.face import Face, Letter, default_font
from maplabel_kit.along.lay import (
    HEIGHT,
    MADE,
    SPACING,
    Lay,
    Placed,
    core_of,
    corners,
    lay,
    lay_letters,
    places_of,
    wanted,
)
from maplabel_kit.along.room import Room, clipped
from maplabel_kit.along.scripts import clusters, is_whole, whole_scripts

__all__ = [
    "HEIGHT",
    "MADE",
    "SPACING",
    "Box",
    "Curve",
    "Face",
    "Lay",
    "Letter",
    "Placed",
    "Point",
    "Room",
    "Shape",
    "clipped",
    "clusters",
    "core_of",
    "corners",
    "curve_of",
    "default_font",
    "is_whole",
    "lay",
    "lay_letters",
    "places_of",
    "wanted",
    "whole_scripts",
]
