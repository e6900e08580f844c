"""Ink of names along lines, pixel by pixel: what `web/maplabel/along.js` draws keeps within the
boxes that the engine keeps apart; and the page and the package `maplabel_kit.along` reckon the
same.
"""

import base64
import json
from collections.abc import Sequence
from dataclasses import dataclass
from pathlib import Path
from typing import Any

from chromium import Browser

MODULE = Path(__file__).resolve().parents[2] / "web" / "maplabel" / "along.js"
FAMILY = '"Liberation Serif"'
DENSITIES = (1, 1.5, 2)

# Draws each name alone and looks at all pixels about it. A pixel with ink that meets no box counts
# as spilt.
INK = """((names, ratio, family) => {
  const out = { drawn: 0, upright: [], small: [], spilt: 0, ink: 0, turn: 0, who: '' }, size = 1400
  const canvas = new OffscreenCanvas(size, size)
  const pen = canvas.getContext('2d', { willReadFrequently: true })
  for (const { text, boxes, height, spacing } of names) {
    pen.setTransform(1, 0, 0, 1, 0, 0)
    const lies = along.layAlong(pen, { text, boxes, height, spacing, family })
    if (!lies) { out.upright.push(text); continue }
    if (lies.height < height) out.small.push(text)
    const least = k => Math.min(...boxes.map(box => box[k])) - 8
    const most = k => Math.max(...boxes.map(box => box[k])) + 8
    const left = least(0), bottom = least(1), right = most(2), top = most(3)
    const wide = Math.floor((right - left) * ratio), high = Math.floor((top - bottom) * ratio)
    if (wide > size || high > size) throw new Error(`${text} is too large for the canvas`)
    out.drawn++
    const angles = lies.letters.map(letter => letter.angle * 180 / Math.PI)
    const turns = angles.slice(1).map((angle, k) => Math.abs(angle - angles[k]))
    out.turn = Math.max(out.turn, ...turns)
    pen.clearRect(0, 0, size, size)
    pen.setTransform(ratio, 0, 0, ratio, 0, 0)
    along.drawAlong(pen, lies, -left, top, { colour: '#000', halo: '#fff', haloWidth: 0, family })
    const { data } = pen.getImageData(0, 0, wide, high)
    for (let j = 0; j < high; j++) for (let i = 0; i < wide; i++) {
      const value = data[(j * wide + i) * 4 + 3]
      if (!value) continue
      out.ink += value
      const x = left + i / ratio, y = top - (j + 1) / ratio, side = 1 / ratio
      const isIn = boxes.some(([l, b, r, t]) => x < r && x + side > l && y < t && y + side > b)
      if (!isIn) { out.spilt += value; out.who = text }
    }
  }
  return out })(%s, %s, %s)"""
LAYS = """((names, family) => names.map(({ text, boxes, height, spacing }) => {
  const pen = new OffscreenCanvas(8, 8).getContext('2d')
  const lies = along.layAlong(pen, { text, boxes, height, spacing, family })
  return lies && [lies.height, lies.letters.map(one => [one.text, one.x, one.y, one.angle])]
}))(%s, %s)"""


@dataclass(frozen=True)
class Drawn:
    """A name as it is to be drawn: its text, its boxes, the height of its letters and the pixels
    between them.
    """

    text: str
    boxes: tuple[tuple[int, int, int, int], ...]
    height: int
    spacing: float = 0.0


def with_module(browser: Browser) -> None:
    """An empty page that has the module under the name `along`."""
    browser.open("about:blank")
    source = base64.b64encode(MODULE.read_bytes()).decode("ascii")
    browser.tell(
        f"import('data:text/javascript;base64,{source}').then(m => {{ window.along = m }})"
    )


def told(names: Sequence[Drawn]) -> str:
    """Names as a script takes them."""
    return json.dumps([one.__dict__ for one in names])


def ink_of(
    browser: Browser, names: Sequence[Drawn], density: float, family: str = FAMILY
) -> dict[str, Any]:
    """What the pixels of names say at a density."""
    found: dict[str, Any] = browser.tell(INK % (told(names), density, json.dumps(family)))
    return found


def lays_of(browser: Browser, names: Sequence[Drawn], family: str = FAMILY) -> list[Any]:
    """How the page lays names: the height, and text, x, y and angle of each letter; null where it
    does not.
    """
    found: list[Any] = browser.tell(LAYS % (told(names), json.dumps(family)))
    return found
