"""Light and dark: a page follows the system's choice while it is open, an author's `scheme` counts
over it, and in both all that is written can be read.

How well that is, is reckoned by the definition of contrast in the Web Content Accessibility
Guidelines 2.1: 4.5 to 1 is the least of their level AA for small letters.
"""

import json
import re

from chromium import Browser, Fault
from servers import STYLE, Pages
from steady import AT_SEA, SETTLED

LEAST_CONTRAST = 4.5
ADDRESS = "mercator.html#lat=48&lng=10&z=5&poll=no"
COLOURS = """Object.entries(page.colours.names).map(([kind, { colour }]) => [kind, colour])"""
FILLS = """[page.colours.sea, page.colours.land,
  ...Object.values(page.colours.shapes).map(shape => shape.fill).filter(fill => fill)]"""
# Pixels near a name's own colour among those in its box.
WRITTEN = """(text => {
  const { label, x, y } = page.names.placed.find(one => one.label.text === text)
  const [l, b, r, t] = label.boxes[0], pen = page.names.canvas.getContext('2d')
  const { data } = pen.getImageData(x + l, y - t, r - l, t - b)
  const wanted = page.lookOf(label).colour.match(/[0-9a-f]{2}/g).map(part => parseInt(part, 16))
  let count = 0
  for (let k = 0; k < data.length; k += 4)
    if (data[k + 3] > 250 && wanted.every((part, i) => Math.abs(data[k + i] - part) < 40)) count++
  return count })(%s)"""
PARTS = """['.ml-find input', '.ml-bar', '.ml-card', '.leaflet-control-zoom-in'].map(part => {
  const own = getComputedStyle(document.querySelector(part))
  return [part, own.color, own.backgroundColor] })"""
# The colours of the sea that the README's pictures have: by day and by night.
SEA = {"light": (0xD6, 0xE4, 0xEC), "dark": (0x17, 0x21, 0x2A)}


def _told(condition: object, text: str) -> None:
    if not condition:
        raise Fault(text)


def _parts(colour: str) -> tuple[float, float, float]:
    """Red, green and blue of `#rrggbb` or `rgb(..)`, from 0 to 255."""
    if colour.startswith("#"):
        return int(colour[1:3], 16), int(colour[3:5], 16), int(colour[5:7], 16)
    red, green, blue, *_ = map(float, re.findall(r"[0-9.]+", colour))
    return red, green, blue


def _luminance(colour: str) -> float:
    linear: list[float] = [
        part / 12.92 if part <= 0.04045 else ((part + 0.055) / 1.055) ** 2.4
        for part in (one / 255 for one in _parts(colour))
    ]
    return 0.2126 * linear[0] + 0.7152 * linear[1] + 0.0722 * linear[2]


def contrast(one: str, other: str) -> float:
    """The contrast of two colours, from 1 to 21."""
    low, high = sorted((_luminance(one), _luminance(other)))
    return (high + 0.05) / (low + 0.05)


def dark(pages: Pages, folder: str) -> None:
    """The scheme of the system, of the author, and a change of it; and contrasts in both."""
    with Pages(pages.engine, None, "--style", STYLE) as own, Browser(900, 600) as browser:
        browser.scheme("dark")
        browser.open(f"{own.base}/{ADDRESS}")
        browser.wait(SETTLED + " && !!page.shapes", "the names have come")
        least = [_looked_at(browser, "dark", folder)]
        browser.scheme("light")
        browser.wait("!page.element.classList.contains('ml-dark')", "the page becomes light", 5)
        least.append(_looked_at(browser, "light", folder))
        browser.open(own.base + "/plain.html#land=no&poll=no")
        for wish, system in (("light", "dark"), ("dark", "light")):
            browser.scheme(system)
            _chosen(browser, wish)
        print(f"dark: followed at once; contrasts of at least {min(least):.1f} in both schemes")


def _looked_at(browser: Browser, scheme: str, folder: str) -> float:
    """The least contrast of what is written."""
    browser.tell("page.panel.about.show('A name', ['What is told.'])")
    seen = browser.colour(*browser.tell(AT_SEA))
    _told(seen == SEA[scheme], f"in the {scheme} scheme the sea is {seen}")
    written = browser.tell(WRITTEN % json.dumps("Prague"))
    _told(written > 5, f"in the {scheme} scheme Prague has {written} pixels of its colour")
    browser.picture(f"{folder}/scheme-{scheme}.png")
    found: dict[str, float] = {
        f"the name of {kind} on {fill}": contrast(colour, fill)
        for kind, colour in browser.tell(COLOURS)
        for fill in browser.tell(FILLS)
    }
    found |= {part: contrast(ink, paper) for part, ink, paper in browser.tell(PARTS)}
    what = min(found, key=lambda one: found[one])
    least = found[what]
    _told(least >= LEAST_CONTRAST, f"in the {scheme} scheme {what} has a contrast of {least:.2f}")
    return least


def _chosen(browser: Browser, wish: str) -> None:
    """An author's scheme on a map without Leaflet, whatever the system wants."""
    browser.tell(
        '(async () => { document.body.innerHTML = \'<div id="m" style="height: 300px"></div>\';'
        " window.own = await maplabel.onElement(document.getElementById('m'), location.origin,"
        f" {{ scheme: '{wish}', outlines: true }}) }})()"
    )
    sea = browser.tell("getComputedStyle(own.viewer.ground).backgroundColor")
    wanted = "rgb({}, {}, {})".format(*SEA[wish])
    _told(sea == wanted, f"an author's scheme {wish} has the sea {sea}")
    browser.tell("own.remove()")
