"""A site of a map with names along lines (tools/lines): what such names are is not told to readers,
and lines and names look as what they are.
"""

import json
import re
from pathlib import Path

from chromium import Browser
from lines import MAPS, made, must
from maplabel_kit import files
from maplabel_kit.files import write_whole
from servers import Files, Pages
from site_pages import SHOWN, make_site
from steady import AT_REST, OVERLAPS

NOTE = "page.panel.note.textContent"
VIEW = "index.html#lat=47.165&lng=9.52&z=16"
# Colours of names along lines, and of the lines, as they are chosen.
LOOKS = """[...new Set(page.names.placed.filter(one => one.boxes.length > 1)
  .map(({ label }) => page.lookOf(label).colour))]"""
STROKES = "[...new Set(page.shapes.map(shape => page.strokeOf(shape).line))]"
# Pixels of names and of lines that are of a colour, more or less.
OF_COLOUR = """(([name, colour]) => {
  const canvas = document.querySelector(name), pen = canvas.getContext('2d')
  const wanted = colour.match(/[0-9a-f]{2}/g).map(part => parseInt(part, 16))
  const { data } = pen.getImageData(0, 0, canvas.width, canvas.height)
  let count = 0
  for (let k = 0; k < data.length; k += 4)
    if (data[k + 3] > 250 && wanted.every((part, i) => Math.abs(data[k + i] - part) < 30)) count++
  return count })(%s)"""


def site(pages: Pages, folder: str) -> None:
    """Streets are as streets look, each is found once, made lines have no outlines, and no font is
    told as missing; one that is missing is.
    """
    features, style, words = MAPS["streets"]
    with files.folder() as at, Browser(1000, 560) as browser:
        out = made(at, features, style, words)
        make_site(pages.engine.program, at / "site", "--projected", *out)
        with Files(at / "site") as served:
            browser.open(f"{served.base}/{VIEW}")
            browser.wait(SHOWN + " && !!page.shapes", "the names have come")
            browser.tell(AT_REST)
            browser.picture(f"{folder}/lines-site.png")
            over = browser.tell(OVERLAPS)
            must(over["count"] > 20 and not over["found"], f"names of streets: {over}")
            count = browser.tell("page.shapes.length")
            must(count == len(features), f"{count} outlines are drawn of {len(features)} lines")
            _looks(browser)
            _found(browser, features[0]["properties"]["name"])
            said = browser.tell(NOTE)
            must(not said and not browser.heard, f"the page says: {said} {browser.heard}")
        _other_font(pages, at, out)
    print(f"lines-site: {over['count']} names of streets, each found once, in their own colours")


def _looks(browser: Browser) -> None:
    light = browser.tell("maplabel.LIGHT")
    name, line = light["names"]["street"]["colour"], light["shapes"]["street"]["line"]
    must(name != light["names"]["line"]["colour"], "names of streets have the colour of rivers")
    looks, strokes = browser.tell(LOOKS), browser.tell(STROKES)
    must(looks == [name], f"names of streets are {looks}, and not {name}")
    must(strokes == [line], f"streets are {strokes}, and not {line}")
    for canvas, colour in ((".ml-names", name), (".ml-land", line)):
        seen = browser.tell(OF_COLOUR % json.dumps([canvas, colour]))
        must(seen > 500, f"{seen} pixels of {canvas} are {colour}")


def _found(browser: Browser, name: str) -> None:
    """A street that has its name in many places is one name."""
    browser.click(800, 30)
    browser.type_text(name)
    browser.wait(f"page.panel.list.innerText.includes({json.dumps(name)})", f"{name} is found")
    found = browser.tell("[...page.panel.list.children].map(item => item.innerText)")
    again = [one for one in found if one.startswith(name)]
    must(len(set(found)) == len(found), f"a name is found more than once: {found}")
    must(not any("-" in one or "line" in one for one in again), f"what was made is told: {again}")


def _other_font(pages: Pages, at: Path, out: tuple[Path, Path]) -> None:
    """The same site, whose style was measured with a font that is not there."""
    style = out[0].read_text("utf-8").replace("Liberation Serif", "No Such Font")
    other = re.sub(
        '^("[a-iA-I]" = )(.*)', lambda one: f"{one[1]}{int(one[2]) // 2}", style, 0, re.M
    )
    write_whole({at / "other.toml": other})
    make_site(pages.engine.program, at / "other", "--projected", at / "other.toml", out[1])
    with Files(at / "other") as served, Browser(1000, 560) as browser:
        browser.open(f"{served.base}/{VIEW}")
        told = f"typeof page !== 'undefined' && !!page && {NOTE}.includes('No Such Font')"
        browser.wait(told, "the page says: No Such Font")
