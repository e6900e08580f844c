"""A folder that any static host serves: a page, Leaflet, the names in pieces, the outlines, all of
it packed as well.
"""

import gzip
import json
import math
import shutil
import tempfile
from collections.abc import Iterator, Sequence
from dataclasses import dataclass
from html import escape
from pathlib import Path
from typing import Any

from maplabel_kit.along import MADE
from maplabel_kit.faults import Fault
from maplabel_kit.files import must_read
from maplabel_kit.geojson import Feature
from maplabel_kit.style import Class
from maplabel_site import bundle, mercator
from maplabel_site.names import ALWAYS, Labelled, Name

HERE = Path(__file__).resolve().parent
WEB = HERE.parent
LEAFLET = Path("/usr/share/javascript/leaflet")
FORMAT = "maplabel names 1"
INDEX = Path("names", "index.json")
KIND = "kind"  # the property that tells what a feature is where the style does not
MOST_ROWS = 250
SIDE = 1_000_000_000
FEWEST_BYTES = 200
PACKED = (".json", ".js", ".css", ".html")


@dataclass(frozen=True)
class Wish:
    """What the person wants of a site."""

    title: str
    attribution: str
    zooms: tuple[int, int]
    tiles: str | None
    credit: str
    background: str | None
    told: Sequence[str]
    leaflet: Path


@dataclass(frozen=True)
class Square:
    """A square of the plane: its middle, half its side, and the name of its file."""

    x: int
    y: int
    half: int
    called: str

    def parts(self) -> list["Square"]:
        """Its four quarters."""
        half = self.half // 2
        return [
            Square(self.x + east * half, self.y + north * half, half, f"{self.called}{number}")
            for number, (east, north) in enumerate(((-1, -1), (1, -1), (-1, 1), (1, 1)))
        ]


def write(folder: Path, made: Labelled, style: dict[str, Any], wish: Wish) -> None:
    """Writes a site into a new folder, or in the place of one that was written before."""
    if folder.exists() and not is_site(folder):
        raise Fault(f"{folder} is there and is no site of names: tell a new folder, or remove it")
    folder.parent.mkdir(parents=True, exist_ok=True)
    with tempfile.TemporaryDirectory(prefix=".maplabel-", dir=folder.parent) as new:
        inner = Path(new, "site")
        _fill(inner, made, style, wish)
        if folder.exists():
            shutil.move(folder, Path(new, "before"))
        shutil.move(inner, folder)


def is_site(folder: Path) -> bool:
    """Whether a folder is empty or a site that was written before."""
    if folder.is_dir() and not any(folder.iterdir()):
        return True
    index = folder / INDEX
    return index.is_file() and FORMAT in index.read_text(encoding="utf-8", errors="replace")[:100]


def _fill(folder: Path, made: Labelled, style: dict[str, Any], wish: Wish) -> None:
    (folder / "names").mkdir(parents=True)
    outlines = list(_outlines(made, style, wish.told))
    pieces = list(_pieces(folder, made.names, wish.told))
    index = {
        "format": FORMAT,
        "way": "projected",
        "count": len(made.names),
        "reach": max(
            (abs(n) for name in made.names for box in name.label.boxes for n in box), default=0
        ),
        "style": style,
        "pieces": pieces,
        "outlines": "outlines.json" if outlines else None,
        "zipped": True,
    }
    _write_json(folder / INDEX, index)
    if outlines:
        _write_json(folder / "names" / "outlines.json", {"features": outlines})
    (folder / "maplabel.js").write_text(bundle.bundled(WEB / "maplabel"), encoding="utf-8")
    shutil.copyfile(WEB / "maplabel.css", folder / "maplabel.css")
    _copy_leaflet(wish.leaflet, folder / "leaflet")
    (folder / "index.html").write_text(_page(made, wish), encoding="utf-8")
    for path in folder.rglob("*"):
        if path.suffix in PACKED and path.stat().st_size >= FEWEST_BYTES:
            data = gzip.compress(path.read_bytes(), 9, mtime=0)
            path.with_name(path.name + ".gz").write_bytes(data)


def _write_json(path: Path, value: object) -> None:
    path.write_text(json.dumps(value, ensure_ascii=False, separators=(",", ":")), encoding="utf-8")


def _copy_leaflet(source: Path, target: Path) -> None:
    target.mkdir()
    script = source / "leaflet.min.js"
    try:
        shutil.copyfile(script if script.exists() else source / "leaflet.js", target / "leaflet.js")
        shutil.copyfile(source / "leaflet.css", target / "leaflet.css")
        shutil.copytree(source / "images", target / "images")
    except OSError:
        raise Fault(
            f"Leaflet is not in {source}: install Debian's libjs-leaflet, "
            "or tell its folder by --leaflet"
        ) from None


def _pieces(folder: Path, names: Sequence[Name], told: Sequence[str]) -> Iterator[list[object]]:
    """Writes the names in squares: each has those that are shown furthest out, the others are in
    its quarters.
    """
    ordered = sorted(enumerate(names), key=lambda one: (-one[1].label.until, one[0]))
    waiting = [(Square(0, 0, SIDE, "n"), ordered)]
    while waiting:
        square, found = waiting.pop(0)
        own, rest = found[:MOST_ROWS], found[MOST_ROWS:]
        if not own:
            continue
        rows = [_row(number, name, told) for number, name in own]
        _write_json(folder / "names" / f"{square.called}.json", {"rows": rows})
        xs, ys = [n.label.x for _, n in own], [n.label.y for _, n in own]
        most = float(own[0][1].label.until) * (1 + 1e-12)
        yield [f"{square.called}.json", min(xs), min(ys), max(xs), max(ys), most]
        for part, inner in zip(square.parts(), _split(rest, square)):
            waiting.append((part, inner))


def _split(names: list[tuple[int, Name]], square: Square) -> list[list[tuple[int, Name]]]:
    """The names of each quarter of a square."""
    parts: list[list[tuple[int, Name]]] = [[], [], [], []]
    for one in names:
        label = one[1].label
        parts[(label.x >= square.x) + 2 * (label.y >= square.y)].append(one)
    return parts


def _row(number: int, name: Name, told: Sequence[str]) -> list[object]:
    label = name.label
    ends = [f"{scale.numerator}/{scale.denominator}" for scale in (label.least, label.until)]
    sides = [side for box in label.boxes for side in box]
    row = [number, label.id, name.text, name.place, label.x, label.y, *ends, sides]
    own = [KIND] if MADE in name.feature.properties else []
    properties = _chosen(name.feature, [*told, *ALWAYS, *own])
    return [*row, properties] if properties else row


def _chosen(feature: Feature, keys: Sequence[str]) -> dict[str, object]:
    """Those of a feature's properties that are wanted."""
    values = feature.properties
    return {key: _value(values[key]) for key in keys if values.get(key) is not None}


def _value(value: object) -> object:
    """A number as a number again, though it was kept as it stood in its text."""
    if not isinstance(value, str) or type(value) is str:
        return value
    return float(value) if any(sign in value for sign in ".eE") else int(value)


def _outlines(
    made: Labelled, style: dict[str, Any], told: Sequence[str]
) -> Iterator[dict[str, Any]]:
    """The lines and areas, each with what is known of it."""
    for feature in made.features:
        if feature.kind not in ("line", "area") or MADE in feature.properties:
            continue
        geometry = feature.geometry or {}
        places = _thinned(geometry["coordinates"])
        own = made.style.class_of(feature)
        known: dict[str, Any] = {
            "kind": feature.kind,
            "value": feature.text(_key_of(feature, own, style)) or feature.text(KIND),
            "properties": _chosen(feature, told),
        }
        yield {
            "id": feature.id,
            "known": known if own is None else {"class": own.place, **known},
            "geometry": {"type": geometry["type"], "coordinates": places},
            "properties": None,
        }


def _key_of(feature: Feature, own: Class | None, style: dict[str, Any]) -> str | None:
    """The property that tells what a feature is: that of its class, or the one that classes of its
    kind, or of any, ask for.
    """
    if own and own.key:
        return own.key
    keyed = [one for one in style["classes"] if one.get("key", MADE) != MADE]
    keys: list[str] = [one["key"] for one in keyed if one["geometry"] == feature.kind]
    keys += [one["key"] for one in keyed]
    return keys[0] if keys else None


def _thinned(coordinates: list[Any]) -> list[Any]:
    """Coordinates with five decimals, a metre, without places that fall on the one before."""
    if coordinates and isinstance(coordinates[0], list) and coordinates[0]:
        if not isinstance(coordinates[0][0], list):
            return _line(coordinates)
        return [_thinned(part) for part in coordinates]
    return coordinates


def _line(places: list[Any]) -> list[list[float]]:
    kept: list[list[float]] = []
    for place in places:
        rounded = [round(float(place[0]), 5), round(float(place[1]), 5)]
        if not kept or rounded != kept[-1]:
            kept.append(rounded)
    return kept


def _bounds(names: Sequence[Name]) -> list[list[float]]:
    """South-west and north-east of all names, in degrees."""
    if not names:
        return [[-60.0, -170.0], [75.0, 170.0]]
    xs, ys = [name.label.x / 1e7 for name in names], [name.label.y / 1e7 for name in names]
    west, south = mercator.back(min(xs), min(ys))
    east, north = mercator.back(max(xs), max(ys))
    return [[round(south, 4), round(west, 4)], [round(north, 4), round(east, 4)]]


def _page(made: Labelled, wish: Wish) -> str:
    options: dict[str, Any] = {
        "source": str(INDEX.as_posix()),
        "title": wish.title,
        "attribution": wish.attribution,
        "zooms": list(wish.zooms),
        "bounds": _bounds(made.names),
    }
    if wish.background:
        options["background"] = wish.background
    if wish.tiles:
        options |= {"tiles": wish.tiles, "credit": wish.credit, "outlines": False}
    text = must_read(HERE / "page.html", "the page of sites").decode("utf-8")
    told = json.dumps(options, ensure_ascii=False, indent=2).replace("<", "\\u003c")
    shown = json.dumps(list(wish.told), ensure_ascii=False).replace("<", "\\u003c")
    for mark, value in (("TITLE", escape(wish.title)), ("OPTIONS", told), ("TOLD", shown)):
        text = text.replace("{{%s}}" % mark, value)
    return text


def zooms_of(word: str) -> tuple[int, int]:
    """The zooms of a word as `4-12`."""
    first, _, last = word.partition("-")
    if not (first.isdecimal() and last.isdecimal() and 0 <= int(first) <= int(last) <= 20):
        raise Fault(f"zooms are told as 4-12, from 0 to 20, and not as {word}")
    return int(first), int(last)


def total_bytes(folder: Path) -> int:
    """The bytes of all plain files of a site."""
    files = (one for one in folder.rglob("*") if one.is_file() and one.suffix != ".gz")
    return math.fsum(one.stat().st_size for one in files).__trunc__()
