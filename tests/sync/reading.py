"""deploy/sync's own reader of map files beside the program's, over random maps."""

import random
from pathlib import Path

import odd_maps
from maplabel_kit import program
from maplabel_kit.client import get
from maplabel_kit.faults import Fault
from maplabel_kit.files import folder
from maplabel_source import geojson
from served import collection, expect, style, write
from trials import trial

NO_MAPS = (
    "",
    "{",
    "[]",
    '{"type":"Feature',
    "NaN",
    '{"type":"FeatureCollection","features":[1]}',
    "[" * 65 + "]" * 65,
    '{"type":"FeatureCollection","features":[{"type":"Feature","x":%s}]}' % ("[" * 62 + "]" * 62),
    '{"type":"Feature","id":01}',
    '{"type":"Feature","a":"\t"}',
    "[" * 100000,
    '{"type":"FeatureCollection"}',
)


class Settings:
    """What the command line says."""

    seed, maps = 1, 600


def exported(style_file: Path, path: Path) -> str:
    """What the program prints of a map file that it is to load: its canonical text, or its
    refusal."""
    done = program.run(program.find(), "pipe", style_file, path, data=get("/map"))
    return done.out.partition(b"\r\n\r\n")[2].decode() if done.status == 0 else done.line()


@trial("reading")
def random_maps() -> None:
    """Random map files are read as the program reads them, to the byte."""
    chance, refused = random.Random(Settings.seed), 0
    with folder() as at:
        style_file = style(at)
        for number in range(Settings.maps):
            text = odd_maps.Maker(chance, number % 2 == 0).map()
            want = exported(style_file, write(at, "odd.geojson", text))
            refused += _is_refused_alike(text, want)
    print(
        f"{Settings.maps} random maps are read as the program reads them, {refused} refused alike"
    )


def _is_refused_alike(text: str, want: str) -> bool:
    """Whether the map is refused; both must agree in what it is."""
    texts = geojson.read_map(text.encode())
    if want.startswith("map refused"):
        faulty = [
            place for place, one in enumerate(texts.values()) if isinstance(one, geojson.Faulty)
        ]
        expect(faulty[:1], [int(want.split()[-1])], f"the first fault of {text!r}: {want}")
        return True
    expect(collection(texts.values()).replace(",\n", ","), want, f"the reading of {text!r}")
    expect(geojson.read_export(want.encode()), texts, f"the export of {text!r}")
    return False


@trial("reading")
def no_maps() -> None:
    """What the program refuses as a whole, deploy/sync refuses too."""
    with folder() as at:
        style_file = style(at)
        for text in NO_MAPS:
            if not exported(style_file, write(at, "odd.geojson", text)).startswith("map refused"):
                raise Fault(f"the program takes {text[:80]!r}")
            try:
                geojson.read_map(text.encode())
            except geojson.NoMap:
                continue
            raise Fault(f"deploy/sync takes {text[:80]!r}")
    print(f"{len(NO_MAPS)} texts that are no map are refused by both")
