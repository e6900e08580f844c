"""The words of the command line."""

import argparse
import gc
import os
import re
from collections.abc import Callable
from fractions import Fraction
from pathlib import Path

from maplabel_kit import program, words

from maplabel_atlas import commands
from maplabel_atlas.parts import REASONS

GARBAGE = 1_000_000
Call = Callable[[argparse.Namespace], int]


def run(text: str | None) -> int:
    """Does what the command line says, and returns the status."""
    told = Parser(text).parser.parse_args()
    gc.set_threshold(
        GARBAGE, 100, 100
    )  # few things here are circles, and to look for them takes long
    status: int = told.call(told)
    return status


class Parser:
    """The parser of all commands."""

    def __init__(self, text: str | None) -> None:
        self.parser = words.parser(text, "atlas")
        self._kinds = self.parser.add_subparsers(required=True, metavar="COMMAND")
        self._make()
        self._edit()
        self._audit()
        self._publish()
        self._why()
        self._view()

    def _kind(self, name: str, told: str, call: Call, more: str = "") -> argparse.ArgumentParser:
        one = self._kinds.add_parser(
            name,
            help=told,
            description=f"{told[0].upper()}{told[1:]}. {more}",
        )
        one.set_defaults(call=call)
        return one

    def _make(self) -> None:
        one = self._kind(
            "make",
            "find the names of a layer",
            commands.make,
            (
                "LAYER is a GeoJSON file (.geojson), a file with a line of GeoJSON for each feature"
                " (.geojsonl), or whatever GDAL reads: a GeoPackage, a shapefile, FlatGeobuf,"
                " PG:dbname=gis with --layer TABLE. Broken off or failed, the command goes on from"
                " what was answered when it is called again."
            ),
        )
        one.add_argument("layer", metavar="LAYER")
        one.add_argument("style", metavar="STYLE")
        one.add_argument("out", metavar="OUT", help="the folder of the atlas")
        one.add_argument(
            "--layer",
            dest="layer_name",
            metavar="NAME",
            help="the layer or table, where there are several",
        )
        _reading(one)
        _cell(one)
        _working(one)

    def _edit(self) -> None:
        one = self._kind(
            "edit",
            "add, replace and remove features of an atlas",
            commands.edit,
            (
                "FEATURES is a layer as `make` takes it. Each of its features takes the place of"
                " the one with its id, or is added."
            ),
        )
        one.add_argument("atlas", metavar="ATLAS")
        one.add_argument("features", metavar="FEATURES", nargs="?")
        one.add_argument(
            "--follow",
            action="store_true",
            help="take in what has changed in the table that the atlas was made of",
        )
        one.add_argument(
            "--watch",
            type=float,
            metavar="SECONDS",
            help="with --follow: go on, at each change and every so many seconds",
        )
        one.add_argument(
            "--postgis",
            metavar="DATABASE",
            help="with --follow: publish changed names into a table of this database",
        )
        one.add_argument("--table", default="names", help="the name of that table (else names)")
        one.add_argument(
            "--remove",
            action="append",
            default=[],
            metavar="ID",
            help="remove the feature with this id",
        )
        _reading(one)
        _working(one)

    def _audit(self) -> None:
        one = self._kind(
            "audit", "ask for the labels of an atlas once more, in other cells", commands.look_over
        )
        one.add_argument("atlas", metavar="ATLAS")
        one.add_argument(
            "--share",
            type=_share,
            default=1.0,
            help="the share that is asked for, 0 to 1 (else all)",
        )
        one.add_argument(
            "--at-once",
            type=words.whole(1, 10**9),
            default=250_000,
            metavar="LABELS",
            help=argparse.SUPPRESS,
        )
        _cell(one)
        _working(one)

    def _publish(self) -> None:
        one = self._kind(
            "publish",
            "write an atlas for servers and other programs",
            commands.publish,
            (
                "The table has a function TABLE_tile(z, x, y), which pg_tileserv and martin serve"
                " as vector tiles. Done again, it writes only the rows that changed."
            ),
        )
        one.add_argument("atlas", metavar="ATLAS")
        one.add_argument(
            "--postgis", metavar="DATABASE", help='fill a table of this database, as "dbname=gis"'
        )
        one.add_argument("--table", default="names", help="the name of that table (else names)")
        one.add_argument("--lines", type=Path, metavar="FILE", help="write lines of GeoJSON")
        one.add_argument("--geopackage", type=Path, metavar="FILE", help="write a GeoPackage")
        one.add_argument("--mbtiles", metavar="FILE", help="write vector tiles as MBTiles")
        one.add_argument(
            "--tiles", metavar="FOLDER", help="write vector tiles as a folder, Z/X/Y.pbf"
        )
        one.add_argument(
            "--zooms",
            type=int,
            nargs=2,
            default=(0, 8),
            metavar=("FIRST", "LAST"),
            help=(
                "of the tiles (else 0 8); those of the last zoom hold all names that come behind"
                " it too"
            ),
        )
        one.add_argument("--quiet", action="store_true", help="tell nothing but faults")

    def _view(self) -> None:
        one = self._kind(
            "view",
            "print a view out of a published table: the JSON that the engine's /view gives",
            commands.view,
        )
        one.add_argument("postgis", metavar="DATABASE", help='as "dbname=gis"')
        one.add_argument("table", metavar="TABLE")
        for name in ("cx", "cy"):
            one.add_argument(
                name, type=words.whole(-2_000_000_000, 2_000_000_000), metavar=name.upper()
            )
        for name in ("w", "h"):
            one.add_argument(name, type=words.whole(2, 4096), metavar=name.upper())
        one.add_argument(
            "scale", type=_scale, metavar="SCALE", help="N or N/D, world units a pixel"
        )

    def _why(self) -> None:
        one = self._kind(
            "why",
            "tell how the labels of features stand, or why they have none",
            commands.why,
            (
                "It prints what the engine's /why does. Without an ID it counts the features"
                " without a label by reasons."
            ),
        )
        one.add_argument("atlas", metavar="ATLAS")
        one.add_argument("ids", metavar="ID", nargs="*")
        one.add_argument(
            "--reason",
            choices=REASONS,
            help="list the ids of all features without a label for this reason",
        )


def _reading(one: argparse.ArgumentParser) -> None:
    one.add_argument("--id-field", metavar="COLUMN", help="the column of ids, of what GDAL reads")
    one.add_argument(
        "--crs", metavar="EPSG:N", help="the coordinate system of a layer that does not tell it"
    )


def _working(one: argparse.ArgumentParser) -> None:
    program.add_option(one)
    one.add_argument(
        "--scheduler",
        metavar="ADDRESS",
        help="use the workers of this Dask scheduler, as tcp://10.0.0.1:8786",
    )
    one.add_argument(
        "--workers",
        type=words.whole(1, 1000),
        default=os.cpu_count() or 1,
        help="how many processes, without a scheduler",
    )
    one.add_argument("--quiet", action="store_true", help="tell nothing but faults")


def _cell(one: argparse.ArgumentParser) -> None:
    one.add_argument(
        "--cell",
        type=words.whole(64, 30_000),
        default=16_000,
        metavar="LABELS",
        help="ask for at most so many labels in one table (else 16000); the result is the same",
    )


def _scale(word: str) -> str:
    if not re.fullmatch("[0-9]{1,10}(/[0-9]{1,10})?", word) or not 0 < Fraction(word) < 268435456:
        raise argparse.ArgumentTypeError("it is N or N/D, above 0 and below 268435456")
    return word


def _share(word: str) -> float:
    value = float(word)
    if not 0 < value <= 1:
        raise argparse.ArgumentTypeError("it is above 0 and at most 1")
    return value
