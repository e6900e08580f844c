"""Kinds of files that are often given as maps and are none: their names, and the command that turns
each.
"""

import json
import shlex
from dataclasses import dataclass
from pathlib import Path
from typing import Any

GEOMETRIES = (
    "Point",
    "MultiPoint",
    "LineString",
    "MultiLineString",
    "Polygon",
    "MultiPolygon",
    "GeometryCollection",
)
OGR = "ogr2ogr -f GeoJSON -t_srs EPSG:4326 {out} {path}"
OSM = "ogr2ogr -f GeoJSON -t_srs EPSG:4326 {out} {path} points"


@dataclass(frozen=True)
class Format:
    """A kind of file, and the command that makes a map file of it."""

    name: str
    way: str

    def command(self, path: str) -> str:
        """The sentence that tells the command."""
        out = Path(path).stem + ".map.geojson"
        told = self.way.format(path=shlex.quote(path), out=shlex.quote(out))
        return f"turn it: {told}"


# What files of a kind begin with.
BEGINNINGS = (
    (b"\x1f\x8b", Format("a file packed by gzip", "gunzip -k {path}")),
    (b"PK\x03\x04", Format("a zip archive", "unzip {path}")),
    (b"BZh", Format("a file packed by bzip2", "bunzip2 -k {path}")),
    (b"\xfd7zXZ", Format("a file packed by xz", "unxz -k {path}")),
    (b"\x28\xb5\x2f\xfd", Format("a file packed by zstd", "unzstd {path}")),
    (b"\x00\x00\x27\x0a", Format("a shapefile", OGR)),
    (b"SQLite format 3\x00", Format("a GeoPackage or another SQLite file", OGR)),
    (b"fgb\x03", Format("a FlatGeobuf file", OGR)),
    (b"PAR1", Format("a Parquet file", OGR)),
    (b"<osm", Format("an OpenStreetMap extract (XML)", OSM)),
    (b"<kml", Format("a KML file", OGR)),
    (b"<gpx", Format("a GPX file", OGR)),
    (b"<", Format("an XML file", OGR)),
)
PBF = Format("an OpenStreetMap extract (PBF)", OSM)
LINES = Format("GeoJSON lines, a feature on each line", OGR)
TOPOLOGY = Format("TopoJSON", OGR)
UTF16 = Format("a text in UTF-16", "iconv -f UTF-16 -t UTF-8 {path} > {out}")
TABLE = Format("a table (CSV)", OGR + " -oo X_POSSIBLE_NAMES=lon* -oo Y_POSSIBLE_NAMES=lat*")
GEOMETRY = """jq -c '{{type:"Feature",geometry:.,properties:{{name:"NAME"}}}}' {path} > {out}"""


def of(data: bytes, path: str = "") -> Format | None:
    """The kind of a file that is no map, by its bytes; none where it is not known."""
    head = data[:4096]
    if b"OSMHeader" in head[:64]:
        return PBF
    if head[:2] in (b"\xff\xfe", b"\xfe\xff"):
        return UTF16
    bare = _without_prolog(head)
    for beginning, found in BEGINNINGS:
        if head.startswith(beginning) or (beginning[:1] == b"<" and bare.startswith(beginning)):
            return found
    if Path(path).suffix.lower() in (".csv", ".tsv") and not head.lstrip()[:1] in b"{[":
        return TABLE
    return _of_json(data)


def _without_prolog(head: bytes) -> bytes:
    """The head of an XML file from its first element on."""
    rest = head.removeprefix(b"\xef\xbb\xbf").lstrip()
    while rest.startswith((b"<?", b"<!")):
        rest = rest.partition(b">")[2].lstrip()
    return rest


def _of_json(data: bytes) -> Format | None:
    """The kind of a JSON text that is no map: lines of features, a topology or a bare geometry."""
    text = data.decode("utf-8", "replace").lstrip("\ufeff\x1e \t\r\n")
    try:
        value, end = json.JSONDecoder().raw_decode(text)
    except (ValueError, RecursionError):
        return None
    rest = text[end:].lstrip("\x1e \t\r\n")
    if rest.startswith("{") and isinstance(value, dict):
        return LINES
    return _of_value(value) if not rest else None


def _of_value(value: Any) -> Format | None:
    kind = value.get("type") if isinstance(value, dict) else None
    if kind == "Topology":
        return TOPOLOGY
    if kind in GEOMETRIES:
        return Format(f"a bare geometry ({kind})", GEOMETRY)
    if isinstance(value, dict) and "features" in value and "geometryType" in value:
        return Format("Esri JSON", OGR)
    return None
