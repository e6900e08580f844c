"""Layers of files that GDAL reads, as features in degrees with ids of their own."""

import json
import re
from collections import Counter
from collections.abc import Iterator, Sequence
from dataclasses import dataclass, field
from pathlib import Path
from typing import Any

from maplabel_kit.faults import Fault
from maplabel_kit.told import near

try:
    from osgeo import gdal, ogr, osr
except ImportError:
    ogr = None

PRECISION = ["COORDINATE_PRECISION=7"]
# What OpenStreetMap's files have as layers of named things; relations that are no areas are not.
OSM_LAYERS = ("points", "lines", "multilinestrings", "multipolygons")
IDS = ("osm_id", "osm_way_id", "id")
OTHER_TAGS = "other_tags"
TAG = re.compile(r'"((?:[^"\\]|\\.)*)"=>"((?:[^"\\]|\\.)*)"')
# By the number of dimensions: what parts of a collection become together.
MULTI = ("wkbMultiPoint", "wkbMultiLineString", "wkbMultiPolygon")


@dataclass(frozen=True)
class Keys:
    """The fields that are wanted: those of the name, of the rank and of the class, and others."""

    name: str
    rank: str | None = None
    others: tuple[str, ...] = ()

    def all(self) -> tuple[str, ...]:
        """All of them, each once."""
        found = [self.name, *([self.rank] if self.rank else []), *self.others]
        return tuple(dict.fromkeys(found))


@dataclass
class Layer:
    """A layer: its file, its name, and what became of its features."""

    path: str
    name: str
    features: list[dict[str, Any]] = field(default_factory=list)
    counts: Counter[str] = field(default_factory=Counter)

    def told(self) -> str:
        """What became of the features, for a person."""
        parts = [f"{self.counts['read']:,} read", f"{len(self.features):,} taken"]
        parts += [
            f"{self.counts[key]:,} {key}"
            for key in ("without a name", "without a geometry", "collections taken by their parts")
            if self.counts[key]
        ]
        return f"{self.path}, layer {self.name}: {', '.join(parts)}"


def read(path: str, keys: Keys, crs: str | None, is_unnamed_kept: bool) -> list[Layer]:
    """The layers of a file that have a geometry and a field of the name."""
    if ogr is None:
        raise Fault("GDAL for Python is missing (Debian: apt install python3-gdal)")
    for module in (gdal, ogr, osr):
        module.UseExceptions()
    gdal.SetConfigOption("OSM_USE_CUSTOM_INDEXING", "YES")
    path, _, wanted = _parted(path)
    try:
        opened = gdal.OpenEx(path, gdal.OF_VECTOR | gdal.OF_VERBOSE_ERROR)
    except RuntimeError as error:
        raise Fault(f"{path} is no layer that GDAL reads: {error}") from None
    is_osm = opened.GetDriver().ShortName == "OSM"
    names = [opened.GetLayer(number).GetName() for number in range(opened.GetLayerCount())]
    if wanted and wanted not in names:
        raise Fault(f"{path} has no layer {wanted}{near(wanted, names)}; it has {', '.join(names)}")
    found, said = [], []
    for name in names:
        layer = opened.GetLayerByName(name)
        if wanted and name != wanted or is_osm and not wanted and name not in OSM_LAYERS:
            continue
        if lack := _lack(layer, keys):
            said.append(f"layer {name} {lack}")
            continue
        found.append(_read_layer(path, layer, keys, crs, is_unnamed_kept))
    if not found:
        raise Fault(f"nothing of {path} can be taken: " + "; ".join(said or ["it has no layer"]))
    return found


def _parted(told: str) -> tuple[str, str, str]:
    """A file and perhaps one of its layers, told as FILE:LAYER."""
    if Path(told).exists():
        return told, "", ""
    path, sign, layer = told.rpartition(":")
    if sign and Path(path).exists():
        return path, sign, layer
    raise Fault(f"there is no file {told}")


def _lack(layer: Any, keys: Keys) -> str | None:
    """Why a layer cannot be taken."""
    if layer.GetGeomType() == ogr.wkbNone or not layer.GetLayerDefn().GetGeomFieldCount():
        return "has no column of geometries"
    fields = _fields(layer)
    if keys.name in fields or OTHER_TAGS in fields:
        return None
    told = ", ".join(fields) or "none at all"
    return f'has no field "{keys.name}"{near(keys.name, fields)}. Its fields are: {told}'


def _fields(layer: Any) -> list[str]:
    defined = layer.GetLayerDefn()
    return [defined.GetFieldDefn(k).GetName() for k in range(defined.GetFieldCount())]


def _read_layer(path: str, layer: Any, keys: Keys, crs: str | None, is_kept: bool) -> Layer:
    """The features of a layer."""
    found = Layer(path, layer.GetName())
    turn = _turn(path, layer, crs)
    layer.ResetReading()
    for feature in _features(layer):
        found.counts["read"] += 1
        properties = _properties(feature, keys)
        if not _is_name(properties.get(keys.name)):
            found.counts["without a name"] += 1
            if not is_kept:
                continue
        geometry = _geometry(feature, turn, found.counts)
        if geometry is None:
            found.counts["without a geometry"] += 1
            continue
        found.features.append({"id": _id(feature), "geometry": geometry, "properties": properties})
    return found


def _features(layer: Any) -> Iterator[Any]:
    try:
        yield from iter(layer.GetNextFeature, None)
    except RuntimeError as error:
        raise Fault(f"layer {layer.GetName()} cannot be read to its end: {error}") from None


def _turn(path: str, layer: Any, crs: str | None) -> Any:
    """What turns a layer's coordinates into longitude and latitude; none where they are."""
    system = layer.GetSpatialRef()
    if crs is not None:
        system = osr.SpatialReference()
        try:
            system.SetFromUserInput(crs)
        except RuntimeError:
            raise Fault(f"{crs} is no coordinate system, as EPSG:3857 is") from None
    if system is None:
        west, east, south, north = layer.GetExtent()
        if max(abs(west), abs(east)) > 200 or max(abs(south), abs(north)) > 90:
            raise Fault(
                f"layer {layer.GetName()} of {path} tells no coordinate system, and its numbers "
                "are not degrees; tell it by --crs, as --crs EPSG:3857"
            )
        return None
    degrees = osr.SpatialReference()
    degrees.ImportFromEPSG(4326)
    for one in (system, degrees):
        one.SetAxisMappingStrategy(osr.OAMS_TRADITIONAL_GIS_ORDER)
    return osr.CoordinateTransformation(system, degrees)


def _properties(feature: Any, keys: Keys) -> dict[str, Any]:
    """The properties that are wanted, with the rank as a number where it is one."""
    has_tags = feature.GetFieldIndex(OTHER_TAGS) >= 0
    tags = _tags(feature.GetField(OTHER_TAGS)) if has_tags else {}
    found = {}
    for key in keys.all():
        value = feature.GetField(key) if feature.GetFieldIndex(key) >= 0 else tags.get(key)
        if key == keys.name and isinstance(value, str):
            value = value.strip()
        if key == keys.rank:
            value = _number(value)
        if value is not None:
            found[key] = value
    return found


def _tags(text: str | None) -> dict[str, str]:
    """The tags of a feature of OpenStreetMap that have no field of their own."""
    return {key: _bare(value) for key, value in TAG.findall(text or "")}


def _bare(text: str) -> str:
    return re.sub(r"\\(.)", r"\1", text)


def _number(value: Any) -> Any:
    """A rank as a number, where it is one or the text of one."""
    if not isinstance(value, str):
        return value
    text = value.replace(",", "").replace(" ", "")
    if re.fullmatch(r"-?\d{1,18}", text):
        return int(text)
    return float(text) if re.fullmatch(r"-?\d+\.\d+", text) else value


def _is_name(value: Any) -> bool:
    return value is not None and bool(str(value).strip())


def _id(feature: Any) -> str:
    """The id that a feature has of its own, else its number in the layer."""
    for key in IDS:
        if feature.GetFieldIndex(key) >= 0 and feature.GetField(key):
            return str(feature.GetField(key))
    return str(feature.GetFID())


def _geometry(feature: Any, turn: Any, counts: Counter[str]) -> Any:
    """The geometry of a feature in degrees, as the value of its JSON; none where there is none."""
    shape = feature.GetGeometryRef()
    if shape is None or shape.IsEmpty():
        return None
    shape = shape.GetLinearGeometry()
    shape.FlattenTo2D()
    if ogr.GT_Flatten(shape.GetGeometryType()) == ogr.wkbGeometryCollection:
        counts["collections taken by their parts"] += 1
        shape = _largest_parts(shape)
    if turn is not None and shape.Transform(turn) != 0:
        return None
    return json.loads(shape.ExportToJson(options=PRECISION))


def _largest_parts(collection: Any) -> Any:
    """The parts of a collection that have the most dimensions, as one geometry."""
    parts = [collection.GetGeometryRef(k) for k in range(collection.GetGeometryCount())]
    most = max(one.GetDimension() for one in parts)
    made = ogr.Geometry(getattr(ogr, MULTI[most]))
    for one in parts:
        if one.GetDimension() == most:
            for part in _single_parts(one):
                made.AddGeometry(part)
    return made


def _single_parts(shape: Any) -> list[Any]:
    if shape.GetGeometryName().startswith(("MULTI", "GEOMETRYCOLLECTION")):
        return [shape.GetGeometryRef(k) for k in range(shape.GetGeometryCount())]
    return [shape]


def named(layers: Sequence[Layer]) -> list[dict[str, Any]]:
    """All features, each with an id that no other has: that of its layer and its own."""
    letters = _prefixes(layers)
    found, taken = [], set()
    for prefix, layer in zip(letters, layers):
        for feature in layer.features:
            own = f"{prefix}{feature['id']}"
            while own in taken:
                own += "'"
            taken.add(own)
            found.append({**feature, "id": own})
    return found


def _prefixes(layers: Sequence[Layer]) -> list[str]:
    """What the ids of each layer begin with: its name, and a number where two have one name."""
    counts = Counter(layer.name for layer in layers)
    seen: Counter[str] = Counter()
    made = []
    for layer in layers:
        seen[layer.name] += 1
        number = f"{seen[layer.name]}" if counts[layer.name] > 1 else ""
        made.append(f"{layer.name}{number}-" if len(layers) > 1 else "")
    return made
