"""The features of a layer as texts of GeoJSON: of a file of GeoJSON or of its lines, or of what
GDAL reads.
"""

import json
import os
import shutil
import subprocess
import zlib
from collections.abc import Callable, Iterable, Iterator
from dataclasses import dataclass
from pathlib import Path
from typing import IO, Any, Protocol

from maplabel_atlas.faults import Fault
from maplabel_atlas.sourcetable import Fingerprint, SourceTable

PG = "PG:"
LINES = (".geojsonl", ".geojsons", ".ndjson", ".jsonl")
WHOLE = (".geojson", ".json")
DEGREES = ("CRS84", "EPSG::4326", "EPSG:4326")
FEWEST_FEATURES, MOST_FEATURES, MOST_BYTES = 8_000, 30_000, 48_000_000
CUTS = 6_000
READ = 1 << 20


class Source(Protocol):
    """A layer that can be read once more at any time."""

    def texts(self) -> Iterator[str]:
        """The text of each feature."""

    def log(self) -> str | None:
        """The snapshot in which the texts were read, of a table that tells its changes; or none."""


@dataclass(frozen=True)
class Chunk:
    """Features that are asked for together, and the place of the first in the layer."""

    first: int
    texts: tuple[str, ...]


def chunks(texts: Iterable[str]) -> Iterator[Chunk]:
    """The features, so many together as one question takes.

    One feature in so many ends a chunk, whatever stands before it: so an edit changes one chunk."""
    found: list[str] = []
    first = size = 0
    for text in texts:
        is_full = len(found) == MOST_FEATURES or size + len(text) > MOST_BYTES
        if found and (is_full or _ends_chunk(found)):
            yield Chunk(first, tuple(found))
            first, found, size = first + len(found), [], 0
        found.append(text)
        size += len(text)
    if found:
        yield Chunk(first, tuple(found))


def _ends_chunk(found: list[str]) -> bool:
    is_due = len(found) >= FEWEST_FEATURES
    return is_due and zlib.crc32(found[-1].encode("utf-8", "surrogatepass")) % CUTS == 0


@dataclass(frozen=True)
class Options:
    """How a layer is read: the layer of a file that has several, the column of ids, and the CRS
    where none is told.
    """

    layer: str | None = None
    id_field: str | None = None
    crs: str | None = None


def source_of(name: str, options: Options) -> Source:
    """What a layer's name means."""
    suffix = Path(name).suffix.lower()
    is_plain = options.id_field is None and options.crs is None
    if suffix in LINES and is_plain:
        return LinesFile(_existing(name))
    if suffix in WHOLE and is_plain:
        return CollectionFile(_existing(name))
    if name.startswith(PG):
        return _table_of(name, options)
    if not name.startswith("/vsi"):
        _existing(name)
    return Gdal(name, options)


def _table_of(name: str, options: Options) -> Source:
    """A table of PostGIS: by its log of changes where it has one, else by GDAL."""
    if options.layer is None:
        raise Fault(f"which table of {name}? --layer TABLE tells it")
    database = name.removeprefix(PG)
    table = SourceTable(database, options.layer)
    if table.is_attached():
        return table
    return Gdal(name, options, lambda: Fingerprint(database, str(options.layer)))


def _existing(name: str) -> Path:
    path = Path(name)
    if not path.exists():
        raise Fault(f"there is no layer {name}")
    return path


class Guard(Protocol):
    """Sees that a layer is the same at the end as it was at the beginning."""

    def look(self) -> None:
        """Raises a fault where the layer is another one now."""


class _Still:
    """Sees that a file is the same at the end as it was at the beginning."""

    def __init__(self, path: Path) -> None:
        self._path = path
        self._was = self._state()

    def _state(self) -> tuple[int, int, int]:
        status = os.stat(self._path)
        return status.st_ino, status.st_size, status.st_mtime_ns

    def look(self) -> None:
        """Raises a fault where the file is another one now."""
        if self._state() != self._was:
            raise Fault(
                f"{self._path} was changed while it was read, so it may be half of the one "
                "state and half of the "
                "other; call the command again when nobody writes to it (what stayed the same "
                "is not asked again)"
            )


@dataclass(frozen=True)
class LinesFile:
    """A file with a line of GeoJSON for each feature."""

    path: Path

    def log(self) -> None:
        """A file has no log of changes."""

    def texts(self) -> Iterator[str]:
        """The text of each feature."""
        still = _Still(self.path)
        with self.path.open(encoding="utf-8-sig", errors="surrogateescape", newline="\n") as file:
            for line in file:
                if text := line.strip("\x1e \t\r\n"):
                    yield text
        still.look()


@dataclass(frozen=True)
class CollectionFile:
    """A file of GeoJSON, whose features are read one after another, however many there are."""

    path: Path

    def log(self) -> None:
        """A file has no log of changes."""

    def texts(self) -> Iterator[str]:
        """The text of each feature, with its own id as it stands there."""
        still = _Still(self.path)
        with self.path.open(encoding="utf-8-sig", errors="surrogateescape") as file:
            yield from _Items(file, str(self.path)).features()
        still.look()


class _Items:
    """Reads the items of the list `features` of a map of JSON, a piece of the file at a time."""

    def __init__(self, file: IO[str], name: str) -> None:
        self._file, self._name = file, name
        self._text, self._at, self._is_end = "", 0, False
        self._decoder = json.JSONDecoder()

    def features(self) -> Iterator[str]:
        """The text of each feature, on one line."""
        self._expect("{")
        while self._sign() != "}":
            key = self._value()[0]
            self._expect(":")
            if key == "features" and self._sign() == "[":
                yield from self._items()
            else:
                self._see(key, self._value()[0])
            if self._sign() == ",":
                self._at += 1
        self._expect("}")
        if self._sign():
            raise self._fault("something stands behind the end")

    def _items(self) -> Iterator[str]:
        self._expect("[")
        while self._sign() != "]":
            yield self._value()[1].replace("\n", " ").replace("\r", " ")
            if self._sign() == ",":
                self._at += 1
        self._expect("]")

    def _see(self, key: Any, value: Any) -> None:
        """Refuses a CRS that is not in degrees, and what is no collection."""
        if key == "type" and value != "FeatureCollection":
            raise Fault(f"{self._name} is of the type {value!r} and no FeatureCollection")
        if key == "crs" and isinstance(value, dict):
            name = str((value.get("properties") or {}).get("name", ""))
            if name and not name.endswith(DEGREES):
                raise Fault(
                    f"{self._name} has coordinates of {name}, and labels want longitude and "
                    "latitude in degrees: "
                    f"`ogr2ogr -t_srs EPSG:4326 degrees.gpkg {self._name}` turns them"
                )

    def _value(self) -> tuple[Any, str]:
        """The next value and its text. A value that the piece cuts off is read again with more of
        the file.
        """
        while True:
            self._sign()
            try:
                value, end = self._decoder.raw_decode(self._text, self._at)
            except ValueError as error:
                if self._is_end:
                    raise self._fault(str(error)) from None
                self._more()
                continue
            if end == len(self._text) and not self._is_end:
                self._more()
                continue
            text, self._at = self._text[self._at : end], end
            return value, text

    def _sign(self) -> str:
        """The next sign that is no white space, or none at the end of the file."""
        while True:
            while self._at < len(self._text) and self._text[self._at] in " \t\r\n":
                self._at += 1
            if self._at < len(self._text):
                return self._text[self._at]
            if self._is_end:
                return ""
            self._more()

    def _expect(self, sign: str) -> None:
        if self._sign() != sign:
            raise self._fault(f"{sign} is wanting")
        self._at += 1

    def _more(self) -> None:
        piece = self._file.read(max(READ, len(self._text) - self._at))
        self._text, self._at, self._is_end = self._text[self._at :] + piece, 0, not piece

    def _fault(self, what: str) -> Fault:
        seen = self._text[self._at : self._at + 40]
        return Fault(f"{self._name} is no GeoJSON collection: {what}, before {seen!r}")


@dataclass(frozen=True)
class Gdal:
    """A layer that GDAL reads, in longitude and latitude: GDAL turns other systems into these."""

    name: str
    options: Options
    guard: Callable[[], Guard] | None = None

    def log(self) -> None:
        """A file has no log of changes."""

    def texts(self) -> Iterator[str]:
        """The text of each feature."""
        if shutil.which("ogr2ogr") is None:
            raise Fault("ogr2ogr is missing, the package gdal-bin of Debian")
        still = self._guard()
        with subprocess.Popen(
            self._words(), stdout=subprocess.PIPE, stderr=subprocess.PIPE, encoding="utf-8"
        ) as run:
            assert run.stdout is not None and run.stderr is not None
            yield from (line.rstrip("\n") for line in run.stdout)
            told = run.stderr.read()
        if run.returncode != 0:
            raise Fault(f"GDAL does not read {self.name}: {_last_line(told)}")
        if still is not None:
            still.look()

    def _guard(self) -> Guard | None:
        """What sees that the layer is the same at the end as it was at the beginning."""
        if self.guard is not None:
            return self.guard()
        path = Path(self.name)
        return _Still(path) if path.is_file() else None

    def _words(self) -> list[str]:
        """The command. Without a CRS the coordinates are taken as they stand."""
        told = self.options
        words = ["ogr2ogr", "-f", "GeoJSONSeq", "/vsistdout/", self.name]
        words += [told.layer] if told.layer else []
        words += ["-s_srs", told.crs, "-t_srs", "EPSG:4326"] if told.crs else []
        if told.id_field:
            words += ["-lco", f"ID_FIELD={told.id_field}", "-lco", "ID_TYPE=String"]
        return words


def _last_line(text: str) -> str:
    lines = [line for line in text.splitlines() if line.strip()]
    return lines[-1][-300:] if lines else "it says nothing"
