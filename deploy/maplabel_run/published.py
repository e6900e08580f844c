"""What the proxy hands out by itself: the map of each revision that is saved, compressed, and what
pages ask of the style."""

import contextlib
import gzip
import json
import os
import re
import tomllib
from pathlib import Path

from maplabel_kit.faults import Fault
from maplabel_run.snapshot import told_faults
from maplabel_site.names import described

MAP = re.compile(r"map\.[0-9]+\.geojson\.gz")
STYLE = "style.json"


def _write(folder: str, name: str, data: bytes) -> None:
    """Puts a file into the folder: who reads it never sees a part."""
    os.makedirs(folder, exist_ok=True)
    path = os.path.join(folder, name)
    with open(path + ".new", "wb") as file:
        file.write(data)
    os.replace(path + ".new", path)


def publish(folder: str, rev: int, text: bytes) -> None:
    """Puts the map of a revision there, and takes away all but the one before."""
    with told_faults("the map could not be published"):
        _write(folder, f"map.{rev}.geojson.gz", gzip.compress(text, 4, mtime=0))
        withdraw(folder, 2)


def publish_style(folder: str, style: str) -> None:
    """Puts there what pages ask of the style in a file: its classes and fonts."""
    with told_faults("the style could not be published"):
        try:
            tree = tomllib.loads(Path(style).read_text(encoding="utf-8-sig"))
            text = json.dumps(described(tree), ensure_ascii=False)
        except (ValueError, TypeError, AttributeError) as error:
            raise Fault(f"the style could not be published: {style}: {error}") from error
        _write(folder, STYLE, text.encode() + b"\n")


def withdraw(folder: str, kept: int = 0) -> None:
    """Takes away the maps that were published, but for so many of the youngest."""
    with contextlib.suppress(FileNotFoundError):
        there = [os.path.join(folder, name) for name in os.listdir(folder) if MAP.match(name)]
        for path in sorted(there, key=os.path.getmtime)[: len(there) - kept]:
            os.remove(path)


def withdraw_style(folder: str) -> None:
    """Takes away what pages ask of the style."""
    with contextlib.suppress(FileNotFoundError):
        os.remove(os.path.join(folder, STYLE))
