"""Instructions of single requests, which tell whether one costs more on a larger map. They do not
depend on what else the machine does.
"""

import random
import re
import shutil
import subprocess
from collections.abc import Sequence
from pathlib import Path

from against_parts import asked, maps
from against_parts.runs import Program
from maplabel_kit import files
from maplabel_kit.faults import Fault

SIZES = (1_000, 10_000, 32_768)
REQUESTS = 20
HEAD = """| One request, thousands of instructions | {} |
|---|{}"""


def instructions(program: Program, words: Sequence[str], put: bytes, folder: Path) -> int:
    """How many instructions a run over standard input takes."""
    source = folder / "in"
    source.write_bytes(put)
    tool = ["valgrind", "--tool=callgrind", "--callgrind-out-file=/dev/null"]
    with source.open("rb") as file:
        ran = subprocess.run(
            [*tool, program.path, *words],
            stdin=file,
            stdout=subprocess.DEVNULL,
            stderr=subprocess.PIPE,
            check=False,
            env=program.environment(),
        )
    found = re.search(rb"Collected : (\d+)", ran.stderr)
    if ran.returncode != 0 or not found:
        raise Fault(f"{program.path} {words[0]} under callgrind ended with {ran.returncode}")
    return int(found[1])


def asked_of(features: Sequence[maps.Feature], seed: int) -> dict[str, bytes]:
    """What each kind of request asks, so many times over."""
    draw = random.Random(seed)
    some = draw.choices(features, k=REQUESTS)
    pairs = [
        (
            asked.request("DELETE", f"/feature?id={it.ident}"),
            asked.request("POST", "/feature", it.text),
        )
        for it in some
    ]
    views = [asked.request("GET", f"/view?cx={it.x}&cy={it.y}&w=1024&h=768&s=30") for it in some]
    return {
        "DELETE and POST": "".join(out + back for out, back in pairs).encode(),
        "PUT": asked.made_first(draw, REQUESTS, features),
        "view": "".join(views).encode(),
    }


def count(programs: Sequence[Program], sizes: Sequence[int], seed: int) -> None:
    """Prints a table of what one request of each kind comes to on small and on large maps."""
    if shutil.which("valgrind") is None:
        raise Fault("--count wants valgrind (Debian: valgrind)")
    columns = [f"{size} points: {name}" for size in sizes for name in ("the program", "OTHER")]
    print(HEAD.format(" | ".join(columns), "---|" * len(columns)), flush=True)
    rows: dict[str, list[str]] = {}
    with files.folder() as folder:
        for size in sizes:
            features = maps.points(random.Random(f"{seed} points {size}"), size)
            style, labels = folder / "map.toml", folder / "map.geojson"
            files.write_whole({style: maps.OF_GROUPS, labels: maps.collection(features)})
            words = ("pipe", str(style), str(labels))
            for program in programs[:2]:
                load = instructions(program, words, b"", folder)
                for what, put in asked_of(features, seed).items():
                    each = (instructions(program, words, put, folder) - load) / REQUESTS / 1000
                    rows.setdefault(what, []).append(f"{each:.0f}")
    for what, cells in rows.items():
        print(f"| {what} | {' | '.join(cells)} |")
