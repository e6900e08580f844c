"""What the parts share: running the command, layers of generated places, a database."""

import os
import subprocess
import sys
from collections.abc import Iterator
from contextlib import contextmanager
from dataclasses import dataclass
from pathlib import Path

import generated_names
from maplabel_kit import files

COMMAND = Path(__file__).resolve().parents[2] / "atlas" / "atlas"


@dataclass(frozen=True)
class Run:
    """What a run of the command came to."""

    status: int
    out: str
    said: str


def environment(engine: Path) -> dict[str, str]:
    """The environment of a command, which names the engine."""
    return {**os.environ, "MAPLABEL": str(engine)}


def atlas(engine: Path, *words: object, status: int = 0) -> Run:
    """A run of the command, which must end with a status."""
    run = subprocess.run(
        [str(COMMAND), *map(str, words)],
        env=environment(engine),
        capture_output=True,
        text=True,
        check=False,
    )
    told = f"atlas {' '.join(map(str, words))} ended with {run.returncode} and not {status}"
    assert run.returncode == status, f"{told}: {run.stderr[-2000:]}"
    assert "Traceback" not in run.stderr, f"a traceback: {run.stderr[-2000:]}"
    return Run(run.returncode, run.stdout, run.stderr)


@dataclass(frozen=True)
class Layer:
    """Files of a generated layer and of its two styles."""

    places: Path
    six: Path
    one: Path

    def lines(self) -> list[str]:
        """The features."""
        return self.places.read_text(encoding="utf-8").splitlines()


def layer(folder: Path, count: int) -> Layer:
    """A layer of so many places."""
    made = Layer(folder / "places.geojsonl", folder / "six.toml", folder / "one.toml")
    made.six.write_text(generated_names.style_text(False), encoding="utf-8")
    made.one.write_text(generated_names.style_text(True), encoding="utf-8")
    with made.places.open("w", encoding="utf-8") as out:
        generated_names.write(count, out)
    return made


def columns(folder: Path) -> dict[str, bytes]:
    """The bytes of all columns of an atlas."""
    present = folder / (folder / "now").read_text(encoding="ascii").strip()
    return {path.name: path.read_bytes() for path in sorted(present.glob("*.npy"))}


@contextmanager
def folder() -> Iterator[Path]:
    """A folder that goes with the block, and which any user may enter."""
    with files.folder() as at:
        at.chmod(0o755)
        yield at


def say(text: str) -> None:
    """Tells a line of a part that takes long."""
    print(f"  {text}", file=sys.stdout, flush=True)
