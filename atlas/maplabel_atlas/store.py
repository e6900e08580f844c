"""The folder of an atlas: its columns, its style, where it comes from, and which names each edit
changed.

    OUT/now          the number of the present generation
    OUT/N/           the columns of generation N, style.toml and about.json
    OUT/changes/     for each edit the ids whose names it changed, which spares `publish` the others
    OUT/memo/        answers of the engine

A generation is written beside the present one, and then takes its place at once: who reads gets the
one or the other.
"""

import contextlib
import dataclasses
import fcntl
import json
import os
import shutil
import uuid
from collections.abc import Iterator
from dataclasses import dataclass
from pathlib import Path
from typing import Any

import numpy as np

from maplabel_atlas import labels as columns
from maplabel_atlas import style
from maplabel_atlas.arrays import Texts
from maplabel_atlas.editing import State
from maplabel_atlas.faults import Fault
from maplabel_atlas.layer import Options
from maplabel_atlas.parts import Bare

MOST_CHANGES = 1000


@dataclass(frozen=True)
class About:
    """What is known of an atlas beside its labels.

    `identity` is that of one `make`, and `generation` counts its edits. `log` is the snapshot in
    which a table was read that tells its changes."""

    identity: str
    generation: int
    layer: str
    options: Options
    engine: str
    features: int
    log: str | None = None

    def text(self) -> str:
        """As JSON."""
        return json.dumps(dataclasses.asdict(self), indent=1) + "\n"


def about_of(text: str) -> About:
    """What a text of `About` tells."""
    told: dict[str, Any] = json.loads(text)
    options = Options(**told.pop("options"))
    return About(options=options, **told)


def new_identity() -> str:
    """An identity that no other atlas has."""
    return uuid.uuid4().hex


@dataclass
class Atlas:
    """An atlas that was read: its state, its style and what is known of it."""

    state: State
    style: style.Style
    about: About


class Store:
    """The folder of an atlas."""

    def __init__(self, folder: Path) -> None:
        self.folder = folder

    @property
    def memo(self) -> Path:
        """The folder of the engine's answers."""
        return self.folder / "memo"

    def exists(self) -> bool:
        """Whether there is an atlas."""
        return (self.folder / "now").exists()

    @contextlib.contextmanager
    def held(self) -> Iterator[None]:
        """Keeps other commands from changing the atlas meanwhile."""
        with _making(self.folder):
            self.folder.mkdir(parents=True, exist_ok=True)
            lock = (self.folder / "lock").open("a", encoding="ascii")
        with lock:
            try:
                fcntl.flock(lock, fcntl.LOCK_EX | fcntl.LOCK_NB)
            except BlockingIOError:
                raise Fault(
                    f"another command changes {self.folder} just now; wait for its end"
                ) from None
            yield

    def _present(self) -> Path:
        try:
            return self.folder / (self.folder / "now").read_text(encoding="ascii").strip()
        except OSError:
            raise Fault(
                f"{self.folder} is no atlas that was made to its end; `atlas make` makes one"
            ) from None

    def about(self) -> About:
        """What is known of the atlas, without its labels."""
        return about_of((self._present() / "about.json").read_text(encoding="utf-8"))

    def load(self) -> Atlas:
        """The atlas as it is now. Where an edit replaces it meanwhile, the new one is read."""
        while True:
            at = self._present()
            try:
                return _read(at, None)
            except FileNotFoundError:
                if self._present() == at:
                    raise

    def mapped(self) -> Atlas:
        """The atlas as it is now, whose columns are read when they are looked at: for the command
        that holds it, since no other takes the files away.
        """
        return _read(self._present(), "c")

    def save(self, atlas: Atlas, changed: Texts | None = None) -> None:
        """Makes this the present generation. `changed` are the ids whose names are others than
        before, after an edit.
        """
        old, part = self._old(), self.folder / "next.part"
        name = f"{atlas.about.identity[:8]}-{atlas.about.generation}"
        with _making(self.folder):
            shutil.rmtree(part, ignore_errors=True)
            try:
                part.mkdir()
                self._write(part, atlas)
                self._note(atlas.about, changed)
                shutil.rmtree(self.folder / name, ignore_errors=True)
                part.rename(self.folder / name)
                (self.folder / "now.part").write_text(name + "\n", encoding="ascii")
                os.replace(self.folder / "now.part", self.folder / "now")
            finally:
                shutil.rmtree(part, ignore_errors=True)
        if old is not None and old.name != name:
            shutil.rmtree(old, ignore_errors=True)

    def _old(self) -> Path | None:
        return self._present() if self.exists() else None

    @staticmethod
    def _write(at: Path, atlas: Atlas) -> None:
        state = atlas.state
        state.labels.save(at)
        np.save(at / "until.npy", state.until)
        np.save(at / "blocker.npy", state.blocker)
        np.save(at / "bare_ids.npy", state.bare.ids)
        np.save(at / "bare_reasons.npy", state.bare.reasons)
        (at / "style.toml").write_text(atlas.style.text, encoding="utf-8")
        (at / "about.json").write_text(atlas.about.text(), encoding="utf-8")

    def _note(self, about: About, changed: Texts | None) -> None:
        """Keeps the ids that an edit changed; a new atlas has none, and its edits begin anew."""
        folder = self.folder / "changes"
        if changed is None:
            shutil.rmtree(folder, ignore_errors=True)
            return
        folder.mkdir(exist_ok=True)
        np.save(folder / f"{about.generation}.npy", changed)
        (folder / f"{about.generation - MOST_CHANGES}.npy").unlink(missing_ok=True)

    def changes_since(self, identity: str, generation: int) -> Texts | None:
        """The ids that were changed since a generation, or none where that is not known any
        more.
        """
        about = self.about()
        if about.identity != identity or generation > about.generation:
            return None
        paths = [
            self.folder / "changes" / f"{k + 1}.npy" for k in range(generation, about.generation)
        ]
        if not all(path.exists() for path in paths):
            return None
        names: Texts = np.concatenate([np.zeros(0, dtype="S1"), *map(np.load, paths)])
        return names


def _read(at: Path, mode: columns.Mode) -> Atlas:
    """The atlas of a generation."""
    names = ("bare_ids", "bare_reasons", "until", "blocker")
    ids, reasons, until, blocker = (columns.column(at, name, mode) for name in names)
    text = (at / "style.toml").read_text(encoding="utf-8")
    about = about_of((at / "about.json").read_text(encoding="utf-8"))
    state = State(columns.load(at, mode), until, blocker, Bare(ids, reasons))
    return Atlas(state, style.of_text(text), about)


@contextlib.contextmanager
def _making(folder: Path) -> Iterator[None]:
    try:
        yield
    except OSError as error:
        said = error.strerror or str(error)
        raise Fault(
            f"{folder} cannot be written: {said}; the atlas is as it was, and what was answered is"
            " kept. Make room and call the command again: it goes on from there"
        ) from None
