"""A program that was proved elsewhere: a release that deploy/dist made, as a file or as its folder.

Its sums tell whether it is whole, and whether it was proved from the sources of this checkout. They
tell nothing of who made it: whoever takes a release trusts its maker to have proved what it says.
"""

import gzip
import hashlib
import io
import os
import platform
import struct
import tarfile
import zlib
from collections.abc import Sequence
from dataclasses import dataclass
from pathlib import Path

from maplabel_launch import advice, build, crates, running
from maplabel_launch.faults import Fault, tell

# What a release says of itself, the sums of the sources that it was proved from, and the program.
ABOUT, SOURCES = "RELEASE", "SOURCES.sha256"
PROGRAM = "crates/maplabel/out/maplabel"
# The folder that a release's file has.
FOLDER = "maplabel"
FIELDS = ("version", "commit", "kit", "proved", "program", "sources")
MACHINES = {3: "i386", 40: "arm", 62: "x86_64", 183: "aarch64", 243: "riscv64"}


@dataclass(frozen=True)
class Release:
    """A release that was read."""

    path: str
    about: dict[str, str]
    sources: str
    program: bytes

    @property
    def name(self) -> str:
        """What it is called in a sentence."""
        return f"release {self.about['version']} ({self.about['commit']})"


def sum_of(data: bytes) -> str:
    """The sum of some bytes."""
    return hashlib.sha256(data).hexdigest()


def machine_of(program: bytes) -> str | None:
    """The processor that a program for Linux is for, or none where it is no such program."""
    if program[:4] != b"\x7fELF" or len(program) < 20:
        return None
    number = struct.unpack("<H" if program[5] == 1 else ">H", program[18:20])[0]
    return MACHINES.get(number, f"processor {number}")


def text_of(about: dict[str, str]) -> str:
    """The text of what a release says of itself."""
    return "".join(f"{name}: {about[name]}\n" for name in FIELDS)


def about_of(text: str, path: str) -> dict[str, str]:
    """What a release says of itself."""
    rows = [line.partition(": ") for line in text.splitlines()]
    about = {name: value for name, _, value in rows}
    missing = [it for it in FIELDS if not about.get(it)]
    if missing:
        raise Fault(f"{path} is damaged: its file {ABOUT} does not tell {' and '.join(missing)}")
    return about


def is_release(top: str) -> bool:
    """Whether this is the folder of a release, and no checkout."""
    return os.path.isfile(f"{top}/{ABOUT}") and not os.path.exists(f"{top}/crates.txt")


def version_text(top: str) -> str:
    """What --version prints in the folder of a release."""
    about = about_of(Path(f"{top}/{ABOUT}").read_text(encoding="utf-8"), top)
    state = (
        "proved where the release was made" if about["proved"] == "yes" else "not known as proved"
    )
    return (
        f"maplabel {about['version']} ({about['commit']}), a release\n"
        f"kit: {about['kit']}\nprogram: {state}\n"
    )


def _members(path: str) -> dict[str, bytes]:
    """The three files of a release that count here, as far as they are there."""
    wanted = (ABOUT, SOURCES, PROGRAM)
    if os.path.isdir(path):
        places = {it: Path(path) / it for it in wanted}
        return {it: place.read_bytes() for it, place in places.items() if place.is_file()}
    found = {}
    # (whole, so that the sum at its end is looked at too)
    unpacked = io.BytesIO(gzip.decompress(Path(path).read_bytes()))
    with tarfile.open(fileobj=unpacked) as tar:
        for member in tar:
            name = member.name.removeprefix(f"{FOLDER}/")
            if name in wanted and (file := tar.extractfile(member)):
                found[name] = file.read()
    return found


def read(path: str) -> Release:
    """Reads a release, and sees that it is whole and for this machine."""
    if not os.path.exists(path):
        raise Fault(f"there is no release {path}")
    try:
        found = _members(path)
    except (tarfile.TarError, EOFError, zlib.error) as error:
        raise Fault(f"{path} is damaged, or no release: {error}; get it anew") from error
    except OSError as error:
        why = error.strerror or error
        raise Fault(f"{path} is damaged or cannot be read: {why}; get it anew") from error
    missing = [it for it in (ABOUT, SOURCES, PROGRAM) if it not in found]
    if missing:
        raise Fault(f"{path} is no release: it has no {' and no '.join(missing)}")
    about = about_of(found[ABOUT].decode("utf-8", "replace"), path)
    for name, data in (("program", found[PROGRAM]), ("sources", found[SOURCES])):
        if sum_of(data) != about[name]:
            raise Fault(
                f"{path} is damaged: the sum of its {name} is {sum_of(data)[:16]}.., "
                f"and its file {ABOUT} has {about[name][:16]}..; get it anew"
            )
    machine = machine_of(found[PROGRAM])
    if machine != platform.machine():
        raise Fault(
            f"the program of {path} is for {machine or 'no Linux'}, "
            f"and this machine is {platform.machine()}"
        )
    return Release(path, about, found[SOURCES].decode("utf-8", "replace"), found[PROGRAM])


def hold_to_sources(top: str, release: Release) -> None:
    """Sees that the release was proved, and from the sources of this checkout."""
    if release.about["proved"] != "yes":
        raise Fault(
            f"nothing tells that the program of {release.path} was proved: "
            "deploy/dist made it of a program that was named to it"
        )
    own, other = rows_of(crates.sums(top, build.needed_of(top))), rows_of(release.sources)
    if own == other:
        return
    names = sorted(it for it in own.keys() | other.keys() if own.get(it) != other.get(it))
    more = f" and {len(names) - 1} more files" if len(names) > 1 else ""
    raise Fault(
        f"{release.path} was proved from other sources: {names[0]}{more} differ; "
        f"it is of {release.about['commit']}"
    )


def rows_of(sums: str) -> dict[str, str]:
    """The sum of each file by its name."""
    rows = [line.partition("  ") for line in sums.splitlines()]
    return {name: total for total, _, name in rows}


def _kept(top: str) -> Path:
    return Path(f"{top}/crates/maplabel/out/release")


def keep(top: str, release: Release) -> Path:
    """Puts the program of a release that fits into the checkout, and notes it for `--build`."""
    folder = _kept(top)
    program = folder / release.about["program"][:32] / "maplabel"
    try:
        if not program.is_file() or program.read_bytes() != release.program:
            program.parent.mkdir(parents=True, exist_ok=True)
            new = program.with_name(f"new-{os.getpid()}")
            new.write_bytes(release.program)
            new.chmod(0o755)
            new.replace(program)
        (folder / ABOUT).write_text(text_of(release.about), encoding="utf-8")
    except OSError as error:
        raise Fault(f"the release cannot be kept in {folder}: {error.strerror}") from error
    return program


def run(top: str, path: str, words: Sequence[str]) -> int:
    """Runs the program of a release on the caller's words, where it fits; without words only looks
    whether it does.
    """
    release = read(path)
    hold_to_sources(top, release)
    program = keep(top, release)
    tell(
        f"maplabel: {release.name} was proved elsewhere, from the sources as they stand here, "
        f"under {release.about['kit']}"
    )
    if not words:
        return 0
    status = running.run(str(program), words)
    advice.explain(top, str(program), words, status)
    return status


def compare(top: str) -> str | None:
    """What `--build` tells of the release that was used last, where that was proved from the
    sources as they stand.
    """
    try:
        about = about_of((_kept(top) / ABOUT).read_text(encoding="utf-8"), str(_kept(top)))
        own = Path(build.program_of(top)).read_bytes()
    except FileNotFoundError:
        return None
    if sum_of(crates.sums(top, build.needed_of(top)).encode()) != about["sources"]:
        return None
    name = f"release {about['version']} ({about['commit']})"
    if sum_of(own) == about["program"]:
        return f"maplabel: the program is that of {name}, byte for byte"
    return (
        f"maplabel: the program is NOT that of {name}: "
        f"its sum is {sum_of(own)}, that of the release {about['program']}"
    )
