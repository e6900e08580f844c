"""The crates of the repository, as crates.txt and their folders have them."""

import hashlib
import os
from collections.abc import Iterator, Mapping, Sequence
from typing import NamedTuple

from maplabel_launch.faults import Fault

# The folders of a crate that its proof reads, and the one that its compiled code is made of.
READ = ("src", "specs", "proofs")
CODE = ("src",)


class Crate(NamedTuple):
    """A crate: its row of crates.txt, and those of the repository's crates that it uses itself."""

    name: str
    row: str
    uses: tuple[str, ...]
    folder: str

    @property
    def is_program(self) -> bool:
        """Whether it is a program, no library."""
        return os.path.isfile(f"{self.folder}/src/main.rt")

    @property
    def root(self) -> str:
        """Its root file, in its folder."""
        return f"src/{'main' if self.is_program else 'lib'}.rt"

    def of_kit(self) -> list[str]:
        """The kit's libraries that it uses."""
        words = self.row.partition(":")[2].split()
        return [it for it in words if it not in self.uses]


def rows_of(text: str) -> dict[str, str]:
    """The rows of crates.txt by the name of their crate, without comments."""
    rows = [line.partition("#")[0].strip() for line in text.split("\n")]
    nameless = [row for row in rows if row.startswith(":")]
    if nameless:
        raise Fault(f"crates.txt: no crate is named in the line '{nameless[0]}'")
    return {row.partition(":")[0].split()[0]: row for row in rows if row}


def read(top: str) -> dict[str, Crate]:
    """All crates of the repository, by name."""
    try:
        with open(f"{top}/crates.txt", encoding="utf-8", errors="surrogateescape") as file:
            rows = rows_of(file.read())
    except OSError as error:
        raise Fault(f"crates.txt cannot be read: {error.strerror}") from error
    found = {}
    for name, row in rows.items():
        uses = tuple(it for it in row.partition(":")[2].split() if it in rows)
        found[name] = Crate(name, row, uses, f"{top}/crates/{name}")
    return found


def needed(crates: Mapping[str, Crate], target: str) -> list[Crate]:
    """The crate and all below it, each behind those that it uses."""
    found: list[str] = []
    above: list[str] = []

    def add(name: str) -> None:
        if name in above:
            raise Fault(f"crates.txt: {name} uses itself")
        if name in found:
            return
        above.append(name)
        for it in crates[name].uses:
            add(it)
        above.pop()
        found.append(name)

    if target not in crates:
        raise Fault(f"crates.txt has no line for {target}")
    add(target)
    return [crates[it] for it in found]


def below(crates: Mapping[str, Crate], name: str) -> list[Crate]:
    """All crates below a crate, each behind those that it uses."""
    return needed(crates, name)[:-1]


def files_of(crate: Crate, parts: Sequence[str] = READ) -> Iterator[str]:
    """The files in these folders of a crate, in order."""
    for part in parts:
        for at, folders, names in os.walk(f"{crate.folder}/{part}"):
            folders.sort()
            yield from (f"{at}/{name}" for name in sorted(names))


def lines_of(crate: Crate) -> int:
    """How many lines of code and of definitions a crate has: the time of its proof goes with them,
    and hardly with the lines of its lemmas.
    """
    count = 0
    for path in files_of(crate, ("src", "specs")):
        with open(path, "rb") as file:
            count += file.read().count(b"\n")
    return count


def seconds_of(path: str) -> dict[str, float]:
    """By name, the seconds that one processor took for the check of each crate in a measured build,
    as the file tells them: a crate and its seconds a line.
    """
    try:
        with open(path, encoding="utf-8") as file:
            text = file.read()
        rows = [line.split() for line in text.split("\n") if line and not line.startswith("#")]
        return {name: float(seconds) for name, seconds in rows}
    except (OSError, ValueError) as error:
        raise Fault(f"{path} cannot be read: {error}") from error


def digests(crates: Sequence[Crate], kit: str, parts: Sequence[str] = READ) -> dict[str, str]:
    """By name, a sum of all that the proof of each crate rests on, or of these of its folders; each
    stands behind those that it uses.
    """
    found: dict[str, str] = {}
    for crate in crates:
        used = [found[it] for it in crate.uses]
        total = hashlib.sha256(repr((kit, crate.row, used)).encode())
        for path in files_of(crate, parts):
            with open(path, "rb") as file:
                total.update(repr((os.path.relpath(path, crate.folder), file.read())).encode())
        found[crate.name] = total.hexdigest()
    return found


def sums(top: str, crates: Sequence[Crate]) -> str:
    """The sums of crates.txt and of all files that the proofs of these crates read, as `sha256sum`
    writes them and `sha256sum -c` reads them at the top of a checkout.
    """
    paths = [f"{top}/crates.txt", *(path for it in crates for path in files_of(it))]
    lines = []
    for path in paths:
        with open(path, "rb") as file:
            lines.append(
                f"{hashlib.sha256(file.read()).hexdigest()}  {os.path.relpath(path, top)}\n"
            )
    return "".join(sorted(lines, key=lambda line: line.split("  ", 1)[1]))
