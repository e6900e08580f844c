"""The kit's compiler: the commands that prove and build a crate.

A library is built as its statements: what crates above it can cite, without its proofs. A check
above loads a few per cent of what it loads of a library that `rt lib` builds, and the gate builds
the libraries so too. What `rt` keeps in out/ for its own checks is neither read nor changed.
"""

import os
from collections.abc import Sequence

from maplabel_launch import kit
from maplabel_launch.crates import Crate
from maplabel_launch.faults import Fault

TARGET = "x86_64-unknown-linux-gnu"
# Where the statements of a library stand, in its folder.
BUILT = "out/statements"
# What a program is tried on once it is linked.
TRIAL = ("slots", "data/two.table")


def library_of(crate: Crate) -> str:
    """The place of a library's statements."""
    return f"{crate.folder}/{BUILT}/{crate.name}.rlib"


def libraries_of(place: str, crate: Crate, below: Sequence[Crate]) -> list[str]:
    """The words that name the libraries: the kit's and the repository's that the crate uses, and
    where all others are found.
    """
    own = {it.name: it for it in below}
    words = []
    for name in dict.fromkeys(["std", *crate.of_kit()]):
        words += ["--extern", f"{name}={place}/rlibs/{name}.rlib"]
    words += ["-L", f"dependency={place}/rlibs"]
    for name in crate.uses:
        words += ["--extern", f"{name}={library_of(own[name])}"]
    for it in below:
        words += ["-L", f"dependency={os.path.dirname(library_of(it))}"]
    return words


def link(place: str, toolchain: str, object_file: str, program: str) -> list[str]:
    """The command that links a program."""
    words = [f"{place}/bin/rattle-link", "--target", TARGET, "--toolchain", toolchain]
    words += ["-o", program, object_file]
    return words + [f"{place}/c/libos_c.a", f"{place}/c/liblibc_c.a"]


def commands(crate: Crate, below: Sequence[Crate], jobs: int) -> list[list[str]]:
    """The commands that prove and build a crate over the built libraries below it, one after
    another, each in a folder with the crate's files. A program is linked, and run on a small table.
    """
    place, name = kit.place(), crate.name
    if len(crate.row.partition(":")[0].split()) > 1:
        raise Fault(
            "crates.txt: the launcher builds no crate with words behind its name, " f"as {name} has"
        )
    words = [f"{place}/bin/rattle", "build", "--crate-name", name, crate.root]
    words += libraries_of(place, crate, below)
    words += ["--antt-project", f"{place}/rattle/logic/antt-project.json"]
    words += ["--logic-built", f"{place}/logic_built"]
    words += ["--links", f"{name}=", "--jobs", str(jobs)]
    if not crate.is_program:
        return [[*words, "--statements", "-o", f"{BUILT}/{name}.rlib"]]
    object_file, program = f"out/{name}.o", f"out/{name}"
    words += ["--toolchain", f"{place}/toolchain", "--backend", "llvm", "-o", object_file]
    linking = link(place, f"{place}/toolchain", object_file, program)
    return [words, linking, [program, *TRIAL]]
