"""One case: words, files, standard input, and what stands in their way."""

from collections.abc import Sequence
from dataclasses import dataclass, field

LONG_FILE = 67_108_865


@dataclass
class Case:
    """`files` maps a name to its bytes, to a folder (None) or to a file of LONG_FILE bytes (int).

    `words` are texts or bytes. `stdin` is what standard input brings, None where it
    cannot be read; `pieces` are the same bytes where they come one piece after another.
    `is_out_full` says that nothing can be printed. `links` are the bytes
    that each connection of `serve` brings, in pieces; `is_port_taken` that another
    program listens at its port.
    """

    kind: str
    words: Sequence[str | bytes]
    files: dict[str, bytes | int | None] = field(default_factory=dict)
    stdin: bytes | None = b""
    pieces: list[bytes] | None = None
    is_out_full: bool = False
    links: list[list[bytes]] | None = None
    is_port_taken: bool = False


@dataclass
class Outcome:
    """How a run ended: the exit code, or why there is none, and all that it wrote."""

    status: int | str
    out: bytes
    err: bytes
    replies: list[bytes] | None = None

    def differs_in(self, other: "Outcome") -> list[str]:
        """The names of the parts in which two outcomes differ."""
        parts = ("status", "out", "err", "replies")
        return [part for part in parts if getattr(self, part) != getattr(other, part)]
