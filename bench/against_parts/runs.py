"""Runs of a program, over standard input or over connections to what it serves."""

import os
import select
import signal
import socket
import subprocess
import sys
import time
from collections.abc import Sequence
from pathlib import Path
from typing import IO, NamedTuple

from maplabel_kit.faults import Fault
from maplabel_kit.ports import HOST, free_port

STARTER = str(Path(__file__).resolve().parent / "starter.py")
PATIENCE = 120  # seconds in which a server sends or takes something
PROCESSORS = sorted(os.sched_getaffinity(0))
# All programs run on this one; who makes their requests stands aside where there are others.
PROCESSOR = PROCESSORS[-1]


class Program(NamedTuple):
    """A program, and what its environment has besides that of this process."""

    path: str
    also: tuple[tuple[str, str], ...] = ()

    def environment(self) -> dict[str, str]:
        """The environment in which it runs."""
        return {**os.environ, **dict(self.also)}


class Run(NamedTuple):
    """Words of a program with its standard input; or words of `serve`, PORT and COUNT left out,
    with what is sent over each connection.
    """

    words: tuple[str, ...]
    put: bytes = b""
    links: tuple[bytes, ...] = ()

    def requests(self) -> int:
        """How many requests are sent."""
        return sum(text.count(b" HTTP/1.1\r\n") for text in (self.put, *self.links))


class Ended(NamedTuple):
    """How a run ended: the exit code, standard output with the replies behind it, processor
    seconds, which of `serve` are those from `ready` on, and the greatest memory in KiB.
    """

    status: int
    out: bytes
    seconds: float
    kib: int

    def has_failed(self, run: Run) -> bool:
        """Whether it ended badly, or some request was not answered as a good one."""
        return self.status != 0 or self.out.count(b"HTTP/1.1 200 OK\r\n") != run.requests()


class Started:
    """A program that runs. What is left of it goes with the block in which it was started."""

    def __init__(
        self,
        program: Program,
        words: Sequence[str],
        source: int | IO[bytes],
        sink: int | IO[bytes],
        notes: int | IO[bytes],
    ) -> None:
        self.name = f"{program.path} {words[0]}"
        told, tell = os.pipe()
        self.told = open(told, encoding="ascii")
        starter = [sys.executable, "-I", "-S", "-B", STARTER, str(tell), str(PROCESSOR)]
        self.process: subprocess.Popen[bytes] = subprocess.Popen(
            [*starter, program.path, *words],
            stdin=source,
            stdout=sink,
            stderr=notes,
            pass_fds=[tell],
            start_new_session=True,
            env=program.environment(),
        )
        os.close(tell)

    def __enter__(self) -> "Started":
        return self

    def __exit__(self, *_: object) -> None:
        if self.process.poll() is None:
            os.killpg(self.process.pid, signal.SIGKILL)
        self.process.wait()
        self.told.close()
        if self.process.stdout:
            self.process.stdout.close()

    def spent(self) -> float:
        """Processor seconds until now. To be asked once."""
        child = int(self.told.readline())
        # The clock's number is that of clock_getcpuclockid.
        return time.clock_gettime(~child << 3 | 2)

    def end(self) -> tuple[int, float, int]:
        """Waits for its end: the exit code, seconds and KiB."""
        words = self.told.read().split()[-3:]
        self.process.wait()
        if len(words) < 3:
            raise Fault(f"{self.name} could not be started")
        return int(words[0]), float(words[1]), int(words[2])


def piped(program: Program, run: Run, folder: Path, notes: int | IO[bytes]) -> Ended:
    """The end of a run over standard input and output, which are files of the folder."""
    source, sink = folder / "in", folder / "out"
    source.write_bytes(run.put)
    with source.open("rb") as put, sink.open("wb") as out, Started(
        program, run.words, put, out, notes
    ) as started:
        status, seconds, kib = started.end()
    return Ended(status, sink.read_bytes(), seconds, kib)


def talk(port: int, text: bytes) -> bytes:
    """All that a connection is answered. What is sent goes as the server takes it, while replies
    are read.
    """
    got: list[bytes] = []
    left, is_open = memoryview(text), True
    with socket.create_connection((HOST, port), PATIENCE) as link:
        link.setblocking(False)
        while True:
            if is_open and not left:
                link.shutdown(socket.SHUT_WR)
                is_open = False
            readable, writable, _ = select.select([link], [link] if left else [], [], PATIENCE)
            if not readable and not writable:
                raise TimeoutError(f"silent for {PATIENCE} seconds")
            if writable:
                left = left[link.send(left) :]
            if readable:
                piece = link.recv(1 << 20)
                if not piece:
                    return b"".join(got)
                got.append(piece)


def served(program: Program, run: Run, notes: int | IO[bytes]) -> Ended:
    """The end of a server to which each connection is made in turn."""
    port = free_port()
    words = (*run.words, str(port), str(len(run.links)))
    with Started(program, words, subprocess.DEVNULL, subprocess.PIPE, notes) as started:
        out = started.process.stdout
        assert out is not None
        first = out.readline()
        if first != b"ready\n":
            raise Fault(
                f"{started.name} is not ready but prints `{first.decode(errors='replace').strip()}`"
            )
        loaded = started.spent()
        try:
            replies = [talk(port, text) for text in run.links]
        except OSError as fault:
            raise Fault(f"{started.name} failed a connection: {fault}") from fault
        last = out.read()
        status, seconds, kib = started.end()
    return Ended(status, b"".join([first, last, *replies]), seconds - loaded, kib)


def stand_aside() -> None:
    """Leaves the processor on which programs run, if there is another."""
    os.sched_setaffinity(0, PROCESSORS[:-1] or PROCESSORS)


def end_of(
    program: Program, run: Run, folder: Path, notes: int | IO[bytes] = subprocess.DEVNULL
) -> Ended:
    """How a run of the program ends; its standard error goes to the file."""
    return served(program, run, notes) if run.links else piped(program, run, folder, notes)


def printed(program: Program, run: Run, folder: Path) -> bytes:
    """What a run prints that must end well."""
    ended = end_of(program, run, folder)
    if ended.has_failed(run):
        raise Fault(f"{program.path} {' '.join(run.words)} ended with {ended.status}")
    return ended.out
