"""Runs a program on a case in a folder in memory."""

import array
import fcntl
import os
import select
import shutil
import socket
import subprocess
import termios
import time
from collections.abc import Iterator, Sequence
from contextlib import contextmanager
from typing import IO

from cases.case import LONG_FILE, Case, Outcome

Process = subprocess.Popen[bytes]

SECONDS = 30
LONGEST_WAIT, LONGEST_PAUSE = 20, 0.05


class Runner:
    """Runs cases one after another, in a folder of its own."""

    def __init__(self, folder: str, ports: Sequence[int]) -> None:
        self.folder = folder
        self.ports = ports
        self.port = ports[0]
        self.files = os.path.join(folder, "files")
        os.makedirs(self.files)

    def close(self) -> None:
        """Removes the folder."""
        shutil.rmtree(self.folder, ignore_errors=True)

    def put_files(self, case: Case) -> None:
        """Makes the folder of the case's files hold just these."""
        for name in os.listdir(self.files):
            path = os.path.join(self.files, name)
            if os.path.isdir(path):
                os.rmdir(path)
            else:
                os.unlink(path)
        for name, data in case.files.items():
            write_file(os.path.join(self.files, name), data)

    def run(self, program: str, case: Case) -> Outcome:
        """The outcome of the program on the case, whose files were put."""
        if case.links is not None:
            self.port = free_port(self.ports)
            told = [str(self.port) if word == "PORT" else word for word in case.words]
            return self.run_server([program, *told], case, case.links)
        words: list[str | bytes] = [program, *case.words]
        given, out, err = (
            os.path.join(self.folder, name) for name in ("stdin", "stdout", "stderr")
        )
        if case.stdin is not None:
            write_file(given, case.stdin)
        source = self.files if case.stdin is None else given
        target = "/dev/full" if case.is_out_full else out
        with opened(source) as stdin, open(target, "wb") as stdout, open(err, "wb") as stderr:
            streams = subprocess.PIPE if case.pieces else stdin, stdout, stderr
            status = run_to_end(words, self.files, streams, case.pieces)
        written = b"" if case.is_out_full else read_file(out)
        return Outcome(status, written, read_file(err))

    def run_server(
        self, words: Sequence[str | bytes], case: Case, links: list[list[bytes]]
    ) -> Outcome:
        """The same for `serve`, with a client for each connection in turn."""
        blocker = listen(self.port) if case.is_port_taken else None
        out, err = (os.path.join(self.folder, name) for name in ("stdout", "stderr"))
        with open(out, "wb") as stdout, open(err, "wb") as stderr:
            child = subprocess.Popen(
                words,
                cwd=self.files,
                stdin=subprocess.DEVNULL,
                stdout=stdout,
                stderr=stderr,
                close_fds=False,
            )
            try:
                replies = [talk(self.port, pieces, child) for pieces in links]
                status: int | str = child.wait(SECONDS)
            except (OSError, subprocess.TimeoutExpired) as fault:
                replies, status = [str(fault).encode()], "no end"
            finally:
                end(child)
        if blocker:
            blocker.close()
        return Outcome(status, read_file(out), read_file(err), replies)


def write_file(path: str, data: bytes | int | None) -> None:
    """A file of these bytes; None makes a folder, a number a file of so many bytes."""
    if data is None:
        os.mkdir(path)
        return
    with open(path, "wb") as file:
        if isinstance(data, int):
            file.truncate(LONG_FILE)
        else:
            file.write(data)


def read_file(path: str) -> bytes:
    """The bytes of a file."""
    with open(path, "rb") as file:
        return file.read()


@contextmanager
def opened(path: str) -> Iterator[int]:
    """The number of an open file, or of an open folder, from which reading fails."""
    number = os.open(path, os.O_RDONLY)
    try:
        yield number
    finally:
        os.close(number)


def waits_unread(pipe: IO[bytes]) -> bool:
    """Whether bytes in a pipe were not read yet."""
    count = array.array("i", [0])
    fcntl.ioctl(pipe, termios.FIONREAD, count)
    return count[0] > 0


def feed(child: Process, pieces: Sequence[bytes]) -> None:
    """Writes the pieces, each once that before it was read."""
    assert child.stdin is not None
    try:
        for piece in pieces:
            child.stdin.write(piece)
            last = time.monotonic() + LONGEST_PAUSE
            while waits_unread(child.stdin) and time.monotonic() < last:
                time.sleep(0.0002)
        child.stdin.close()
    except BrokenPipeError:
        pass  # the program reads no further, as after a reply that closes


def run_to_end(
    words: Sequence[str | bytes],
    folder: str,
    streams: tuple[int, IO[bytes], IO[bytes]],
    pieces: Sequence[bytes] | None,
) -> int | str:
    """The exit code; a run that does not end in time is ended."""
    stdin, stdout, stderr = streams
    child = subprocess.Popen(
        words, 0, cwd=folder, stdin=stdin, stdout=stdout, stderr=stderr, close_fds=False
    )
    watch = os.pidfd_open(child.pid)
    try:
        if pieces:
            feed(child, pieces)
        poll = select.poll()
        poll.register(watch)
        if not poll.poll(SECONDS * 1000):
            child.kill()
            child.wait()
            return "no end"
        return child.wait()
    finally:
        os.close(watch)


def end(child: Process) -> None:
    """Ends a program that still runs."""
    if child.poll() is None:
        child.kill()
        child.wait()


def free_port(ports: Sequence[int]) -> int:
    """The first of the ports at which a program could listen."""
    for port in ports:
        try:
            listen(port).close()
            return port
        except OSError:
            continue
    raise OSError(f"no port is free from {ports[0]} to {ports[-1]}")


def listen(port: int) -> socket.socket:
    """A socket that takes the port."""
    taken = socket.socket()
    taken.setsockopt(socket.SOL_SOCKET, socket.SO_REUSEADDR, 1)
    try:
        taken.bind(("127.0.0.1", port))
        taken.listen()
    except OSError:
        taken.close()
        raise
    return taken


def connect(port: int, child: Process) -> socket.socket | None:
    """A connection to the program, once it listens; None where it ended."""
    last = time.monotonic() + LONGEST_WAIT
    while time.monotonic() < last:
        try:
            return socket.create_connection(("127.0.0.1", port), timeout=SECONDS)
        except ConnectionRefusedError:
            if child.poll() is not None:
                return None
            time.sleep(0.002)
    raise OSError("the program does not listen")


def talk(port: int, pieces: Sequence[bytes], child: Process) -> bytes:
    """Sends the pieces, then reads the replies to their end."""
    link = connect(port, child)
    if link is None:
        return b""
    with link:
        for piece in pieces:
            link.sendall(piece)
        link.shutdown(socket.SHUT_WR)
        replies = []
        while got := link.recv(65536):
            replies.append(got)
        return b"".join(replies)
