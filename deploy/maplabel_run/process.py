"""What the system tells of the server's process, and how it is ended."""

import os
import signal
import time
from collections.abc import Iterator
from dataclasses import dataclass

from maplabel_kit.faults import Fault

LISTENS = "0A"
GRACE = 10  # seconds that a process has to end after SIGTERM, before SIGKILL
UNSEEN = -1


@dataclass(frozen=True)
class Connection:
    """One end of a connection at a port of this machine: bytes that wait to be read and to be
    sent."""

    inode: int
    unread: int
    unsent: int
    other: str
    is_listening: bool


def opened() -> int:
    """How many TCP connections were opened to this machine, or its network namespace, since it
    was started. A server has had no more than this rose since its own start."""
    with open("/proc/net/snmp", encoding="ascii") as file:
        names, numbers = (line.split() for line in file if line.startswith("Tcp:"))
    return int(numbers[names.index("PassiveOpens")])


def state_of(process: int) -> str:
    """The letter of the process's state, as `ps` tells it: `T` where it is stopped, none where
    it is gone."""
    try:
        with open(f"/proc/{process}/stat", encoding="utf-8", errors="replace") as file:
            return file.read().rpartition(")")[2].split()[0]
    except (FileNotFoundError, ProcessLookupError):
        return ""


def is_alive(process: int) -> bool:
    """Whether there is a process of this number that still runs."""
    return state_of(process) not in ("", "Z", "X")


def worked(process: int) -> int:
    """Nanoseconds for which the process had a processor."""
    with open(f"/proc/{process}/schedstat", encoding="ascii") as file:
        return int(file.read().split()[0])


def sockets_of(process: int) -> set[int]:
    """The numbers of the sockets that the process has open."""
    found, folder = set(), f"/proc/{process}/fd"
    for name in os.listdir(folder):
        try:
            target = os.readlink(os.path.join(folder, name))
        except FileNotFoundError:
            continue
        if target.startswith("socket:["):
            found.add(int(target[8:-1]))
    return found


def connections(port: int) -> Iterator[Connection]:
    """The connections at a port of this machine, and the socket that listens there."""
    ending = f":{port:04X}"
    with open("/proc/net/tcp", encoding="ascii") as file:
        for line in file:
            words = line.split()
            if words[1].endswith(ending):
                unsent, unread = (int(word, 16) for word in words[4].split(":"))
                other = str(int(words[2].rpartition(":")[2], 16))
                yield Connection(int(words[9]), unread, unsent, other, words[3] == LISTENS)


def end(process: int) -> None:
    """Ends the process, and waits until it is gone. What it had in memory is to be saved before."""
    for number in (signal.SIGTERM, signal.SIGKILL):
        try:
            os.kill(process, number)
        except ProcessLookupError:
            return
        until = time.monotonic() + GRACE
        while time.monotonic() < until:
            if not is_alive(process):
                return
            time.sleep(0.02)
    raise Fault(f"process {process} does not end, even by SIGKILL: the system holds it")
