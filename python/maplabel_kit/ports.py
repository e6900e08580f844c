"""Ports of this machine: one that is free, and who has one that is not."""

import contextlib
import socket
from pathlib import Path

from maplabel_kit.faults import Fault

HOST = "127.0.0.1"
LISTENS = "0A"


def free_port() -> int:
    """A port of 127.0.0.1 that nobody listens at now. Another may take it before it is used."""
    with socket.socket() as door:
        door.bind((HOST, 0))
        port: int = door.getsockname()[1]
        return port


def taken(port: int) -> Fault:
    """The fault that a port is in use: who has it, where that can be seen, and what to do."""
    who = holder(port) or "another program"
    return Fault(f"port {port} is in use by {who}; end that one, or tell another port")


def holder(port: int) -> str | None:
    """The process that listens at a port, as `python3 (process 4711)`, or none where that is not to
    be seen.
    """
    wanted = {f"socket:[{number}]" for number in _inodes(port)}
    for folder in Path("/proc").glob("[0-9]*") if wanted else ():
        with contextlib.suppress(OSError):
            if any(str(one.readlink()) in wanted for one in (folder / "fd").iterdir()):
                return f"{(folder / 'comm').read_text().strip()} (process {folder.name})"
    return None


def _inodes(port: int) -> set[str]:
    """The numbers of the sockets that listen at a port."""
    found = set()
    for name in ("tcp", "tcp6"):
        with contextlib.suppress(OSError):
            for line in Path("/proc/net", name).read_text().splitlines()[1:]:
                words = line.split()
                if words[3] == LISTENS and int(words[1].rpartition(":")[2], 16) == port:
                    found.add(words[9])
    return found
