"""The kit: where it stands, and its name."""

import os
import re
import shutil
import subprocess

from maplabel_launch.faults import NO_KIT, Fault

# How README.md names the kit that all was proved with.
NAMED = re.compile(r"^The kit is `([^`]+)`", re.M)


def place() -> str:
    """The kit's folder: its commands stand in bin/."""
    command = shutil.which("rt")
    if not command:
        raise Fault(NO_KIT)
    return os.path.dirname(os.path.dirname(os.path.realpath(command)))


def name() -> str:
    """The line that names the kit; another kit proves all anew."""
    try:
        told = subprocess.run(["rt", "version"], capture_output=True, text=True, check=True)
    except (OSError, subprocess.CalledProcessError) as error:
        raise Fault(NO_KIT) from error
    return told.stdout.strip()


def named(top: str) -> str | None:
    """The kit that README.md names, where it names one."""
    try:
        with open(f"{top}/README.md", encoding="utf-8") as file:
            found = NAMED.search(file.read())
    except OSError:
        return None
    return found[1] if found else None


def differs(top: str, found: str) -> str | None:
    """A line for a kit that is not the one that README.md names, or none."""
    wanted = named(top)
    if wanted is None or wanted == found:
        return None
    return f"maplabel: the kit here is {found}; the one that README.md names is {wanted}"
