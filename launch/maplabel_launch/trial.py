"""Runs the program from its sources as they stand, by `rt try`: the way of `--quick` where the
kit's parts do not make a program that can be kept. Each run compiles anew, and has copies of the
caller's files in a folder of its own.
"""

import os
import re
import subprocess
import sys
from collections.abc import Sequence

from maplabel_launch.faults import NO_KIT, Fault, Interrupted

# `rt try` ends the program after so many seconds; a server is to last for a while.
SECONDS = 3600
# How long `rt try` has to end by itself after a signal.
PATIENCE = 2
# The lines that `rt try` adds to what the program said, where the program came to its end.
ADDED = re.compile(
    rb"(?:(?:interpreter|checked|races): .*\n)*run=ended status=(\d+) .*proved=no\n\Z"
)


def handed(words: Sequence[str], folder: str) -> list[str]:
    """The words for `rt try`, which runs the program in a folder of its own: each word that names a
    file of the caller becomes the name of a copy. A word that names a file of the crate's folder
    alone becomes one that names none.
    """
    data, given = [], []
    for number, word in enumerate(words):
        if os.path.isfile(word):
            data += ["--data", f"file{number}={os.path.abspath(word)}"]
            word = f"file{number}"
        elif os.path.isfile(os.path.join(folder, word)):
            word = f"none{number}"
        given.append(word)
    return [*data, "--", *given]


def attempt(words: Sequence[str], folder: str) -> tuple[int, bytes]:
    """Runs `rt try` in the crate's folder, and returns its status and what it said; it cleans up
    when it is asked to end.
    """
    command = ["rt", "try", "--seconds", str(SECONDS), *words]
    try:
        tried = subprocess.Popen(command, cwd=folder, stderr=subprocess.PIPE)
    except OSError as error:
        raise Fault(NO_KIT) from error
    try:
        said = tried.communicate()[1]
    except Interrupted:
        try:
            # (a terminal's Ctrl-C reached it as well, and a second signal would disturb its
            # cleaning up)
            tried.communicate(timeout=PATIENCE)
        except subprocess.TimeoutExpired:
            tried.terminate()
            tried.communicate()
        raise
    return tried.returncode, said


def run(top: str, words: Sequence[str]) -> int:
    """Runs the program on the caller's words, and returns its status."""
    folder = f"{top}/crates/maplabel"
    status, said = attempt(handed(words, folder), folder)
    ended = ADDED.search(said)
    sys.stderr.buffer.write(said[: ended.start()] if ended else said)
    sys.stderr.flush()
    if not ended:
        raise Fault(f"`rt try` did not bring the program to its end; it ended with status {status}")
    return int(ended[1])
