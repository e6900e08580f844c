"""Runs the program as a child, so that what its status means can be told once it has ended.

The child has the standard streams of the launcher. A signal that asks the launcher to end goes on
to the child, one that the caller has told to ignore is ignored by both, and where the launcher is
killed, the child is asked to end by the system.
"""

import contextlib
import ctypes
import os
import signal
import subprocess
from collections.abc import Sequence
from types import FrameType

from maplabel_launch.faults import IGNORED, SIGNALS, Fault, held, let_go

# The call of Linux that sets the signal which a process gets when its parent ends.
PR_SET_PDEATHSIG = 1


def run(program: str, words: Sequence[str]) -> int:
    """Runs the program and returns its status; where a signal ended it, this process ends so
    too.
    """
    with_parent = ctypes.CDLL(None).prctl

    def settle() -> None:
        with_parent(PR_SET_PDEATHSIG, signal.SIGTERM)
        for it in IGNORED:
            signal.signal(it, signal.SIG_IGN)
        let_go()

    def pass_on(number: int, _: FrameType | None) -> None:
        child.send_signal(number)

    with held():
        try:
            child = subprocess.Popen([program, *words], preexec_fn=settle)
        except OSError as error:
            raise Fault(f"{program} does not run: {error.strerror}") from error
        for it in SIGNALS:
            signal.signal(it, signal.SIG_IGN if it in IGNORED else pass_on)
    status = child.wait()
    if status < 0:
        end_as(-status)
    return status


def end_as(number: int) -> None:
    """Ends this process by the signal that ended the child."""
    with contextlib.suppress(OSError, ValueError):
        signal.signal(number, signal.SIG_DFL)
    os.kill(os.getpid(), number)
