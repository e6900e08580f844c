"""How the launcher ends where something is wrong: with a sentence and a status."""

import contextlib
import signal
import sys
from collections.abc import Iterator
from types import FrameType
from typing import NoReturn

# What the launcher itself ends with where it could not build; no command of the program has this
# status.
FAILED = 70
# The program's own statuses that the launcher can foretell: words of no form, a file that cannot be
# read, and one that is too long.
USAGE, FILE_FAULT, TOO_LONG = 2, 5, 10
NO_KIT = (
    "the kit's command rt does not run: the kit that README.md names proves and builds the "
    "program; install the kit so that rt is found on PATH, or run a program that was proved "
    "elsewhere by ./maplabel --release FILE"
)
# What asks a program to end.
SIGNALS = (signal.SIGINT, signal.SIGTERM, signal.SIGHUP)
# Those of them that the caller has told this process to ignore: SIGHUP by nohup, and SIGINT by a
# shell that starts it in the background.
IGNORED = frozenset(it for it in SIGNALS if signal.getsignal(it) is signal.SIG_IGN)


class Fault(Exception):
    """A reason to end, which is told in a sentence."""

    def __init__(self, sentence: str, status: int = FAILED) -> None:
        super().__init__(sentence)
        self.status = status


class Interrupted(Exception):
    """A signal asked the launcher to end."""

    def __init__(self, number: int) -> None:
        super().__init__(f"ended by signal {number}")
        self.status = 128 + number


def end_by(number: int, _: FrameType | None = None) -> NoReturn:
    """Has the launcher end for a signal; others are left aside while it cleans up."""
    for it in SIGNALS:
        signal.signal(it, signal.SIG_IGN)
    tell("\nmaplabel: ends what is at work")
    raise Interrupted(number)


def catch_signals() -> None:
    """Has the launcher end for each signal but for one that nohup keeps away."""
    for it in SIGNALS:
        if it not in IGNORED or it is not signal.SIGHUP:
            signal.signal(it, end_by)


@contextlib.contextmanager
def held() -> Iterator[None]:
    """A block in which signals wait: a process that is started there is known before one ends the
    launcher. The process itself has to call `let_go`.
    """
    signal.pthread_sigmask(signal.SIG_BLOCK, SIGNALS)
    try:
        yield
    finally:
        let_go()


def let_go() -> None:
    """Lets signals come."""
    signal.pthread_sigmask(signal.SIG_UNBLOCK, SIGNALS)


def tell(line: str) -> None:
    """Tells a line on standard error."""
    print(line, file=sys.stderr, flush=True)
