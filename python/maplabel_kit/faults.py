"""Faults that are told in a sentence, and the one way in which a script runs and ends."""

import contextlib
import os
import signal
import sys
from collections.abc import Callable, Iterator, Sequence
from pathlib import Path
from types import FrameType
from typing import NoReturn

SIGNALS = signal.SIGHUP, signal.SIGINT, signal.SIGTERM


class Fault(Exception):
    """What stops a script: a sentence for the person who called it, and the exit status."""

    def __init__(self, sentence: str, status: int = 1) -> None:
        super().__init__(sentence)
        self.status = status


class Refused(Fault):
    """The program refused a style, a map or a file: its own line, its own exit status as `code`,
    and an explanation.
    """

    def __init__(self, line: str, code: int, told: Sequence[str] = (), path: object = None) -> None:
        head = f"{path}: {line}" if path else f'the program says "{line}" (status {code})'
        super().__init__("\n".join([head, *told]))
        self.line = line
        self.code = code
        self.told = list(told)


class Ended(BaseException):
    """A signal asked the script to end."""

    def __init__(self, number: int) -> None:
        super().__init__(f"ended by signal {number}")
        self.status = 128 + number


class _Hold:
    """Whether a work goes on that is to be done whole, and which signal came meanwhile."""

    is_held = False
    due = 0


def main(function: Callable[[], int | None], name: str | None = None) -> NoReturn:
    """Runs the main function of a script and ends with the status that it returns.

    A fault becomes its sentence on standard error and its status. SIGINT, SIGTERM and SIGHUP end
    the script as an exception does, so that `with` and `finally` end what was started; a process in
    the background too, which the shell has told to ignore SIGINT. What `nohup` has told to ignore
    stays ignored.
    """
    called = name or Path(sys.argv[0]).name
    catch_signals()
    if hasattr(sys.stdout, "reconfigure"):
        sys.stdout.reconfigure(encoding="utf-8", errors="replace")
    try:
        status = function() or 0
        sys.stdout.flush()
    except Fault as fault:
        print(f"{called}: {fault}", file=sys.stderr)
        status = fault.status
    except Ended as ended:
        print(f"{called}: ended before it was done", file=sys.stderr)
        status = ended.status
    except BrokenPipeError:
        os.dup2(os.open(os.devnull, os.O_WRONLY), sys.stdout.fileno())
        status = 1
    except OSError as error:
        print(f"{called}: {sentence_of(error)}", file=sys.stderr)
        status = 1
    sys.exit(status)


def sentence_of(error: OSError) -> str:
    """What an error of the system tells, with the file where there is one."""
    said = error.strerror or str(error)
    return f"{os.fsdecode(error.filename)}: {said}" if error.filename is not None else said


def catch_signals() -> None:
    """Has the signals that ask a program to end raise `Ended` in the main thread."""
    for number in SIGNALS:
        if number != signal.SIGHUP or signal.getsignal(number) != signal.SIG_IGN:
            signal.signal(number, _end)


def _end(number: int, _: FrameType | None = None) -> None:
    if _Hold.is_held:
        _Hold.due = number
        return
    for one in SIGNALS:
        signal.signal(one, signal.SIG_IGN)
    raise Ended(number)


@contextlib.contextmanager
def unbroken() -> Iterator[None]:
    """What is done within is done whole, though a signal asks the script to end meanwhile."""
    _Hold.is_held = True
    try:
        yield
    finally:
        _Hold.is_held = False
    if _Hold.due:
        _end(_Hold.due)
