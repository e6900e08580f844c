"""What `save` and `stop` share: the words that name a server which was started by hand."""

import argparse

from maplabel_kit import program, words
from maplabel_kit.faults import Fault
from maplabel_run.keeper import Keeper
from maplabel_run.process import is_alive

WAIT = "how long one save may wait for the server"


def parser(text: str | None) -> argparse.ArgumentParser:
    """A parser with the server's process, files and port."""
    made = words.parser(text)
    made.add_argument(
        "process",
        metavar="PID",
        type=int,
        help="the process of `maplabel serve STYLE MAP PORT COUNT`",
    )
    made.add_argument("style", metavar="STYLE")
    made.add_argument("map", metavar="MAP")
    made.add_argument("port", metavar="PORT", type=words.port)
    program.add_option(made)
    return made


def keeper(told: argparse.Namespace) -> Keeper:
    """The keeper of the server that is told, which must run."""
    if not is_alive(told.process):
        raise Fault(f"there is no process {told.process}")
    found = str(program.find(told.program))
    return Keeper(told.process, found, told.style, told.map, told.port)
