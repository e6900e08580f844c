"""Which program a script of web/ asks: that of `--program`, else of the variable MAPLABEL, else the
proved one; with `--quick` the one that `./maplabel --quick` compiles without its proofs.
"""

import argparse
from pathlib import Path

from maplabel_kit import program
from maplabel_kit.faults import Fault
from maplabel_kit.files import TOP


def add_options(parser: argparse.ArgumentParser) -> None:
    """Adds `--quick` and `--program`."""
    parser.add_argument(
        "--quick", action="store_true", help="with the quick program, not the proved one"
    )
    program.add_option(parser)


def find(told: argparse.Namespace) -> Path:
    """The path of the program. With `--quick` it is compiled first, where that is due."""
    if not told.quick:
        return program.find(told.program)
    if told.program:
        raise Fault("tell --quick or --program, and not both")
    from maplabel_launch import attempt, build, faults, quick

    try:
        return Path(quick.program_for(str(TOP), build.needed_of(str(TOP))))
    except (faults.Fault, attempt.Unmade) as fault:
        raise Fault(str(fault)) from None
