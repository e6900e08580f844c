"""What the command lines of scripts share."""

import argparse
from collections.abc import Callable
from pathlib import Path


def parser(text: str | None, name: str | None = None) -> argparse.ArgumentParser:
    """A parser of arguments whose `--help` shows a text, mostly `__doc__`, as it is written."""
    return argparse.ArgumentParser(
        prog=name, description=text, formatter_class=argparse.RawDescriptionHelpFormatter
    )


def whole(least: int, most: int) -> Callable[[str], int]:
    """The `type` of an argument that is a whole number between two others."""

    def read(word: str) -> int:
        if not word.lstrip("-").isdecimal() or not least <= int(word) <= most:
            raise argparse.ArgumentTypeError(
                f"it is a whole number from {least} to {most}, and not {word}"
            )
        return int(word)

    return read


def port(word: str) -> int:
    """The `type` of an argument that is a port."""
    return whole(1, 65535)(word)


def existing(word: str) -> Path:
    """The `type` of an argument that is a file which is there."""
    path = Path(word)
    if not path.is_file():
        raise argparse.ArgumentTypeError(f"there is no file {word}")
    return path
