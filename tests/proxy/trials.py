"""The trials of this test by their names, as `nginx.refusals`: a part, and what is tried of it."""

from collections.abc import Callable

Trial = Callable[[], None]
TRIALS: dict[str, Trial] = {}


class Seconds:
    """How long the clients of a trial ask."""

    told = 60.0


def trial(part: str) -> Callable[[Trial], Trial]:
    """Makes a function a trial of a part, by its own name."""

    def enter(function: Trial) -> Trial:
        TRIALS[f"{part}.{function.__name__}"] = function
        return function

    return enter


def chosen(words: list[str]) -> list[str]:
    """The names of the trials that some words mean: parts and names, or all where there are
    none."""
    return [
        name for name in TRIALS if not words or name in words or name.partition(".")[0] in words
    ]


def unknown(words: list[str]) -> list[str]:
    """The words that mean no trial."""
    parts = {name.partition(".")[0] for name in TRIALS}
    return [word for word in words if word not in TRIALS and word not in parts]
