"""What goes wrong, told in a sentence: faults of this package beside those of all scripts."""

from maplabel_kit.faults import Fault

__all__ = ["Fault", "OtherEngine", "Unanswered"]


class OtherEngine(Fault):
    """A worker has another engine than the command."""


class Unanswered(Fault):
    """Some questions have no answer. What was answered is kept."""
