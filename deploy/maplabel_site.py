"""Stands here for a package of another folder: the gate takes no links in a repository."""

from pathlib import Path

__path__ = [str(Path(__file__).resolve().parent / "../web/maplabel_site")]
