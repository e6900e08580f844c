"""The kinds of columns that travel between the modules."""

import numpy as np
from numpy.typing import NDArray

Whole = NDArray[np.int64]
Real = NDArray[np.float64]
Truth = NDArray[np.bool_]
Texts = NDArray[np.bytes_]


def no_rows() -> Whole:
    """A list of no rows."""
    return np.zeros(0, dtype=np.int64)


def all_of(parts: list[Whole]) -> Whole:
    """The rows of several lists, one list behind the other."""
    return np.concatenate(parts) if parts else no_rows()


def union(parts: list[Whole]) -> Whole:
    """The rows that stand in any of several lists, once each and in ascending order."""
    return np.unique(all_of(parts))


def ranges(begins: Whole, counts: Whole) -> tuple[Whole, Whole]:
    """The places of several runs, one run behind the other, and where each run begins among
    them.
    """
    first = np.zeros(len(counts) + 1, dtype=np.int64)
    np.cumsum(counts, out=first[1:])
    places = np.repeat(begins - first[:-1], counts) + np.arange(first[-1])
    return places.astype(np.int64), first
