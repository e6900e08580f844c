"""What is owed: how many times the time or memory of OTHER a workload may take, and how many
seconds.
"""

DEAR_TABLES = (
    "32768 labels in one column",
    "32768 labels in one row",
    "10000 labels at one anchor",
    "32768 labels, one of them great",
)

# By the titles of rows, so for maps of these sizes alone: the ratio at the most, and the seconds at
# the most that the row tells, of a run or of one edit. The ratio of a row of memory is that of
# memory.
OWED: dict[str, tuple[float | None, float | None]] = {
    "load of 10000 points": (2, None),
    "load of 32768 points": (2, None),
    "load of 10000 towns": (2, None),
    "load of a generated map of 10000": (2, None),
    "memory of 32768 points": (1.7, None),
    "50 edits of 10000 towns, with load": (3, None),
    "one edit of 32768 cities of one class": (None, 0.05),
    "1000 edits of a generated map of 10000, with load": (3.5, None),
    "1000 views at 30 of a generated map of 10000, with load": (3.5, None),
    "1000 views at 1 to 3000 of a generated map of 10000, with load": (3.5, None),
    "1000 views at 9000 on of a generated map of 10000, with load": (3.5, None),
    "1000 views of 10000 towns, with load": (5, None),
    "10000 views at 30 of a generated map of 10000, served": (1.6, None),
    "10000 views at 1 to 3000 of a generated map of 10000, served": (1.6, None),
    "10000 views at 9000 on of a generated map of 10000, served": (1.6, None),
    "10000 views of 10000 towns, served": (1.6, None),
    "zoom of a generated map of 10000": (3, None),
    "zoom of 10000 towns": (3, None),
    "follow of a generated map of 10000": (3, None),
    "follow of 10000 towns": (3, None),
    "slots of 10000 labels": (2, None),
    "show of 10000 labels": (2, None),
    "check of 10000 labels": (2, None),
    "gaps of 10000 labels": (2, None),
    "slots of 32768 labels": (3, 2),
    "show of 32768 labels": (3, 2),
    "check of 32768 labels": (3, 2),
    "gaps of 32768 labels": (3, 2),
    **{
        f"one edit in front of a chain of {count} points": (3, 0.2)
        for count in (4000, 10000, 30000)
    },
    "one edit at the corner of a lattice of 100 by 100 points": (3, 0.2),
    **{
        f"one edit that puts first one of {count} crowded towns": (3, 0.2)
        for count in (10000, 32768)
    },
    "one edit of the last of 4000 points at one anchor": (3, 0.2),
    "load of 32768 points on one meridian": (3, None),
    "load of 32768 points at one anchor": (3, None),
    **{
        f"{what} of {labels}": (3, None)
        for what in ("slots", "check", "gaps")
        for labels in DEAR_TABLES
    },
    "follow of 5000 states of two labels": (3, None),
    "gen 2000 7": (3, None),
    "gen 6000 7": (3, None),
}


def is_kept(title: str, ratio: float, seconds: float) -> bool:
    """Whether the row of this title keeps what is owed, to the hundredth that is told of a
    ratio.
    """
    most_ratio, most_seconds = OWED.get(title, (None, None))
    return (most_ratio is None or round(ratio, 2) <= most_ratio) and (
        most_seconds is None or seconds <= most_seconds
    )


def told(title: str) -> str:
    """What is owed of the row, in words; nothing where nothing is."""
    ratio, seconds = OWED.get(title, (None, None))
    return ", ".join([f"{ratio}"] * (ratio is not None) + [f"{seconds} s"] * (seconds is not None))
