"""Small maps in tiny cells, compared with one process over each."""

import multiprocessing
import signal
from pathlib import Path

from maplabel_atlas.engine import engine_at
from small_maps import Account, Maps

MAPS, WITHOUT_RIM = 120, 20
PROCESSES = 4


def some(words: tuple[Path, list[int], float | None]) -> Account:
    """Compares the maps of some seeds."""
    path, seeds, rim = words
    maps = Maps(engine_at(path), rim)
    for seed in seeds:
        maps.one(seed)
    return maps.account


def compare(engine: Path, count: int, rim: float | None = None) -> Account:
    """Compares so many maps, in several processes."""
    shares = [(engine, list(range(k, count, PROCESSES)), rim) for k in range(PROCESSES)]
    with multiprocessing.Pool(PROCESSES, signal.signal, (signal.SIGTERM, signal.SIG_DFL)) as pool:
        return sum(pool.map(some, shares), Account())


def run(engine: Path) -> str:
    """Compares all; a rim of 0 may make things slower, and changes nothing."""
    account = compare(engine, MAPS)
    assert account.again > 1000 and account.crowded > 5, f"the maps are too easy: {account.line()}"
    bare = compare(engine, WITHOUT_RIM, 0.0)
    return f"{account.line()}; without a rim {bare.line()}"
