"""What the machine has to give: processors and memory, within the limits of a container."""

import os
import re

# The files in which a control group tells its limit of memory and what it holds, in both of their
# versions.
GROUPS = (
    ("/sys/fs/cgroup/memory.max", "/sys/fs/cgroup/memory.stat", r"^anon (\d+)"),
    (
        "/sys/fs/cgroup/memory/memory.limit_in_bytes",
        "/sys/fs/cgroup/memory/memory.stat",
        r"^total_rss (\d+)",
    ),
)


def number_in(path: str, pattern: str) -> int | None:
    """The first number that fits the pattern in a file, or none."""
    try:
        with open(path, encoding="utf-8") as file:
            found = re.search(pattern, file.read(), re.M)
    except OSError:
        return None
    return int(found[1]) if found else None


def processors() -> int:
    """How many processors this process may use at one time."""
    count = len(os.sched_getaffinity(0))
    quota = number_in("/sys/fs/cgroup/cpu.max", r"^(\d+)")
    period = number_in("/sys/fs/cgroup/cpu.max", r"^\d+ (\d+)")
    return max(1, min(count, quota // period)) if quota and period else count


def free_memory() -> int:
    """How many bytes of memory are free."""
    found = [1024 * (number_in("/proc/meminfo", r"^MemAvailable:\s+(\d+)") or 0)]
    for limit, stat, pattern in GROUPS:
        most, held = number_in(limit, r"^(\d+)"), number_in(stat, pattern)
        if most is not None and held is not None:
            found.append(most - held)
    return max(0, min(found))


def spent_by_ended() -> float:
    """The processor time that this process's children took, those that have ended and were waited
    for, in seconds.
    """
    times = os.times()
    return times.children_user + times.children_system
