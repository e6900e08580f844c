"""Which crate is checked next, by how many provers, how far it gives way, and how long all that is
left will take.

A crate is checked over the built libraries below it, and only a proved library is built. So a crate
can begin once those that it uses are done, and the longest chain of crates bounds the whole time.
Of a crate at work only what is left of its work counts in its chain: so a chain that was shorter is
seen as the longest once the other has come further.

What begins the longest chain, or one that is hardly shorter, has several provers where processors
are free for them. Taken are those that the near crates at work keep busy, and one for each other
near crate that can begin; near are those behind which the chain is not much shorter. What has less
left to do than that crate counts for a part. Each other crate has one prover, since each further
one does a part of the work again.

A crate that is not near waits while those at work keep all processors busy. A near one waits for
near ones alone: where far ones have the processors, it begins beside them, and they give way.

The work of a crate is what it was in a measured build; of one that is new since, what its lines
tell.

A near crate gives way to none: the times of chains are told within a fifth at best, and where one
that is hardly shorter gave way, it became the longest. Each other crate gives way the further, the
shorter its chain is. So the longest chains have what they can use of the processors, and the others
have what they leave: also a check by several provers begins and ends on one processor.
"""

from collections.abc import Collection, Mapping, Sequence
from typing import NamedTuple

# More provers of one crate than this gain nothing, since each does a part of the work again.
MOST_JOBS = 3
# How many processors so many provers of a crate keep busy.
BUSY = {1: 1.0, 2: 1.7, 3: 2.4}
# At least so long, as a part of the longest, is a chain whose first crate may have several provers,
# and one whose first crate is near. A simulation with the measured times of this repository's
# crates chose these parts.
FRONT, NEAR = 0.95, 0.75
# What gives way to all others still has a little of the processors.
LEAST = 0.1
# The niceness of what gives way to all others.
MOST_NICE = 19
# A check takes as long for its start as for so many lines of code and definitions. By the processor
# times of a whole build these two numbers tell the work of most crates within a third, and of all
# within a factor of two.
START = 50
# The statement of each line of the libraries below is loaded, which takes this part of the time for
# a line that is proved.
LOADED = 25
# So many lines take a second of one processor.
LINES_A_SECOND = 12
GIGABYTE = 1_000_000_000
KILOBYTE = 1_000


class Step(NamedTuple):
    """The check of a crate: the crates that it waits for, its work in lines, and the memory that
    one prover takes.
    """

    uses: tuple[str, ...]
    work: int
    memory: int


class Check(NamedTuple):
    """A check at work: its provers, and what is left of its work in lines."""

    jobs: int
    left: float


def step_of(uses: Sequence[str], lines: int, below: int, seconds: float | None = None) -> Step:
    """The check of so many lines over so many lines of libraries below, which took so many seconds
    of one processor in a measured build, if it was one of it.

    The memory rests on the peaks of all crates in a build of this repository over whole libraries,
    by one, two or four provers: none was above 95 of 100 parts of what is reckoned here. Over the
    statements of libraries it is less.
    """
    work = (
        START + lines + below // LOADED
        if seconds is None
        else max(1, round(seconds * LINES_A_SECOND))
    )
    return Step(tuple(uses), work, GIGABYTE + 65 * KILOBYTE * (8 * lines + below))


class Plan:
    """The order of a build."""

    def __init__(self, steps: Mapping[str, Step], processors: int, memory: int) -> None:
        self.steps, self.processors, self.memory = dict(steps), processors, memory
        self.behind: dict[str, int] = {}
        for name in reversed(list(steps)):
            above = [self.behind[it] for it, step in steps.items() if name in step.uses]
            self.behind[name] = steps[name].work + max(above, default=0)

    def memory_of(self, name: str, jobs: int) -> int:
        """The memory that so many provers of a crate take."""
        return self.steps[name].memory * (2 + jobs) // 3

    def ready(self, done: Collection[str], running: Collection[str]) -> list[str]:
        """The crates that can begin, the longest chain first."""
        left = [it for it in self.steps if it not in done and it not in running]
        can = [it for it in left if all(below in done for below in self.steps[it].uses)]
        return sorted(can, key=lambda it: -self.behind[it])

    def chains(self, done: Collection[str], running: Mapping[str, Check]) -> dict[str, float]:
        """How long the chain is that begins with each crate that is not done."""
        found = {it: float(self.behind[it]) for it in self.steps if it not in done}
        for name, check in running.items():
            found[name] -= self.steps[name].work - check.left
        return found

    def niceness(self, name: str, done: Collection[str], running: Mapping[str, Check]) -> int:
        """How far a crate that begins now gives way to the others: not at all where it is near, and
        fully where the chain behind it is half as long as the longest of all that is left. This
        holds until its check ends, also where its chain becomes the longest: who gave way needs a
        privilege to go before others again.
        """
        part = self.behind[name] / max(self.chains(done, running).values())
        return max(0, min(MOST_NICE, int(MOST_NICE * (NEAR - part) / (NEAR - 0.5))))

    def idle(self, names: Collection[str], running: Mapping[str, Check], work: float = 0) -> float:
        """How many processors these crates leave for so much work; each that is not yet at work
        will have one prover.
        """
        checks = [running.get(it) or Check(1, self.steps[it].work) for it in names]
        return self.processors - sum(
            BUSY[it.jobs] * (min(1.0, it.left / work) if work else 1.0) for it in checks
        )

    def next(
        self, done: Collection[str], running: Mapping[str, Check], free: int
    ) -> tuple[str, int] | None:
        """The crate to begin now and its number of provers, or none. `running` has the check of
        each crate at work, and `free` tells how much memory is free.
        """
        ready = self.ready(done, running)
        if not ready:
            return None
        free = min(
            free, self.memory - sum(self.memory_of(it, check.jobs) for it, check in running.items())
        )
        chains = self.chains(done, running)
        longest = max(chains.values())
        near = [it for it in ready if chains[it] >= NEAR * longest]
        at_work = [it for it in running if chains[it] >= NEAR * longest]
        for name in ready:
            is_full = len(at_work if name in near else running) >= self.processors
            if is_full or running and name not in near and self.idle(running, running) <= 0:
                continue
            jobs = min(MOST_JOBS, self.processors) if chains[name] >= FRONT * longest else 1
            idle = self.idle({*at_work, *near} - {name}, running, self.steps[name].work)
            # (each further prover has to find a part of a processor)
            while jobs > 1 and (BUSY[jobs - 1] > idle or self.memory_of(name, jobs) > free):
                jobs -= 1
            if not running or self.memory_of(name, jobs) <= free:
                return name, jobs
        return None

    def processors_of(self, running: Mapping[str, int]) -> dict[str, float]:
        """How many processors each crate at work has, the longest chain first. `running` tells
        their provers.
        """
        idle = float(self.processors)
        found: dict[str, float] = {}
        for name in sorted(running, key=lambda it: -self.behind[it]):
            found[name] = max(min(BUSY[running[name]], idle), LEAST)
            idle -= found[name]
        return found

    def checks(self, running: Mapping[str, tuple[int, float]], rate: float) -> dict[str, Check]:
        """What is left of the crates at work where one processor does `rate` lines a second.
        `running` tells the provers of each and the seconds since it began.
        """
        at_work = self.processors_of({it: jobs for it, (jobs, _) in running.items()})
        found: dict[str, Check] = {}
        for name, (jobs, seconds) in running.items():
            work = self.steps[name].work
            found[name] = Check(jobs, max(work - seconds * rate * at_work[name], work / 20))
        return found

    def seconds_left(
        self, done: Collection[str], running: Mapping[str, Check], rate: float
    ) -> float:
        """How long the rest takes where one processor does `rate` lines a second, `running` as in
        `next`.
        """
        done, running, now = set(done), dict(running), 0.0
        while any(it not in done for it in self.steps):
            while chosen := self.next(done, running, self.memory):
                name, jobs = chosen
                running[name] = Check(jobs, self.steps[name].work)
            at_work = self.processors_of({it: check.jobs for it, check in running.items()})
            speeds = {it: rate * count for it, count in at_work.items()}
            first = min(running, key=lambda it: running[it].left / speeds[it])
            seconds = running.pop(first).left / speeds[first]
            running = {
                it: Check(jobs, left - seconds * speeds[it]) for it, (jobs, left) in running.items()
            }
            done.add(first)
            now += seconds
        return now
