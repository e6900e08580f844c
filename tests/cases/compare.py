"""Runs cases with a program and a second opinion, and tells where they differ."""

import multiprocessing
import os
import shutil
import sys
import tempfile
import time
import traceback
from collections.abc import Sequence
from dataclasses import dataclass
from multiprocessing.queues import Queue

from cases.case import Case, Outcome
from cases.keep import keep
from cases.kinds import draw_case
from cases.run import Runner
from cases.tally import NEVER, Tally

CHUNK = 100
PORTS = 10


@dataclass
class Plan:
    """What a run compares; `other` is a second program, or None for the oracle."""

    kind: str
    seed: str
    program: str
    other: str | None
    kept: str
    port: int
    folder: str = ""


@dataclass
class Process:
    """What a process is ready with: the plan, and what runs its cases."""

    plan: Plan
    runner: Runner


_processes: list[Process] = []


def second_opinion(plan: Plan, case: Case, runner: Runner) -> Outcome:
    """The outcome that is due."""
    if plan.other:
        return runner.run(plan.other, case)
    import maplabel

    due: Outcome = maplabel.run(case)
    return due


def begin(plan: Plan, numbers: "Queue[int]") -> None:
    """Makes a process ready for cases."""
    number = numbers.get()
    first = plan.port + number * PORTS
    folder = os.path.join(plan.folder, str(number))
    _processes[:] = [Process(plan, Runner(folder, range(first, first + PORTS)))]


def process() -> Process:
    """What this process is ready with."""
    return _processes[0]


def run_chunk(places: Sequence[int]) -> tuple[Tally, list[str]]:
    """The tally of some cases, and the kept ones that differ."""
    tally, kept = Tally(), list[str]()
    plan, runner = process().plan, process().runner
    for place in places:
        case = draw_case(plan.kind, plan.seed, place)
        runner.put_files(case)
        try:
            due = second_opinion(plan, case, runner)
        except Exception:  # the oracle's own fault is told like a difference
            due = Outcome("fault", traceback.format_exc().encode(), b"")
        got = runner.run(plan.program, case)
        tally.add(case, due)
        parts = got.differs_in(due)
        if parts:
            where = os.path.join(plan.kept, f"{plan.kind}-{plan.seed}-{place}")
            outcomes = {"program": got, "other" if plan.other else "oracle": due}
            keep(where, case, plan.program, outcomes, runner)
            kept.append(
                f"{case.kind} case {place}: {' and '.join(parts)} differ; kept in {where} "
                f"(run it alone: {where}/run PROGRAM; again here: --only {place})"
            )
    return tally, kept


def folder_in_memory() -> str:
    """A new folder, in memory where there is such a place."""
    shared = "/dev/shm"
    return tempfile.mkdtemp(prefix="compare-", dir=shared if os.access(shared, os.W_OK) else None)


def compare(plan: Plan, places: Sequence[int], jobs: int) -> tuple[Tally, list[str], float]:
    """Runs the cases at these places; the tally, and a line for each that differs."""
    plan.folder = folder_in_memory()
    tally, kept = Tally(), list[str]()
    numbers: Queue[int] = multiprocessing.Queue()
    for number in range(jobs):
        numbers.put(number)
    chunks = [places[at : at + CHUNK] for at in range(0, len(places), CHUNK)]
    start, done = time.monotonic(), 0
    try:
        with multiprocessing.Pool(jobs, begin, (plan, numbers)) as pool:
            for part, lines in pool.imap_unordered(run_chunk, chunks):
                tally.join(part)
                kept += lines
                for line in lines:
                    print(line, flush=True)
                done += 1
                tell_progress(done, len(chunks), start)
    finally:
        shutil.rmtree(plan.folder, ignore_errors=True)
    return tally, kept, time.monotonic() - start


def tell_progress(done: int, chunks: int, start: float) -> None:
    """Tells on a terminal how far the cases are."""
    if sys.stderr.isatty():
        end = "\n" if done == chunks else ""
        print(
            f"\r{done * CHUNK} cases, {time.monotonic() - start:.0f} s",
            end=end,
            file=sys.stderr,
            flush=True,
        )


def report(tally: Tally, kept: Sequence[str], count: int, seconds: float) -> str:
    """The table, what was met seldom, and the sum."""
    lines = [tally.text(), ""]
    seldom = tally.seldom()
    lines.append("met less than fifty times: " + (", ".join(seldom) if seldom else "none"))
    lines += [f"not met by any case: {text}" for text in NEVER]
    rate = count / max(seconds, 0.001) * 60
    lines.append(f"{count} cases, {len(kept)} differ, {seconds:.0f} seconds, {rate:.0f} a minute")
    return "\n".join(lines)
