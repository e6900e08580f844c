"""Which wrong rules the cases see: each is put into the oracle, one at a time."""

import multiprocessing
import shutil
import sys
from collections.abc import Iterator, Mapping, Sequence
from contextlib import contextmanager
from multiprocessing.queues import Queue
from types import ModuleType
from typing import Any

import maplabel
from cases import compare
from cases.case import Case, Outcome
from cases.kinds import draw_case
from cases.wrong_rules import RULES


Rule = tuple[Any, ...]


def oracle_modules() -> list[ModuleType]:
    """The modules of the oracle that are there."""
    return [
        module
        for name, module in sys.modules.items()
        if name.startswith("ml_") or name in ("maplabel", "toml_text")
    ]


@contextmanager
def wrong(rule: Rule) -> Iterator[None]:
    """The oracle with a wrong rule in every module that uses the name."""
    _, home, name, replacement, _ = rule
    right = getattr(home, name)
    places = [module for module in oracle_modules() if getattr(module, name, None) is right]
    for module in places:
        setattr(module, name, replacement)
    try:
        yield
    finally:
        for module in places:
            setattr(module, name, right)


def is_seen(rule: Rule, case: Case, outcome: Outcome) -> bool:
    """Whether the oracle with the wrong rule answers otherwise than the program."""
    with wrong(rule):
        try:
            return bool(maplabel.run(case).differs_in(outcome))
        except Exception:  # a wrong rule may lead where no answer is
            return True


def try_cases(task: tuple[Sequence[int], set[str]]) -> dict[str, int]:
    """The names of the rules that some cases see, each with the first place."""
    places, names = task
    plan, runner = compare.process().plan, compare.process().runner
    seen: dict[str, int] = {}
    for place in places:
        case = draw_case(plan.kind, plan.seed, place)
        runner.put_files(case)
        outcome = runner.run(plan.program, case)
        if maplabel.run(case).differs_in(outcome):
            continue
        for rule in RULES:
            if rule[0] in names and rule[0] not in seen and is_seen(rule, case, outcome):
                seen[rule[0]] = place
    return seen


def sharpness(plan: compare.Plan, count: int, jobs: int) -> dict[str, int]:
    """Of each rule that is seen within so many cases the first place that saw it."""
    plan.folder = compare.folder_in_memory()
    numbers: Queue[int] = multiprocessing.Queue()
    for number in range(jobs):
        numbers.put(number)
    seen: dict[str, int] = {}
    at = 0
    try:
        with multiprocessing.Pool(jobs, compare.begin, (plan, numbers)) as pool:
            while at < count and len(seen) < len(RULES):
                unseen = {rule[0] for rule in RULES} - seen.keys()
                ends = [min(count, at + compare.CHUNK * (job + 1)) for job in range(jobs)]
                tasks = [(range(low, high), unseen) for low, high in zip([at, *ends], ends)]
                for found in pool.map(try_cases, tasks):
                    for name, place in found.items():
                        seen[name] = min(place, seen.get(name, place))
                at = ends[-1]
    finally:
        shutil.rmtree(plan.folder, ignore_errors=True)
    return seen


def report(seen: Mapping[str, int], count: int) -> str:
    """A line for each rule, and the sum."""
    lines = []
    for name, _, _, _, sentence in RULES:
        place = f"seen by case {seen[name]}" if name in seen else f"not seen within {count} cases"
        lines.append(f"{name}: {place} ({sentence})")
    lines.append(f"{len(seen)} of {len(RULES)} wrong rules seen within {count} cases")
    return "\n".join(lines)
