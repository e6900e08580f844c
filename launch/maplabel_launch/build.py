"""Proves and builds a crate and all below it, side by side, and keeps what is done."""

import contextlib
import os
import signal
import subprocess
import time
from collections.abc import Collection, Mapping, Sequence
from dataclasses import dataclass, replace

from maplabel_launch import compiler, crates, kit, machine, records, schedule, shown, verdict
from maplabel_launch.crates import Crate
from maplabel_launch.faults import Fault, Interrupted, held, let_go
from maplabel_launch.shown import Shown
from maplabel_launch.sources import Sources

PROGRAM = "maplabel"
# What each check took in a measured build, which `bench/start times` writes anew.
TIMES = os.path.join(os.path.dirname(os.path.dirname(os.path.realpath(__file__))), "times.txt")
# A check that takes less processor time, in seconds, had little to do, so its time tells nothing of
# the others.
TELLS = 4
PAUSE = 0.2
# The line on a terminal is made anew so often.
LINE = 1.0
# How long a check has to end once it is asked to.
PATIENCE = 10


@dataclass(frozen=True)
class Run:
    """A check at work: the command that runs, those that come behind it, and the processor time of
    those before it.
    """

    process: subprocess.Popen[bytes]
    command: list[str]
    rest: list[list[str]]
    jobs: int
    niceness: int
    begun: float
    spent: float = 0.0


def plan_of(needed: Sequence[Crate]) -> schedule.Plan:
    """The plan of a build of these crates, each behind those that it uses, on this machine."""
    by_name, steps = {it.name: it for it in needed}, {}
    lines = {it.name: crates.lines_of(it) for it in needed}
    seconds = crates.seconds_of(TIMES)
    for it in needed:
        below = sum(lines[used.name] for used in crates.below(by_name, it.name))
        steps[it.name] = schedule.step_of(it.uses, lines[it.name], below, seconds.get(it.name))
    return schedule.Plan(steps, machine.processors(), machine.free_memory())


def done_of(needed: Sequence[Crate], sums: Mapping[str, str]) -> set[str]:
    """The crates that are done: what stands in their folders was built from these texts, and all
    below them is done too. So nothing is proved over a library that something else put there.
    """
    found: set[str] = set()
    for it in needed:
        if found.issuperset(it.uses) and records.is_done(it, sums[it.name]):
            found.add(it.name)
    return found


class Build:
    """One build."""

    def __init__(
        self,
        needed: Sequence[Crate],
        sums: Mapping[str, str],
        sources: Sources,
        handles: Collection[str],
        view: Shown,
    ) -> None:
        self.crates = {it.name: it for it in needed}
        self.sums, self.sources, self.handles, self.view = sums, sources, handles, view
        self.running: dict[str, Run] = {}
        self.alone: set[str] = set()
        self.done = done_of(needed, sums)
        # (of the crates that ended in this build, their work in lines and the processor time that
        # it took)
        self.begun, self.lines, self.spent = shown.now(), 0, 0.0
        self.plan = plan_of(needed)

    def go(self) -> None:
        """Builds all that is not done."""
        due = 0.0
        try:
            while len(self.done) < len(self.crates):
                self.start_all()
                if shown.now() >= due:
                    self.view.show(self.line())
                    due = shown.now() + LINE
                time.sleep(PAUSE)
                self.look()
        finally:
            self.end_all()

    def start_all(self) -> None:
        """Begins what can begin now."""
        # (a crate that was killed before begins alone)
        while not (self.alone and self.running):
            chosen = self.plan.next(self.done, self.checks(), machine.free_memory())
            if not chosen:
                return
            self.start(*chosen)

    def checks(self) -> dict[str, schedule.Check]:
        """What is left of the crates at work, so far as it can be told."""
        running = {name: (run.jobs, shown.now() - run.begun) for name, run in self.running.items()}
        return self.plan.checks(running, self.lines / self.spent if self.spent else 0.0)

    def start(self, name: str, jobs: int) -> None:
        """Begins a crate. Its check is a process group of its own, so that all that it starts ends
        with it.
        """
        crate, jobs = self.crates[name], 1 if name in self.alone else jobs
        first, *rest = compiler.commands(crate, crates.below(self.crates, name), jobs)
        niceness = self.plan.niceness(name, self.done, self.checks())
        open(self.sources.log(name), "wb").close()
        with held():
            process = self.call(name, first, niceness)
            self.running[name] = Run(process, first, rest, jobs, niceness, shown.now())

    def call(self, name: str, command: list[str], niceness: int) -> subprocess.Popen[bytes]:
        """Begins a command of a crate."""

        def settle() -> None:
            let_go()
            os.setpgrp()
            os.nice(niceness)

        with open(self.sources.log(name), "ab") as log:
            return subprocess.Popen(
                command,
                cwd=self.sources.folder(name),
                stdin=subprocess.DEVNULL,
                stdout=log,
                stderr=subprocess.STDOUT,
                pass_fds=[self.sources.lock],
                preexec_fn=settle,
            )

    def look(self) -> None:
        """Takes note of the checks that have ended."""
        for name, run in list(self.running.items()):
            before = machine.spent_by_ended()
            status = run.process.poll()
            if status is not None:
                spent = run.spent + machine.spent_by_ended() - before
                self.ended(name, replace(run, spent=spent), status)

    def ended(self, name: str, run: Run, status: int) -> None:
        """Goes on with a crate of which a command has ended."""
        # (where it was killed, it was out of memory most likely)
        if status == -signal.SIGKILL and name not in self.alone:
            del self.running[name]
            self.alone.add(name)
            return
        if status:
            raise Fault(self.failure(name, run, f"failed in crates/{name} with status {status}"))
        if os.path.basename(run.command[0]) == "rattle":
            self.hold_to_verdict(name, run)
        if run.rest:
            command, *rest = run.rest
            with held():
                process = self.call(name, command, run.niceness)
                self.running[name] = replace(run, process=process, command=command, rest=rest)
        else:
            self.finish(name, shown.now() - run.begun, run.spent)

    def hold_to_verdict(self, name: str, run: Run) -> None:
        """Ends the build where the compiler came to its end without a proof that counts."""
        why = verdict.why_not(self.said(name), self.handles)
        if why:
            what = f"does not prove crates/{name}: it ended with status 0, but {why}"
            raise Fault(self.failure(name, run, what))

    def finish(self, name: str, seconds: float, spent: float) -> None:
        """Keeps what was built of a crate."""
        if spent > TELLS:
            self.lines += self.plan.steps[name].work
            self.spent += spent
        self.sources.give(self.crates[name])
        records.note(self.crates[name], self.sums[name])
        records.note_seconds(self.crates[name], spent)
        del self.running[name]
        self.alone.discard(name)
        self.done.add(name)
        self.view.ended(name, seconds, len(self.done), len(self.crates))

    def said(self, name: str) -> str:
        """What the commands of a crate have said."""
        with open(self.sources.log(name), encoding="utf-8", errors="replace") as log:
            return log.read()

    def failure(self, name: str, run: Run, what: str) -> str:
        """What is said where a check failed, with what it said."""
        kept, said = f"crates/{name}/out/build.log", self.said(name)
        os.makedirs(f"{self.crates[name].folder}/out", exist_ok=True)
        with open(f"{self.crates[name].folder}/out/build.log", "w", encoding="utf-8") as file:
            file.write(said)
        told = [it for it in said.rstrip("\n").split("\n") if not is_progress(it)]
        command = " ".join([os.path.basename(run.command[0]), *run.command[1:4]])
        return "\n".join([f"`{command} ..` {what} (its log: {kept}):", *told])

    def line(self) -> str:
        """The line that tells where the build is."""
        seconds, left = shown.now() - self.begun, None
        if self.spent:
            left = self.plan.seconds_left(self.done, self.checks(), self.lines / self.spent)
        return shown.line_of(len(self.done), len(self.crates), list(self.running), seconds, left)

    def end_all(self) -> None:
        """Ends what is at work, with all that it has started."""
        for run in self.running.values():
            signal_to(run.process, signal.SIGTERM)
        for run in self.running.values():
            with contextlib.suppress(subprocess.TimeoutExpired):
                run.process.wait(PATIENCE)
            signal_to(run.process, signal.SIGKILL)
            run.process.wait()


def signal_to(process: subprocess.Popen[bytes], number: int) -> None:
    """Sends a signal to a process and to all that it has started."""
    with contextlib.suppress(ProcessLookupError):
        os.killpg(process.pid, number)


def is_progress(line: str) -> bool:
    """Whether a line of a check's log tells only how far it was."""
    return line.startswith(("checked ", "so far:")) or (
        line.startswith("fn ") and line.endswith(": proved")
    )


def needed_of(top: str) -> list[Crate]:
    """The crates of the program, each behind those that it uses."""
    return crates.needed(crates.read(top), PROGRAM)


def is_built(needed: Sequence[Crate], kit_name: str) -> bool:
    """Whether the last of these crates was built from the texts as they stand."""
    return records.is_done(needed[-1], crates.digests(needed, kit_name)[needed[-1].name])


def make(
    needed: Sequence[Crate], kit_name: str, sources: Sources, handles: Collection[str], view: Shown
) -> None:
    """Builds what is not done of these crates, from one copy of their texts."""
    sums = crates.digests(sources.copy(needed), kit_name)
    made, begun = Build(needed, sums, sources, handles, view), shown.now()
    left = len(needed) - len(made.done)
    view.tell(
        f"maplabel: proves and builds {left} crates first; "
        'README.md, "Quick start", tells how long that takes'
    )
    try:
        made.go()
    except Interrupted:
        view.tell("maplabel: what is done is kept, and the next start goes on from there")
        raise
    view.tell(
        f"maplabel: proved and built in {shown.clock(shown.now() - begun)}; "
        "removes its copy of the sources"
    )


def build(top: str, view: Shown) -> bool:
    """Proves and builds the program where that is not done, and returns whether there was something
    to do.
    """
    begun, kit_name, needed = time.time_ns(), kit.name(), needed_of(top)
    has_work = not is_built(needed, kit_name)
    if has_work:
        if line := kit.differs(top, kit_name):
            view.tell(line)
        with Sources(top) as sources:
            # (another launcher may have built it while this one waited)
            begun = time.time_ns()
            has_work = not is_built(needed, kit_name)
            if has_work:
                make(needed, kit_name, sources, verdict.handles(top), view)
    program = program_of(top)
    if os.path.isfile(program):
        # it counts as built when its sources were read, so that a later edit is seen
        os.utime(program, ns=(begun, begun))
    return has_work


def program_of(top: str) -> str:
    """The place of the proved program."""
    return f"{top}/crates/{PROGRAM}/out/{PROGRAM}"
