"""Who answers questions: threads of this process, or processes of Dask on one machine or on
many.
"""

import contextlib
import importlib
import logging
import os
import queue
import warnings
from collections.abc import Callable, Iterable, Iterator
from concurrent.futures import CancelledError, ThreadPoolExecutor
from dataclasses import dataclass
from typing import Any, Generic, Protocol, TypeVar

from maplabel_atlas.engine import Engine
from maplabel_atlas.faults import Fault, OtherEngine, Unanswered
from maplabel_atlas.memo import Memo

Beside = TypeVar("Beside")
Found = TypeVar("Found")
IN_FLIGHT = 3
MOST_TOLD = 20
PATIENCE = 10
ENDING = 10
# What Dask raises where the scheduler is gone, and where an answer from there comes too late.
LOST = CancelledError, OSError, TimeoutError
ANY_PORT = "127.0.0.1:0"


@dataclass(frozen=True)
class Question(Generic[Beside, Found]):
    """A question: what stands beside it, its key for the memo, its place for a person, and the call
    that answers it.
    """

    beside: Beside
    key: str
    where: str
    call: Callable[[], Found]


@dataclass(frozen=True)
class Outcome:
    """What became of a call that was started under a name: a value, or what went wrong."""

    name: str
    value: Any
    fault: BaseException | None = None


class Pool(Protocol):
    """Processes or threads that make calls."""

    def size(self) -> int:
        """How many calls are made at once."""

    def start(self, name: str, call: Callable[[], Any]) -> None:
        """Has a call be made."""

    def next(self) -> Outcome:
        """Waits for a call that was started."""

    def close(self) -> None:
        """Ends all."""


class Threads:
    """Threads of this process, each of which waits for a process of the engine."""

    def __init__(self, count: int) -> None:
        self._count, self._executor = count, ThreadPoolExecutor(count)
        self._done: queue.SimpleQueue[Outcome] = queue.SimpleQueue()

    def size(self) -> int:
        """How many calls are made at once."""
        return self._count

    def start(self, name: str, call: Callable[[], Any]) -> None:
        """Has a call be made."""
        self._executor.submit(self._make, name, call)

    def _make(self, name: str, call: Callable[[], Any]) -> None:
        try:
            self._done.put(Outcome(name, call()))
        except Exception as fault:  # whatever it is, the command tells it
            self._done.put(Outcome(name, None, fault))

    def next(self) -> Outcome:
        """Waits for a call that was started."""
        return self._done.get()

    def close(self) -> None:
        """Ends all; calls that wait are not made."""
        self._executor.shutdown(wait=True, cancel_futures=True)


class Cluster:
    """Dask's workers: those of a scheduler, or processes that are started here."""

    def __init__(self, scheduler: str | None, count: int) -> None:
        distributed = _dask()
        warnings.filterwarnings("ignore", "Large object|Port .* is already in use")
        logging.disable(logging.CRITICAL)  # what matters is told in sentences of this command
        self._done: queue.SimpleQueue[Any] = queue.SimpleQueue()
        self._number = 0
        self._started: dict[str, tuple[str, Any, Callable[[], Any]]] = {}
        self._local = None if scheduler else _local_cluster(distributed, count)
        try:
            self._client: Any = distributed.Client(scheduler or self._local)
        except OSError:
            raise Fault(f"no scheduler answers at {scheduler}; dask-scheduler starts one") from None
        self.scheduler = self._client.scheduler.address

    def size(self) -> int:
        """How many calls are made at once."""
        try:
            cores: dict[str, int] = self._client.ncores()
        except LOST:
            raise self._lost() from None
        return max(1, sum(cores.values()))

    def start(self, name: str, call: Callable[[], Any]) -> None:
        """Has a call be made. One whose worker ends is made by another worker, three times in
        all.
        """
        self._number += 1
        try:
            future = self._client.submit(call, key=f"{name}-{self._number}", pure=False)
        except LOST:
            raise self._lost() from None
        self._started[future.key] = name, future, call
        future.add_done_callback(self._done.put)

    def next(self) -> Outcome:
        """Waits for a call that was started."""
        while True:
            future = self._wait()
            name, _, call = self._started.pop(future.key)
            if future.status == "error":
                return Outcome(name, None, future.exception())
            if future.status == "cancelled":
                raise self._lost()
            try:
                value = future.result() if future.status == "finished" else None
            except LOST:
                raise self._lost() from None
            future.release()
            if value is not None:
                return Outcome(name, value)
            self.start(name, call)  # its worker ended with the answer in its memory

    def _wait(self) -> Any:
        waited = 0
        while True:
            try:
                return self._done.get(timeout=1)
            except queue.Empty:
                waited = 0 if self._client.status == "running" else waited + 1
                if waited >= PATIENCE:
                    raise self._lost() from None

    def _lost(self) -> Fault:
        return Fault(
            f"the scheduler at {self.scheduler} was lost; what was answered is kept. "
            "Start it again and call the command again: it goes on from there"
        )

    def close(self) -> None:
        """Ends the connection, and the processes that were started here.

        On a busy machine they may take long. What was found is found then all the same, and they
        end with this process."""
        for one in (self._client, self._local):
            if one is not None:
                with contextlib.suppress(*LOST):
                    one.close(timeout=ENDING)


def _dask() -> Any:
    """Dask Distributed. To load it takes a second, which commands without it are spared."""
    try:
        return importlib.import_module("distributed")
    except ModuleNotFoundError:
        raise Fault("the package python3-distributed of Debian is missing") from None


def _local_cluster(distributed: Any, count: int) -> Any:
    """Processes of this machine, which have threads of the mathematical libraries no more than
    their own.
    """
    os.environ.setdefault("OMP_NUM_THREADS", "1")
    return distributed.LocalCluster(
        n_workers=count,
        threads_per_worker=1,
        dashboard_address=ANY_PORT,
        host="127.0.0.1",
        silence_logs=logging.CRITICAL,
    )


class Workers:
    """Answers questions by a pool and a memo, and counts what was asked and what was known."""

    def __init__(self, engine: Engine, pool: Pool, memo: Memo | None = None) -> None:
        self.engine, self._pool, self._memo = engine, pool, memo
        self.asked = self.known = 0
        self._names = 0

    def __enter__(self) -> "Workers":
        return self

    def __exit__(self, *_: object) -> None:
        self._pool.close()

    def answers(
        self, questions: Iterable[Question[Beside, Found]]
    ) -> Iterator[tuple[Beside, Found]]:
        """The answers as they come, with what stood beside the questions.

        Only so many questions wait at once that memory is bounded by what is in flight. Those
        without an answer are told when all others are answered.
        """
        waiting: dict[str, Question[Beside, Found]] = {}
        failures: list[str] = []
        source = iter(questions)
        while True:
            yield from self._fill(source, waiting)
            if not waiting:
                break
            outcome = self._pool.next()
            question = waiting.pop(outcome.name)
            if outcome.fault is not None:
                failures.append(_sentence(question.where, outcome.fault))
                continue
            self.asked += 1
            if self._memo is not None:
                self._memo.put(question.key, outcome.value)
            yield question.beside, outcome.value
        if failures:
            raise _unanswered(failures)

    def _fill(
        self, source: Iterator[Question[Beside, Found]], waiting: dict[str, Question[Beside, Found]]
    ) -> Iterator[tuple[Beside, Found]]:
        """Starts calls until enough wait. What the memo knows is answered at once."""
        most = IN_FLIGHT * self._pool.size()
        while len(waiting) < most and (question := next(source, None)) is not None:
            answer = None if self._memo is None else self._memo.get(question.key)
            if answer is not None:
                self.known += 1
                yield question.beside, answer
                continue
            self._names += 1
            name = f"{question.key}-{self._names}"
            waiting[name] = question
            self._pool.start(name, question.call)

    def sweep(self) -> int:
        """Takes away what the memo holds and this command did not use."""
        return 0 if self._memo is None else self._memo.sweep()


def _sentence(where: str, fault: BaseException) -> str:
    if isinstance(fault, OtherEngine):
        raise fault
    if isinstance(fault, Fault):
        return f"{where}: {fault}"
    kind = type(fault).__name__
    if kind == "KilledWorker":
        return f"{where}: its worker ended, four times in turn; is there enough memory?"
    return f"{where}: {kind}: {str(fault)[:200]}"


def _unanswered(failures: list[str]) -> Unanswered:
    first = (
        f"{len(failures)} questions have no answer; what was answered is kept, and the same command"
        " goes on from there"
    )
    if len(failures) == 1:
        first = (
            "one question has no answer; what was answered is kept, and the same command goes on"
            " from there"
        )
    more = [f"  and {len(failures) - MOST_TOLD} more"] if len(failures) > MOST_TOLD else []
    return Unanswered("\n".join([first, *(f"  {one}" for one in failures[:MOST_TOLD]), *more]))
