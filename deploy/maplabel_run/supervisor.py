"""The server, and what is due with it: saves, restarts by plan, starts after an end that was not
planned."""

import contextlib
import os
import signal
import sys
import time
from collections.abc import Iterator
from dataclasses import dataclass
from subprocess import PIPE
from types import FrameType

from maplabel_kit import explain
from maplabel_kit.client import Held
from maplabel_kit.faults import Fault, sentence_of
from maplabel_kit.ports import taken
from maplabel_kit.server import DOOR_FAULT, Child
from maplabel_run import published, snapshot
from maplabel_run.keeper import Keeper
from maplabel_run.link import Link
from maplabel_run.outlet import Outlet, drain
from maplabel_run.process import opened
from maplabel_run.telling import CRITICAL, ERROR, WARNING, Figures, Log, Systemd
from maplabel_run.watch import Watch

PAUSE = 0.2  # seconds between two looks at the server
TRIES = 50  # how often a server that is started again tries to listen, with such a pause
FIRST_TRIES = 5  # the same of the first one
PATIENCE = 5  # seconds that a planned restart waits for the server, and until it is tried again
SAVE_PATIENCE = 60  # seconds that a save waits for its turn
RETRY = 3  # seconds until a save that failed at the end is tried again
LATE = 3  # how many pauses between saves may pass without one until that is told
FIGURES_PAUSE = 5  # seconds between two writings of the figures
DOUBLE = 1  # seconds within which a second signal is the same one, sent twice
HUGE_PAGES = "glibc.malloc.hugetlb"  # glibc before 2.35 does not know it, and passes it over


@dataclass(frozen=True)
class Words:
    """What the command line says."""

    style: str
    map: str
    port: int
    program: str
    save: float
    count: int
    reserve: int
    wait: float
    hung: float
    never: bool
    drain: str | None
    publish: str | None
    metrics: str | None


class GivenUp(Fault):
    """A second signal says that saving is to be given up."""


class Supervisor:
    """One map that is served without an end. `look` does what is due."""

    def __init__(self, words: Words) -> None:
        self.words = words
        self.log, self.systemd, self.figures = Log(), Systemd(), Figures()
        self.said = Outlet(2)
        self.child: Child | None = None
        self.ends, self.is_asked, self.is_saving = 0, False, False
        self._ends_at = self._restart_from = self._save_from = self._figures_from = 0.0
        self._saved_at = time.monotonic()
        self._dropped_told = 0
        self._style_told: tuple[int, int, int] | None = None
        for number in (signal.SIGTERM, signal.SIGINT):
            signal.signal(number, self._end_soon)
        signal.signal(signal.SIGHUP, self._restart_soon)

    def _end_soon(self, *_: int | FrameType | None) -> None:
        now = time.monotonic()
        if not self.ends or now > self._ends_at + DOUBLE:
            self.ends += 1
            self._ends_at = now

    def _restart_soon(self, *_: int | FrameType | None) -> None:
        self.is_asked = True

    # What an operator sees.

    def tick(self) -> None:
        """What is to be done again and again, also while the server is waited for."""
        self.watch.look()
        self._tell_late()
        self._tell_dropped()
        self.systemd.alive(self._status())
        self._write_figures()
        if self.watch.hung_for() > self.words.hung and self.is_running():
            self._kill_hung()

    def wait_on(self) -> None:
        """Called while the server or the lock is waited for: a fault gives up."""
        self.tick()
        if self.is_saving and self.ends:
            raise Fault("it is to end")
        if self.is_saving and self.is_near_end():
            raise Fault("its connections are nearly used up")
        if self.ends > 1:
            raise GivenUp("a second signal says to give up")

    def is_running(self) -> bool:
        """Whether the server's process has not ended."""
        return self.child is not None and self.child.is_running()

    def used(self) -> int:
        """How many connections the server has had at most."""
        return opened() - self._opened

    def is_near_end(self) -> bool:
        """Whether so few connections are left that what would take long has no time."""
        return self.words.count - self.used() < self.words.reserve // 2

    def _tell_late(self) -> None:
        if not self._is_late():
            return
        held, why = self.watch.held_for(), ""
        if held > 1:
            why = f"; {self.watch.holder()} has held the server for {held:.0f} s"
        self.log.repeat(
            (
                f"no save has succeeded for more than {LATE} times {self.words.save:g} s: "
                "edits since then would be lost if the server were killed now"
            ),
            CRITICAL,
            why,
        )

    def _is_late(self) -> bool:
        """Whether no save has succeeded for longer than is promised."""
        return time.monotonic() - self._saved_at > LATE * self.words.save + 1

    def _tell_dropped(self) -> None:
        dropped = self.said.dropped
        if dropped > self._dropped_told:
            self.log.repeat("the reader of standard error has stopped: lines are dropped", WARNING)
            self._dropped_told = dropped

    def _status(self) -> str:
        """How things stand, in a line that does not change each second."""
        parts = [f"revision {self.keeper.rev}", "saves succeed"]
        if self._is_late():
            seconds = time.monotonic() - self._saved_at
            parts[1] = f"NOT SAVED for {seconds // 10 * 10:.0f} s"
        if self.watch.hung_for() > PATIENCE:
            parts.append(f"hung: {self.watch.why_hung}")
        elif self.watch.held_for() > PATIENCE:
            parts.append(f"held by one connection for {self.watch.held_for() // 10 * 10:.0f} s")
        parts.append(f"{sum(self.figures.restarts.values())} restarts")
        return ", ".join(parts)

    def _write_figures(self) -> None:
        now = time.monotonic()
        if self.words.metrics is None or now < self._figures_from:
            return
        self._figures_from = now + FIGURES_PAUSE
        figures = self.figures
        figures.up = int(self.is_running())
        figures.revision = self.keeper.rev or 0
        figures.saved = time.time() - (now - self._saved_at)
        figures.left = max(self.words.count - self.used(), 0)
        figures.held, figures.hung = self.watch.held_for(), self.watch.hung_for()
        figures.dropped = self.said.dropped
        try:
            figures.write(self.words.metrics)
        except OSError as error:
            self.log.repeat(f"the figures are not written: {sentence_of(error)}", WARNING)

    def _kill_hung(self) -> None:
        assert self.child is not None
        seconds = self.watch.hung_for()
        self.log.say(f"the server has hung for {seconds:.0f} s: {self.watch.why_hung}", CRITICAL)
        self.figures.restarts["hung"] += 1
        self.child.process.kill()
        self.child.process.wait()
        raise Fault("the server hung and was ended")

    # Edits are refused by the proxy as long as a file is there.

    def refuse_edits(self) -> None:
        """Edits would not be kept, or not be made."""
        if self.words.drain:
            with self._told("edits cannot be refused"), open(
                self.words.drain, "w", encoding="ascii"
            ):
                pass

    def allow_edits(self) -> None:
        """Edits are made and kept again."""
        if self.words.drain:
            with self._told("edits stay refused"), contextlib.suppress(FileNotFoundError):
                os.remove(self.words.drain)

    @contextlib.contextmanager
    def _told(self, what: str) -> Iterator[None]:
        """A fault of the system is told, and stops nothing."""
        try:
            yield
        except OSError as error:
            self.log.repeat(f"{what}: {sentence_of(error)}", ERROR)

    # Starts.

    def start(self, tries: int) -> None:
        """Starts the server, and waits until it is ready. While no server listens, a client that
        asks for it may have its port for a moment, so one that is started again may have to try
        more than once."""
        self.refuse_edits()
        if self.words.publish:
            with self._told("what was published stays"):
                published.withdraw(self.words.publish)
        self._opened = opened()
        style_seen = snapshot.seen(self.words.style)
        while (first := self._spawn()) == b"door fault\n" and (tries := tries - 1) > 0:
            time.sleep(PAUSE)
        if first != b"ready\n":
            raise self._no_start(first)
        assert self.child is not None
        words, process = self.words, self.child.process.pid
        self.watch = Watch(process, words.port)
        self.keeper = Keeper(
            process,
            words.program,
            words.style,
            words.map,
            words.port,
            0,
            self.wait_on,
            self._publish,
        )
        self.keeper.style_seen = style_seen
        self._saved()
        self.allow_edits()
        self.log.say(f"ready: process {process} at port {words.port}")
        self._publish_style()
        self._publish_first()

    def _spawn(self) -> bytes:
        """Starts the server from its files; the first line that it says."""
        words = self.words
        if self.child is not None:
            self.child.end()
        told = os.environ.get("GLIBC_TUNABLES", "")
        tunables = told if HUGE_PAGES in told else ":".join(filter(None, (told, HUGE_PAGES + "=1")))
        command = [words.program, "serve", words.style, words.map, words.port, words.count]
        env = {**os.environ, "GLIBC_TUNABLES": tunables}
        self.child = Child(command, stderr=PIPE, env=env)
        assert self.child.process.stderr is not None
        drain(self.child.process.stderr, self.said)
        try:
            return self.child.first_line(self._is_wanted)
        except Fault:
            self.child.end()  # nobody has been answered by it, so nothing is lost
            raise

    def _is_wanted(self) -> bool:
        self.systemd.alive("loading the map")
        return not self.ends

    def _no_start(self, first: bytes) -> Fault:
        """Why the server does not start."""
        assert self.child is not None
        line, code = first.decode("utf-8", "replace").strip(), self.child.process.wait()
        if code == DOOR_FAULT:
            return taken(self.words.port)
        return explain.refused(line, code, self.words.style, self.words.map)

    def _publish(self, rev: int, text: bytes) -> None:
        if self.words.publish:
            try:
                published.publish(self.words.publish, rev, text)
            except Fault as fault:
                self.log.repeat(str(fault), WARNING)

    def _publish_style(self) -> None:
        """Publishes what pages ask of the style, where its file is another one than before."""
        seen = snapshot.seen(self.words.style)
        if self.words.publish and seen != self._style_told:
            self._style_told = seen
            try:
                published.publish_style(self.words.publish, self.words.style)
            except Fault as fault:
                self.log.repeat(str(fault), WARNING)

    def _publish_first(self) -> None:
        """Publishes the map that the server began with, while it is served."""
        if self.words.publish:
            with contextlib.suppress(Fault):
                with Link(self.words.port, PATIENCE, self.wait_on) as link:
                    rev, text = int(link.json("/rev")["rev"]), link.read("/map")
                self._publish(rev, text)  # the server is free while this is compressed

    def start_again(self) -> None:
        """The server ended, and nobody had planned it."""
        assert self.child is not None
        status = self.child.process.returncode
        if status != -signal.SIGKILL or self.watch.hung_for() == 0:
            self.figures.restarts["ended"] += 1
        self.log.say(
            (
                f"the server ended by itself with status {status}; "
                f"what was edited since the last save is lost: {snapshot.told_age(self.words.map)}"
            ),
            CRITICAL,
        )
        time.sleep(1)
        self.start(TRIES)

    # Saves and planned ends.

    def save(self) -> bool:
        """Brings the file to the present revision; whether that was done, which is told."""
        self.is_saving = True
        try:
            rev = self.keeper.save(SAVE_PATIENCE)
        except Fault as fault:
            self.figures.failed += 1
            self.log.repeat(f"not saved: {fault}. It is tried again", ERROR)
            self._save_from = time.monotonic() + min(self.words.save, RETRY)
            return False
        finally:
            self.is_saving = False
        if rev is not None:
            self.log.say(f"saved revision {rev}")
        self._saved()
        self._publish_style()
        return True

    def _saved(self) -> None:
        self._saved_at = time.monotonic()
        self._save_from = self._saved_at + self.words.save

    def restart(self, used: int) -> None:
        """Restarts the server by plan, and never with loss: as long as another client holds the
        server, no connection is used up; and where nothing can be saved, no more edits are
        taken."""
        count = self.words.count
        why = "asked to" if self.is_asked else f"{used} of {count} connections are used up at most"
        self.log.say(f"{why}: the server is restarted")
        self.systemd.reloading()
        self.save()  # while others are served; where no edit comes between, all is done by it
        self.refuse_edits()
        try:
            self._end_server(self.is_near_end())
        except Fault as fault:
            self._go_on(fault)
        else:
            self.is_asked = False
            self.figures.restarts["planned"] += 1
            self.start(TRIES)
        self.systemd.tell("READY=1")

    def _go_on(self, fault: Fault) -> None:
        """No restart now. Where nothing can be saved and connections run out, edits stay
        refused."""
        self._restart_from = time.monotonic() + PATIENCE
        if not self.is_running():
            return
        self.log.repeat(f"{fault}. The server goes on", ERROR)
        if isinstance(fault, Held) or self.is_asked:
            self.allow_edits()

    def _end_server(self, is_near_end: bool) -> None:
        """Ends the server by plan, and tells it. Near the end of its connections the server is
        held until the map is saved, since edits that others still made would go with it."""
        if is_near_end:
            self.keeper.stop_surely(PATIENCE, self._stay_held)
        else:
            self.keeper.stop(PATIENCE, is_quick=True)
        self._ended()

    def _stay_held(self, fault: Fault) -> None:
        """The server is held and cannot be saved: waits a little, or gives up."""
        if isinstance(fault, GivenUp) or not self.is_running():
            raise fault
        self.log.repeat(
            (
                f"not saved: {fault}. Its connections are nearly used up, so nobody is answered "
                "until the map can be saved"
            ),
            CRITICAL,
        )
        self._rest()

    def _ended(self) -> None:
        assert self.child is not None
        self.child.process.wait()
        self._saved()
        self.log.say("the server is ended, and nothing is lost")

    def _rest(self) -> None:
        """A little time, with what is to be done meanwhile."""
        until = time.monotonic() + RETRY
        while time.monotonic() < until:
            self.wait_on()
            time.sleep(PAUSE)

    def end_by_plan(self) -> int | None:
        """Saves the map and ends the server: the status to end with, or none where the server
        goes on."""
        self.systemd.tell("STOPPING=1")
        self.refuse_edits()
        until = time.monotonic() + self.words.wait
        while True:
            try:
                self.keeper.stop(max(until - time.monotonic(), 1))
                self._ended()
                return 0
            except Held as held:
                return self._end_of_held(held)
            except Fault as fault:
                if isinstance(fault, GivenUp) or not self.is_running():
                    return self._lose(fault)
                self._tell_retry(fault)
            try:
                self._rest()
            except Fault as fault:
                return self._lose(fault)

    def _tell_retry(self, fault: Fault) -> None:
        self.figures.failed += 1
        self.systemd.tell("EXTEND_TIMEOUT_USEC=60000000")
        self.log.repeat(
            (
                f"not saved: {fault}. The server is not ended before that is done; it is tried"
                f" again every {RETRY} s. A second signal ends it with loss"
            ),
            CRITICAL,
        )

    def _end_of_held(self, held: Held) -> int | None:
        """Another client has held the server for as long as was to be waited."""
        if self.words.never:
            self.log.say(f"{held}. The server goes on", ERROR)
            self.ends = 0
            self.allow_edits()
            self.systemd.tell("READY=1")
            return None
        return self._lose(held)

    def _lose(self, fault: Fault) -> int:
        assert self.child is not None
        self.child.end()
        self.log.say(
            (
                f"{fault}. The server is ended all the same, and what was edited since the last"
                f" save is lost: {snapshot.told_age(self.words.map)}"
            ),
            CRITICAL,
        )
        return 3

    def look(self) -> int | None:
        """Does what is due; the status to end with, if it is the end."""
        if self.child is None:
            self.start(FIRST_TRIES)
            self.systemd.tell("READY=1")
            return None
        if self.ends:
            return self.end_by_plan()
        with contextlib.suppress(Fault):
            self.tick()
        if not self.is_running():
            self.start_again()
            return None
        used, now = self.used(), time.monotonic()
        is_due = self.is_asked or used >= self.words.count - self.words.reserve
        if is_due and (now >= self._restart_from or self.is_near_end()):
            self.restart(used)
        elif now >= self._save_from:
            self.save()
        return None

    def fail(self, text: str) -> None:
        """Tells why it ends."""
        self.systemd.tell(f"STATUS={text.splitlines()[0]}")
        mark = self.log.mark(ERROR)
        sys.stderr.write("".join(f"{mark}{line}\n" for line in f"run: {text}".splitlines()))
        sys.stderr.flush()

    def close(self) -> None:
        """Ends what was started, and lets what was said be read."""
        if self.child is not None:
            self.child.end()
            if self.words.publish:
                with contextlib.suppress(OSError):
                    published.withdraw(self.words.publish)
                    published.withdraw_style(self.words.publish)
        self.log.close()
        self.said.flush(1)

    def run(self) -> int:
        """Serves until a signal says to end; the status."""
        owner = snapshot.Ownership(self.words.map, self.words.port)
        snapshot.try_folder(self.words.map)
        status = None
        while status is None:
            try:
                status = self.look()
            except Fault as fault:
                if self.is_running():
                    self.log.repeat(f"{fault}. The server goes on", ERROR)
                elif self.ends:
                    self.log.say(f"{fault}; nothing is lost by that")
                    status = 0
                else:
                    raise
            time.sleep(0 if status is not None else PAUSE)
        owner.release()
        return status
