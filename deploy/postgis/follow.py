#!/usr/bin/python3
"""Makes a served map follow a table of PostGIS: follow.py URL DATABASE TABLE.

URL is where `maplabel serve` answers, as http://127.0.0.1:47100; DATABASE is a connection string of
PostgreSQL, as "dbname=gis"; TABLE is a table that `setup.sql` has attached. Each insert, update and
delete becomes one edit, in the order of the commits. All features are compared, and what differs is
sent, at the start, after a connection to either side was lost, where another client has edited the
map, where the server was started anew, and every so many minutes. Features that the server refuses
stand in the table maplabel.refusals, with its words.

It goes on until it is ended. Status 0: it was ended by SIGTERM or SIGINT. 1: it cannot follow, and
why was told. 2: wrong words."""

import argparse
import sys
import time

from maplabel_kit import words
from maplabel_kit.faults import Ended, Fault, main
from maplabel_source import mirror, server

try:
    import table
except ImportError:
    sys.exit("follow.py: psycopg 3 is missing, the package python3-psycopg of Debian")

TELL_PAUSE = 60  # seconds between two lines that tell of notifications which name no change
LEAST_PAUSE = 10  # seconds between two comparisons that such notifications bring about


def say(text: object) -> None:
    """A line on standard error."""
    print(f"follow.py: {text}", file=sys.stderr, flush=True)


class Follower:
    """A server, a table, and what is known of both."""

    def __init__(self, link: server.Server, source: table.Table, minutes: float, poll: float):
        self.mirror, self.source = mirror.Mirror(link), source
        self.pause, self.poll = minutes * 60, poll
        self.refused: set[str] = set()
        self.done: dict[str | None, int] = {}
        self.due = self.asked = self.compared = self.told = 0.0
        self.empty = 0

    def compare(self) -> None:
        """Makes the server hold the features of the table, whatever either holds."""
        wanted, self.seen = self.source.features()
        self.done = {}  # what was made before is seen now
        tally = mirror.Tally()
        self.mirror.read()
        self.mirror.reach(wanted, tally)
        refused = {name for name, _ in tally.refused}
        for (name, text), told in tally.refused.items():
            self.source.refuse(name, text, told)
        for name in self.source.refused() - refused:
            self.source.accept(name)
        self.refused = refused
        self.compared = time.monotonic()
        self.due = self.compared + self.pause
        features, rev = len(self.mirror.texts), self.mirror.rev
        say(f"compared: {tally.line()}; features {features}, revision {rev}")

    def is_old(self, change: table.Change) -> bool:
        """Whether the change has been made already. A notification may be sent twice, by
        anybody: of one feature no change is made behind a later one."""
        if self.seen.has_seen(change.xid) or change.number <= self.done.get(change.id, 0):
            return True
        self.done[change.id] = change.number
        return False

    def apply(self, change: table.Change, is_last: bool) -> None:
        """Makes one edit of a change, where the server does not hold the feature so already."""
        if self.is_old(change):
            return
        if change.id is None:
            self.compare()
            return
        held = self.mirror.texts.get(change.id)
        method = "DELETE" if change.text is None else "POST" if held is None else "PUT"
        try:
            if change.text != held:
                self.mirror.send(method, change.id, change.text, is_last)
        except server.Refused as refusal:
            self.source.refuse(change.id, change.text, str(refusal))
            self.refused.add(change.id)
            return
        if change.id in self.refused:
            self.source.accept(change.id)
            self.refused.discard(change.id)

    def step(self) -> None:
        """Waits for changes and makes their edits; then no connection to the server is open."""
        try:
            told = self.source.changes(self.poll)
            for place, change in enumerate(told.changes, 1):
                self.apply(change, place == len(told.changes))
        finally:
            self.mirror.link.close()
        self.drop(told.empty)
        if time.monotonic() > self.due or self.is_astray():
            self.compare()

    def drop(self, count: int) -> None:
        """Notifications that name no change: nobody's, or of one that the log has no more. They
        are told now and then, and all is compared, but not again and again."""
        now = time.monotonic()
        self.empty += count
        if count:
            self.due = min(self.due, max(now, self.compared + max(LEAST_PAUSE, self.pause / 10)))
        if self.empty and now >= self.told + TELL_PAUSE:
            say(f"{self.empty} notifications name no change of the table, and were passed over")
            self.empty, self.told = 0, now

    def is_astray(self) -> bool:
        """Whether the server holds something else than it should, as far as its numbers tell."""
        if time.monotonic() < self.asked + self.poll:
            return False
        self.asked = time.monotonic()
        now = self.mirror.link.rev()
        return now["rev"] != self.mirror.rev or now["features"] != len(self.mirror.texts)

    def start(self) -> None:
        """Connects to the table, and compares all."""
        self.source.open()
        self.compare()
        self.asked = time.monotonic()

    def run(self) -> None:
        """Follows for ever; what cannot be mended by waiting is raised."""
        self.start()
        lost = None
        while True:
            try:
                if lost is not None:
                    time.sleep(1)
                    self.start()
                    lost = None
                self.step()
            except server.Moved:
                lost = lost or "another client edits the map"
            except (server.Lost, table.Gone) as error:
                if lost is None:
                    say(error)
                lost = str(error)


def options() -> argparse.Namespace:
    """The words of the command line."""
    parser = words.parser(__doc__, "follow.py")
    for name in ("url", "database", "table"):
        parser.add_argument(name, metavar=name.upper())
    parser.add_argument(
        "--minutes",
        type=float,
        default=10,
        help="compare all every so many minutes, 10 if not told",
    )
    parser.add_argument(
        "--poll",
        metavar="SECONDS",
        type=float,
        default=2,
        help="ask the server for its revision every so many seconds, 2 if not told",
    )
    told = parser.parse_args()
    if told.minutes <= 0 or told.poll <= 0:
        parser.error("minutes and seconds must be above 0")
    return told


def run() -> int:
    """Follows until it is ended."""
    told = options()
    try:
        source = table.Table(told.database, told.table)
        Follower(server.Server(told.url), source, told.minutes, told.poll).run()
    except (server.Lost, server.Unfit, table.Gone, table.Unfit) as error:
        raise Fault(str(error)) from None
    except server.Moved:
        raise Fault("other clients edit the map all the time") from None
    except Ended:
        pass
    return 0


if __name__ == "__main__":
    main(run, "follow.py")
