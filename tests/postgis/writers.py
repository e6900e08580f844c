"""Writers that change the table at random, each over a connection of its own, through restarts
of the database."""
import random
import threading
import time
from typing import Any

import psycopg

from database import Database

SIDE = 200_000


class Writers:
    """So many writers; `pause` is what each waits between two transactions, in seconds."""

    def __init__(self, database: Database, count: int, towns: int, pause: float) -> None:
        self.database, self.towns, self.pause = database, towns, pause
        self.commits, self.rows, self.going = 0, 0, True
        self.born: dict[str, float] = {}
        self.lock = threading.Lock()
        self.threads = [
            threading.Thread(target=self.run, args=(number,), daemon=True)
            for number in range(count)
        ]
        for thread in self.threads:
            thread.start()

    def run(self, number: int) -> None:
        """One writer."""
        chance, link, fresh = random.Random(number), None, 1_000_000 * (number + 1)
        while self.going:
            try:
                link = link or self.database.connect("writer")
                with link.transaction():
                    rows, fresh, born = self.change(link, chance, fresh)
                with self.lock:
                    self.commits += 1
                    self.rows += rows
                    if born is not None:
                        self.born[str(born)] = time.monotonic()
            except psycopg.Error:
                link = None
                time.sleep(0.2)
            time.sleep(self.pause)

    def change(self, link: Any, chance: random.Random, fresh: int) -> tuple[int, int, int | None]:
        """One transaction: how many rows it changes, the next fresh id, and the id of a town
        that it alone adds."""
        kind, some = chance.random(), chance.randrange(self.towns)
        place = "ST_SetSRID(ST_MakePoint(%f, %f), 4326)" % (
            chance.randrange(SIDE) / 1e4,
            chance.randrange(SIDE) / 1e4,
        )
        if kind < 0.3:
            link.execute(
                "INSERT INTO towns VALUES (%d, %s, 'New', %d)"
                % (fresh, place, chance.randrange(1000))
            )
            return 1, fresh + 1, fresh
        if kind < 0.55:
            rows = link.execute(
                "DELETE FROM towns WHERE id = (SELECT id FROM towns WHERE id >= %d ORDER BY id"
                " LIMIT 1)" % chance.choice((some, 1_000_000 * chance.randrange(1, 5)))
            ).rowcount
        elif kind < 0.75:
            rows = link.execute("UPDATE towns SET geom = %s WHERE id = %d" % (place, some)).rowcount
        elif kind < 0.9:
            rows = link.execute(
                "UPDATE towns SET pop = %d WHERE id = %d" % (chance.randrange(1000), some)
            ).rowcount
        elif kind < 0.97:
            rows = sum(
                link.execute("UPDATE towns SET name = '%s' WHERE id = %d" % (name, some)).rowcount
                for name in "ABA"
            )
        else:
            rows = link.execute(
                "UPDATE towns SET pop = pop + 1 WHERE id BETWEEN %d AND %d" % (some, some + 20)
            ).rowcount
        return rows, fresh, None

    def end(self) -> None:
        """Ends all."""
        self.going = False
        for thread in self.threads:
            thread.join()
