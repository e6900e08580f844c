"""PostgreSQL of the distribution in a folder of its own, on a socket there, and a table of towns
in it."""

import os
import pwd
import shutil
import subprocess
from pathlib import Path
from typing import Any

import psycopg

from maplabel_kit.faults import Fault
from served import DEPLOY

SETUP = DEPLOY / "postgis" / "setup.sql"


def programs() -> Path:
    """The folder of PostgreSQL's programs, the newest of several."""
    found = list(Path("/usr/lib/postgresql").glob("*/bin/initdb"))
    if not found:
        raise Fault(
            "PostgreSQL is missing: the packages postgresql and postgresql-15-postgis-3 of"
            " Debian 12"
        )
    return max(found, key=lambda path: float(path.parts[4])).parent


class Database:
    """A database cluster that is made, started, restarted and taken away again."""

    def __init__(self, folder: Path) -> None:
        self.folder, self.bin = folder / "database", programs()
        self.folder.mkdir()
        if os.geteuid() == 0:
            shutil.chown(self.folder, "nobody")
        self._run("initdb", "-A", "trust", "-E", "UTF8", "--locale=C.UTF-8", "-U", "postgres", "-N")
        self.control("start")
        with psycopg.connect(self.words("postgres", "postgres"), autocommit=True) as link:
            link.execute("CREATE DATABASE gis")
        self.execute("CREATE EXTENSION postgis")
        self.set_up()

    def _run(self, name: str, *words: str) -> None:
        """Runs a program of PostgreSQL, which refuses to run as root: as nobody then."""
        nobody: dict[str, Any] = {}
        if os.geteuid() == 0:
            entry = pwd.getpwnam("nobody")
            nobody = {"user": entry.pw_uid, "group": entry.pw_gid, "extra_groups": []}
        done = subprocess.run(
            [str(self.bin / name), "-D", str(self.folder / "data"), *words],
            cwd=self.folder,
            stdin=subprocess.DEVNULL,
            stdout=subprocess.DEVNULL,
            stderr=subprocess.DEVNULL,
            check=False,
            **nobody,
        )
        if done.returncode != 0:
            raise Fault(f"{name} {' '.join(words)} failed with status {done.returncode}")

    def control(self, what: str, *words: str) -> None:
        """Starts, stops or restarts it."""
        options = ["-o", f"-k {self.folder} -c listen_addresses=''", "-l", f"{self.folder}/log"]
        self._run("pg_ctl", "-w", *(options if what != "stop" else ()), *words, what)

    def set_up(self) -> None:
        """Runs setup.sql."""
        self.execute(SETUP.read_text())

    def words(self, user: str, name: str = "gis") -> str:
        """The connection string of a role."""
        return f"host={self.folder} user={user} dbname={name}"

    def connect(self, user: str = "postgres") -> "psycopg.Connection[Any]":
        """A connection of a role."""
        return psycopg.connect(self.words(user), autocommit=True)

    def execute(self, text: str, values: Any = None, user: str = "postgres") -> None:
        """One statement, or several."""
        with self.connect(user) as link:
            link.execute(text.encode(), values)

    def rows(self, text: str, values: Any = None) -> list[Any]:
        """The rows of a question."""
        with self.connect() as link:
            return list(link.execute(text.encode(), values).fetchall())

    def stop(self) -> None:
        """Ends it at once."""
        self.control("stop", "-m", "immediate")
