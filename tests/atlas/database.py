"""PostgreSQL of the distribution in a folder of its own, on a socket there."""

import glob
import os
import pwd
import shutil
import subprocess
from pathlib import Path
from typing import Any

import psycopg
from maplabel_kit.faults import Fault

SETUP = Path(__file__).resolve().parents[2] / "deploy" / "postgis" / "setup.sql"


def programs() -> Path:
    """The folder of PostgreSQL's programs, the newest of several."""
    found = sorted(
        glob.glob("/usr/lib/postgresql/*/bin/initdb"), key=lambda path: float(path.split("/")[4])
    )
    if not found:
        raise Fault(
            "PostgreSQL is missing: the packages postgresql and postgresql-15-postgis-3 of"
            " Debian 12"
        )
    return Path(found[-1]).parent


class Database:
    """A database cluster that is made and started with the block, and taken away with it."""

    def __init__(self, folder: Path) -> None:
        self._folder, self._programs = folder / "database", programs()

    def __enter__(self) -> "Database":
        self._folder.mkdir()
        if os.geteuid() == 0:
            shutil.chown(self._folder, "nobody")
        self._run("initdb", "-A", "trust", "-E", "UTF8", "--locale=C.UTF-8", "-U", "postgres")
        options = f"-k {self._folder} -c listen_addresses='' -c fsync=off"
        self._run("pg_ctl", "-w", "-o", options, "-l", str(self._folder / "log"), "start")
        with psycopg.connect(self.words("postgres"), autocommit=True) as link:
            link.execute("CREATE DATABASE gis")
        self.rows("CREATE EXTENSION postgis")
        return self

    def __exit__(self, *_: object) -> None:
        self._run("pg_ctl", "-w", "-m", "immediate", "stop")

    def _run(self, name: str, *words: str) -> None:
        """Runs a program of PostgreSQL, which refuses to run as root: as nobody then."""
        user = pwd.getpwnam("nobody")
        other: dict[str, Any] = {}
        if os.geteuid() == 0:
            other = {"user": user.pw_uid, "group": user.pw_gid, "extra_groups": []}
        run = subprocess.run(
            [str(self._programs / name), "-D", str(self._folder / "data"), *words],
            cwd=self._folder,
            stdin=subprocess.DEVNULL,
            stdout=subprocess.DEVNULL,
            stderr=subprocess.DEVNULL,
            check=False,
            **other,
        )
        if run.returncode != 0:
            raise Fault(f"{name} {' '.join(words)} failed with status {run.returncode}")

    def set_up(self) -> None:
        """Runs the set-up of deploy/postgis."""
        self.rows(SETUP.read_text(encoding="utf-8"))

    def words(self, name: str = "gis", user: str = "postgres") -> str:
        """The connection string."""
        return f"host={self._folder} user={user} dbname={name}"

    def rows(self, text: Any, values: Any = None) -> list[Any]:
        """The rows of a statement, none where it gives none."""
        with psycopg.connect(self.words(), autocommit=True) as link:
            done = link.execute(text, values)
            return done.fetchall() if done.description else []
