"""Connections to PostGIS, whose failures are told in sentences."""

import contextlib
from collections.abc import Iterator
from typing import Any

import psycopg

from maplabel_atlas.faults import Fault


@contextlib.contextmanager
def connected(database: str) -> Iterator[Any]:
    """A connection, which is committed at the end of the block."""
    with failures(), psycopg.connect(database, client_encoding="UTF8", connect_timeout=10) as link:
        yield link


@contextlib.contextmanager
def failures() -> Iterator[None]:
    """Tells what the database refuses in a sentence."""
    try:
        yield
    except psycopg.OperationalError as error:
        raise Fault(f"the database does not answer: {' '.join(str(error).split())}") from None
    except psycopg.Error as error:
        raise Fault(f"the database refuses: {' '.join(str(error).split())}") from None
