"""Keeps a case that differs, with all that is needed to run it alone."""

import os
import shlex
import shutil
from collections.abc import Mapping

from cases.case import Case, Outcome
from cases.run import Runner


def shell_word(word: str | bytes, port: int) -> str:
    """A word of a case as a shell takes it."""
    text = str(port) if word == "PORT" else word
    return shlex.quote(text if isinstance(text, str) else os.fsdecode(text))


def put(path: str, data: object) -> None:
    """Writes bytes, or the text of another value."""
    with open(path, "wb") as file:
        file.write(data if isinstance(data, bytes) else os.fsencode(str(data)))


def keep(
    place: str, case: Case, program: str, outcomes: Mapping[str, Outcome], runner: Runner
) -> None:
    """A folder with the case's files, words, input, the outcomes by name and a script that runs
    it.
    """
    shutil.rmtree(place, ignore_errors=True)
    os.makedirs(place)
    shutil.copytree(runner.files, os.path.join(place, "files"))
    words = " ".join(shell_word(word, runner.port) for word in case.words)
    put(os.path.join(place, "stdin"), case.stdin or b"")
    source = "." if case.stdin is None else "../stdin"
    target = " > /dev/full" if case.is_out_full else ""
    note = "\n# then connect once for each file link0, link1, .. and send it" if case.links else ""
    put(
        os.path.join(place, "run"),
        f"#!/bin/sh\n# run PROGRAM: the case alone{note}\n"
        f'program=$(realpath "${{1:-{program}}}")\ncd "$(dirname "$0")/files" || exit\n'
        f'"$program" {words} < {source}{target}\n',
    )
    os.chmod(os.path.join(place, "run"), 0o755)
    for number, pieces in enumerate(case.links or []):
        put(os.path.join(place, f"link{number}"), b"".join(pieces))
    for name, outcome in outcomes.items():
        stem = os.path.join(place, name)
        put(stem + ".status", outcome.status)
        put(stem + ".out", outcome.out)
        put(stem + ".err", outcome.err)
        for number, replies in enumerate(outcome.replies or []):
            put(f"{stem}.replies{number}", replies)
