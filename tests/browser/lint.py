"""The modules of the pages: types by TypeScript's checker, rules by eslint, and the one file of all
is fresh.
"""

import os
import shutil
import subprocess
from collections.abc import Sequence
from pathlib import Path

from maplabel_kit.faults import Fault
from servers import WEB, Pages


def _must(command: Sequence[str | Path], what: str) -> None:
    if shutil.which(str(command[0])) is None:
        raise Fault(f"{command[0]} is missing: install Debian's node-typescript and eslint")
    nodes = {**os.environ, "NODE_PATH": "/usr/share/nodejs"}
    done = subprocess.run(command, capture_output=True, cwd=WEB, env=nodes, check=False)
    if done.returncode:
        told = (done.stdout + done.stderr).decode("utf-8", "replace")
        raise Fault(f"{what}:\n{told[-3000:]}")


def lint(_pages: Pages, _folder: str) -> None:
    _must([WEB / "bundle", "--check"], "web/maplabel.js")
    _must(["tsc", "-p", WEB / "tsconfig.json"], "types")
    modules = sorted((WEB / "maplabel").glob("*.js"))
    rules: list[str | Path] = ["--no-eslintrc", "-f", "unix", "-c", WEB / ".eslintrc.json"]
    _must(["eslint", *rules, *modules], "rules")
    print(f"lint: {len(modules)} modules have types, keep the rules, and are in web/maplabel.js")
