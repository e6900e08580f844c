"""Spoils pages in a copy of the checkout, one way after another, and sees that each is told where
it is.
"""
import os
import shutil
import tempfile
from collections.abc import Callable, Sequence
from typing import Any

Spoil = tuple[str, str, str, str, str]
Find = Callable[[Sequence[str]], list[Any]]
END = "$"
LAWS = "\n\n| Crate | Law | What it says |\n|---|---|---|\n"
CLAUSES = "\n\n| Crate | Function | Clause | What it says |\n|---|---|---|---|\n"
WORDS = "\n\n| Words | Name | Place |\n|---|---|---|\n"
# Of each: the check, the page, what is taken out (the first time it stands there, or the end), what
# comes in its place, and what must be told.
SPOILS: tuple[Spoil, ...] = (
    (
        "names",
        "README.md",
        END,
        "\nIt calls `no_such_function`.\n",
        "no such name: no_such_function",
    ),
    ("names", "README.md", END, "\nSee `docs/NOWHERE.md`.\n", "no such file: docs/NOWHERE.md"),
    ("names", "docs/FORMATS.md", END, "\nAsk `/nowhere`.\n", "no such route: /nowhere"),
    ("names", "README.md", END, "\nBy law `run` it ends.\n", "no law run"),
    (
        "names",
        "docs/DECISIONS.md",
        END,
        "\nAs `assign` of `ml_json` does.\n",
        "ml_json has no assign",
    ),
    (
        "names",
        "docs/DECISIONS.md",
        END,
        "\nWritten in `ml_cone: Nowhere`.\n",
        "ml_cone has no module Nowhere",
    ),
    (
        "quotes",
        "docs/READING.md",
        "    ⊎ ((¬ (IsForm words))",
        "    ⊎ ((IsForm words)",
        "no definition has this line",
    ),
    ("links", "README.md", END, "\n[Here](docs/nowhere.png)\n", "the link leads nowhere"),
    (
        "links",
        "docs/DECISIONS.md",
        END,
        '\nSee `FORMATS.md`, "Nothing".\n',
        "FORMATS.md has no section Nothing",
    ),
    (
        "laws",
        "docs/PROVED.md",
        END,
        LAWS + "| `ml_ratio` | `no_law` | nothing |\n",
        "ml_ratio has no law no_law",
    ),
    ("laws", "docs/PROVED.md", "`l8`", "`floors`", "the law l8 of ml_flight is not in the table"),
    (
        "clauses",
        "docs/PROVED.md",
        END,
        CLAUSES + "| `maplabel` | `run` | `begin` | nothing |\n",
        "no function of the row has a clause begin",
    ),
    (
        "clauses",
        "docs/PROVED.md",
        END,
        CLAUSES + "| `maplabel` | `run_all` | `end` | nothing |\n",
        "maplabel has no run_all",
    ),
    (
        "definitions",
        "docs/DEFINITIONS.md",
        END,
        WORDS + "| Words. | `IsRun` | `maplabel: Words` |\n",
        "IsRun does not stand in",
    ),
    (
        "definitions",
        "docs/DEFINITIONS.md",
        "`IsRouted`",
        "`IsRead`",
        "IsRouted (ml_http: Step) lies on the way",
    ),
    (
        "layers",
        "docs/ARCHITECTURE.md",
        "  ml_editor  ",
        "  ml_elsewhere  ",
        "ml_editor is not in the picture",
    ),
    ("layers", "docs/ARCHITECTURE.md", "  ml_answer  ", "  ml_river  ", "ml_river stands twice"),
    ("proofs", "docs/PROOFS.md", "`Marks`, ", "", "the file Marks of ml_request is not told"),
    (
        "commands",
        "docs/FORMATS.md",
        "| `gaps TABLE` |",
        "| `gasp TABLE` |",
        "the command gaps is not in the table",
    ),
    ("commands", "docs/FORMATS.md", "| 11 |", "| 12 |", "do not agree on 11"),
    ("figures", "docs/DECISIONS.md", END, "\n## X\n\nMeasured: 5 seconds.\n", "a measured figure"),
    ("counts", "CONTRIBUTING.md", "A crate has ", "A crate has zero to ", "of edits a crate"),
    ("counts", "docs/COSTS.md", "The gate tries ", "The gate tries 1", "edits: "),
    ("counts", "docs/ARCHITECTURE.md", "`Takes`", "`Take`", "the page of facts Takes"),
    ("counts", "docs/PROOFS.md", "files of five", "files of six", "crates with lemma files: 5"),
    ("counts", "docs/DECISIONS.md", "of crates is ten", "of crates is nine", "the chain: 10"),
    ("counts", "docs/DECISIONS.md", "`ml_grid`, ", "", "the chain that is named has 9"),
    (
        "counts",
        "docs/TESTED.md",
        END,
        "\n`crates.txt`, in the order of the build.\n",
        "crates.txt has",
    ),
    ("counts", "docs/DECISIONS.md", "`Label::of` alone", "that of labels alone", "of is not named"),
    ("counts", "docs/DECISIONS.md", "one line has over", "nine lines have over", "long lines: 1"),
    ("counts", "docs/READING.md", "In 16 steps", "In 15 steps", "steps: 16"),
    (
        "ways",
        "docs/ARCHITECTURE.md",
        "route_asked: method",
        "route_of: method",
        "no function route_of",
    ),
    ("house", "docs/ARCHITECTURE.md", "| `Crowd` |", "| `Throng` |", "definition Throng"),
    ("house", "docs/ARCHITECTURE.md", "| `Outline` | how", "| `Line` | how", "no type Line"),
    ("decisions", "docs/DECISIONS.md", " *Revisit if* ", " *Later* ", "a decision without day"),
    ("words", "README.md", END, "\nWord" + " word" * 30 + ".\n", "a sentence of 31 words"),
    ("words", "README.md", END, "\n" + "`x` " * 5000 + "\n", "README has"),
    ("words", "docs/COSTS.md", END, "\nPlaces that are drawn by lot.\n", "a figure of speech"),
    ("examples", "README.md", "B 20/1 A\n", "B 21/1 A\n", "prints   A 1000/1 -"),
    (
        "examples",
        "docs/FORMATS.md",
        "peak 3 after 40/3\n",
        "peak 4 after 40/3\n",
        "zoom plain.toml",
    ),
)


def copy_of(root: str, folder: str) -> None:
    """A copy of the pages, with links to all else."""
    for name in os.listdir(root):
        source, target = os.path.join(root, name), os.path.join(folder, name)
        if name == "docs":
            os.mkdir(target)
            for page in os.listdir(source):
                one, other = os.path.join(source, page), os.path.join(target, page)
                if page.endswith(".md"):
                    shutil.copy(one, other)
                else:
                    os.symlink(one, other)
        elif name.endswith(".md"):
            shutil.copy(source, target)
        elif name != ".git":
            os.symlink(source, target)


def is_seen(folder: str, spoil: Spoil, find: Find) -> bool:
    """Whether a page that is spoilt so is told, at the page's name."""
    check, page, old, new, due = spoil
    path = os.path.join(folder, page)
    with open(path, encoding="utf-8") as file:
        whole = file.read()
    if old != END and old not in whole:
        return False
    with open(path, "w", encoding="utf-8") as file:
        file.write(whole + new if old == END else whole.replace(old, new, 1))
    faults = find([check])
    with open(path, "w", encoding="utf-8") as file:
        file.write(whole)
    return any(fault.page == page and due in fault.text for fault in faults)


def run(root: str, finder_of: Callable[[str], Find], has_program: bool) -> int:
    """Tries all ways to spoil a page, prints those that are not seen, and gives the exit code."""
    spoils = [spoil for spoil in SPOILS if has_program or spoil[0] != "examples"]
    with tempfile.TemporaryDirectory(prefix="docs-") as folder:
        copy_of(root, folder)
        find = finder_of(folder)
        unseen = [spoil for spoil in spoils if not is_seen(folder, spoil, find)]
    for check, page, old, new, due in unseen:
        what = (new if old == END else old).strip()[:60]
        print(f"{check}: {page} with {what!r} spoilt: not told: {due}")
    print(f"{len(spoils)} ways to spoil a page, {len(spoils) - len(unseen)} of them told")
    return 1 if unseen else 0
