"""One script of modules: each becomes a function, in the order in which they use one another."""

import re
from dataclasses import dataclass
from pathlib import Path

from maplabel_kit.faults import Fault

IMPORT = re.compile(r"^import \{ (.*) \} from '\./([a-z_]+)\.js'$", re.MULTILINE)
EXPORT = re.compile(r"^export (?=(?:async )?(?:function\*?|class|const) (\w+))", re.MULTILINE)
ANY = re.compile(r"^(?:import|export)\b(?! \{\}$).*$", re.MULTILINE)
REMARK = re.compile(r"^ *//.*\n|^ */\*\*(?:[^*]|\*(?!/))*\*/ *\n", re.MULTILINE)
INLINE = re.compile(r"/\*\* @type (?:[^*]|\*(?!/))*\*/ ?")
TAIL = re.compile(r" +// [^'\"`\n]*$", re.MULTILINE)
FIRST = "index"
HEAD = """'use strict'
// Made by web/bundle of the modules in web/maplabel/, where the remarks are.
window.maplabel = (() => {
"""
TAIL_OF_ALL = """return index_.maplabel
})()
"""


@dataclass(frozen=True)
class Module:
    """A module: its name, the modules that it uses, and its text as a function of a script."""

    name: str
    uses: list[str]
    text: str


def bundled(folder: Path) -> str:
    """The script of the modules of a folder, of which `index.js` has what pages use."""
    known: dict[str, Module] = {}
    _add(folder, FIRST, known, [])
    return HEAD + "".join(module.text for module in known.values()) + TAIL_OF_ALL


def _add(folder: Path, name: str, known: dict[str, Module], above: list[str]) -> None:
    """Adds a module behind those that it uses."""
    if name in above:
        raise Fault(f"{folder}: modules use one another in a ring: {' '.join([*above, name])}")
    if name in known:
        return
    path = folder / f"{name}.js"
    try:
        module = _read(name, path.read_text(encoding="utf-8"))
    except OSError as error:
        raise Fault(f"{path} cannot be read: {error.strerror}") from None
    for used in module.uses:
        _add(folder, used, known, [*above, name])
    known[name] = module


def _read(name: str, source: str) -> Module:
    """A module as a function that gives back what it exports."""
    text = TAIL.sub("", INLINE.sub("", REMARK.sub("", source)))
    uses = [match[2] for match in IMPORT.finditer(text)]
    exports = [match[1] for match in EXPORT.finditer(text)]
    text = EXPORT.sub("", IMPORT.sub(_taken, text))
    if left := ANY.search(text):
        raise Fault(f"{name}.js: web/bundle does not know this form: {left[0]}")
    body = re.sub(r"\n{3,}", "\n\n", text.replace("export {}\n", "")).strip("\n")
    return Module(
        name, uses, f"const {name}_ = (() => {{\n{body}\nreturn {{ {', '.join(exports)} }}\n}})()\n"
    )


def _taken(match: re.Match[str]) -> str:
    """An import as names taken of another module's function."""
    return f"const {{ {match[1].replace(' as ', ': ')} }} = {match[2]}_"
