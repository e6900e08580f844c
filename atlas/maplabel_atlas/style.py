"""A style, and the style under which a label tells its class."""

import tomllib
from dataclasses import dataclass
from typing import Any

from maplabel_kit import style as styles
from maplabel_kit import toml
from maplabel_kit.style import Class


@dataclass(frozen=True)
class Style:
    """The keys of name and rank, the classes in order, the text, and the text of the asking
    style.
    """

    name: str
    rank: str
    classes: tuple[Class, ...]
    text: str
    asking: str

    def kinds(self) -> set[str]:
        """The kinds of geometry for which there are classes."""
        return {one.kind for one in self.classes}


def of_text(text: str) -> Style:
    """The style of a text that the engine has accepted."""
    tree = tomllib.loads(text)
    read = styles.of_tree(tree)
    return Style(read.name, read.rank, tuple(read.classes), text, _asking(tree))


def _asking(tree: dict[str, Any]) -> str:
    """The same style, but class k ranges from 0 to k + 1: so a label's greatest scale tells its
    class.

    Anchor, boxes, margin and order of a label depend on no range, and at so small scales hardly
    any names meet.
    """
    lines = _scalars({key: value for key, value in tree.items() if key not in ("fonts", "class")})
    for name, font in (tree.get("fonts") or {}).items():
        lines += ["", f"[fonts.{toml.key(name)}]", *_scalars(font)]
        lines += [f"advances = {{ {', '.join(_scalars(font.get('advances', {})))} }}"]
    for number, one in enumerate(tree.get("class", [])):
        fields = {**one, "min": "0", "max": str(number + 1)}
        lines += ["", "[[class]]", *_scalars(fields)]
    return "\n".join(lines) + "\n"


def _scalars(table: dict[str, Any]) -> list[str]:
    """The keys of a table whose values are texts, whole numbers or truth values."""
    return [
        f"{toml.key(key)} = {_value(value)}"
        for key, value in table.items()
        if isinstance(value, (str, int))
    ]


def _value(value: str | int) -> str:
    return toml.text(value) if isinstance(value, str) else str(value).lower()
