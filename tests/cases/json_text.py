"""JSON texts of values, written in one of many ways."""

SHORT = {'"': '\\"', "\\": "\\\\", "\b": "\\b", "\f": "\\f", "\n": "\\n", "\r": "\\r", "\t": "\\t"}


class Number(str):
    """The text of a number."""


class Raw(str):
    """A text that stands as it is, whether it is JSON or not."""


class Pairs(list):
    """A map as a list of pairs, so that keys may stand twice."""


def unit_escapes(char):
    """The character as escapes of its units of 16 bits."""
    data = char.encode("utf-16-be", "surrogatepass")
    return "".join("\\u" + data[at : at + 2].hex() for at in range(0, len(data), 2))


def string_text(draw, text):
    """A JSON string for a text; a lone surrogate becomes an escape."""
    share = draw.pick([0, 0, 0, 0.1, 0.6])
    parts = []
    for char in text:
        if "\ud800" <= char <= "\udfff" or (share and draw.chance(share)):
            parts.append(unit_escapes(char))
        elif char in SHORT:
            parts.append(SHORT[char])
        elif char < " ":
            parts.append(unit_escapes(char))
        else:
            parts.append("\\/" if char == "/" and draw.chance(0.3) else char)
    return '"' + "".join(parts) + '"'


def space(draw, share):
    return draw.pick([" ", "\n", "\t", "\r", "  "]) if draw.chance(share) else ""


def text_of(draw, value, share=0.0):
    """The JSON text of a value, with white space about a share of its marks."""
    if isinstance(value, (Number, Raw)):
        return str(value)
    if isinstance(value, str):
        return string_text(draw, value)
    if value is None or isinstance(value, bool):
        return {None: "null", True: "true", False: "false"}[value]
    if isinstance(value, (int, float)):
        return str(value)
    blank = [space(draw, share) for _ in range(2)]
    if isinstance(value, dict):
        value = Pairs(value.items())
    if isinstance(value, Pairs):
        members = [
            f"{space(draw, share)}{string_text(draw, key)}{space(draw, share)}:{space(draw, share)}"
            f"{text_of(draw, item, share)}"
            for key, item in value
        ]
        return "{" + blank[0] + ",".join(members) + blank[1] + "}"
    items = [text_of(draw, item, share) + space(draw, share) for item in value]
    return "[" + blank[0] + ("," + blank[1]).join(items) + "]"
