"""Style files, good and spoilt."""

import copy

from cases.draw import BAD_FRACTIONS, spoil_bytes, step_of
from ml_ratio import read_fraction

FIELDS = [
    "geometry",
    "key",
    "value",
    "value",
    "font",
    "size",
    "priority",
    "ref",
    "dx",
    "dx",
    "dy",
    "dy",
    "min",
    "max",
    "margin",
]
FONT_NAMES = ["sans", "mono", "a b", "\u00e4"]
ODD_LINES = [
    "x",
    "a = ",
    "version = 1",
    "[fonts]",
    "[class]",
    "[[fonts]]",
    "a.b = 1\na = 2",
    "b = 'x",
    "d = 1979-05-27",
    "d = 07:32:00",
    "d = 24:00",
    "f = 1e5",
    "f = 01",
    "f = inf",
    "f = 1.",
    "i = 9223372036854775807",
    "i = 9223372036854775808",
    'u = "\\x41\\e"',
    'u = "\\ud800"',
    'u = "\\q"',
    "# \u007f",
    "# c",
    "t = {a = 1,\n b = 2}",
    "t = {a = 1, a = 2}",
    "[x.y]\n[x]\n",
    "[x]\n[x.y]\n[x]",
    'm = """a\nb"""',
    "m = '''a'''",
    "\ufeff",
    "deep = " + "[" * 81 + "]" * 81,
    "deep = " + "[" * 80 + "]" * 80,
]
WRONG_ADVANCES = [5, [], {"ab": 1}, {"": 1}, {"a": -1}, {"a": 65536}, {"e\u0301": 5}, {"a": "1"}]
EMPTY_RANGES = [{"min": "5", "max": "5"}, {"min": "10/2", "max": "5"}, {"min": "7", "max": "1/3"}]
WRONG = {
    "geometry": ["Point", "", 5, True, ["point"]],
    "key": [5, True, [], {"a": 1}],
    "value": [5, False, 1.5],
    "font": [5, ["sans"], True],
    "size": [0, 257, -1, "20", 20.0, True],
    "priority": [-1, 65536, "1", 1.0],
    "ref": [0, 268435456, "1", 1000.0, -1],
    "dx": [-257, 257, "0", 0.5],
    "dy": [-257, 257, "0", False],
    "min": [0, 0.0, "268435457", "1.5", *BAD_FRACTIONS],
    "max": ["0", "0/5", 1000, "268435457", *BAD_FRACTIONS],
    "margin": [-1, 65, "5", 5.0],
}


def draw_font(draw):
    font = {
        "units": draw.pick([1000, 1000, 1, 2048, 65535]),
        "default": draw.pick([500, 500, 250, 1000]),
    }
    if font["units"] == 1:
        font["default"] = draw.pick([0, 1, 2])
    if draw.chance(0.5):
        chars = draw.sample(
            ["i", "a", "\u0301", " ", "\u00fc", "\U0001f469", '"', "\\", "'"], draw.up_to(0, 4)
        )
        font["advances"] = {char: draw.up_to(0, font["units"]) for char in chars}
    return font


def draw_scales(draw, unit):
    if draw.chance(0.6):
        return {"min": "0", "max": str(draw.pick([1000, 2000, 100]) * step_of(unit))}
    is_near = draw.chance(0.7)
    while True:
        lower, upper = (
            (draw.near(unit), draw.near(unit)) if is_near else (draw.fraction(), draw.fraction())
        )
        if read_fraction(lower) < read_fraction(upper) <= 268435456:
            return {"min": lower, "max": upper}


def draw_class(draw, fonts, unit):
    kind = draw.pick(["point", "point", "line", "area"])
    made = {"geometry": kind}
    if draw.chance(0.35):
        made["key"] = draw.pick(["place", "place", "kind", "a"])
        made["value"] = draw.pick(["city", "town", "true", "12", ""])
    made["font"] = draw.pick(fonts)
    made["size"] = draw.pick([20, 20, 10, 7, 1, 256, 13])
    made["priority"] = draw.pick([0, 1, 1, 2, 65535])
    if kind == "line" or draw.chance(0.1):
        made["ref"] = max(1, draw.pick([unit, unit, unit // 3, 1, unit * 2, 268435455]))
    if draw.chance(0.2):
        made["dx"] = draw.pick([0, 5, -7, 100, 256, -256])
    if draw.chance(0.15):
        made["dy"] = draw.pick([0, 5, -7, 100, 256, -256])
    made.update(draw_scales(draw, unit))
    if draw.chance(0.5):
        made["margin"] = draw.pick([0, 1, 5, 5, 64])
    return made


def draw_good(draw, unit, keys=("name", "pop")):
    """A good style as nested maps."""
    style = {"version": draw.pick([1, 2, 2])}
    if keys[0] != "name" or draw.chance(0.5):
        style["name"] = keys[0]
    style["rank"] = keys[1]
    names = draw.sample(FONT_NAMES, draw.pick([1, 1, 2, 3]))
    style["fonts"] = {name: draw_font(draw) for name in names}
    count = draw.weighted([(0, 2), (1, 8), (3, 30), (5, 30), (8, 15)])
    style["class"] = [draw_class(draw, names, unit) for _ in range(count)]
    if draw.chance(0.75):
        style["class"] += [
            dict(draw_class(draw, names, unit), geometry=kind, ref=max(1, unit))
            for kind in ("point", "line", "area")
        ]
    return style


def spoil_class(draw, style):
    made, field = draw.pick(style["class"]), draw.pick(FIELDS)
    if field == "value":
        made["key"] = "place"
    elif field == "ref":
        made["geometry"] = "line"
    elif field == "margin":
        style["version"] = 2
    if draw.chance(0.3) and field in made:
        del made[field]
    else:
        made[field] = draw.pick(WRONG[field])
    if draw.chance(0.15):
        spoil_class(draw, style)


def spoil_font(draw, style):
    fonts = style.setdefault("fonts", {})
    name = draw.pick(sorted(fonts)) if fonts else "sans"
    how = draw.up_to(0, 4)
    if how == 0:
        fonts[name] = draw.pick([5, "x", [], True])
    elif how == 1:
        fonts[name]["units"] = draw.pick([0, 65536, "1000", 1000.0])
    elif how == 2:
        fonts[name]["default"] = draw.pick([-1, 65536, "500", True])
    elif how == 3:
        fonts[name]["advances"] = draw.pick(WRONG_ADVANCES)
    else:
        del fonts[name][draw.pick(["units", "default"])]
    if draw.chance(0.2):
        fonts["zz"] = draw.pick([5, {"units": 0, "default": 1}])


def spoil(draw, style):
    """A copy of the style with a fault that keeps it TOML; at times one that is none."""
    style = copy.deepcopy(style)
    fault = draw.weighted(
        [
            ("version", 10),
            ("font", 14),
            ("field", 46),
            ("class", 8),
            ("unknown", 9),
            ("range", 9),
            ("other", 5),
        ]
    )
    classes = style["class"]
    if fault == "version":
        style["version"] = draw.pick([0, 3, "1", 1.0, True, [1], {"a": 1}])
        if draw.chance(0.3):
            del style["version"]
    elif fault == "font":
        spoil_font(draw, style)
    elif fault == "class" or not classes:
        wrong = draw.pick([5, "x", {"geometry": "point"}, True])
        style["class"] = draw.pick([wrong, [wrong], [*classes, wrong], [wrong, *classes]])
    elif fault == "field":
        spoil_class(draw, style)
    elif fault == "unknown":
        draw.pick(classes)["font"] = draw.pick(["serif", "", "Sans"])
    elif fault == "range":
        draw.pick(classes).update(draw.pick(EMPTY_RANGES))
    else:
        style[draw.pick(["name", "rank", "fonts", "title"])] = draw.pick([5, True, [], "x"])
    return style


def string_text(draw, text):
    """A TOML string, basic or literal."""
    if (
        draw.chance(0.1)
        and not any(char in text for char in "'\r\n\t")
        and all(char >= " " for char in text)
    ):
        return f"'{text}'"
    parts = []
    for char in text:
        if char in '"\\':
            parts.append("\\" + char)
        elif draw.chance(0.03) or char < " ":
            parts.append(
                draw.pick([f"\\u{ord(char):04x}", f"\\U{ord(char):08X}"])
                if ord(char) < 65536
                else f"\\U{ord(char):08X}"
            )
        else:
            parts.append(char)
    plain = '"' + "".join(parts) + '"'
    return '""' + plain + '""' if draw.chance(0.02) and not text.endswith('"') else plain


def key_text(draw, key):
    if key.isascii() and key.isalnum() and not draw.chance(0.05):
        return key
    return (
        string_text(draw, key).replace('"""', '"')
        if '"' not in key
        else '"' + key.replace('"', '\\"') + '"'
    )


def number_text(draw, value):
    if draw.chance(0.05) and value >= 0:
        return draw.pick([f"0x{value:x}", f"+{value}", f"0b{value:b}", f"0o{value:o}"])
    if draw.chance(0.05) and abs(value) > 99:
        return f"{value:_}"
    return str(value)


def value_text(draw, value):
    """A TOML value on one line."""
    if isinstance(value, bool):
        return "true" if value else "false"
    if isinstance(value, int):
        return number_text(draw, value)
    if isinstance(value, float):
        return repr(value)
    if isinstance(value, str):
        return string_text(draw, value)
    if isinstance(value, dict):
        end = draw.pick(["", "", "", ","]) if value else ""
        pairs = (f"{key_text(draw, key)} = {value_text(draw, item)}" for key, item in value.items())
        return "{ " + ", ".join(pairs) + end + " }"
    end = draw.pick(["", ",", "\n"]) if value else ""
    return "[" + ", ".join(value_text(draw, item) for item in value) + end + "]"


def table_lines(draw, pairs):
    return [
        f"{key_text(draw, key)} {draw.pick(['=', '= '])} {value_text(draw, item)}"
        f"{draw.pick(['', '', '', ' # c'])}"
        for key, item in pairs.items()
    ]


def style_text(draw, style):
    """The TOML text of nested maps, with headers or inline."""
    inline = draw.chance(0.12)
    top = {key: item for key, item in style.items() if inline or key not in ("fonts", "class")}
    lines = table_lines(draw, top)
    fonts, classes = style.get("fonts"), style.get("class")
    blocks = []
    if not inline and fonts is not None:
        if isinstance(fonts, dict) and all(isinstance(font, dict) for font in fonts.values()):
            blocks += [
                [f"[fonts.{key_text(draw, name)}]", *table_lines(draw, font)]
                for name, font in fonts.items()
            ]
        else:
            lines += table_lines(draw, {"fonts": fonts})
    if not inline and classes is not None:
        if isinstance(classes, list) and all(isinstance(made, dict) for made in classes):
            blocks += [["[[class]]", *table_lines(draw, made)] for made in classes]
        else:
            lines += table_lines(draw, {"class": classes})
    end = draw.pick(["\n", "\n", "\n", "\r\n"])
    return end.join(line for block in [lines, *blocks] for line in block) + draw.pick(
        [end, end, ""]
    )


def spoil_toml(draw, text):
    """A text that is often no TOML."""
    lines = text.split("\n")
    at = draw.up_to(0, len(lines))
    lines.insert(at, draw.pick(ODD_LINES))
    return "\n".join(lines)


def draw_style(draw, unit, refused=0.3, keys=("name", "pop")):
    """The bytes of a style, refused in about such a share of draws."""
    style = draw_good(draw, unit, keys)
    if not draw.chance(refused):
        return style_text(draw, style).encode()
    how = draw.random()
    if how < 0.62:
        return style_text(draw, spoil(draw, style)).encode("utf-8", "surrogatepass")
    text = style_text(draw, style)
    if how < 0.82:
        return spoil_toml(draw, text).encode()
    return spoil_bytes(draw, text.encode())
