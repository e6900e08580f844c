"""TOML 1.1 as an untyped table, with whole numbers of 64 bits and at most 80 lists
and tables within one another. Floats and date-times are told from the rest alone.
"""

import datetime
import re

DEEPEST = 80
LEAST, GREATEST = -(2**63), 2**63 - 1
FLOAT, DATE = object(), object()
_BLANK = re.compile(r"[ \t]*")
_NEWLINE = re.compile(r"\r?\n")
_COMMENT = re.compile(r"#[^\x00-\x08\x0a-\x1f\x7f]*")
_BARE = re.compile(r"[A-Za-z0-9_-]+")
_BASIC = re.compile(r'"((?:[^"\\\x00-\x08\x0a-\x1f\x7f]|\\.)*)"')
_LITERAL = re.compile(r"'([^'\x00-\x08\x0a-\x1f\x7f]*)'")
_LONG_BASIC = re.compile(
    r'"""(?:\r?\n)?((?:"{0,2}(?:[^"\\\x00-\x08\x0b-\x1f\x7f]|\r\n|\\[^\r]|\\\r\n))*"{0,2})"""'
)
_LONG_LITERAL = re.compile(
    r"'''(?:\r?\n)?((?:'{0,2}(?:[^'\x00-\x08\x0b-\x1f\x7f]|\r\n))*'{0,2})'''"
)
_ESCAPE = re.compile(r'\\(?:([bfnrte"\\])|x([0-9a-fA-F]{2})|u([0-9a-fA-F]{4})|U([0-9a-fA-F]{8}))')
_ANY_ESCAPE = re.compile(r"\\(?:[ \t]*\r?\n(?:[ \t]|\r?\n)*|.)")
_WORD = re.compile(r"[A-Za-z0-9_.:+-]+(?: [0-9][A-Za-z0-9_.:+-]*)?")
_WHOLE = re.compile(r"[+-]?(?:0|[1-9](?:_?[0-9])*)")
_OTHER_BASE = re.compile(r"0x[0-9a-fA-F](?:_?[0-9a-fA-F])*|0o[0-7](?:_?[0-7])*|0b[01](?:_?[01])*")
_FLOAT = re.compile(
    r"[+-]?(?:inf|nan|(?:0|[1-9](?:_?[0-9])*)"
    r"(?:\.[0-9](?:_?[0-9])*)?(?:[eE][+-]?[0-9](?:_?[0-9])*)?)"
)
_DATE = re.compile(r"(\d{4})-(\d\d)-(\d\d)", re.ASCII)
_TIME = re.compile(r"(\d\d):(\d\d)(?::(\d\d)(?:\.\d+)?)?", re.ASCII)
_OFFSET = re.compile(r"[Zz]|[+-](\d\d):(\d\d)", re.ASCII)
PLAIN = dict(zip('bfnrte"\\', '\b\f\n\r\t\x1b"\\'))


class NotToml(Exception):
    """A text that is no TOML."""


class Table(dict):
    """A table, and how it came: by a header, on the way of one, by dots, or closed."""

    def __init__(self, how):
        super().__init__()
        self.how = how


class Tables(list):
    """A list of tables that headers in double brackets make."""


def put(table, path, value):
    """A pair of a key, perhaps with dots, and a value."""
    for name in path[:-1]:
        table = table.setdefault(name, Table("dots"))
        if not isinstance(table, Table) or table.how not in ("dots", "way"):
            raise NotToml
        table.how = "dots"
    if path[-1] in table:
        raise NotToml
    table[path[-1]] = value


def enter(root, path, is_list):
    """The table that a header begins."""
    table = root
    for name in path[:-1]:
        table = table.setdefault(name, Table("way"))
        if isinstance(table, Tables):
            table = table[-1]
        if not isinstance(table, Table) or table.how == "closed":
            raise NotToml
    name = path[-1]
    if is_list:
        tables = table.setdefault(name, Tables())
        if not isinstance(tables, Tables):
            raise NotToml
        tables.append(Table("header"))
        return tables[-1]
    found = table.setdefault(name, Table("way"))
    if not isinstance(found, Table) or found.how != "way":
        raise NotToml
    found.how = "header"
    return found


class Reader:
    """A place in a text."""

    def __init__(self, text):
        self.text, self.at = text, 0

    def take(self, pattern):
        """What a pattern matches here, which is then passed over; or None."""
        found = pattern.match(self.text, self.at)
        if found:
            self.at = found.end()
        return found

    def eat(self, mark):
        is_there = self.text.startswith(mark, self.at)
        self.at += len(mark) * is_there
        return is_there

    def need(self, mark):
        if not self.eat(mark):
            raise NotToml

    def skip_lines(self):
        """Passes over blanks, comments and line ends."""
        while True:
            self.take(_BLANK)
            self.take(_COMMENT)
            if not self.take(_NEWLINE):
                return

    def end_line(self):
        self.take(_BLANK)
        self.take(_COMMENT)
        if self.at < len(self.text) and not self.take(_NEWLINE):
            raise NotToml

    def key(self):
        """The parts of a key, and the blanks behind it."""
        parts = []
        while True:
            self.take(_BLANK)
            bare = self.take(_BARE)
            parts.append(bare[0] if bare else self.short_string())
            self.take(_BLANK)
            if not self.eat("."):
                break
        if len(parts) > DEEPEST:
            raise NotToml
        return parts

    def short_string(self):
        found = self.take(_BASIC)
        if found:
            return unescaped(found[1])
        found = self.take(_LITERAL)
        if not found:
            raise NotToml
        return found[1]

    def string(self):
        found = self.take(_LONG_BASIC)
        if found:
            return unescaped(without_line_ends(found[1]))
        found = self.take(_LONG_LITERAL)
        if found:
            return found[1]
        if self.text.startswith(('"""', "'''"), self.at):
            raise NotToml
        return self.short_string()

    def pair(self, depth):
        path = self.key()
        self.need("=")
        self.take(_BLANK)
        return path, self.value(depth)

    def value(self, depth):
        """A value with at most so many lists and tables within one another."""
        if self.text.startswith(("'", '"'), self.at):
            return self.string()
        if self.text.startswith(("[", "{"), self.at):
            if depth == 0:
                raise NotToml
            return self.list(depth - 1) if self.eat("[") else self.table(depth - 1)
        word = self.take(_WORD)
        return plain_value(word[0] if word else "")

    def list(self, depth):
        items = []
        self.skip_lines()
        while not self.eat("]"):
            items.append(self.value(depth))
            self.after_item("]")
        return items

    def table(self, depth):
        self.need("{")
        table = Table("closed")
        self.skip_lines()
        while not self.eat("}"):
            path, value = self.pair(depth)
            put(table, path, value)
            self.after_item("}")
        close(table)
        return table

    def after_item(self, end):
        self.skip_lines()
        if self.eat(","):
            self.skip_lines()
        elif not self.text.startswith(end, self.at):
            raise NotToml


def close(table):
    """No pair or header adds to an inline table, or to what is within."""
    table.how = "closed"
    for value in table.values():
        if isinstance(value, Table):
            close(value)


def without_line_ends(text):
    """A long string without its escaped line ends; other escapes stay."""
    return _ANY_ESCAPE.sub(lambda found: "" if "\n" in found[0] else found[0], text)


def unescaped(text):
    parts, at = [], 0
    while (place := text.find("\\", at)) >= 0:
        found = _ESCAPE.match(text, place)
        if not found:
            raise NotToml
        code = (
            int(next(filter(None, found.groups()[1:])), 16)
            if not found[1]
            else ord(PLAIN[found[1]])
        )
        if code > 0x10FFFF or 0xD800 <= code <= 0xDFFF:
            raise NotToml
        parts += [text[at:place], chr(code)]
        at = found.end()
    return "".join([*parts, text[at:]])


def plain_value(word):
    """A truth value, a number or a date-time."""
    if word in ("true", "false"):
        return word == "true"
    if _OTHER_BASE.fullmatch(word):
        return within_64(int(word.replace("_", ""), 0))
    if _WHOLE.fullmatch(word):
        return within_64(int(word.replace("_", "")))
    if _FLOAT.fullmatch(word):
        if "inf" not in word and abs(float(word.replace("_", ""))) == float("inf"):
            raise NotToml
        return FLOAT
    if is_date_time(word):
        return DATE
    raise NotToml


def within_64(value):
    if not LEAST <= value <= GREATEST:
        raise NotToml
    return value


def is_date(year, month, day):
    try:
        datetime.date(int(year) % 400 + 400, int(month), int(day))
    except ValueError:
        return False
    return True


def is_time(hour, minute, second):
    return int(hour) < 24 and int(minute) < 60 and int(second or "0") <= 60


def is_date_time(word):
    """Whether it is a date, a time, or both with or without an offset."""
    date = _DATE.match(word)
    rest = word[date.end() :] if date else word
    if date and not is_date(*date.groups()):
        return False
    if date and not rest:
        return True
    if date and rest[0] not in "Tt ":
        return False
    time = _TIME.match(rest, 1 if date else 0)
    if not time or not is_time(*time.groups()):
        return False
    offset = rest[time.end() :]
    if not offset or not date:
        return not offset
    found = _OFFSET.fullmatch(offset)
    return bool(found) and (not found[1] or is_time(found[1], found[2], None))


def read(data):
    """The table of a TOML text; NotToml where it is none."""
    try:
        text = data.decode("utf-8")
    except UnicodeDecodeError:
        raise NotToml from None
    reader = Reader(text.removeprefix("\ufeff"))
    root = Table("header")
    table = root
    reader.skip_lines()
    while reader.at < len(reader.text):
        if reader.eat("["):
            is_list = reader.eat("[")
            path = reader.key()
            reader.need("]]" if is_list else "]")
            table = enter(root, path, is_list)
        else:
            put(table, *reader.pair(DEEPEST))
        reader.end_line()
        reader.skip_lines()
    return root
