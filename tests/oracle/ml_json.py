"""JSON: where a text goes wrong, its value, and the decimals of its numbers.

Where a text goes wrong is found by asking of its beginnings whether a good text can
begin so; a beginning of such a beginning can, so the first that cannot is searched
for by halves. What a text means is left to Python's own reader.
"""

import codecs
import json
import re
from fractions import Fraction

from ml_pass import Refused
from ml_ratio import WORLD_EDGE

DEEPEST = 64
MARK = b"\xef\xbb\xbf"
MOST_RANK = 2**53
_TOKEN = re.compile(
    r"""[ \t\n\r]*(?:
    (?P<mark>[][{},:])
  | (?P<string>"(?:[^"\\\x00-\x1f]|\\(?:["\\/bfnrt]|u[0-9a-fA-F]{4}))*")
  | (?P<number>-?(?:0|[1-9][0-9]*)(?:\.[0-9]+)?(?:[eE][+-]?[0-9]+)?)
  | (?P<word>true|false|null))""",
    re.VERBOSE,
)
_CUT_STRING = re.compile(
    r'"(?:[^"\\\x00-\x1f]|\\(?:["\\/bfnrt]|u[0-9a-fA-F]{4}))*(?:\\(?:u[0-9a-fA-F]{0,3})?)?\Z'
)
_CUT_NUMBER = re.compile(r"(?:-|-?(?:0|[1-9][0-9]*)(?:\.|(?:\.[0-9]+)?[eE][+-]?))\Z")
_MARKS = re.compile(rb'"(?:[^"\\]|\\.)*"|[][{}]', re.DOTALL)
_NUMBER = re.compile(r"(-?)([0-9]+)(?:\.([0-9]*))?(?:[eE]([+-]?[0-9]+))?")


class Num(str):
    """The text of a number."""


class Beginning:
    """How far the beginning of a text was read: what may come next."""

    def __init__(self):
        self.open = []
        self.due = "value"
        self.opened = []
        self.rest = ""

    def take(self, kind, text, at):
        """Takes a token at a place; whether the grammar has it there."""
        if kind == "mark":
            return self.take_mark(text, at)
        if self.due in ("key", "key or end"):
            self.due = "colon"
            return kind == "string"
        if self.due in ("value", "value or end"):
            self.due = "more"
            return True
        return False

    def take_mark(self, mark, at):
        if mark in "[{":
            if self.due not in ("value", "value or end"):
                return False
            self.open.append(mark)
            self.opened.append((at, len(self.open)))
            self.due = "value or end" if mark == "[" else "key or end"
            return True
        if mark == ":":
            is_due, self.due = self.due == "colon", "value"
            return is_due
        if mark == ",":
            is_due = self.due == "more" and bool(self.open)
            self.due = "value" if self.open and self.open[-1] == "[" else "key"
            return is_due
        return self.close("[" if mark == "]" else "{")

    def close(self, opening):
        empty = "value or end" if opening == "[" else "key or end"
        if self.open[-1:] != [opening] or self.due not in ("more", empty):
            return False
        self.open.pop()
        self.due = "more"
        return True

    def may_begin(self, rest):
        """Whether a token that the grammar allows here can begin with these characters."""
        if _CUT_STRING.match(rest):
            return self.due in ("value", "value or end", "key", "key or end")
        is_value = self.due in ("value", "value or end")
        is_word = any(word.startswith(rest) for word in ("true", "false", "null"))
        return is_value and bool(is_word or _CUT_NUMBER.match(rest))


def is_utf8(data):
    try:
        data.decode("utf-8")
    except UnicodeDecodeError:
        return False
    return True


def text_of_beginning(body):
    """The characters of a beginning; one that is cut counts as any beyond ASCII."""
    text = codecs.getincrementaldecoder("utf-8")().decode(body)
    cut = body[len(text.encode()) :]
    if not cut:
        return text
    if not any(is_utf8(cut + fill * more) for fill in (b"\x80", b"\xbf") for more in (1, 2, 3)):
        raise UnicodeDecodeError("utf-8", body, len(body) - 1, len(body), "no character begins so")
    return text + "\ufffd"


def read_beginning(data):
    """What the bytes of a beginning leave open, or None where no good text begins so."""
    state = Beginning()
    if len(data) < len(MARK) and MARK.startswith(data):
        return state
    try:
        text = text_of_beginning(data[len(MARK) :] if data.startswith(MARK) else data)
    except UnicodeDecodeError:
        return None
    at = 0
    while token := _TOKEN.match(text, at):
        kind = token.lastgroup
        if kind == "number" and _CUT_NUMBER.match(text, token.start(kind)):
            break
        if not state.take(kind, token[kind], token.start(kind)):
            return None
        at = token.end()
    state.rest = text[at:].lstrip(" \t\n\r")
    return state if not state.rest or state.may_begin(state.rest) else None


def first_wrong(data):
    """The first place at which no good text goes on so; the end where none is reached."""
    low, high = 0, len(data) + 1
    while high - low > 1:
        middle = (low + high) // 2
        if read_beginning(data[:middle]) is None:
            high = middle
        else:
            low = middle
    return low


def place_in_bytes(data, at):
    """The byte at which the character at a place of the text begins."""
    body = data[len(MARK) :] if data.startswith(MARK) else data
    text = codecs.getincrementaldecoder("utf-8")().decode(body)
    return len(data) - len(body) + len(text[:at].encode())


def first_deep(data):
    """The first byte that opens a list or map too deep, or None; of a beginning of a good text."""
    state = read_beginning(data)
    deep = [at for at, depth in state.opened if depth > DEEPEST]
    return place_in_bytes(data, deep[0]) if deep else None


def refuse_constant(name):
    raise ValueError(name)


def python_value(data):
    """What Python's reader makes of a text, in a list of one; empty where it is no good text."""
    try:
        text = data.decode("utf-8-sig")
        return [json.loads(text, parse_int=Num, parse_float=Num, parse_constant=refuse_constant)]
    except (ValueError, RecursionError):
        return []


def depth_of(data):
    """The greatest depth of a good text."""
    depth, greatest = 0, 0
    for mark in _MARKS.finditer(data):
        if mark[0] in b"[{":
            depth += 1
            greatest = max(greatest, depth)
        elif mark[0] in b"]}":
            depth -= 1
    return greatest


def read(data):
    """The value of a JSON text; numbers are Num, maps keep the last of equal keys."""
    values = python_value(data)
    if values and depth_of(data) <= DEEPEST:
        return whole_text(values[0])
    wrong = len(data) if values else first_wrong(data)
    deep = first_deep(data[:wrong])
    if deep is not None:
        raise Refused(2, "Deep", deep)
    raise Refused(1, "NotJson", wrong)


def whole_text(value):
    """The value with U+FFFD for each half of a surrogate pair."""
    if isinstance(value, Num):
        return value
    if isinstance(value, str):
        return re.sub("[\ud800-\udfff]", "\ufffd", value)
    if isinstance(value, list):
        return [whole_text(item) for item in value]
    if isinstance(value, dict):
        return {whole_text(key): whole_text(item) for key, item in value.items()}
    return value


def decimal_of(number):
    """Sign, digits as a whole number and power of ten of a number's text."""
    sign, whole, part, power = _NUMBER.fullmatch(number).groups()
    part = part or ""
    return sign == "-", int(whole + part), int(power or "0") - len(part), len(whole + part)


def e7(number):
    """The value at 10^-7, a half rounded away from zero; None beyond the world's edge."""
    is_negative, digits, power, length = decimal_of(number)
    power += 7
    if digits == 0 or power < -length - 1:
        return 0
    if power > 10:
        return None
    value = Fraction(digits) * Fraction(10) ** power
    rounded = (2 * value.numerator + value.denominator) // (2 * value.denominator)
    if rounded > WORLD_EDGE:
        return None
    return -rounded if is_negative else rounded


def whole_part(number):
    """The value without its fraction, 0 where it is negative, and at most 2^53."""
    is_negative, digits, power, length = decimal_of(number)
    if is_negative or digits == 0 or power < -length:
        return 0
    if power > 16:
        return MOST_RANK
    return min(MOST_RANK, int(Fraction(digits) * Fraction(10) ** power))


def write_e7(value):
    """A coordinate in degrees, always with seven decimals."""
    return f"{'-' if value < 0 else ''}{abs(value) // 10**7}.{abs(value) % 10**7:07d}"


def write_string(text):
    """The canonical JSON string."""
    return json.dumps(text, ensure_ascii=False)
