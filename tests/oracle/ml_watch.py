"""Changes of labels between two states, and the lines that tell them."""

import re

from ml_ratio import fraction_text

_PLAIN = re.compile(rb"[^A-Za-z0-9\-._~#]")


def spelt_id(ident):
    """An id as it stands in a line of changes."""
    spelt = _PLAIN.sub(lambda byte: b"%%%02X" % byte[0][0], ident.encode()).decode()
    return spelt or "%"


def span_words(span):
    return "-" if span is None else f"{fraction_text(span[0])}..{fraction_text(span[1])}"


def changes_between(before, after):
    """Of two maps from ids to (label's content, span): each id with another pair.

    In byte order of ids, each with the span before and after.
    """
    ids = sorted({*before, *after}, key=str.encode)
    changes = []
    for ident in ids:
        old, new = before.get(ident), after.get(ident)
        if old != new:
            changes.append((ident, old and old[1], new and new[1]))
    return changes


def change_lines(changes):
    return "".join(
        f"{spelt_id(ident)} {span_words(old)} {span_words(new)}\n" for ident, old, new in changes
    )
