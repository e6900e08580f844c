"""Letters of a text, and scripts whose letters are never turned one by one."""

import unicodedata

# Scripts that join their letters, run from right to left or stack their signs, by the first word of
# a letter's Unicode name.
WHOLE_SCRIPTS = frozenset(
    (
        "ARABIC",
        "HEBREW",
        "SYRIAC",
        "THAANA",
        "NKO",
        "MONGOLIAN",
        "DEVANAGARI",
        "BENGALI",
        "GURMUKHI",
        "GUJARATI",
        "ORIYA",
        "TAMIL",
        "TELUGU",
        "KANNADA",
        "MALAYALAM",
        "SINHALA",
        "MYANMAR",
        "KHMER",
        "TIBETAN",
    )
)
JOINERS = "\u200d\ufe0e\ufe0f"
# A sign of several scripts, whose name has that of one.
TATWEEL = "\u0640"


def clusters(text: str) -> list[str]:
    """A text in letters, each with the marks that stand behind it."""
    parts: list[str] = []
    for one in text:
        is_mark = unicodedata.category(one) in ("Mn", "Me", "Mc") or one in JOINERS
        if parts and (is_mark or parts[-1].endswith("\u200d")):
            parts[-1] += one
        else:
            parts.append(one)
    return parts


def whole_scripts(text: str) -> set[str]:
    """The scripts of a text that are written as one run, by their Unicode names."""
    letters = (one for one in text if unicodedata.category(one)[0] == "L" and one != TATWEEL)
    return {unicodedata.name(one, "?").split(" ")[0] for one in letters} & WHOLE_SCRIPTS


def is_whole(text: str) -> bool:
    """Whether a text is written as one run: it has a letter of a script that joins or runs from
    right to left.
    """
    return bool(whole_scripts(text))
