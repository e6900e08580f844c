"""Whether measured figures name their script, and whether README is short and plain."""
import os
import re
from collections.abc import Iterator
from typing import Any

from names import Names
from pages import Page

SCRIPT = re.compile(r"`(?:(?:bench|tests|deploy|tools|web)/[\w/.]+|docs/COSTS\.md)[^`]*`")
MEASURED = re.compile(r"\b[Mm]easured\b")
FIGURE = re.compile(
    r"\d (?:micro|milli)?seconds?\b|\d minutes?\b|\d hours?\b|\d (?:MiB|MB|GiB|GB)\b"
    r"|\d times\b|\d a second\b"
)
README_BYTES, SENTENCE_WORDS = 16_384, 30
FIGURES_OF_SPEECH = (
    "by lot",
    "closest by",
    "bad company",
    "by and large",
    "out of the box",
    "under the hood",
    "in a nutshell",
    "at a glance",
    "hand in hand",
    "in a hurry",
)
PLAIN = ("README.md", "CONTRIBUTING.md", "docs/READING.md", "docs/PROOFS.md")


def figures_name_scripts(pages: list[Page], _names: Names) -> Iterator[Any]:
    """A paragraph that tells a measured figure names the script that measures it, or the section's
    first line does.
    """
    for page in pages:
        under = ""
        for line, text in page.paragraphs():
            if text.startswith("#"):
                under = ""
            if not text.startswith("|"):
                under = under + " " + text
            is_measured = MEASURED.search(text) or page.name == "docs/COSTS.md"
            if is_measured and FIGURE.search(text) and not SCRIPT.search(under):
                yield page.fault(
                    line, "a measured figure, and no script of bench or tests is named"
                )


def readme_is_short(pages: list[Page], names: Names) -> Iterator[Any]:
    """README has at most 16,384 bytes."""
    size = os.path.getsize(os.path.join(names.root, "README.md"))
    if size > README_BYTES:
        page = next(page for page in pages if page.name == "README.md")
        yield page.fault(1, f"README has {size} bytes, of {README_BYTES} at the most")


def sentences(text: str) -> list[str]:
    """The sentences of a paragraph, without what stands in backticks, links and marks."""
    text = re.sub(r"`[^`]*`", "x", re.sub(r"!?\[([^\]]*)\]\([^)]*\)", r"\1", text))
    return re.split(r"(?<=[.!?:;])\s+", text.replace("**", "").replace("*", ""))


def sentences_are_short(pages: list[Page], _names: Names) -> Iterator[Any]:
    """No sentence of the pages for a first reader has more than 30 words; tables are left out."""
    for page in pages:
        if page.name not in PLAIN:
            continue
        for line, text in page.paragraphs():
            for sentence in [] if text.startswith("|") else sentences(text):
                words = len(re.findall(r"[\w’'-]+", sentence))
                if words > SENTENCE_WORDS:
                    yield page.fault(line, f"a sentence of {words} words: {sentence[:60]}..")


def words_are_plain(pages: list[Page], _names: Names) -> Iterator[Any]:
    """No page for a first reader has one of the figures of speech that are listed."""
    for page in pages:
        if page.name not in (*PLAIN, "docs/COSTS.md", "docs/PROVED.md"):
            continue
        for line, text in enumerate(page.prose, 1):
            for phrase in FIGURES_OF_SPEECH:
                if phrase in text.lower():
                    yield page.fault(line, f"a figure of speech: {phrase}")
