"""Draws sentences of the pages by lot, for a reader who judges whether they read well."""

import random
import re
from collections.abc import Iterator

from pages import Page

FEWEST_WORDS = 5
END = re.compile(r"(?<=[.!?])\s+(?=[A-Z`*0-9(])")


def sentences_of(page: Page) -> Iterator[tuple[int, str]]:
    """The sentences of a page, with their lines; headings, tables and stumps are left out."""
    for line, text in page.paragraphs():
        if text.startswith(("#", "|", "!")):
            continue
        for sentence in END.split(text):
            if len(sentence.split()) >= FEWEST_WORDS:
                yield line, sentence


def drawn(page: Page, count: int, seed: int) -> list[tuple[int, str]]:
    """So many sentences of a page by lot, in their order; the same ones for the same seed."""
    every = list(sentences_of(page))
    places = random.Random(f"{page.name} {seed}").sample(range(len(every)), min(count, len(every)))
    return [every[place] for place in sorted(places)]
