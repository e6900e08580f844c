"""Whether the names that stand in backticks exist, and stand where a page says that they do."""
import glob
import os
import re
from collections.abc import Iterator
from typing import Any

from pages import Page
from sources import Sources
from specs import Specs

SCRIPTS = ("launch", "deploy", "tools", "web", "tests", "bench", "examples", "docs/pictures")
SUFFIXES = (
    ".md",
    ".rt",
    ".antt",
    ".py",
    ".html",
    ".js",
    ".css",
    ".table",
    ".toml",
    ".geojson",
    ".json",
    ".edit",
    ".txt",
    ".png",
    ".svg",
    ".conf",
    ".cfg",
    ".service",
    ".timer",
    ".osm",
)
PLACEHOLDER = re.compile(r"\b(?:NAME|MODULE|FUNCTION|FOLDER|FILE)\b")
WORD = re.compile(r"[^\W\d]\w*")
NAME = re.compile(r"\w+(?:::\w+)*(?:\(\))?")
PLACE = re.compile(r"(ml_\w+|maplabel): (\w+(?:, \w+)*)")
LEMMA = re.compile(r"^\s*(?:[a-z]+ )?pub (\w+)", re.MULTILINE)
ROUTE = re.compile(r"/[a-z]+")
OF_CRATE = re.compile(r"`(\w+(?:::\w+)*)`(?: of| \() ?`(ml_\w+)`")
SECTION = re.compile(
    r'(?:(`[\w/.]+\.md`|README)(?:,| \() ?|[Ss]ee (?=")|under (?=")|\((?="))'
    r'"([A-Z][^"]*)"(?! (?:in|of) `)'
)
LAW = re.compile(r"\b[Ll]aws? ((?:`\w+`(?:, | and )?)+)")
# Words of other programs and formats that a page may name, and that no file here has.
OUTSIDE = frozenset(
    "ip_hash apt curl git wget nginx tippecanoe GDAL osmium ss xargs main close Host utf8".split()
)


class Names:
    """All that may be named: of the crates, of the scripts, and of the files."""

    def __init__(self, root: str, sources: Sources, specs: Specs) -> None:
        self.root, self.sources, self.specs = root, sources, specs
        self.words = (
            sources.words
            | OUTSIDE
            | {name for crate in sources.uses for name in [crate, *sources.uses[crate]]}
        )
        self.words |= set(specs.by_name) | {module for _, module in specs.modules()}
        self.script_text = "\n".join(self.script_texts())
        self.words |= set(WORD.findall(self.script_text))
        self.strings = self.spec_text()
        self.words |= set(WORD.findall(self.strings))
        self.words |= self.proof_words()
        self.files = {
            os.path.basename(path)
            for folder in SCRIPTS
            for path in glob.glob(os.path.join(root, folder, "**"), recursive=True)
        }
        self.laws = {law for laws in sources.laws().values() for law in laws}

    def script_texts(self) -> Iterator[str]:
        """The texts of scripts, pages and configurations beside the crates, and of the sample
        files.
        """
        for folder, pattern in [
            *((one, "**") for one in SCRIPTS),
            ("crates/maplabel/data", "*.t*"),
            (".", "maplabel"),
        ]:
            for path in sorted(glob.glob(os.path.join(self.root, folder, pattern), recursive=True)):
                if (
                    os.path.isfile(path)
                    and os.path.getsize(path) < 1 << 20
                    and "/tests/docs/" not in path
                ):
                    with open(path, encoding="utf-8", errors="replace") as stream:
                        yield stream.read()

    def spec_text(self) -> str:
        """The texts of all specifications, in which every printed word and every route stands,
        without their comments.
        """
        texts = []
        for path in sorted(glob.glob(os.path.join(self.root, "crates", "*", "specs", "*.antt"))):
            with open(path, encoding="utf-8") as stream:
                texts += [line.partition("--")[0] for line in stream.read().split("\n")]
        return "\n".join(texts)

    def proof_words(self) -> set[str]:
        """The names of the files of lemmas, and those of the lemmas."""
        words = set()
        for path in glob.glob(
            os.path.join(self.root, "crates", "*", "proofs", "**", "*.antt"), recursive=True
        ):
            words.add(os.path.basename(path).removesuffix(".antt"))
            with open(path, encoding="utf-8") as stream:
                words |= set(LEMMA.findall(stream.read()))
        return words

    def is_path(self, name: str, page: Page) -> bool:
        """Whether a file or folder of this name is there, as from the top, the page, or the folders
        of scripts.
        """
        pattern = PLACEHOLDER.sub("*", name.rstrip("/"))
        folders = [
            "",
            os.path.dirname(page.name),
            "crates/*",
            "crates/maplabel",
            "crates/*/src",
            "crates/*/specs",
            "crates/*/proofs",
            "crates/*/proofs/*/*",
        ]
        if "/" not in pattern and pattern in self.files:
            return True
        return any(glob.glob(os.path.join(self.root, folder, pattern)) for folder in folders)

    def is_known(self, name: str) -> bool:
        """Whether each part of a name is a word of the crates, of scripts, or of what is
        printed.
        """
        return all(part in self.words for part in name.removesuffix("()").split("::"))

    def fault_of(self, span: str, page: Page) -> str | None:
        """What is wrong with what stands in backticks, or nothing."""
        place = PLACE.fullmatch(span)
        if place:
            crate, modules = place.group(1), place.group(2).split(", ")
            gone = [one for one in modules if (crate, one) not in self.specs.modules()]
            return f"{crate} has no module {gone[0]} of definitions" if gone else None
        first = span.split(" ")[0]
        if ROUTE.fullmatch(first.partition("?")[0]):
            path = first.partition("?")[0]
            return None if f'"{path}"' in self.strings else f"no such route: {path}"
        if re.match(r"--\w[\w-]*$", first):
            return (
                None
                if first in self.script_text or first.strip("-") in self.words
                else f"no script has the option {first}"
            )
        if is_path_like(first):
            return (
                None if self.is_path(first.removeprefix("./"), page) else f"no such file: {first}"
            )
        if NAME.fullmatch(span) and not span.isupper() and not re.match(r"[\d_]", span):
            return None if self.is_known(span) else f"no such name: {span}"
        return None


def is_path_like(word: str) -> bool:
    """Whether a word is meant as a file or a folder."""
    if re.search(r"[\\{}\[\]()<>\"'|*%=,;$]|://", word) or re.match(
        r"[\d/]|\w/|HTTP/|application/|image/|text/", word
    ):
        return False
    return "/" in word or word.endswith(SUFFIXES)


def spans_exist(pages: list[Page], names: Names) -> Iterator[Any]:
    """Each file, module, route, option and name in backticks exists."""
    for page in pages:
        for line, span, _ in page.spans():
            fault = names.fault_of(span, page)
            if fault:
                yield page.fault(line, fault)


def stand_where_said(pages: list[Page], names: Names) -> Iterator[Any]:
    """What is called a law is one, and what is said to be of a crate is."""
    for page in pages:
        for line, text in page.paragraphs():
            for found in LAW.finditer(text):
                for law in re.findall(r"`(\w+)`", found.group(1)):
                    if law not in names.laws:
                        yield page.fault(line, f"no law {law}")
            for name, crate in OF_CRATE.findall(text):
                last = name.split("::")[-1]
                if (
                    crate in names.sources.crates
                    and last not in names.sources.crate_words[crate]
                    and not any(one.crate == crate for one in names.specs.by_name.get(last, []))
                ):
                    yield page.fault(line, f"{crate} has no {name}")


def links_lead_somewhere(pages: list[Page], names: Names) -> Iterator[Any]:
    """Each relative link leads to a file of the repository."""
    for page in pages:
        for line, target in page.links():
            path = target.partition("#")[0]
            if "://" in target or not path:
                continue
            if not os.path.exists(os.path.join(names.root, os.path.dirname(page.name), path)):
                yield page.fault(line, f"the link leads nowhere: {target}")


def titles_of(text: str) -> set[str]:
    """The headings of a page, and the words in bold that begin a paragraph."""
    return set(re.findall(r"^#+ (.+?) *$", text, re.MULTILINE)) | set(
        re.findall(r"^(?:[-*] )?\*\*(.+?)\.?\*\*", text, re.MULTILINE)
    )


def sections_exist(pages: list[Page], names: Names) -> Iterator[Any]:
    """A section that is named in quotes, of a page or of the same one, is there."""
    for page in pages:
        for line, text in page.paragraphs():
            for other, title in SECTION.findall(text):
                name = {"README": "README.md", "": page.name}.get(other, other.strip("`"))
                paths = [
                    os.path.join(names.root, name),
                    os.path.join(names.root, os.path.dirname(page.name), name),
                ]
                path = next(filter(os.path.exists, paths), None)
                if path:
                    with open(path, encoding="utf-8") as stream:
                        if title not in {
                            re.sub(r" \(.*\)$", "", one) for one in titles_of(stream.read())
                        }:
                            yield page.fault(line, f"{name} has no section {title}")


def quotes_stand(pages: list[Page], names: Names) -> Iterator[Any]:
    """Each line of a block of the kind `antt` stands so in a specification or a contract."""
    lines = set()
    for folder, kind in (("specs", "antt"), ("src", "rt")):
        for path in glob.glob(os.path.join(names.root, "crates", "*", folder, "*." + kind)):
            with open(path, encoding="utf-8") as stream:
                lines |= {line.strip() for line in stream}
    for page in pages:
        for block in page.blocks:
            for number, line in enumerate(
                block.lines if block.kind == "antt" else (), block.line + 1
            ):
                if line.strip() not in lines:
                    yield page.fault(number, f"no definition has this line: {line.strip()}")
