"""What a refusal of the program means: the file, the place, what was found, what it may be, and
what to do.

    raise explain.refused("style refused: 4 BadClass 2 size", 3, "towns.toml", "towns.geojson")
"""

from pathlib import Path

from maplabel_kit import explained_maps, explained_styles, explained_tables
from maplabel_kit.faults import Refused
from maplabel_kit.told import Told

STYLE, MAP = "style refused: ", "map refused: "
# Other refusals, and which of the files that are named they speak of: the first or the second.
OTHERS = {"table": 0, "slots": 1, "states": 0}
# What each exit status of the program means, but for those whose lines tell more.
STATUSES = {
    2: Told("the words are none that the program takes", todo="maplabel --help tells them"),
    5: Told("a file is missing or cannot be read", todo="look at the names of the files"),
    6: Told("standard input could not be read to its end"),
    7: Told("not all could be printed", todo="look whether the disk is full or a reader ended"),
    8: Told(
        "it cannot listen at the port",
        "another program may listen there, or the port is below 1024",
        "`ss -tlnp` tells who has the port; end that one, or tell another port",
    ),
    9: Told("out of memory", todo="give it more memory, or cut the map by place"),
    10: Told(
        "a file has more than 67,108,864 bytes",
        todo="cut the map by place, or take `atlas/atlas make`",
    ),
    11: Told("a state was stale or refused"),
}


def refused(
    line: str, code: int, style: str | Path | None = None, map_file: str | Path | None = None
) -> Refused:
    """The fault that tells a refusal whole: the program's line, its status, and the explanation."""
    return Refused(line, code, lines(line, code, style, map_file), path_of(line, style, map_file))


def path_of(line: str, style: str | Path | None, map_file: str | Path | None) -> str | None:
    """The file that a line of the program speaks of, where that is known."""
    path = style if line.startswith(STYLE) else map_file if line.startswith(MAP) else None
    if (kind := _other_kind(line)) is not None:
        path = (style, map_file)[OTHERS[kind]] or style or map_file
    return None if path is None else str(path)


def _other_kind(line: str) -> str | None:
    """The kind of file of a refusal that is of no style and no map."""
    return next((kind for kind in OTHERS if line.startswith(f"{kind} refused: ")), None)


def lines(
    line: str, code: int, style: str | Path | None = None, map_file: str | Path | None = None
) -> list[str]:
    """The explanation of a line and a status of the program, as lines that stand beneath that
    line.
    """
    path = path_of(line, style, map_file)
    told = told_of(line, code, style, map_file)
    sentences = told.sentences()
    if told.place is not None:
        place = f"  {path}, line {told.place.line}, column {told.place.column}:"
        shown = [place, f"    {told.place.shown}", f"    {told.place.mark}"]
    else:
        shown = []
        if path is not None and sentences:
            sentences[0] = f"{path}: {sentences[0]}"
    return shown + [f"  {one}" for one in sentences]


def told_of(
    line: str, code: int, style: str | Path | None = None, map_file: str | Path | None = None
) -> Told:
    """What is known of a refusal; files that cannot be read any more tell nothing of their own."""
    words = line.split(" ")[3:]
    path = path_of(line, style, map_file)
    if line.startswith(STYLE):
        return explained_styles.told_of(words, _bytes_of(path))
    if line.startswith(MAP):
        return explained_maps.told_of(words, _bytes_of(path), path or "MAP")
    if (kind := _other_kind(line)) is not None:
        return explained_tables.told_of(kind, words, _bytes_of(path))
    if code < 0:
        return Told(f"the program was ended by signal {-code}", todo="look who ended it")
    if code == 5:
        return _missing(style, map_file)
    return STATUSES.get(code, Told())


def _bytes_of(path: str | None) -> bytes:
    try:
        return Path(path).read_bytes() if path is not None else b""
    except OSError:
        return b""


def _missing(*paths: str | Path | None) -> Told:
    """Which file is not there."""
    for path in paths:
        try:
            if path is not None:
                Path(path).open("rb").close()
        except OSError as error:
            return Told(f"{path} cannot be read: {error.strerror}")
    return STATUSES[5]
