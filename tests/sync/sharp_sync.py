"""Faults of deploy/sync that the trials must see."""

from sharp import Spoilt

SYNC, READER = "deploy/sync", "deploy/maplabel_source/geojson.py"
MIRROR, SERVER = "deploy/maplabel_source/mirror.py", "deploy/maplabel_source/server.py"

SPOILT = (
    Spoilt(
        SERVER,
        '{"rev": rev} if method != "DELETE"',
        '{} if method != "DELETE"',
        "sync.guarded_edits",
    ),
    Spoilt(SERVER, '{"id": name, "rev": rev}', '{"id": name}', "sync.guarded_edits"),
    Spoilt(SYNC, "if gone > most and", "if False and", "sync.guard"),
    Spoilt(SYNC, "min(FEW, len(held) - 1)", "min(FEW, len(held))", "sync.guard"),
    Spoilt(
        SYNC,
        "        left = seconds - (time.time() - before[2] / 1e9)\n",
        "        left = -1\n",
        "sync.in_place",
    ),
    Spoilt(
        SYNC,
        "if not self.mirror.read() and data == self.source:",
        "if data == self.source:",
        "sync.watching",
    ),
    Spoilt(
        MIRROR,
        "for name in reversed(held) if name not in stay",
        "for name in held if False",
        "sync.fewest",
    ),
    Spoilt(MIRROR, "if places.get(name, -1) <= last:", "if False:", "sync.order"),
    Spoilt(MIRROR, "name in stay and held[name] != text", "name in stay", "sync.fewest"),
    Spoilt(MIRROR, "tally.refused[name, text] = str(refusal)", "pass", "sync.refusals"),
    Spoilt(READER, "+ 5) // 10", "+ 4) // 10", "reading.random_maps"),
    Spoilt(READER, "if name is None or name in taken:", "if name is None:", "reading.random_maps"),
    Spoilt(
        READER, "    if is_nested_more(value, MOST_NESTED):", "    if False:", "reading.no_maps"
    ),
)
