"""300,000 places in both styles, which no process holds: with the definition, and by audits."""

import multiprocessing
import signal
from pathlib import Path

import definition
from maplabel_atlas.store import Store
from stage import atlas, folder, layer, say

PLACES = 300_000


def wrong(out: Path) -> list[int]:
    """The rows that are not as the definition has them; this takes minutes."""
    state = Store(out).load().state
    return definition.wrong(state, len(state.labels))


def run(engine: Path) -> str:
    """Compares both styles."""
    with folder() as at:
        made = layer(at, PLACES)
        outs = [at / "six", at / "one"]
        for out, style in zip(outs, (made.six, made.one)):
            atlas(engine, "make", made.places, style, out)
            said = atlas(engine, "audit", out).said
            assert "300,000 of 300,000 labels looked over, 0 are wrong" in said, said
            say(f"{out.name} is made, and its audit finds nothing")
        with multiprocessing.Pool(2, signal.signal, (signal.SIGTERM, signal.SIG_DFL)) as pool:
            for out, rows in zip(outs, pool.map(wrong, outs)):
                assert not rows, f"{out.name}: {len(rows)} labels do not end as by the definition"
    return f"{PLACES:,} places in both styles end as by the definition; audits find nothing"
