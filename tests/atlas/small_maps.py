"""Many small maps in very small cells, compared with the engine over each whole map.

Points, lines and areas, margins, classes with a least scale, equal ranks, several features at one
place, ids that are missing or stand twice; then an edit of each map, and an audit. Cells have some
tens of labels, so nearly all of these lie at seams."""

import dataclasses
import json
import random
import re
from dataclasses import dataclass
from typing import Any

from maplabel_atlas import audit, cut, editing, labelling, parts, style
from maplabel_atlas.ends import Ends
from maplabel_atlas.engine import Engine
from maplabel_atlas.labels import Labels
from maplabel_atlas.telling import Teller
from maplabel_atlas.tiers import Tiers
from maplabel_atlas.workers import Threads, Workers
from maplabel_kit.faults import Fault

from whole import Differs, Whole

CROWDED = re.compile(
    r"too many names overlap one another about longitude -?\d+\.\d{7}, latitude -?\d+\.\d{7}, "
    r"the place of [#f]"
)
QUIET = Teller(is_quiet=True)
SMALL = cut.Sizes(first_tier=60, own=40)
KINDS = "point", "point", "line", "area"


@dataclass
class Account:
    """What the maps came to."""

    maps: int = 0
    tables: int = 0
    again: int = 0
    rounds: int = 0
    crowded: int = 0

    def __add__(self, other: "Account") -> "Account":
        return Account(
            self.maps + other.maps,
            self.tables + other.tables,
            self.again + other.again,
            max(self.rounds, other.rounds),
            self.crowded + other.crowded,
        )

    def line(self) -> str:
        """The account for a person."""
        return (
            f"{self.maps} maps, {self.tables} tables, {self.again} labels asked again, at most "
            f"{self.rounds} rounds; {self.crowded} refused in tables of 90 or 150 lines"
        )


def style_text(chance: random.Random) -> str:
    """A style of four classes with keys, and one for all others of each kind."""
    lines = ["version = 2", "[fonts.sans]", "units = 1000", "default = 600"]
    for number in range(4):
        lines += ["[[class]]", f'geometry = "{chance.choice(KINDS)}"', 'key = "kind"']
        lines += [f'value = "{number}"', 'font = "sans"', f"size = {chance.randrange(8, 30)}"]
        lines += [f"priority = {chance.randrange(3)}", f"margin = {chance.randrange(6)}"]
        lines += [f'min = "{chance.choice(("0", "0", "1/3", "500"))}"', "ref = 300"]
        lines += [f'max = "{chance.choice(("40000", "200001/2", "3000000"))}"']
    for kind in ("point", "line", "area"):
        lines += ["[[class]]", f'geometry = "{kind}"', 'font = "sans"', "size = 12", "priority = 2"]
        lines += ['min = "0"', 'max = "100000"', "ref = 400", f"dx = {chance.randrange(-30, 30)}"]
    return "\n".join(lines) + "\n"


def geometry(chance: random.Random) -> dict[str, Any]:
    """A point, a line or an area, nearer to the middle than far from it, some at the same
    places.
    """
    x, y = chance.uniform(-1, 1) ** 3, chance.uniform(-1, 1) ** 3
    if chance.random() < 0.1:
        x, y = round(x, 1), round(y, 1)
    lot = chance.random()
    if lot < 0.6:
        return {"type": "Point", "coordinates": [round(x, 7), round(y, 7)]}
    if lot < 0.8:
        steps = [[x + k * 0.004, y + chance.uniform(0, 0.002)] for k in range(5)]
        return {"type": "LineString", "coordinates": [[round(a, 7), round(b, 7)] for a, b in steps]}
    ring = [[x, y], [x + 0.01, y], [x + 0.01, y + 0.01], [x, y]]
    return {"type": "Polygon", "coordinates": [ring]}


def feature(chance: random.Random, number: int) -> dict[str, Any]:
    """A feature; a few have no id, the id of another, no name or no class."""
    name = "".join(chance.choice("abcdefghi ") for _ in range(chance.randrange(1, 14))) + "z"
    ranks = chance.randrange(20), chance.randrange(100000), 2.5, 1e3, -4, "x", None
    one: dict[str, Any] = {"type": "Feature", "id": f"f{number}", "geometry": geometry(chance)}
    one["properties"] = {
        "name": name,
        "kind": str(chance.randrange(6)),
        "rank": chance.choice(ranks),
    }
    if chance.random() < 0.02:
        del one["id"]
    elif chance.random() < 0.02:
        one["id"] = f"f{max(0, number - 3)}"
    if chance.random() < 0.02:
        one["geometry"] = None
    elif chance.random() < 0.02:
        one["properties"]["name"] = chance.choice((None, "  ", "w" * 400))
    return one


class Maps:
    """Makes the maps and compares them."""

    def __init__(self, engine: Engine, rim: float | None = None) -> None:
        self.engine, self.account = engine, Account()
        self._sizes = SMALL if rim is None else dataclasses.replace(SMALL, rim=rim)

    def one(self, seed: int) -> None:
        """Makes the map of a seed, compares it, edits it and compares it again."""
        chance = random.Random(seed)
        text = style_text(chance)
        sizes = dataclasses.replace(self._sizes, lines=chance.choice((90, 150, 32_000)))
        lines = [
            json.dumps(feature(chance, number)) for number in range(chance.randrange(100, 900))
        ]
        with Workers(self.engine, Threads(1)) as workers:
            rules = style.of_text(text)
            labels, bare = self._label(rules, lines)
            ends = self._find(labels, workers, sizes)
            state = editing.State(labels, ends.until, ends.blocker, bare)
            Whole(self.engine, text, lines).compare(state, f"map {seed}")
            wide = dataclasses.replace(sizes, lines=32_000)
            if len(audit.look_over(ends, workers, wide, 70, 1.0, QUIET).rows):
                raise Differs(f"map {seed}: the audit finds labels that are wrong")
            self._edit(seed, chance, rules, lines, workers)
            self.account.tables += workers.asked
        self.account.maps += 1

    def _label(
        self, rules: style.Style, lines: list[str], size: int = 150
    ) -> tuple[Labels, parts.Bare]:
        made = []
        for at in range(0, len(lines), size):
            call = labelling.LabelCall(self.engine, rules, tuple(lines[at : at + size]), at)
            made.append(call())
        labels, bare, _ = parts.together(made)
        return labels, bare

    def _find(self, labels: Labels, workers: Workers, sizes: cut.Sizes) -> Ends:
        """All ends. A table of a few lines may be too small for what is near one place."""
        ends = Ends(labels)
        tiers = Tiers(ends, workers, sizes, QUIET)
        try:
            tiers.find()
        except Fault as fault:
            if sizes.lines > 1000 or CROWDED.match(str(fault)) is None:
                raise
            self.account.crowded += 1
            return self._find(labels, workers, dataclasses.replace(sizes, lines=32_000))
        self.account.again += sum(sum(one.rounds) for one in tiers.accounts)
        self.account.rounds = max(
            [self.account.rounds, *(len(one.rounds) for one in tiers.accounts)]
        )
        return ends

    def _edit(
        self,
        seed: int,
        chance: random.Random,
        rules: style.Style,
        lines: list[str],
        workers: Workers,
    ) -> None:
        """Some features are put in the place of others, one is new, and one goes."""
        by_id = {own: line for line in lines if (own := json.loads(line).get("id")) is not None}
        lines, sizes = list(by_id.values()), dataclasses.replace(self._sizes, lines=32_000)
        labels, bare = self._label(rules, lines)
        ends = self._find(labels, workers, sizes)
        news: list[dict[str, Any]] = [
            {**json.loads(chance.choice(lines)), "geometry": geometry(chance)}
            for _ in range(chance.randrange(3))
        ]
        news.append(feature(chance, 0))
        news[-1]["id"] = "new"
        changed = {one["id"]: json.dumps(one) for one in news}
        gone = chance.choice([own for own in by_id if own not in changed])
        edit = editing.Edit(tuple(changed.values()), (gone,))
        done = editing.edited(
            editing.State(labels, ends.until, ends.blocker, bare), edit, rules, self.engine
        )
        ends = Ends(done.state.labels)
        ends.take(done.state.until.copy(), done.state.blocker.copy())
        Tiers(ends, workers, sizes, QUIET).edited(done.new, done.bereft)
        lines = [line for own, line in by_id.items() if own != gone and own not in changed]
        whole = Whole(self.engine, rules.text, [*lines, *changed.values()])
        done.state.until, done.state.blocker = ends.until, ends.blocker
        whole.compare(done.state, f"map {seed} after an edit")
