"""The ends of all labels, tier by tier and cell by cell.

A label's end depends on the labels before it alone: on those that overlap it below its end, and on
their ends. So the ends of a tier rest on those of the tiers before, which are final. In a tier each
cell is asked for once, with what is known of the labels about it: those of tiers before, with their
ends, and those of the same tier within a rim. Then the labels are found that had been told a wrong
end of another label or had not been told of one that matters; these alone are asked for again,
until no end changes.
"""

import numpy as np

from maplabel_atlas.arrays import Whole, no_rows, union
from maplabel_atlas.asking import Account, Asker
from maplabel_atlas.cover import Cover
from maplabel_atlas.cut import Crowded, Sizes, cells, tier_ends
from maplabel_atlas.ends import Ends
from maplabel_atlas.faults import Fault
from maplabel_atlas.rounds import Rounds
from maplabel_atlas.seams import met_after, unfit
from maplabel_atlas.telling import Teller
from maplabel_atlas.workers import Workers


class Tiers:
    """Finds ends with the help of workers, and tells of each tier."""

    def __init__(self, ends: Ends, workers: Workers, sizes: Sizes, teller: Teller) -> None:
        self._ends, self._sizes, self._teller = ends, sizes, teller
        self._asker = Asker(ends, workers)
        self.accounts: list[Account] = []

    def find(self) -> None:
        """Finds all ends."""
        begin, ends = 0, list(tier_ends(len(self._ends), self._sizes.first_tier))
        self._teller.part("labels with their ends", len(self._ends))
        while ends:
            try:
                self._tier(begin, ends[0])
            except Crowded as crowded:
                if ends[0] - begin < self._sizes.fewest:
                    raise self._too_many(crowded) from None
                self._ends.forget(slice(begin, ends[0]))
                ends.insert(0, (begin + ends[0]) // 2)
                continue
            begin = ends.pop(0)
            self._teller.at(begin)
        self._teller.end()

    def _too_many(self, crowded: Crowded) -> Fault:
        labels = self._ends.labels
        x, y = labels.place[crowded.row].tolist()
        return Fault(
            f"too many names overlap one another about longitude {x / 1e7:.7f}, latitude "
            f"{y / 1e7:.7f}, the place of "
            f"{labels.ids[crowded.row].decode()}: more than {self._sizes.lines} of them are "
            "shown there at one scale or "
            "another; give their classes smaller ranges of scales, or leave some of them out"
        )

    def _tier(self, begin: int, end: int) -> None:
        ends, account = self._ends, Account(begin, end)
        rows = np.arange(begin, end)
        before, same = ends.cover(ends.shown(0, begin)), ends.cover(rows)
        plan = list(
            cells(rows, ends.labels.place, lambda own: self._about(own, before, same), self._sizes)
        )
        account.cells = len(plan)
        answers, done = [], begin
        for answer in self._asker.ask(plan, account):
            answers.append(answer)
            done += len(answer.own)
            self._teller.at(done)
        told = account.lines
        waiting = unfit(ends, answers, begin, end)
        if len(waiting):
            Rounds(ends, self._asker, self._sizes, account).settle(waiting)
        account.lines, account.lines_again = told, account.lines - told
        self.accounts.append(account)
        self._teller.say(account.sentence())

    def _about(self, own: Whole, before: Cover, same: Cover) -> Whole:
        """The labels that a cell is told of at first."""
        area, most = self._ends.area(own), float(self._ends.most[own].max())
        wide = float((area.places[2:] - area.places[:2]).max())
        rim = self._sizes.rim * wide / max(1.0, float(np.abs(area.sides).max()))
        near = same.near(area, min(most, rim))
        near = near[near < own[-1]]
        return np.concatenate(
            [before.near(area, most), np.setdiff1d(near, own, assume_unique=True)]
        )

    def edited(self, new: Whole, bereft: Whole) -> Account:
        """Brings the ends to what they are after an edit.

        `new` are the rows of its labels, and `bereft` those whose blocker is gone."""
        ends, account = self._ends, Account(0, len(self._ends))
        cover = ends.cover(np.arange(len(ends)))
        met = [met_after(ends, row, cover, no_rows()) for row in new.tolist()]
        rounds = Rounds(ends, self._asker, self._sizes, account, cover)
        try:
            rounds.settle(union([new, bereft, *met]))
        except Crowded as crowded:
            raise self._too_many(crowded) from None
        self.accounts.append(account)
        return account
