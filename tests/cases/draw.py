"""Random draws that every kind of case uses, and whole numbers and fractions."""

import random

FRACTIONS = [
    "0",
    "1",
    "2",
    "5",
    "10",
    "20",
    "50",
    "100",
    "1000",
    "0/1",
    "20/7",
    "39/2",
    "7/3",
    "40/3",
    "4/2",
    "007",
    "1/65536",
    "268435456",
    "4294967296/65536",
    "1024",
    "2048/2",
]
BAD_FRACTIONS = [
    "",
    "-1",
    "+1",
    "1.5",
    "1/0",
    "1/65537",
    "4294967297",
    "2/131072",
    "12345678901",
    "1/",
    "/2",
    "1/2/3",
    "\uff11",
    "x",
    "1/-2",
    "0x1",
    "1e3",
    "00000000001",
    "1/00000000001",
]
BAD_WHOLES = ["", "-", "+5", "1.0", "x", "12345678901", "--1", "1-", "0x1", "1/1", "\u0661"]

TIMES = [
    (1, 2),
    (1, 1),
    (2, 1),
    (5, 1),
    (10, 1),
    (19, 1),
    (39, 2),
    (20, 1),
    (40, 3),
    (100, 3),
    (100, 1),
]


class Draw(random.Random):
    """A source of draws; equal seeds give equal draws."""

    def chance(self, share):
        return self.random() < share

    def pick(self, items):
        return items[int(self.random() * len(items))]

    def up_to(self, least, greatest):
        return least + int(self.random() * (greatest - least + 1))

    def weighted(self, pairs):
        """One of the first members, by the weights that stand second."""
        at = self.random() * sum(weight for _, weight in pairs)
        for item, weight in pairs:
            at -= weight
            if at < 0:
                return item
        return pairs[-1][0]

    def fraction(self):
        if self.chance(0.7):
            return self.pick(FRACTIONS)
        return f"{self.up_to(0, 3000)}/{self.up_to(1, 40)}"

    def near(self, unit):
        """A scale at which points that stand some units apart may meet, as text."""
        over, under = self.pick(TIMES)
        if self.chance(0.2):
            power = 2 ** self.up_to(0, 26)
            return self.pick([f"{power}", f"{power * 16 - 1}/16", f"{power * 16 + 1}/16"])
        return f"{over * step_of(unit)}/{under}"

    def spelt(self, value):
        """A whole number, at times with more digits than it needs."""
        if self.chance(0.04):
            return ("-" if value < 0 else "") + "00" + str(abs(value))
        return str(value)

    def bad_whole(self, least, greatest):
        """A text that is no whole number, or one out of bounds."""
        if self.chance(0.6):
            return str(self.pick([least - 1, greatest + 1]))
        return self.pick(BAD_WHOLES)


def step_of(unit):
    """How far apart points stand, in a hundredth, where lines have corners each so many units."""
    return max(1, unit // 10)


def spoil_bytes(draw, data):
    """The bytes cut off, or with a few bytes changed, taken out, put in or repeated."""
    for _ in range(draw.pick([1, 1, 1, 2, 4])):
        at = draw.up_to(0, max(0, len(data) - 1))
        change = draw.up_to(0, 6)
        some = bytes(
            [
                draw.pick(b" \n\r\t,-/0:5]}[{\"\\=#%'\x00\x7f\x80\xc3\xed\xff")
                if draw.chance(0.8)
                else draw.up_to(0, 255)
            ]
        )
        if change == 0:
            data = data[:at]
        elif change <= 2:
            data = data[:at] + some + data[at + 1 :]
        elif change == 3:
            data = data[:at] + data[at + 1 :]
        elif change <= 5:
            data = data[:at] + some + data[at:]
        else:
            end = at + draw.up_to(1, 12)
            data = data[:end] + data[at:]
    return data
