"""Random map files of every kind: odd numbers, ids, strings, nestings and geometries, and some
that are refused."""
import json
import random
from collections.abc import Callable, Sequence

NUMBERS = (
    "0",
    "-0",
    "1",
    "-7",
    "12.5",
    "-0.00000005",
    "0.00000004999",
    "1e1",
    "1.50E-3",
    "1E+2",
    "179.99999995",
    "-200",
    "200.00000004",
    "0.1234567499999999999",
    "0.12345675",
    "-0.12345675",
    "1e-400",
    "-3e-99999999999999999999",
    "0e99999999999999999999",
    "0.000000000000000001e18",
    "123456789012345678901234567890e-28",
    "5e-8",
    "4.9e-8",
    "1e000000000000000000001",
    "0.0e5",
)
FAR = ("200.00000005", "1e3", "-201", "1e99999999999999999999", "2.0000000051e2")
STRINGS = (
    '"a"',
    '""',
    '"Z\\u00fcrich"',
    '"\\ud83d\\ude00"',
    '"\\ud83d"',
    '"\\ude00x"',
    '"\\ud83d\\ud83d\\ude00"',
    '"#1"',
    '"#2"',
    '"tab\\tline\\nquote\\"back\\\\slash\\/"',
    '"\\u0001\\u001f\\u007f"',
    '"\\u2028"',
    '"1"',
    '"é"',
)
OTHERS = ("null", "true", "false", "[]", "{}", "[1,[2]]", '{"a":null}')
KINDS = {
    "Point": 0,
    "MultiPoint": 1,
    "LineString": 1,
    "MultiLineString": 2,
    "Polygon": 2,
    "MultiPolygon": 3,
}


class Maker:
    """Makes texts from a source of chance; `is_good` leaves out what the program refuses."""

    def __init__(self, chance: random.Random, is_good: bool) -> None:
        self.chance, self.is_good = chance, is_good

    def pick(self, *groups: Sequence[str]) -> str:
        """Any of any group."""
        return self.chance.choice(self.chance.choice(groups))

    def some(self, most: int, make: Callable[[], str]) -> list[str]:
        """Up to so many."""
        return [make() for _ in range(self.chance.randrange(most + 1))]

    def space(self) -> str:
        """White space, or none."""
        return self.chance.choice(("", "", "", " ", "\n\t", "\r\n"))

    def listed(self, items: list[str]) -> str:
        """A list."""
        return "[%s]" % ("," + self.space()).join(items)

    def position(self) -> str:
        """A position."""
        bad = not self.is_good and self.chance.random() < 0.02
        parts = [self.pick(NUMBERS, FAR) if bad else self.chance.choice(NUMBERS) for _ in range(2)]
        if bad and self.chance.random() < 0.3:
            parts = parts[1:]
        return self.listed(
            parts + [self.pick(NUMBERS, STRINGS, OTHERS) for _ in range(self.chance.randrange(2))]
        )

    def ring(self) -> str:
        """A ring."""
        if self.chance.random() < 0.1:
            return "[]"
        corners = [
            self.position()
            for _ in range(4 if self.is_good else self.chance.choice((4, 4, 4, 4, 5, 6, 3)))
        ]
        return self.listed(corners + corners[:1] * self.chance.randrange(2))

    def coordinates(self, kind: str, depth: int) -> str:
        """Coordinates of a kind of geometry."""
        if depth == 0:
            return self.position()
        if depth == 1 and "Polygon" in kind:
            return self.ring()
        return self.listed(self.some(3, lambda: self.coordinates(kind, depth - 1)))

    def geometry(self) -> str:
        """A geometry."""
        if self.chance.random() < 0.1:
            return self.chance.choice(
                (
                    "null",
                    '{"type":"GeometryCollection","geometries":[]}',
                    '{"type":"GeometryCollection"}',
                )
            )
        if not self.is_good and self.chance.random() < 0.03:
            return self.chance.choice(
                (
                    "5",
                    "{}",
                    '{"type":"Curve","coordinates":[]}',
                    '{"type":"Point"}',
                    "[]",
                    '{"type":"LineString","coordinates":[[]]}',
                    '{"type":"Point","coordinates":["1","2"]}',
                )
            )
        kind = self.chance.choice(list(KINDS))
        return '{"coordinates":%s,%s"type":"%s"}' % (
            self.coordinates(kind, KINDS[kind]),
            self.space(),
            kind,
        )

    def properties(self) -> str:
        """Properties."""
        if self.chance.random() < 0.1:
            return self.chance.choice(("null", "[]", '"text"'))
        pairs = self.some(
            5, lambda: "%s:%s" % (self.chance.choice(STRINGS), self.pick(NUMBERS, STRINGS, OTHERS))
        )
        return "{%s}" % ",".join(pairs)

    def feature(self) -> str:
        """A feature."""
        members = ['"type":"Feature"']
        if self.chance.random() < 0.6:
            members.append(
                '"id":'
                + self.pick(
                    NUMBERS, STRINGS, OTHERS, [json.dumps("n%d" % self.chance.randrange(99))]
                )
            )
        if self.chance.random() < 0.9:
            members.append('"geometry":' + self.geometry())
        if self.chance.random() < 0.9:
            members.append('"properties":' + self.properties())
        if self.chance.random() < 0.2:
            members.append('"bbox":[1,2,3,4]')
        self.chance.shuffle(members)
        return "{%s%s}" % (self.space(), ("," + self.space()).join(members))

    def map(self) -> str:
        """The text of a map file."""
        mark = self.chance.choice(("", "", "\ufeff"))
        if self.chance.random() < 0.05:
            return mark + self.feature()
        return '%s%s{"type":"FeatureCollection","name":"odd","features":%s}%s' % (
            mark,
            self.space(),
            self.listed(self.some(12, self.feature)),
            self.space(),
        )
