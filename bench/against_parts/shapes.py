"""Maps and tables of shapes that are legal, some of them usual, and dear where an index expects
places all over the world: rows, columns, one anchor, lattices, chains of names that turn one
another, one label far above the others.
"""

from random import Random

from against_parts.maps import Feature, feature

APART = 5_000  # world units between neighbours of a row, which are in one another's way
SIDE = 100  # places of a lattice along one side
# World units: how far places of a column or row may lie from the middle of the world.
BAND = 60_000_000


def chain(count: int) -> list[Feature]:
    """Points in a row, of which each comes before the next and stands in its way: each second one
    is shown.
    """
    return [
        feature(
            f"c{number}",
            "Point",
            [((number - count // 2) * APART, 0)],
            name="abcd",
            pop=count - number,
        )
        for number in range(count)
    ]


def before_chain(count: int) -> Feature:
    """A point in front of the chain that comes first, so that each name of the chain turns."""
    return feature("first", "Point", [((-1 - count // 2) * APART, 0)], name="abcd", pop=count + 1)


def lattice() -> list[Feature]:
    """Points on a lattice, which come first from the corner on."""
    places = sorted(
        ((x, y) for x in range(SIDE) for y in range(SIDE)), key=lambda place: (sum(place), place)
    )
    return [
        feature(
            f"l{number}", "Point", [(x * APART, y * APART)], name="abcd", pop=len(places) - number
        )
        for number, (x, y) in enumerate(places)
    ]


def at_corner() -> Feature:
    """A point at the corner of the lattice that comes first."""
    return feature("first", "Point", [(-APART, 0)], name="abcd", pop=SIDE * SIDE + 1)


def meridian(draw: Random, count: int) -> list[Feature]:
    """Points on one meridian."""
    return [
        feature(
            f"m{number}",
            "Point",
            [(0, draw.randint(-BAND, BAND))],
            name="abcd",
            pop=draw.randint(1, 1_000_000),
        )
        for number in range(count)
    ]


def anchor(count: int) -> list[Feature]:
    """Points at one place."""
    return [
        feature(f"a{number}", "Point", [(0, 0)], name="abcd", pop=count - number)
        for number in range(count)
    ]


def _line(number: int, x: int, y: int, box: str = "-20,-8,20,8") -> str:
    return f"L{number} {x} {y} 0 268435456 {box}\n"


def column_table(draw: Random, count: int) -> str:
    """Labels at one x, far apart in y."""
    return "".join(_line(number, 0, draw.randint(-BAND * 30, BAND * 30)) for number in range(count))


def row_table(draw: Random, count: int) -> str:
    """Labels at one y, far apart in x."""
    return "".join(_line(number, draw.randint(-BAND * 30, BAND * 30), 0) for number in range(count))


def anchor_table(count: int) -> str:
    """Labels at one anchor."""
    return "".join(_line(number, 0, 0) for number in range(count))


def giant_table(table: str) -> str:
    """The labels of a table, of which the last has the greatest box that a label may have."""
    lines = table.splitlines(keepends=True)
    return "".join(lines[:-1]) + " ".join(lines[-1].split(" ")[:5]) + " -512,-512,512,512\n"


def small_states(count: int) -> str:
    """The text of so many states of two labels far apart, of which the second moves from state to
    state.
    """
    line = "{} {} 0 0/1 1000/1 0 1000/1 - -10,-5,10,5\n"
    return "".join(
        f"state {rev} 2\n" + line.format("A", 0) + line.format("B", 100_000 * (1 + rev % 7))
        for rev in range(count)
    )
