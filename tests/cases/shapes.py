"""Places in the shapes that cost most where an index is built for places all over the world."""

SHAPES = ["row", "column", "anchor", "lattice", "chain"]


def draw_places(draw, step, most=40):
    """Places in one of the shapes, a step apart, in the order in which they come first.

    A chain is a row from west to east: where each place stands in the way of the next alone, each
    second one is free, and one more place at its beginning turns them all.
    """
    shape = draw.pick(SHAPES)
    count = draw.weighted([(2, 5), (7, 30), (16, 40), (most, 25)])
    if shape == "anchor":
        return [(0, 0)] * count
    if shape == "lattice":
        side = max(1, int(count**0.5))
        places = [(x * step, y * step) for y in range(side) for x in range(side)]
    else:
        places = [(number * step, 0) for number in range(count)]
    if shape == "column":
        places = [(y, x) for x, y in places]
    if shape != "chain":
        draw.shuffle(places)
    return places
