#!/usr/bin/python3
"""Where the groups of generated maps lie: lines `SEED GROUP => X Y`, worked out apart from the
program.

The numbers of a seed are the seed itself and each further one times 6364136223846793005 plus
1442695040888963407, cut to 64 bits. Group g lies in column g mod 80 and row g div 80, 10,000,000
world units apart, and is moved by its own number: eastwards by its upper 32 bits, northwards by the
whole, each cut to below 100,000.
"""

SHOWN = (
    (0, 0),
    (7, 0),
    (7, 1),
    (7, 79),
    (7, 80),
    (7, 161),
    (4294967295, 0),
    (4294967295, 5999),
)


def place(seed: int, group: int) -> tuple[int, int]:
    """Where a group of a seed lies."""
    number = seed
    for _ in range(group + 1):
        number = (number * 6364136223846793005 + 1442695040888963407) & ((1 << 64) - 1)
    east = (group % 80) * 10000000 - 400000000 + (number >> 32) % 100000
    north = (group // 80) * 10000000 - 400000000 + number % 100000
    return east, north


if __name__ == "__main__":
    for one, number in SHOWN:
        print(f"{one} {number} => {' '.join(map(str, place(one, number)))}")
