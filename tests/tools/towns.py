"""A map of towns over Europe, the same for the same words: `towns.py [COUNT [SEED]]` prints it as
GeoJSON.

No free table of towns comes with the repository, so one is made. The sample map's cities between 20
degrees west and 37 east, 28 and 65 north, are its cities; the other places are drawn: three of ten
anywhere on land, the others near a place that is there, the larger the likelier, at distances that
are mostly small. Land is the sample's countries. Populations fall by the power law that holds of
real ones. Names are of syllables, 3 to 20 letters long and 8.6 on the average, as names of towns in
Europe are.
"""
import json
import random
import sys
from collections.abc import Sequence
from typing import Any

from maplabel_tools.report import land

WEST, SOUTH, EAST, NORTH = -20, 28, 37, 65
Spot = tuple[float, float]
HEADS = "B Br D Dr F Fl G Gr H K Kl Kr L M N P Pr R S Sch Sp St T Tr V W Z".split()
SOUNDS = "a a e e e i i o o u ei au ie".split()
TAILS = " n r l rn s st ck ng m nd".split(" ")
ENDS = "burg dorf heim berg ville stadt ing au hausen bach ton ford ina ano ova sk ice".split()


def name_of(lot: random.Random) -> str:
    """A name of syllables."""
    text = ""
    for _ in range(1 + (lot.random() < 0.62)):
        text += (
            HEADS[int(lot.random() * len(HEADS))].lower() + SOUNDS[int(lot.random() * len(SOUNDS))]
        )
        text += TAILS[int(lot.random() * len(TAILS))]
    if lot.random() < 0.55:
        text += ENDS[int(lot.random() * len(ENDS))]
    text = text.capitalize()
    if lot.random() < 0.05:
        text = ("Bad ", "Saint-", "Sankt ", "San ", "Novi ")[int(lot.random() * 5)] + text
    return text[:20]


def spot_of(lot: random.Random, places: list[Spot], rings: list[land.Ring]) -> Spot:
    """Where the next place lies: anywhere on land, or near one of the places before it."""
    while True:
        if lot.random() < 0.4:
            x, y = WEST + lot.random() * (EAST - WEST), SOUTH + lot.random() * (NORTH - SOUTH)
        else:
            near = places[int(len(places) * lot.random())]
            far = 0.04 * lot.random() ** -0.8
            x, y = near[0] + 1.5 * far * (2 * lot.random() - 1), near[1] + far * (
                2 * lot.random() - 1
            )
        if WEST < x < EAST and SOUTH < y < NORTH and land.is_land(x, y, rings):
            return round(x, 5), round(y, 5)


def features_of(count: int, seed: int) -> list[dict[str, Any]]:
    """The features: the sample's cities, and behind them drawn places until there are so many."""
    lot = random.Random(seed)
    sample = json.loads(land.SAMPLE.read_text("utf-8"))["features"]
    rings = land.rings_of_land()
    cities = [
        (one["geometry"]["coordinates"][:2], one["properties"])
        for one in sample
        if one["properties"].get("place") == "city" and one["geometry"]["type"] == "Point"
    ]
    cities = [(at, own) for at, own in cities if WEST < at[0] < EAST and SOUTH < at[1] < NORTH]
    cities.sort(key=lambda one: (-(one[1].get("pop_est") or 0), one[1]["name"]))
    made = [
        feature("c", k, at, own["name"], "city", int(own.get("pop_est") or 1000))
        for k, (at, own) in enumerate(cities)
    ]
    places: list[Spot] = [(at[0], at[1]) for at, _ in cities]
    for k in range(count - len(made)):
        places.append(spot_of(lot, places, rings))
        made.append(
            feature("t", k, places[-1], name_of(lot), "town", int(3_000_000 / (k + 3) ** 0.86))
        )
    return made


def feature(
    letter: str, number: int, at: Sequence[float], name: str, place: str, people: int
) -> dict[str, Any]:
    """A feature."""
    return {
        "type": "Feature",
        "id": f"{letter}{number}",
        "properties": {"name": name, "place": place, "pop": people},
        "geometry": {"type": "Point", "coordinates": list(at)},
    }


def main() -> None:
    """Prints a map."""
    words = [int(word) for word in sys.argv[1:]]
    made = features_of(words[0] if words else 8000, words[1] if len(words) > 1 else 1)
    print('{"type":"FeatureCollection","features":[')
    print(",\n".join(json.dumps(one, ensure_ascii=False) for one in made))
    print("]}")


if __name__ == "__main__":
    main()
