"""Label tables, slots and states, good and spoilt."""

from cases.draw import BAD_FRACTIONS, spoil_bytes
from cases.shapes import draw_places
from ml_follow import state_text
from ml_pass import Refused, longest_choice, read_table, slots_text
from ml_ratio import fraction_text, read_fraction

FULL = b"".join(b"n%d 0 0 0 1 0,0,1,1\n" % n for n in range(32768))
USUAL_BOX = "-10,-5,10,5"
IDS = [
    "A",
    "B",
    "C",
    "D",
    "a1",
    "~",
    "!",
    "--",
    "-5",
    "#0",
    '"',
    "\\",
    "<b>",
    "A/B",
    "%41",
    "{}",
    "x" * 64,
]


def draw_box(draw):
    if draw.chance(0.45):
        return USUAL_BOX
    if draw.chance(0.08):
        left, bottom = draw.up_to(-512, 511), draw.up_to(-512, 511)
        return f"{left},{bottom},{draw.up_to(left + 1, 512)},{draw.up_to(bottom + 1, 512)}"
    left, bottom = draw.pick([-20, -10, -5, 0, 5, 10]), draw.pick([-10, -5, 0, 5])
    return f"{left},{bottom},{left + draw.pick([5, 10, 20, 35])},{bottom + draw.pick([5, 10, 20])}"


def draw_boxes(draw):
    count = draw.weighted([(1, 70), (2, 15), (3, 8), (5, 4), (64, 0.4)])
    return " ".join(draw_box(draw) for _ in range(count))


def draw_scales(draw):
    if draw.chance(0.55):
        return "0", "1000"
    while True:
        lower, upper = draw.fraction(), draw.fraction()
        if read_fraction(lower) < read_fraction(upper) <= 268435456:
            return lower, upper


def draw_coordinate(draw, step):
    if draw.chance(0.01):
        return draw.pick([-2000000000, 2000000000, 1999999999])
    return draw.up_to(-4, 4) * step


def draw_ids(draw, count):
    ids = list(dict.fromkeys(draw.pick(IDS) for _ in range(count)))
    return ids + [f"n{number}" for number in range(count - len(ids))]


def shaped_lines(draw):
    """The lines of a good table whose labels stand in a row, a column, a lattice or at one anchor;
    one of them may be far greater than the others.
    """
    places = draw_places(draw, draw.pick([10, 100, 400, 1024 * 2 ** draw.up_to(0, 16)]))
    scales, box, lines = draw_scales(draw), draw_box(draw), []
    for ident, (x, y) in zip(draw_ids(draw, len(places)), places):
        words = [ident, str(x), str(y), *scales, box]
        lines.append(
            [*words[:3], *draw_scales(draw), draw_box(draw)] if draw.chance(0.1) else words
        )
    if draw.chance(0.25):
        lines[draw.up_to(0, len(lines) - 1)][5] = "-512,-512,512,512"
    return lines


def draw_lines(draw):
    """The lines of a good table, in words."""
    if draw.chance(0.15):
        return shaped_lines(draw)
    step = draw.pick([50, 100, 100, 400, 400, 7, 1000000, 1024 * 2 ** draw.up_to(0, 16)])
    count = draw.weighted(
        [(0, 2), (1, 6), (2, 16), (3, 20), (4, 18), (6, 20), (9, 12), (14, 5), (40, 1), (150, 0.15)]
    )
    flat = draw.chance(0.4)
    lines = []
    for ident in draw_ids(draw, count):
        x, y = draw_coordinate(draw, step), 0 if flat else draw_coordinate(draw, step)
        words = [ident, draw.spelt(x), draw.spelt(y), *draw_scales(draw), *draw_boxes(draw).split()]
        lines.append(words)
    return lines


def join_lines(draw, lines):
    """The bytes of lines, with one of the line ends that a table may have."""
    end = draw.weighted([("\n", 80), ("\r\n", 12), ("\n\n", 8)])
    text = "".join(line + end for line in lines)
    if draw.chance(0.1) and text:
        text = text.rstrip(draw.pick(["\r\n", "\n"]))
    if draw.chance(0.08):
        text = "\n" + text
    return text.encode("utf-8", "surrogateescape")


def spoil_line(draw, words):
    """Words of a line of a table that is none."""
    words = list(words)
    how = draw.up_to(0, 11)
    if how == 0:
        words[0] = draw.pick(["-", "", "x" * 65, "\u00e9", "\x7f", "a\tb"])
    elif how == 1:
        words[draw.pick([1, 2])] = draw.bad_whole(-2000000000, 2000000000)
    elif how == 2:
        words[draw.pick([3, 4])] = draw.pick(BAD_FRACTIONS)
    elif how == 3:
        words[3], words[4] = draw.pick(
            [("5", "5"), ("10/2", "5"), ("2", "1"), ("0", "268435457"), ("0", "0")]
        )
    elif how <= 5:
        sides = words[5].split(",")
        place = draw.up_to(0, 3)
        sides[place] = draw.pick(["-513", "513", "", "1.0", "+1", " 1", sides[(place + 2) % 4]])
        words[draw.up_to(5, len(words) - 1)] = ",".join(sides)
    elif how == 6:
        words[5] = draw.pick(["1,2,3", "1,1,2,2,3", "", "1,1,1,2", "1,1,2,1", "2,1,1,2", "1;1;2;2"])
    elif how == 7:
        words = words[: draw.up_to(1, 5)]
    elif how == 8:
        words += ["0,0,1,1"] * (65 - (len(words) - 5))
    elif how == 9:
        words.insert(draw.up_to(0, len(words)), "")
    elif how == 10:
        words[draw.up_to(0, len(words) - 1)] += draw.pick(["\t", "\r", "\x00", "\udcff", "\u00a0"])
    else:
        words = [draw.pick([" ", "#", "ID X Y MIN MAX BOX", "-", "A"])]
    return words


def draw_table(draw):
    """The bytes of a table, which about two of five times are refused."""
    lines = draw_lines(draw)
    fault = draw.weighted([("none", 58), ("line", 22), ("same", 8), ("bytes", 11.5), ("full", 0.7)])
    if fault == "full":
        return FULL + draw.pick(
            [b"m 0 0 0 1 0,0,1,1\n", b"\nm 0 0 0 1 0,0,1,1", b"n7 0 0 0 1 0,0,1,1\n", b"m 0\n"]
        )
    if fault == "line":
        place = draw.up_to(0, len(lines))
        lines.insert(
            place,
            spoil_line(draw, draw.pick(lines) if lines else ["Z", "0", "0", "0", "1", "0,0,1,1"]),
        )
    elif fault == "same" and lines:
        twin = [draw.pick(lines)[0], "0", "0", "0", "1", USUAL_BOX]
        lines.insert(draw.up_to(0, len(lines)), twin)
        if draw.chance(0.3):
            lines.append(spoil_line(draw, twin))
    data = join_lines(draw, [" ".join(words) for words in lines])
    return spoil_bytes(draw, data) if fault == "bytes" else data


def good_table(draw):
    """The bytes of a table that is accepted, and its labels."""
    data = join_lines(draw, [" ".join(words) for words in draw_lines(draw)])
    try:
        return data, read_table(data)
    except Refused:
        return b"", []


def near_end(draw, label, end):
    """An end that is wrong by a little, or the limit of the range."""
    below = (label.min + end) / 2
    above = (label.max + end) / 2
    choice = draw.pick([label.min, label.max, label.max + 1, below, above, end, end])
    text = fraction_text(choice)
    return text if read_fraction(text) is not None else fraction_text(label.min)


def spoil_slots(draw, labels, rows):
    """Rows of slots with one wrong end or blocker, so that a verdict is due."""
    place = draw.up_to(0, len(rows) - 1)
    ident, end, blocker = rows[place]
    if draw.chance(0.65):
        end = near_end(draw, labels[place], read_fraction(end))
    if draw.chance(0.5):
        blocker = draw.pick(["-", *(label.id for label in labels)])
    rows[place] = [ident, end, blocker]


def break_rows(draw, rows):
    """Rows of slots that are no slots of the table."""
    how = draw.up_to(0, 7)
    place = draw.up_to(0, max(0, len(rows) - 1))
    if how == 0 or not rows:
        rows.insert(place, draw.pick([["Z", "1", "-"], ["-", "1", "-"], [], [""], ["a b"]]))
    elif how == 1:
        del rows[place]
    elif how == 2:
        rows[place] = [rows[place][0] + "x", *rows[place][1:]]
    elif how == 3:
        rows[place] = [rows[place][0], draw.pick(BAD_FRACTIONS), rows[place][2]]
    elif how == 4:
        rows[place] = [*rows[place][:2], draw.pick(["", "nobody", "--x", "- ", "0"])]
    elif how == 5:
        rows.append(rows[place])
    elif how == 6:
        other = draw.up_to(0, len(rows) - 1)
        rows[place], rows[other] = rows[other], rows[place]
    else:
        rows[place] = rows[place] + [draw.pick(["", "x"])]


def draw_slots(draw, labels):
    """Slots for the labels: best, wrong in one place, or refused."""
    text = slots_text(labels, longest_choice(labels))
    rows = [line.split(" ") for line in text.splitlines()]
    what = draw.weighted([("best", 25), ("wrong", 45), ("refused", 22), ("bytes", 8)])
    if what == "wrong" and rows:
        for _ in range(draw.pick([1, 1, 2])):
            spoil_slots(draw, labels, rows)
    elif what == "refused":
        break_rows(draw, rows)
    data = join_lines(draw, [" ".join(row) for row in rows])
    return spoil_bytes(draw, data) if what == "bytes" else data


def draw_state(draw, rev):
    """The text of a state with margins, and its labels and slots."""
    labels = good_table(draw)[1]
    for label in labels:
        label.margin = draw.pick([0, 0, 0, 1, 5, 64])
    slots = longest_choice(labels)
    return state_text(rev, labels, slots), labels, slots


def same_map(draw, labels):
    """Labels like these, with a few left out or moved."""
    kept = [label for label in labels if draw.chance(0.8)]
    for place, label in enumerate(kept):
        label.order = (place, 0, label.id.encode())
        if draw.chance(0.3):
            label.x += draw.pick([100, -100, 400])
    return kept


def wrong_state(draw, rev, labels, slots):
    """The text of a state with an end or a blocker that may be wrong."""
    slots = list(slots)
    place = draw.up_to(0, len(slots) - 1)
    end, blocker = slots[place]
    if draw.chance(0.6):
        end = read_fraction(near_end(draw, labels[place], end))
    if draw.chance(0.5):
        blocker = draw.pick([None, draw.up_to(0, len(labels) - 1)])
    slots[place] = end, blocker
    return state_text(rev, labels, slots)


def break_state(draw, data):
    """Bytes that are often no states."""
    if draw.chance(0.35):
        return spoil_bytes(draw, data)
    lines = data.split(b"\n")
    at = draw.up_to(0, len(lines) - 1)
    words = lines[at].split(b" ")
    place = draw.up_to(0, len(words) - 1)
    how = draw.up_to(0, 4)
    if how == 0:
        words[place] = draw.pick(
            [
                b"",
                b"-1",
                b"x",
                b"9007199254740993",
                b"32769",
                b"65",
                b"%4A",
                b"%",
                b"%41",
                b"%c3%a9",
                b"%C3%A9",
                b"%C3",
                b"007",
                b"1/0",
                b"-",
                b"0",
                b"00000",
                b"000000",
                b"+1",
            ]
        )
    elif how == 1:
        words.insert(place, draw.pick([b"", b"0", b"0,0,1,1"]))
    elif how == 2:
        del words[place]
    elif how == 3:
        words[-1] += draw.pick([b"\r", b" ", b"\xff", b"\t"])
    else:
        return b"\n".join(
            lines[:at] + lines[at + draw.pick([0, 1]) :] + ([lines[at]] if draw.chance(0.5) else [])
        )
    lines[at] = b" ".join(words)
    return b"\n".join(lines)
