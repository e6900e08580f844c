"""What is wrong with a table, with slots or with states that the program refuses."""

import re

from maplabel_kit import excerpts
from maplabel_kit.told import Told

FORM = "a line is `ID X Y MIN MAX BOX ..`, as `A 0 0 0 1000 -10,-5,10,5`, one space between"
WHOLE = re.compile(r"-?\d{1,10}")
FRACTION = re.compile(r"\d{1,10}(/\d{1,10})?")
BOX = re.compile(r"-?\d+,-?\d+,-?\d+,-?\d+")


def told_of(kind: str, words: list[str], data: bytes) -> Told:
    """What is known of a fault, from the kind of file and the words behind `KIND refused: N`."""
    name = words[0]
    if name == "Full":
        return Told(
            "there are more than 32,768 labels", todo="leave out the last lines, or cut it by place"
        )
    number = int(words[1])
    text = data.decode("utf-8", "replace")
    lines = text.split("\n")
    line = lines[number - 1].rstrip("\r") if number <= len(lines) else ""
    place = excerpts.at(text, number, 1) if data else None
    if name == "SameId":
        own = line.split(" ")[0]
        return Told(
            f'line {number} has the id "{own}", which an earlier line has',
            todo=f"give it an id of its own, as {own}#2, or leave the line out",
            place=place,
        )
    if kind == "table":
        return Told(f"line {number}: {_bad_line(line)}", FORM, place=place)
    if kind == "slots":
        return Told(
            f"line {number} is not the slot of the label that is due there",
            "a slot is `ID UNTIL BLOCKER`, one for each label in the order of the table",
            "`maplabel slots TABLE` makes them anew",
            place,
        )
    return Told(
        f"line {number} is not the line of a state that is due there",
        "a state is `state REV COUNT` and so many lines of labels, as /state gives it",
        place=place,
    )


def _bad_line(line: str) -> str:
    """What is wrong with a line of a table."""
    if "\t" in line:
        return "there is a tab; fields are parted by one space"
    fields = line.split(" ")
    if "" in fields:
        return "there are two spaces, or one at an end"
    if len(fields) < 6:
        return f"it has {len(fields)} fields, and at least 6 are due"
    own, x, y, least, most, *boxes = fields
    if not re.fullmatch(r"[!-~]{1,64}", own) or own == "-":
        return "the id is not of 1 to 64 printing ASCII characters"
    for what, value, form in (
        ("X", x, WHOLE),
        ("Y", y, WHOLE),
        ("MIN", least, FRACTION),
        ("MAX", most, FRACTION),
    ):
        if not form.fullmatch(value):
            point = "; it has a decimal point" if "." in value else ""
            return f"{what} is {value}, which is no number as it is due{point}"
    wrong = [one for one in boxes if not BOX.fullmatch(one)]
    if wrong:
        return f"{wrong[0]} is no box, as -10,-5,10,5 is"
    for one in boxes:
        left, bottom, right, top = map(int, one.split(","))
        if left >= right or bottom >= top:
            return f"the box {one} has its left side not below its right, or bottom not below top"
    return "a number is beyond its bounds, or MIN is not below MAX"
