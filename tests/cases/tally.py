"""Which answers cases end in, counted by kind, and which were met too seldom."""

import json
import re
from collections import Counter

LEAST = 50
FIELDS = [
    "class",
    "geometry",
    "key",
    "value",
    "font",
    "size",
    "priority",
    "ref",
    "dx",
    "dy",
    "min",
    "max",
    "margin",
]
GEO_FAULTS = ["NotFeature", "BadGeometry", "OutOfRange", "ShortRing"]
STYLE_FAULTS = [
    "1 NotToml",
    "2 Version",
    "3 BadFont",
    *(f"4 BadClass {field}" for field in FIELDS),
    "5 UnknownFont",
    "6 EmptyRange",
]
REASONS = ["NoGeometry", "NoClass", "NoName", "TooWide"]
NAMES = {
    "/view": ["cx", "cy", "w", "h", "s"],
    "/svg": ["cx", "cy", "w", "h", "s"],
    "/tile": ["z", "i", "j"],
    "/why": ["id"],
    "/feature": ["id", "rev"],
    "/style": ["rev"],
}


def due_answers():
    """Every answer that a great run should meet, by group."""
    cases = [
        f"{status} {name}"
        for status, name in [
            (0, "done"),
            (2, "usage"),
            (5, "file fault"),
            (6, "reading failed"),
            (7, "printing failed"),
            (8, "door fault"),
            (10, "file too long"),
        ]
    ]
    cases += [f"1 {name}" for name in ("BadEnd", "Clash", "Uncovered", "BadBlocker")] + ["0 Best"]
    cases += [f"3 style refused: {fault}" for fault in STYLE_FAULTS]
    cases += [f"4 table refused: {fault}" for fault in ("1 BadLine", "2 SameId", "3 Full")]
    cases += ["4 slots refused: 1 BadLine", "4 states refused: 1 BadState", "11 not adopted"]
    cases += [
        f"4 map refused: {fault}"
        for fault in (
            "1 NotJson",
            "2 Deep",
            "3 NotCollection",
            "4 NotFeature",
            "5 BadGeometry",
            "6 OutOfRange",
            "7 ShortRing",
            "9 Full",
        )
    ]
    replies = [
        "431 head",
        "400 request",
        "501 coding",
        "413 size",
        "404 path",
        "405 method",
        "404 Unknown",
        "409 RevMoved",
    ]
    replies += [
        f"400 query {name}"
        for name in dict.fromkeys(name for names in NAMES.values() for name in names)
    ]
    replies += [
        f"422 {name}"
        for name in ("NotJson", "Deep", *GEO_FAULTS, "NoId", "Duplicate", "Unknown", "Full")
    ]
    replies += [f"422 {fault.split(' ', 1)[1]}" for fault in STYLE_FAULTS]
    replies += [
        f"200 {name}" for name in ("view", "svg", "label", "map", "rev", "state", "edit", *REASONS)
    ]
    follows = [
        "adopted",
        "stale",
        *(f"refused {name}" for name in ("BadEnd", "Clash", "Uncovered", "BadBlocker")),
    ]
    return {"cases": cases, "replies": replies, "states": follows}


NEVER = ["status 9 and 503 memory: no case makes memory want", "422 RevEnd: it wants 2^53 edits"]


def first_line(outcome):
    return outcome.out.split(b"\n")[0].decode("utf-8", "replace")


def case_answer(case, outcome):
    """The answer of a case, without places."""
    status, line = outcome.status, first_line(outcome)
    if status in (3, 4):
        words = line.split(" ")
        field = " " + words[-1] if words[3:4] == ["BadClass"] else ""
        return f"{status} {' '.join(words[:4])}{field}"
    if status == 0:
        return "0 Best" if line == "Best" else "0 done"
    if status == 1:
        return f"1 {line.split(' ')[0]}"
    names = {
        2: "usage",
        5: "file fault",
        6: "reading failed",
        7: "printing failed",
        8: "door fault",
        10: "file too long",
        11: "not adopted",
    }
    return f"{status} {names.get(status, '')}"


def split_replies(data):
    """Status, type and body of each whole reply."""
    at = 0
    while True:
        end = data.find(b"\r\n\r\n", at)
        if end < 0:
            return
        head = data[at:end].decode("latin-1")
        length = re.search(r"Content-Length: (\d+)", head)
        size = int(length[1]) if length else 0
        kind = re.search(r"Content-Type: (\S+)", head)
        yield head[9:12], kind[1] if kind else "", data[end + 4 : end + 4 + size]
        at = end + 4 + size


def json_answer(body):
    """A name for a body of JSON."""
    try:
        value = json.loads(body)
    except ValueError:
        return "no JSON"
    if "error" in value:
        places = [str(value[key]) for key in ("name", "field") if key in value]
        return " ".join([value["error"], *places])
    if "reason" in value:
        return value["reason"]
    for key, name in (("labels", "view"), ("changes", "edit"), ("blocker", "label")):
        if key in value and "features" not in value:
            return name
    return "rev"


def reply_answers(data):
    kinds = {"image/svg+xml": "svg", "text/plain": "state", "application/geo+json": "map"}
    for status, kind, body in split_replies(data):
        yield f"{status} {kinds.get(kind) or json_answer(body)}"


def state_answers(outcome):
    for line in outcome.out.decode("utf-8", "replace").splitlines():
        words = line.split(" ")
        if words[0] in ("adopted", "stale"):
            yield words[0]
        elif words[0] == "refused":
            yield f"refused {words[2]}"


class Tally:
    """Counts of answers by kind."""

    def __init__(self):
        self.cases, self.replies, self.states = {}, Counter(), Counter()
        self.refused = Counter()

    def add(self, case, outcome):
        self.cases.setdefault(case.kind, Counter())[case_answer(case, outcome)] += 1
        streams = (
            [outcome.out]
            if case.kind == "pipe" and outcome.status in (0, 6)
            else outcome.replies or []
        )
        replies = [answer for data in streams for answer in reply_answers(data)]
        self.replies.update(replies)
        if outcome.status != 0 or any(not answer.startswith("200 ") for answer in replies):
            self.refused[case.kind] += 1
        if case.kind == "follow" and outcome.status in (0, 11):
            self.states.update(state_answers(outcome))

    def join(self, other):
        for kind, counts in other.cases.items():
            self.cases.setdefault(kind, Counter()).update(counts)
        self.refused.update(other.refused)
        self.replies.update(other.replies)
        self.states.update(other.states)

    def seldom(self):
        """The answers that were met less often than they should be in a great run."""
        met = {
            "cases": sum(self.cases.values(), Counter()),
            "replies": self.replies,
            "states": self.states,
        }
        return [
            f"{answer} ({met[group][answer]})"
            for group, answers in due_answers().items()
            for answer in answers
            if met[group][answer] < LEAST
        ]

    def text(self):
        """The table: for each kind its answers, the most frequent first."""
        lines = []
        for kind, counts in sorted(self.cases.items()):
            whole = sum(counts.values())
            lines.append(f"{kind}: {whole} cases, {self.refused[kind] / whole:.0%} with a refusal")
            lines += answer_lines(counts)
        for title, counts in (
            ("replies of pipe and serve", self.replies),
            ("states of follow", self.states),
        ):
            if counts:
                lines += [f"{title}: {sum(counts.values())}", *answer_lines(counts)]
        return "\n".join(lines)


def answer_lines(counts):
    return [f"  {count:7} {answer}" for answer, count in counts.most_common()]
