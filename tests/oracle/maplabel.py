"""The commands: what each prints, and how it ends."""

import ml_conflict
import ml_editor
from cases.case import Outcome
from ml_answer import view_json
from ml_cert import read_slots, verdict
from ml_flight import peak, stays
from ml_follow import Follower, read_states
from ml_gaps import longest_gaps
from ml_gen import gen_line
from ml_geojson import read_collection
from ml_http import Map
from ml_pass import Refused, longest_choice, read_table, slots_text
from ml_ratio import fraction_text, whole_within
from ml_style import read_style
from ml_view import read_view, shown
from ml_watch import change_lines, spelt_id

USAGE = "usage: maplabel show, slots, check, view, pipe, serve or gen"


class Stop(Exception):
    """An early end: an exit code, and the line that is due or None."""


class Run:
    """One run of a case, and what it printed so far."""

    def __init__(self, case):
        self.case = case
        self.words = case.words
        self.out, self.err = b"", b""
        self.replies = None

    def load(self, name):
        """The bytes of a file."""
        for front in ("./", "../files/"):
            name = name.removeprefix(front)
        data = self.case.files.get(name)
        if data is None:
            raise Stop(5, "file fault")
        if isinstance(data, int):
            raise Stop(10, "file too long")
        return data

    def read(self, name, what, reader, status=4):
        """What a reader makes of a file."""
        data = self.load(name)
        try:
            return reader(data)
        except Refused as fault:
            raise Stop(status, f"{what} refused: {fault.words()}") from None

    def table(self):
        return self.read(self.words[1], "table", read_table)

    def map(self):
        style = self.read(self.words[1], "style", read_style, 3)
        return self.read(
            self.words[2], "map", lambda data: ml_editor.load(style, read_collection(data))
        )

    def expect(self, is_form):
        if not is_form:
            raise Stop(2, USAGE)

    def view(self, words):
        view = read_view(words)
        self.expect(view is not None)
        return view

    def print(self, text):
        """Prints; where that fails the run ends."""
        if self.case.is_out_full and text:
            raise Stop(7, None)
        self.out += text.encode() if isinstance(text, str) else text


def view_line(scale, labels, spans, view):
    places = shown(labels, spans, view)
    return view_json(scale, [(labels[place], spans[place][1]) for place in places]) + "\n"


def run_show(run):
    view = run.view(run.words[2:])
    labels = run.table()
    spans = [(label.min, end) for label, (end, _) in zip(labels, longest_choice(labels))]
    run.print(view_line(view.scale, labels, spans, view))


def run_gapview(run):
    view = run.view(run.words[2:])
    labels = run.table()
    run.print(view_line(view.scale, labels, longest_gaps(labels), view))


def run_slots(run):
    run.expect(len(run.words) == 2)
    labels = run.table()
    run.print(slots_text(labels, longest_choice(labels)))


def run_gaps(run):
    run.expect(len(run.words) == 2)
    labels = run.table()
    run.print(
        "".join(
            f"{label.id} {fraction_text(begin)} {fraction_text(end)}\n"
            for label, (begin, end) in zip(labels, longest_gaps(labels))
        )
    )


def run_check(run):
    run.expect(len(run.words) == 3)
    labels = run.table()
    slots = run.read(run.words[2], "slots", lambda data: read_slots(labels, data))
    words = verdict(labels, slots)
    run.print(words + "\n")
    return 0 if words == "Best" else 1


def run_view(run):
    view = run.view(run.words[3:])
    state = run.map()
    run.print(view_line(view.scale, state.labels, state.spans, view))


def stay_text(stay):
    begin, is_within, end = stay
    return f"{'[' if is_within else '('}{fraction_text(begin)},{fraction_text(end)})"


def run_zoom(run):
    run.expect(len(run.words) == 7)
    window = run.view([*run.words[3:], "1"])
    state = run.map()
    timelines = [stays(label, end, window) for label, (end, _) in zip(state.labels, state.slots)]
    lines = [
        " ".join([spelt_id(label.id), *map(stay_text, line)]) + "\n"
        for label, line in zip(state.labels, timelines)
        if line
    ]
    count, (where, mark) = peak(timelines)
    run.print("".join(lines) + f"peak {count} {where} {fraction_text(mark)}\n")


def run_pipe(run):
    run.expect(len(run.words) == 3)
    served = Map(run.map())
    if run.case.stdin is None:
        return 6
    replies = served.connection(run.case.stdin, 1 if run.case.is_out_full else None)
    run.err = "".join(served.lines).encode()
    run.print(replies)
    return 0


def run_serve(run):
    run.expect(len(run.words) == 5)
    port = 1 if run.words[3] == "PORT" else whole_within(run.words[3], 1, 65535)
    count = whole_within(run.words[4], 1, 1000000)
    run.expect(None not in (port, count))
    served = Map(run.map())
    if run.case.is_port_taken:
        raise Stop(8, "door fault")
    run.print("ready\n")
    run.replies = [served.connection(b"".join(pieces)) for pieces in run.case.links]
    run.err = "".join(served.lines).encode()
    run.print(f"served {len(run.replies)}\n")


def run_follow(run):
    run.expect(len(run.words) == 2)
    states = run.read(run.words[1], "states", read_states)
    follower, is_best, changes = Follower(), True, []
    try:
        for rev, labels, slots in states:
            line, told = follower.offer(rev, labels, slots)
            changes += told
            is_best = is_best and line.startswith("adopted")
            run.print(line + "\n")
        run.print(follower.held() + "\n")
    finally:
        run.err = change_lines(changes).encode()
    return 0 if is_best else 11


def run_gen(run):
    run.expect(len(run.words) == 3)
    count, seed = whole_within(run.words[1], 1, 6000), whole_within(run.words[2], 0, 4294967295)
    run.expect(None not in (count, seed))
    run.print(gen_line(count, seed))


COMMANDS = {
    "show": run_show,
    "slots": run_slots,
    "check": run_check,
    "gaps": run_gaps,
    "gapview": run_gapview,
    "view": run_view,
    "zoom": run_zoom,
    "pipe": run_pipe,
    "serve": run_serve,
    "follow": run_follow,
    "gen": run_gen,
}


def command_of(words):
    if not words or any(isinstance(word, bytes) for word in words) or words[0] not in COMMANDS:
        raise Stop(2, USAGE)
    return COMMANDS[words[0]]


def run(case):
    """The outcome that is due for a case."""
    ml_conflict.forget()
    this = Run(case)
    try:
        status = command_of(case.words)(this) or 0
    except Stop as stop:
        status, line = stop.args
        try:
            this.print("" if line is None else line + "\n")
        except Stop:
            status = 7
    replies = this.replies
    if case.links is not None and replies is None:
        replies = [b""] * len(case.links)
    return Outcome(status, this.out, this.err, replies)
