"""What a server holds, as far as it is known, and the edits that make it hold what a source has.

Each edit is guarded by the revision, so none is made to a map that another client has edited
meanwhile."""

from collections.abc import Callable, Iterable, Iterator

from maplabel_source import geojson, server

Edit = tuple[str, str, str | None]
Texts = dict[str, str]


class Tally:
    """What became of edits: how many were made of each kind, and the words in which each (id,
    text) was refused."""

    def __init__(self) -> None:
        self.made = {"DELETE": 0, "PUT": 0, "POST": 0}
        self.refused: dict[tuple[str, str | None], str] = {}

    def allowed(self, wanted: Texts, held: Texts) -> Texts:
        """What can be reached of what is wanted: where a text was refused, the feature stays as
        it is held."""
        texts = {
            name: held.get(name) if (name, text) in self.refused else text
            for name, text in wanted.items()
        }
        return {name: text for name, text in texts.items() if text is not None}

    def line(self) -> str:
        """The counts in words."""
        return "removed %d, replaced %d, added %d, refused %d" % (
            *self.made.values(),
            len(self.refused),
        )


def plan(held: Texts, wanted: Texts, in_order: bool) -> list[Edit]:
    """The edits, as (method, id, text), from what is held to what is wanted, both dictionaries
    in order.

    Removals come first, so that there is room, then replacements, then additions in the order of
    the source. The last feature is removed first: behind it the server has no others to move up.
    The server puts what is added behind all else and a replacement in the place of the old one. So
    with the fewest edits the order is reached where the features that stay stand in one order on
    both sides and before all new ones. With `in_order` those behind the first that stands elsewhere
    are removed and added again.
    """
    stay = held.keys() & wanted.keys()
    if in_order:
        faulty = {name for name in stay if isinstance(wanted[name], geojson.Faulty)}
        stay = faulty.union(
            leading(
                held,
                [name for name, text in wanted.items() if not isinstance(text, geojson.Faulty)],
            )
        )
    edits: list[Edit] = [("DELETE", name, None) for name in reversed(held) if name not in stay]
    edits += [
        ("PUT", name, text) for name, text in wanted.items() if name in stay and held[name] != text
    ]
    return edits + [("POST", name, text) for name, text in wanted.items() if name not in stay]


def leading(held: Texts, wanted: Iterable[str]) -> Iterator[str]:
    """The first ids that are wanted, as many of them as stand in this order among those that are
    held."""
    places, last = {name: place for place, name in enumerate(held)}, -1
    for name in wanted:
        if places.get(name, -1) <= last:
            return
        last = places[name]
        yield name


class Mirror:
    """A server and what it is known to hold: texts by ids, in order, at a revision."""

    def __init__(
        self, link: server.Server, on_change: Callable[[str], object] = lambda line: None
    ) -> None:
        self.link, self.on_change = link, on_change
        self.texts: Texts = {}
        self.rev = 0
        self.data: bytes | None = None

    def read(self) -> bool:
        """Asks the server for all that it holds. True where that differs from what it held when
        last asked."""
        data, self.rev = self.link.map()
        if data == self.data:
            return False
        try:
            self.texts = geojson.read_export(data)
        except (geojson.NoMap, ValueError, KeyError) as error:
            raise server.Unfit("/map does not answer as maplabel does: %s" % error) from None
        self.data = data
        return True

    def send(self, method: str, name: str, text: str | None, is_last: bool) -> None:
        """Sends one edit, and knows afterwards what the server holds; behind the last the
        connection ends."""
        made = self.link.edit(method, self.rev, name, text, is_last)
        self.rev, self.data = made.rev, None
        if text is None:
            del self.texts[name]
        else:
            self.texts[name] = text
        for change in made.changes:
            self.on_change(server.change_line(change))

    def send_all(self, edits: list[Edit], tally: Tally) -> None:
        """Sends edits one after another and goes on behind a refusal; closes the connection at
        the end."""
        try:
            for place, (method, name, text) in enumerate(edits, 1):
                try:
                    self.send(method, name, text, place == len(edits))
                    tally.made[method] += 1
                except server.Refused as refusal:
                    tally.refused[name, text] = str(refusal)
        finally:
            self.link.close()

    def edits_to(self, wanted: Texts, tally: Tally, in_order: bool = False) -> list[Edit]:
        """The edits that are left to reach what is wanted, but for what was refused."""
        return plan(self.texts, tally.allowed(wanted, self.texts), in_order)

    def reach(self, wanted: Texts, tally: Tally, in_order: bool = False) -> None:
        """Sends and asks anew what the server holds, until nothing is left to send."""
        last = None
        while edits := self.edits_to(wanted, tally, in_order):
            if edits == last:
                raise server.Unfit(
                    "feature %s is not kept as it was sent, or another client changes it back"
                    % edits[0][1]
                )
            self.send_all(edits, tally)
            self.read()
            last = edits
