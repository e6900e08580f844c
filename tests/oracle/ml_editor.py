"""A map that is edited: each state is worked out anew from style and features."""

import ml_geojson
from ml_conflict import are_rivals
from ml_follow import LAST_REVISION
from ml_label import NoLabel, label_of
from ml_pass import MOST_LABELS, Refused, longest_choice
from ml_style import read_style
from ml_watch import changes_between

MOST_FEATURES = MOST_LABELS


class State:
    """A style, features and a revision, with all that follows from them."""

    def __init__(self, style, features, rev=0, before=None):
        self.style, self.features, self.rev = style, features, rev
        self.standing = self.stand(before)
        labels = [label for label in self.standing.values() if not isinstance(label, str)]
        self.labels = sorted(labels, key=lambda label: label.order)
        self.slots = longest_choice(self.labels)
        self.spans = [(label.min, end) for label, (end, _) in zip(self.labels, self.slots)]

    def stand(self, before):
        """Of each feature its label, or the reason for none; those of equal features are kept."""
        same = before.standing if before and before.style is self.style else {}
        standing = {}
        for ident, feature in self.features.items():
            if ident in same and before.features[ident] is feature:
                standing[ident] = same[ident]
                continue
            try:
                standing[ident] = label_of(self.style, feature)
            except NoLabel as reason:
                standing[ident] = str(reason)
        return standing

    def told(self):
        return {label.id: (label.content(), span) for label, span in zip(self.labels, self.spans)}


def load(style, features):
    """The first state of a map; features come with different ids."""
    if len(features) > MOST_FEATURES:
        raise Refused(9, "Full")
    return State(style, {feature.id: feature for feature in features})


def check_revision(state, rev):
    if rev is not None and rev != state.rev:
        raise Refused(1, "RevMoved", state.rev)


def next_state(state, style, features):
    """The state after an edit, and its changes."""
    if state.rev == LAST_REVISION:
        raise Refused(6, "RevEnd")
    after = State(style, features, state.rev + 1, state)
    return after, changes_between(state.told(), after.told())


def add(state, rev, body):
    check_revision(state, rev)
    feature = ml_geojson.read_feature(body)
    if feature.id in state.features:
        raise Refused(3, "Duplicate", feature.id)
    if len(state.features) == MOST_FEATURES:
        raise Refused(5, "Full")
    return next_state(state, state.style, {**state.features, feature.id: feature})


def replace(state, rev, body):
    check_revision(state, rev)
    feature = ml_geojson.read_feature(body)
    if feature.id not in state.features:
        raise Refused(4, "Unknown", feature.id)
    return next_state(state, state.style, {**state.features, feature.id: feature})


def remove(state, rev, ident):
    check_revision(state, rev)
    if ident not in state.features:
        raise Refused(4, "Unknown", ident)
    return next_state(
        state, state.style, {key: value for key, value in state.features.items() if key != ident}
    )


def restyle(state, rev, body):
    check_revision(state, rev)
    return next_state(state, read_style(body), state.features)


def cost(before, after, ident):
    """How many labels an addition or a removal of the label with this id evaluates."""
    ends = [
        {label.id: end for label, (end, _) in zip(state.labels, state.slots)}
        for state in (before, after)
    ]
    labels = {label.id: label for state in (before, after) for label in state.labels}
    moved = [
        label
        for label in labels.values()
        if label.id == ident or ends[0].get(label.id) != ends[1].get(label.id)
    ]
    touched = {ident} if ident in ends[1] else set()
    for label in after.labels:
        if label.id != ident and any(
            high.order < label.order and are_rivals(label, high) for high in moved
        ):
            touched.add(label.id)
    return len(touched)
