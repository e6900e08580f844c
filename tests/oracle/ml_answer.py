"""The texts of replies: JSON with its keys in byte order, and pictures."""

import json

from ml_ratio import fraction_text

STYLE_NAMES = {
    "BadFont": ("font",),
    "BadClass": ("class", "field"),
    "UnknownFont": ("class",),
    "EmptyRange": ("class",),
}
PLACES = {
    "RevMoved": ("rev",),
    "NotJson": ("at",),
    "Deep": ("at",),
    "Duplicate": ("id",),
    "Unknown": ("id",),
    **STYLE_NAMES,
}


def compact(value):
    return json.dumps(value, ensure_ascii=False, separators=(",", ":"), sort_keys=True)


def view_json(scale, shown):
    """The view of labels with the ends of their ranges."""
    labels = [
        {
            "at": [label.x, label.y],
            "boxes": label.boxes,
            "id": label.id,
            "text": label.text(),
            "until": fraction_text(until),
        }
        for label, until in shown
    ]
    return compact({"labels": labels, "scale": fraction_text(scale)})


def slot_json(label, until, blocker):
    ends = {"min": label.min, "max": label.max, "until": until}
    return compact(
        {
            "blocker": blocker,
            "id": label.id,
            **{key: fraction_text(end) for key, end in ends.items()},
        }
    )


def reason_json(ident, reason):
    return compact({"id": ident, "reason": reason})


def span_value(span):
    return None if span is None else [fraction_text(end) for end in span]


def edit_json(rev, changes):
    told = [
        {"after": span_value(new), "before": span_value(old), "id": ident}
        for ident, old, new in changes
    ]
    return compact({"changes": told, "rev": rev})


def rev_json(rev, features, labels):
    return compact({"features": features, "labels": labels, "rev": rev})


def fault_json(fault):
    """The body that tells why an edit was refused; a feature's number is not told."""
    names = PLACES.get(fault.name, ())
    return compact({"error": fault.name, **dict(zip(names, fault.places))})


def query_json(name):
    return compact({"error": "query", "name": name})


def write_px(hundredths):
    sign = "-" if hundredths < 0 else ""
    return f"{sign}{abs(hundredths) // 100}.{abs(hundredths) % 100:02d}"


def escaped(text):
    return text.replace("&", "&amp;").replace("<", "&lt;").replace(">", "&gt;")


def svg_text(view, labels):
    """The picture of a view's labels, a line for each box."""
    lines = [
        f'<svg xmlns="http://www.w3.org/2000/svg" width="{view.w}" height="{view.h}" '
        f'viewBox="0 0 {view.w} {view.h}">\n'
    ]
    over, under = view.scale.numerator, view.scale.denominator
    for label in labels:
        east = 100 * (label.x - view.cx) * under // over
        south = -100 * (label.y - view.cy) * under // over
        for (left, bottom, right, top), piece in zip(label.boxes, label.pieces):
            x, y = 100 * (view.w // 2 + left) + east, 100 * (view.h // 2 - bottom) + south
            lines.append(
                f'<text x="{write_px(x)}" y="{write_px(y)}" font-size="{top - bottom}" '
                f'textLength="{right - left}">{escaped(piece)}</text>\n'
            )
    return "".join([*lines, "</svg>\n"])
