"""What a server is asked: edits and views."""

from collections.abc import Sequence
from random import Random

from against_parts.maps import Feature

REQUESTS = 1000  # as many as a connection may have


def request(method: str, target: str, body: str = "") -> str:
    """The text of a request."""
    length = f"Content-Length: {len(body.encode())}"
    return f"{method} {target} HTTP/1.1\r\nHost: a\r\n{length}\r\n\r\n{body}"


def edits(draw: Random, count: int, features: Sequence[Feature]) -> bytes:
    """So many edits by twos: a feature is taken out, and the same one put in again."""
    text = []
    for it in draw.choices(features, k=count // 2):
        text.append(
            request("DELETE", f"/feature?id={it.ident}") + request("POST", "/feature", it.text)
        )
    return "".join(text).encode()


def views(draw: Random, places: Sequence[tuple[int, int]], scales: Sequence[str]) -> bytes:
    """The views of a connection: 1024 by 768 pixels at one of the scales, near one of the
    places.
    """
    text = []
    for x, y in draw.choices(places, k=REQUESTS):
        x, y = x + draw.randint(-2000, 2000), y + draw.randint(-2000, 2000)
        text.append(request("GET", f"/view?cx={x}&cy={y}&w=1024&h=768&s={draw.choice(scales)}"))
    return "".join(text).encode()


def put_in_and_out(count: int, it: Feature) -> bytes:
    """So many edits by twos: the feature is put in, and taken out again."""
    both = request("POST", "/feature", it.text) + request("DELETE", f"/feature?id={it.ident}")
    return (count // 2 * both).encode()


def made_first(draw: Random, count: int, features: Sequence[Feature]) -> bytes:
    """So many edits, each of which gives a feature a rank above all others."""
    text = []
    for number, it in enumerate(draw.choices(features, k=count)):
        front, _, behind = it.text.rpartition('"pop":')
        more = f'"pop":{2_000_000 + number}{behind.lstrip("0123456789")}'
        text.append(request("PUT", "/feature", front + more))
    return "".join(text).encode()
