"""The bare port of the engine in a browser: its replies as pages, browsers that are killed, edits
from other pages.
"""
import json
import os
import subprocess
import time

from chromium import Browser, Fault
from servers import WEB, Pages


def curl(port: int, target: str) -> bytes:
    """The reply of the engine to a client of its own."""
    got = subprocess.run(
        ["curl", "-fsS", "-m", "5", "http://127.0.0.1:%d%s" % (port, target)], capture_output=True
    )
    return got.stdout if got.returncode == 0 else b"curl: %d" % got.returncode


def own_pages(port: int, folder: str) -> None:
    """/svg and /view as pages of their own."""
    with Browser() as browser:
        browser.open("http://127.0.0.1:%d/svg?cx=0&cy=0&w=1000&h=500&s=3515625" % port)
        count = browser.tell('document.getElementsByTagName("text").length')
        browser.picture(os.path.join(folder, "svg-page.png"))
        browser.open(
            "http://127.0.0.1:%d/view?cx=85000000&cy=468000000&w=256&h=128&s=320000" % port
        )
        labels = browser.tell("JSON.parse(document.body.innerText).labels.length")
        if not count or not labels:
            raise Fault("pages of their own: %s names as SVG, %s as JSON" % (count, labels))
        print("pages of their own: %d names as SVG, %d as JSON" % (count, labels))


def gone_in_reply(port: int) -> None:
    """Browsers that are killed while replies are on their way; the next client is answered each
    time.
    """
    for tries in range(5):
        with Browser() as browser:
            os.write(
                browser.writes,
                json.dumps(
                    {
                        "id": 0,
                        "method": "Page.navigate",
                        "sessionId": browser.session,
                        "params": {"url": "http://127.0.0.1:%d/map" % port},
                    }
                ).encode()
                + b"\0",
            )
            time.sleep(0.02 * tries)
        if not curl(port, "/rev").startswith(b'{"features":'):
            raise Fault("the next client was not answered")
    print("killed with a reply on its way, 5 times: the next client was answered")


def page_edits(port: int) -> None:
    """What a page from a file may do to the map: a plain POST is an edit, other methods are not
    sent.
    """
    before = json.loads(curl(port, "/rev"))
    with Browser() as browser:
        browser.open("file://%s/plain.html" % WEB)
        script = "fetch('http://127.0.0.1:%d/feature%s', %s).then(r => 'read', e => 'refused')"
        body = "'" + json.dumps({"type": "Feature", "id": "page", "geometry": None}) + "'"
        posted = browser.tell(script % (port, "", "{method: 'POST', body: %s}" % body))
        deleted = browser.tell(script % (port, "?id=page", "{method: 'DELETE'}"))
    after = json.loads(curl(port, "/rev"))
    if (posted, deleted) != ("refused", "refused") or after["features"] != before["features"] + 1:
        raise Fault("a POST was %s, a DELETE %s, %s became %s" % (posted, deleted, before, after))
    print("a POST from a page: its reply stays hidden, and the edit is made; a DELETE is not sent")


def bare(pages: Pages, folder: str) -> None:
    own_pages(pages.engine.port, folder)
    gone_in_reply(pages.engine.port)
    page_edits(pages.engine.port)
