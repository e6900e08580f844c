"""What becomes of the server: held by another client, gone and back, its map edited; many requests
in turn; and all but the last behind nginx too.
"""
import os
import socket
import subprocess
import time
from pathlib import Path

from chromium import Browser, Fault
from servers import STYLE, WEB, Nginx, Pages
from steady import SETTLED

USTER = (
    b'{"type":"Feature","id":"x1","properties":{"name":"Uster","place":"city","pop_est":35000},'
    b'"geometry":{"type":"Point","coordinates":[8.72,47.35]}}'
)
NOTE = "page.panel.note.textContent"
NAMES = "page.names.drawn().map(one => one.text)"


def held(pages: Pages, folder: str) -> None:
    """While another client holds the server the page says so within three seconds, and goes on by
    itself after it.
    """
    with Browser() as browser:
        browser.open(pages.base + "/mercator.html#lat=48&lng=10&z=5")
        browser.wait(SETTLED, "the names have come")
        before = browser.tell(NAMES)
        with socket.create_connection(("127.0.0.1", pages.engine.port)):
            time.sleep(0.2)
            begin = time.monotonic()
            browser.wheel(640, 400, -120)
            browser.wait(
                NOTE + ".includes('Another client holds the server')",
                "the page says that the server is held",
                10,
            )
            took = time.monotonic() - begin
            browser.picture(os.path.join(folder, "held.png"))
            if not browser.tell(NAMES):
                raise Fault("the names are gone while the server is held")
        browser.wait(SETTLED + ' && page.source.state === "good"', "the page goes on", 15)
        browser.wait(NOTE + ".includes('back')", "the page says that the server is back", 5)
        if took > 6:
            raise Fault("it took %.1f seconds until the page said that the server is held" % took)
        print("held: told after %.1f s, %d names stayed; went on by itself" % (took, len(before)))


def gone(pages: Pages, folder: str) -> None:
    """A server that goes is told, with what is drawn kept, and asked anew with growing pauses until
    it comes back.
    """
    with Browser() as browser:
        browser.open(pages.base + "/plain.html#cx=85000000&cy=468000000&s=500000")
        browser.wait(SETTLED, "the names have come")
        before = browser.tell(NAMES)
        pages.engine.end()
        browser.key("ArrowRight")
        browser.wait(NOTE + ".includes('does not answer')", "the page says that the server is gone")
        begun = browser.tell("page.source.count")
        time.sleep(6)
        asked = browser.tell("page.source.count") - begun
        browser.key("ArrowLeft")
        kept = browser.tell(NAMES)
        browser.picture(os.path.join(folder, "gone.png"))
        pages.engine.start()
        begin = time.monotonic()
        browser.wait(SETTLED + ' && page.source.state === "good"', "the page goes on", 40)
        browser.wait(NOTE + ".includes('back')", "the page says that the server is back", 5)
        if not kept or not 2 <= asked <= 8:
            raise Fault(
                "while the server was gone %d names were kept, and it was asked %d times in 6"
                " seconds" % (len(kept), asked)
            )
        print(
            "gone: %d names, and after a step %d; asked %d times in 6 s, back %.1f s after the"
            " server" % (len(before), len(kept), asked, time.monotonic() - begin)
        )


def edit(pages: Pages, folder: str) -> None:
    """An edit of another client is seen without a touch."""
    with Browser() as browser:
        browser.open(pages.base + "/mercator.html#lat=48&lng=10&z=5")
        browser.wait(SETTLED, "the names have come")
        if "Geneva" not in browser.tell(NAMES):
            raise Fault("Geneva is not shown")
        pages.ask("/feature?id=%23186", "DELETE")
        begin = time.monotonic()
        browser.wait("!%s.includes('Geneva')" % NAMES, "Geneva goes", 15)
        took = time.monotonic() - begin
        browser.wait(NOTE + ".includes('revision 1')", "the page tells the revision", 5)
        pages.ask("/feature", "POST", USTER)
        browser.tell("void page.leaflet.setView([47.35, 8.72], 10)")
        browser.wait(NAMES + ".includes('Uster')", "Uster comes", 15)
        browser.click(1100, 30)
        browser.type_text("uster")
        browser.wait("page.panel.list.innerText.includes('Uster')", "Uster is found")
        print("edit: seen after %.1f s; a name that was added is shown and found" % took)
    with Browser() as browser:
        browser.open(pages.base + "/plain.html#cx=85000000&cy=468000000&s=50000&poll=no")
        browser.wait(SETTLED, "the names have come")
        pages.ask("/feature?id=x1", "DELETE")
        time.sleep(4)
        if "Uster" not in browser.tell(NAMES):
            raise Fault("with poll=no the page asked for the revision")
        browser.tell("page.panel.again.click()")
        browser.wait("!%s.includes('Uster')" % NAMES, "Uster goes once the button is pressed")


def many(pages: Pages, folder: str) -> None:
    """2,000 views in turn, over one connection; and whatever is asked at once, one request is under
    way at a time.
    """
    with Browser() as browser:
        browser.open(pages.base + "/plain.html#cx=0&cy=0&s=20000&poll=no")
        browser.wait(SETTLED, "the names have come")
        time.sleep(0.5)
        before, begin = pages.connections(), time.monotonic()
        bad, opened = browser.tell(
            """(async () => {
            performance.clearResourceTimings(); performance.setResourceTimingBufferSize(3000)
            let bad = 0
            for (let k = 0; k < 2000; k++)
              try {
                const at = `cx=${k * 100000}&cy=${k * 50000}`
                const view = await page.source.json(`/view?${at}&w=1024&h=768&s=700000`)
                if (!view.labels) bad++
              } catch { bad++ }
            const all = performance.getEntriesByType('resource')
            const found = all.filter(one => one.name.includes('/view'))
            const opened = found.filter(one => one.connectEnd > one.connectStart).length
            return [bad + Math.max(0, 2000 - found.length), opened] })()"""
        )
        took = time.monotonic() - begin
        if bad or opened or pages.connections() > before:
            raise Fault(
                "of 2,000 views %d failed, %d opened a connection, there were %d connections before"
                " and %d after" % (bad, opened, before, pages.connections())
            )
        most = browser.tell(
            """(async () => {
            const own = window.fetch
            let under = 0, most = 0
            window.fetch = async (...words) => {
              most = Math.max(most, ++under)
              try { return await own(...words) } finally { under-- }
            }
            const asked = Array.from({ length: 20 }, () => page.source.json('/rev'))
            page.map.move(400, 0); page.find('Prague'); page.ask('#160'); page.renew()
            await Promise.all(asked)
            return most })()"""
        )
        if most != 1:
            raise Fault("%d requests were under way at once" % most)
        print("2,000 views in turn: all answered over a connection that was there, %.1f s" % took)


def styled(proxied: Nginx, folder: str) -> None:
    """Behind nginx too the page tells classes apart, by the file that web/export describes."""
    words: list[str | Path] = [WEB / "export", "--describe", STYLE]
    if subprocess.run([*words, proxied.published / "style.json"], check=False).returncode != 0:
        raise Fault("web/export does not describe the style")
    with Browser() as browser:
        browser.open(proxied.base + "/mercator.html#lat=48&lng=10&z=5")
        browser.wait(SETTLED + " && page.facts.style", "the page learns the style from nginx", 10)
        looks = browser.tell(
            "Object.fromEntries(page.names.placed.map(({ label }) => [label.value,"
            " page.lookOf(label).colour]))"
        )
        browser.picture(os.path.join(folder, "nginx-style.png"))
        kinds = {value.split(" ")[0] for value in looks if value}
        if kinds != {"city", "country"} or looks["country 3"] == looks["city 3"]:
            raise Fault(f"behind nginx classes look as {looks}")
        print(f"nginx: {len(looks)} classes are told apart by style.json")


def nginx(pages: Pages, folder: str) -> None:
    proxied = Nginx(pages.engine)
    with proxied:
        styled(proxied, folder)
        for part in (held, gone, edit):
            part(proxied, folder)
