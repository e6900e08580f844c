"""Opens a page of web/ in Chromium, waits for its names, takes a picture, and prints the names that
it has drawn.

  look.py ADDRESS PICTURE
"""

import json
import sys

from chromium import Browser

READY = 'typeof page !== "undefined" && page && page.names.drawn().length > 0'


def look(address: str, picture: str) -> None:
    """Prints the names of a page."""
    with Browser(1024, 768) as browser:
        browser.open(address)
        browser.wait(READY, "names are drawn", 60)
        browser.picture(picture)
        print(json.dumps(browser.tell("page.names.drawn()")))


if __name__ == "__main__":
    look(*sys.argv[1:])
