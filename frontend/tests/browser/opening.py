#!/usr/bin/env python3
"""Says how long a headless Chromium takes to open a page of so many points, made as `big_text.py` makes them.

    opening.py [POINTS]

It prints the main thread's own time, and the time to the load event on the machine as it is; without POINTS, of
20,000. Run by hand.
"""

import os
import sys
import tempfile

import paths  # noqa: F401 (it puts these on the path)
from devtools import Browser
from test_page_browser import large

from nllc_tools.views.html.page import page

TIMES = 5


def main(points):
    with tempfile.TemporaryDirectory() as folder, Browser() as browser:
        path = os.path.join(folder, "large.html")
        with open(path, "w", encoding="utf-8") as file:
            print(f"{file.write(page(large(points))):,} characters")
        for _ in range(TIMES):
            shown = browser.open(path, 1440, 900, metrics=True)
            shown.value("document.body.getBoundingClientRect().height")
            loaded = shown.value("performance.getEntriesByType('navigation')[0].loadEventEnd") / 1000
            print(f"main thread {shown.seconds():.2f} s, loaded after {loaded:.2f} s")
            shown.close()


if __name__ == "__main__":
    main(int(sys.argv[1]) if len(sys.argv) > 1 else 20_000)
