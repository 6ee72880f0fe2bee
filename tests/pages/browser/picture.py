#!/usr/bin/env python3
"""Makes the picture of a page: picture.py CHROMIUM PAGE PNG [PLACE]. docs/page.png is that of README's page, at the total of the 5th of March:

./backfill page examples/failed_day/graph.json examples/failed_day/report.txt > page.html
tests/pages/browser/picture.py chromium "$PWD/page.html" docs/page.png 2024-03-05T00:00:00Z/total
"""
import shutil
import sys
import time

import chromium


def main(program, page, picture, place=""):
    browser = chromium.Browser(shutil.which(program))
    try:
        browser.has_size(1000, 560)
        browser.open(f"file://{page}#{place}")
        time.sleep(0.3)
        browser.picture(picture)
    finally:
        browser.close()


if __name__ == "__main__":
    main(*sys.argv[1:])
