#!/usr/bin/env python3
"""Draws the pictures of pages in docs/: `office_page.png`, the office of two providers of examples/office.domain before a link fails there, as its
page shows the failure of the link to provider A.

usage: NCROUTE=PATH scripts/picture_pages.py [FOLDER]        (PATH: the program; FOLDER: for the pictures in place of docs/)
"""
import os
import pathlib
import sys
import tempfile

import page_oracle
from lib.chromium import Chromium
from lib.program import TOP, built

WIDTH, HEIGHT = 1200, 860

# A picture, the example that it is of, and what is chosen there. Of the example's script only the lines that set the domain up are taken.
PICTURES = (("office_page.png", "office", "#fail=0-4&node=6"),)
SETS_UP = ("domain", "prefix", "load", "code", "link", "import", "export")


def set_up(text):
    """The lines of a script up to the first that does more than set a domain up; numbers of lines stay."""
    lines = text.split("\n")
    asks = next((at for at, line in enumerate(lines) if line and not line.startswith("#") and line.split()[0] not in SETS_UP), len(lines))
    return "\n".join(lines[:asks]) + "\n"


def main(words):
    folder = pathlib.Path(words[0] if words else TOP / "docs")
    with tempfile.TemporaryDirectory() as here, Chromium(WIDTH, HEIGHT) as chromium:
        chromium.ask("Emulation.setDeviceMetricsOverride", width=WIDTH, height=HEIGHT, deviceScaleFactor=1, mobile=False)
        for name, example, chosen in PICTURES:
            script = set_up((TOP / "examples" / f"{example}.domain").read_text(encoding="utf-8"))
            data = page_oracle.Domain(os.path.abspath(built()), script.encode()).data()
            path = pathlib.Path(here, "page.html")
            path.write_text(page_oracle.page(f"examples/{example}.domain", data), encoding="utf-8")
            chromium.open(path.as_uri() + chosen)
            chromium.run("new Promise((done) => setTimeout(done, 500))")
            chromium.picture(folder / name)


if __name__ == "__main__":
    main(sys.argv[1:])
