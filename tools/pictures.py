#!/usr/bin/env python3
"""Takes the screenshots of the web page that docs/ shows.

    tools/pictures.py [PAGE]

- page.png: an accepted and a rejected file;
- page_narrow.png: the same two files in dark colours on a narrow screen;
- page_project.png: a project's page, which contains the key and a signature, so that the user chooses only the download.

PAGE is the HTML file of the page; the default is dist/minisign.html. Needs Chromium, as tests/page/page.py does.
"""

import base64
import os
import sys
import tempfile

TOP = os.path.dirname(os.path.dirname(os.path.realpath(__file__)))
sys.path += [os.path.join(TOP, directory) for directory in (os.path.join("tests", "shared"), os.path.join("tests", "page"), "page")]

import build
import needs
from browser import Chromium
from running import read
from texts import CORPUS

PUBLISHED = "RWQf6LRCGA9i53mlYecO4IzT51TGPpvWucNSCh1CBM0QTaLn73Y7GFO3"


def choose_files(person, *names):
    """Chooses these files of the corpus together, as a user does, and waits for the verdicts."""
    person.choose(*(os.path.join(CORPUS, name) for name in names))
    person.wait_seen("progress")


def take_picture(person, name, width, scheme):
    """Writes a screenshot of the whole page to a file in docs/, with this width in pixels and this colour scheme."""
    person.set_media("prefers-color-scheme", scheme)
    person.resize(width, 640)
    person.run("scrollTo(0, 0); document.activeElement.blur()")
    person.resize(width, person.run("return document.documentElement.scrollHeight"))
    screenshot = person.command("Page.captureScreenshot", format="png")
    with open(os.path.join(TOP, "docs", name), "wb") as file:
        file.write(base64.b64decode(screenshot["data"]))


def main():
    page = os.path.realpath(sys.argv[1] if len(sys.argv) > 1 else os.path.join(TOP, "dist", "minisign.html"))
    with tempfile.TemporaryDirectory() as directory:
        person = Chromium(*needs.chromium(), directory)
        try:
            person.begin(PUBLISHED, address=f"file://{page}")
            choose_files(person, "test", "published.minisig")
            choose_files(person, "hello", "hello.minisig")
            take_picture(person, "page.png", 720, "light")
            take_picture(person, "page_narrow.png", 360, "dark")
            project_page = os.path.join(directory, "project.html")
            signature = ("test.minisig", read(CORPUS, "published.minisig").decode())
            with open(project_page, "w", encoding="utf-8") as file:
                file.write(build.page(*build.module_of_page(page), PUBLISHED, "Verify a download of Example", [signature]))
            person.open(f"file://{project_page}")
            choose_files(person, "test")
            take_picture(person, "page_project.png", 390, "light")
        finally:
            person.quit()


if __name__ == "__main__":
    main()
