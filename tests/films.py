"""What the tests of films share: the scripts that are filmed, films, and cases that need a browser.

    python3 -m tests.films

makes the films of docs/films, and with chromium the picture of the one that is kept in git; `make films` calls it.
"""

import atexit
import base64
import functools
import json
import os
import re
import shutil
import subprocess
import sys
import tempfile
import time
import zlib

from tests.browser import PATIENCE, Browser, found
from tests.generator import BUSY, Maker
from tests.support import TOP, Case, read, run, tool, tool_here

from pp6600 import Console
from pp6600.front.film.joining import joined

FOLDER = os.path.join(TOP, "docs", "films")
LOADER, CARDS = "examples/overwritten-loader", "exercises/dead-start-from-cards"
# The films of docs/films, each with the options and the files of its script.
SHOWN = {
    "handshake": ((), ("examples/handshake/script",)),
    "console-display": (("--device", "console_display@10", "--source", "0", "examples/console-display/display.pp"),
                        ("examples/console-display/script",)),
    "overwritten-loader": (("--source", "0", f"{LOADER}/loader.pp", "--deck", f"{LOADER}/deck"), (f"{LOADER}/script",)),
    "dead-start-from-cards": (("--panel", f"{CARDS}/solution/panel", "--deck", f"{CARDS}/deck"),
                              (f"{CARDS}/script", f"{CARDS}/check")),
}
DEVICES = ("--central", "32", "--panel", "examples/dead-start/panel", "--deck", "examples/read-a-deck/deck")  # of random sessions
# The film that has a picture, and where the picture is taken.
PICTURED, MOMENT, SIZE = "overwritten-loader", "#turn=405&place=M+0+106", (1280, 800)


ROOM = tempfile.TemporaryDirectory(prefix="pp6600-films-")  # of the films that several tests look at
atexit.register(ROOM.cleanup)


@functools.cache
def shown_film(name):
    """Makes a film of docs/films, and returns the path of its page."""
    options, files = SHOWN[name]
    path = os.path.join(ROOM.name, f"{name}.html")
    done = tool("film", *options, "--title", name.replace("-", " "), "-o", path, script=text_of(*files))
    if done.status:
        raise RuntimeError(done.err)
    return path


@functools.cache
def class_page():
    """Makes the page of a class, and returns its path."""
    path = os.path.join(ROOM.name, "class.html")
    done = run("exercises/hand-out", path)
    if done != (f"hand-out: {path} has 8 exercises\n", "", 0):
        raise RuntimeError(done)
    return path


def stored():
    """Returns the names of the films that are in docs/films: the one that is kept in git, and those that `make films` has made."""
    return [name for name in SHOWN if name == PICTURED or os.path.exists(os.path.join(FOLDER, f"{name}.html"))]


def in_node(name, *words):
    """Runs a module of this folder, joined with those of the page that it imports, in Node. Returns the lines of its output."""
    path = os.path.join(ROOM.name, name)
    with open(path, "w", encoding="utf-8") as file:
        file.write(joined(os.path.join(TOP, "tests", name)))
    done = subprocess.run(["node", path, *words], capture_output=True, text=True, check=False)
    if done.stderr or done.returncode:
        raise RuntimeError(done.stderr)
    return done.stdout.splitlines()


def random_session(seed):
    """Returns the lines of a random script for DEVICES."""
    return Maker(seed, BUSY).script()


def text_of(*files):
    """Returns the text of a script that is kept in several files."""
    return "".join(read(*file.split("/")) for file in files)


def unpacked(page, part):
    """Returns the bytes of a part of a page: film, simulator, engine or view."""
    text = re.search(rf'<script type="text/plain" id="{part}">\n(.*?)\n</script>', page, flags=re.S)[1]
    return zlib.decompress(base64.b64decode(text) if part == "film" else base64.a85decode(text.replace("v", "<")))


def about(page):
    """Returns what a page knows of its run."""
    return json.loads(unpacked(page, "film"))


def moments_of(words, lines):
    """Yields a simulator as it is at each moment, and whether a turn led there: before the first line, after each turn, and after
    each other action."""
    with Console(words) as plain, Console(words) as slow:
        yield slow, False
        for line in lines:
            kind, *rest = (plain.ask(line) or ["NOTE"])[0].split()
            is_turn, count = kind == "TURNS", int(rest[0], 8) if kind == "TURNS" else int(kind in ("OK", "BACK", "FORWARD"))
            for _ in range(count):
                slow.demand("STEP" if is_turn else line)
                yield slow, is_turn


def forget(browser):
    """Leaves a film, and forgets what the browser has kept of films."""
    path = os.path.join(ROOM.name, "blank.html")
    with open(path, "w", encoding="ascii") as file:
        file.write("<!DOCTYPE html><title>blank</title>")
    browser.leave(f"file://{path}")
    browser.wait_for("document.title === 'blank'")
    browser.evaluate("localStorage.clear()")


class FilmCase(Case):
    """Tests of films."""

    def film(self, *words, script="", status=0, folder=TOP):
        """Makes a film, and returns the path of its page. The status is 1 if a line of the script is refused, None if it may be."""
        path = os.path.join(self.room(), "film.html")
        done = tool_here("film", *words, "-o", path, script=script, folder=folder)
        self.assertEqual((status if status is not None else done.status, done.status != 0), (done.status, done.err != ""), done.err)
        return path


@functools.cache
def shared_browser():
    """Returns the browser that all tests of a module share; None if there is none here."""
    browser = Browser(found()) if found() else None
    if browser:
        atexit.register(browser.end)
    return browser


class PageCase(FilmCase):
    """Tests of a page in a browser. Without one they are skipped, or look at the film alone if a browser is not all they need."""

    browser = None
    needs_browser = True

    @classmethod
    def setUpClass(cls):
        super().setUpClass()
        cls.browser = shared_browser()

    def setUp(self):
        super().setUp()
        if self.browser:
            self.browser.log.clear()
            self.browser.look(1280, 800)
            forget(self.browser)
            self.addCleanup(lambda: self.assertEqual([], self.browser.log, "complaints of the page"))
        elif self.needs_browser:
            self.skipTest("there is no browser (chromium), so no page is walked")

    def value(self, text):
        """Returns the value of an expression in the page."""
        return self.browser.evaluate(text)

    def saved(self, name):
        """Waits for a file that the page saves into this test's folder, and returns its path."""
        path, end = self.path(name), time.monotonic() + PATIENCE
        while not os.path.exists(path) or not os.path.getsize(path):
            self.assertLess(time.monotonic(), end, f"{name} is not saved")
            self.value("new Promise((done) => setTimeout(done, 50))")
        return path


# ---- docs/films


def main():
    for name in SHOWN:
        shutil.copyfile(shown_film(name), os.path.join(FOLDER, f"{name}.html"))
        print(f"films: docs/films/{name}.html")
    if not found():
        sys.exit("films: without a browser (chromium) the picture stays as it is")
    browser = Browser(found())
    try:
        browser.look(*SIZE)
        browser.open(os.path.join(FOLDER, f"{PICTURED}.html"), MOMENT)
        browser.picture(os.path.join(FOLDER, f"{PICTURED}.webp"))
    finally:
        browser.end()


if __name__ == "__main__":
    main()
