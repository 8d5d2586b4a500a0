"""Tests the manual pages and the card. Expected values are those of docs/CONSOLE.md and docs/MACHINE.md."""

import glob
import os
import re
import shutil
import unittest

from tests.installing import alone
from tests.support import TOOLS, TOP, Case, lasting_room, names_of_codes, program, read, tool

LINES = "| Line | What it does | Answer |"


def rows(page, header):
    """Returns the cells of a table of a page."""
    text = read("docs", page).split(f"\n{header}\n", 1)[1].split("\n\n", 1)[0]
    return [[cell.strip() for cell in row.strip("|").split("|")] for row in text.splitlines()[1:]]


def display_rows(page):
    """Returns the rows of the table of display code, from its digit on."""
    return [row.rstrip() for row in re.findall(r"^([0-7]  \S(?: .){7})$", read("docs", page), flags=re.M)]


def options_in(text):
    return set(re.findall(r"--[a-z][a-z-]*", text))


class ManualPages(Case):
    """The pages have what the pages of docs/ have, and each option of each tool; man has nothing to say against them."""

    @classmethod
    def setUpClass(cls):
        super().setUpClass()
        if not shutil.which("man"):
            raise unittest.SkipTest("there is no man here")
        folder = lasting_room()
        cls.made = alone(os.path.join(TOP, "share", "manual"), folder)
        paths = sorted(glob.glob(os.path.join(folder, "*.1")))
        env = {"MANWIDTH": "500", "LC_ALL": "C.UTF-8", "MAN_KEEP_FORMATTING": ""}
        cls.done = alone("man", "--warnings", "-l", *paths, env=env)
        _, *parts = re.split(r"^(\S+)\(1\) +User Commands +\1\(1\)$", re.sub(".\b", "", cls.done.out), flags=re.M)
        cls.shown = dict(zip(map(str.lower, parts[::2]), parts[1::2]))  # each page as man shows it

    def test_of_the_program(self):
        page = self.shown["pp6600"]
        plain = " ".join(page.split())
        for head in ("| Answer | Cause |", "| Text | Status | Cause |", LINES, "| Word | Meaning | Without it |"):
            for first, *_ in rows("CONSOLE.md", head):
                with self.subTest(first):
                    self.assertIn(re.sub(r"\[([^]]*)\]\(#[^)]*\)|`", r"\1", first), plain)
        for called in names_of_codes():
            with self.subTest(called):
                self.assertRegex(page, rf"(?m)^ +[0-7, ]+ [A-Z, ]*{called}")
        for row in display_rows("MACHINE.md"):
            with self.subTest(row):
                self.assertIn(row, page)
        for name in TOOLS:
            with self.subTest(name):
                self.assertIn(f"pp6600-{name}\n", page)

    def test_session(self):
        page = self.shown["pp6600"]
        lines = [line.strip() for line in page[page.index("EXAMPLE\n"):page.index("TOOLS\n")].splitlines()]
        lines = [line for line in lines[next(at for at, line in enumerate(lines) if line.startswith("> ")):] if line]
        script = "".join(f"{line[2:]}\n" for line in lines if line.startswith("> "))
        answers = "".join(f"{line}\n" for line in lines if not line.startswith("> "))
        self.assertEqual(answers, alone(program(), script=script).out)

    def test_of_each_tool(self):
        self.assertEqual((("", "", 0), ("", 0)), (self.made, self.done[1:]))
        self.assertEqual({"pp6600", "pp6600-python", *(f"pp6600-{name}" for name in TOOLS)}, set(self.shown))
        for name in TOOLS:
            with self.subTest(name):
                options, page = options_in(tool(name, "--help").out), self.shown[f"pp6600-{name}"]
                self.assertEqual(set(), options - options_in(page))
                line = re.search(r"^NAME\n +(.*)$", page, flags=re.M)[1]
                self.assertRegex(line, rf"^pp6600-{name} - [a-z][^.:()]*$")


class Version(Case):
    """VERSION moves with CHANGELOG.md and CITATION.cff, and is on the manual pages."""

    def test_newest(self):
        version, date = re.search(r"^## (\S+) - (\d{4}-\d\d-\d\d)$", read("CHANGELOG.md"), flags=re.M).groups()
        self.assertEqual(f"{version}\n", read("VERSION"))
        self.assertIn(f"version: {version}\ndate-released: {date}\n", read("CITATION.cff"))
        first = alone(os.path.join(TOP, "share", "manual"), "--print").out.splitlines()[0]
        self.assertEqual(f'.TH PP6600 1 "{date}" "pp6600 {version}" "User Commands"', first)


class Card(Case):
    """The card says what the other pages say, and its forms are apart. tests/test_film_page.py prints it."""

    def test_errors(self):
        own = set()
        for row in rows("CARD.md", "| `ERR` | | `ERR` | | `ERR` | |"):
            cells = [cell.strip("`") for cell in row]
            own |= {f"ERR {number} {what}" for number, what in zip(cells[::2], cells[1::2]) if number}
        self.assertEqual({row[0].strip("`") for row in rows("CONSOLE.md", "| Answer | Cause |")}, own)

    def test_codes(self):
        grid = re.findall(r"^[0-7]  ((?:[A-Z]{3}[+ ] ?){8})", read("docs", "CARD.md"), flags=re.M)
        self.assertEqual(names_of_codes(), [word.strip("+") for row in grid for word in row.split()])

    def test_display_code(self):
        symbols = re.findall(r"^[0-3]  .{23} {6}[0-3]  (.{15})     [4-7]  (.{15})$", read("docs", "CARD.md"), flags=re.M)
        wanted = [row[3:] for row in display_rows("MACHINE.md")]
        self.assertEqual(wanted, [left for left, _ in symbols] + [right for _, right in symbols])

    def test_forms_are_apart(self):
        self.assertEqual([], re.findall("`[^`|]*`  +`[^`|]*`", read("docs", "CARD.md")))

    def test_jumps(self):
        """d of each distance back: 77 less the distance."""
        grid = re.findall(r"^([0-3])  ((?:[0-7]{2} ){8})", read("docs", "CARD.md"), flags=re.M)
        found = {8 * int(row) + column: int(d, 8) for row, back in grid for column, d in enumerate(back.split())}
        self.assertEqual({distance: 0o77 - distance if distance else 0 for distance in range(0o40)}, found)
