#!/usr/bin/env python3
"""Draws the pictures of the panel beside this file: panel.svg of docs/PANEL.md, before the loader of README.md is overwritten, and
panel-source.svg of README.md, where the panel has the loader's source.

Without a word it writes the pictures. With `--check` it writes nothing, and fails if one is not what it draws. The simulator is
$PP6600, or else the one that ./pp6600 runs.
"""

import sys

if not getattr(sys.flags, "safe_path", False):
    del sys.path[0]  # nothing beside this file is taken for a module of Python's own
import os
from html import escape

HERE = os.path.dirname(os.path.abspath(__file__))
TOP = os.path.dirname(os.path.dirname(HERE))
TOOLS = os.path.join(TOP, "tools")
with open(os.path.join(TOOLS, "pp6600", "own.py"), encoding="ascii") as own:
    exec(own.read())
find_first(pp6600=TOOLS)

from pp6600.shell.command_line import Failure, arguments, run, script_lines, simulator
from pp6600.front.panel.app import Panel
from pp6600.front.panel.logged_session import LoggedSession
from pp6600.front.panel.text import CHANGED, CHOSEN, CURSOR, HEAD, HERE as AT_P, REFUSED, SLOT, TITLE
from pp6600.language.symbol_options import symbols_from

EXAMPLE = os.path.join(TOP, "examples", "overwritten-loader")
LINES = 6  # of its script, up to the first question
KEYS = ("g", "1", "0", "6", "Enter", "W")
LOOKS = {TITLE: "title", HEAD: "head", SLOT: "here", AT_P: "here", CHOSEN: "title", CHANGED: "changed", CURSOR: "title",
         REFUSED: "changed"}
CELL_WIDTH, LINE_HEIGHT, MARGIN = 9, 18, 8
STYLE = """\
text { font: 15px "DejaVu Sans Mono", Menlo, Consolas, monospace; fill: #dddddd; white-space: pre }
.head { fill: #79c0ff; font-weight: bold } .changed { fill: #ff7b72; font-weight: bold } .here { fill: #7ee787; font-weight: bold }
.title { fill: #111111 } rect.title { fill: #dddddd } rect.ground { fill: #111111 }"""


def screen_lines(words, lines, symbols, rows):
    """Returns so many lines of the panel's screen after the keys; the words are the simulator and its options."""
    panel = Panel(LoggedSession([*words, "--deck", os.path.join(EXAMPLE, "deck")]), symbols)
    panel.rows = rows
    panel.perform_script(lines)
    for key in KEYS:
        panel.press(key)
    panel.session.close()
    return panel.screen().lines


def parts_of(line):
    """Returns the parts of a line that look alike: the first column, the text and the look of each."""
    looks = [""] * len(line.text)
    for start, end, mark in line.marks:
        looks[start:end] = [LOOKS.get(mark, "")] * (end - start)
    parts = []
    for column, (character, look) in enumerate(zip(line.text, looks)):
        if parts and parts[-1][2] == look:
            parts[-1][1] += character
        else:
            parts.append([column, character, look])
    return [part for part in parts if part[1].strip() or part[2] == "title"]


def picture(lines):
    """Returns the whole SVG file."""
    width, height = len(lines[0].text) * CELL_WIDTH + 2 * MARGIN, len(lines) * LINE_HEIGHT + 2 * MARGIN
    svg = [f'<svg xmlns="http://www.w3.org/2000/svg" viewBox="0 0 {width} {height}" width="{width}" height="{height}">',
           f"<style>\n{STYLE}\n</style>", f'<rect class="ground" width="{width}" height="{height}"/>']
    for row, line in enumerate(lines):
        for column, text, look in parts_of(line):
            left, top, long = MARGIN + column * CELL_WIDTH, MARGIN + row * LINE_HEIGHT, len(text) * CELL_WIDTH
            if look == "title":
                svg.append(f'<rect class="title" x="{left}" y="{top}" width="{long}" height="{LINE_HEIGHT}"/>')
            svg.append(f'<text class="{look}" x="{left}" y="{top + 14}" textLength="{long}">{escape(text)}</text>')
    return "\n".join(svg + ["</svg>"]) + "\n"


def pictures(words):
    """Returns the texts of the pictures by the names of their files."""
    octal, source = symbols_from([], []), symbols_from([], [("0", os.path.join(EXAMPLE, "loader.pp"))])
    script = script_lines(os.path.join(EXAMPLE, "script"))[:LINES]
    return {"panel.svg": picture(screen_lines(words, script, octal, 24)),
            "panel-source.svg": picture(screen_lines(words, source.loading(["STEP 1300"]), source, 36))}


def main():
    parser = arguments(__doc__.splitlines()[0])
    parser.add_argument("--check", action="store_true", help="write nothing, and fail if a picture is old")
    asked = parser.parse()
    for name, drawn in pictures(simulator(asked)).items():
        if not asked.check:
            write(name, drawn)
        elif read(name) != drawn:
            raise Failure(f"docs/drawings/{name} is old: run docs/drawings/panel.py")


def read(name):
    with open(os.path.join(HERE, name), encoding="ascii") as file:
        return file.read()


def write(name, text):
    with open(os.path.join(HERE, name), "w", encoding="ascii") as file:
        file.write(text)


run(main)
