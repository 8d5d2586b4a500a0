#!/usr/bin/env python3
"""A session with the console display on channel 10.

    examples/console-display/show.py ./pp6600 SCRIPT [PICTURE.svg] <LINES

After the script come the lines of the input. Beside those of the console, a line PICTURE shows the screens, and KEYS with a text
presses keys. At the end the picture is written into a file, if one is named.
"""

import os
import sys

sys.path.append(os.path.join(os.path.dirname(os.path.realpath(__file__)), "..", "..", "tools"))  # or the variable PYTHONPATH
from pp6600 import Attached
from pp6600.devices.console_display import ConsoleDisplay
from pp6600.devices.pictures import braille, svg

WIDTH = 129  # decimal: 64 cells a screen, so that each small symbol has its own

session = Attached(sys.argv[1:2], [ConsoleDisplay()])
display = session.devices[0]
with open(sys.argv[2], encoding="ascii") as file:
    lines = file.read().splitlines()
for line in [*lines, *sys.stdin.read().splitlines()]:
    shown = []
    if line == "PICTURE":
        shown = [row.rstrip() for row in braille(display.picture(session.state()), WIDTH)]
    elif line.startswith("KEYS "):
        session.tell(0, line[5:])
    else:
        shown = session.act(line)
    print(f"> {line}", *shown, sep="\n")
for path in sys.argv[3:]:
    with open(path, "w", encoding="ascii") as file:
        file.write(svg(display.picture(session.state())))
sys.exit(session.end())
