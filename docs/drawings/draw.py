#!/usr/bin/env python3
"""Draws the pictures that follow from other files, beside this file: layers.svg from crates.txt, rooms.svg from the imports of the
tools, and speed.svg from the table of docs/SPEED.md. The other pictures are kept as they are.

Without a word it writes them. With `--check` it writes nothing, and fails if a picture is not what it draws.
"""

import sys

if not getattr(sys.flags, "safe_path", False):
    del sys.path[0]  # nothing beside this file is taken for a module of Python's own
import os
import runpy
from html import escape

HERE = os.path.dirname(os.path.abspath(__file__))
USES = runpy.run_path(os.path.join(HERE, "uses.py"))
SPEED = os.path.join(HERE, "..", "SPEED.md")
FONT = "Helvetica, Arial, 'Liberation Sans', 'DejaVu Sans', sans-serif"
WIDTH = 900

INK, SOFT, LINE = "#1f2933", "#4a5763", "#5f6c79"
BLUE, BLUE_EDGE = "#e4eefa", "#2f6db5"
GREEN, GREEN_EDGE = "#e5f3e8", "#357a4a"
AMBER, AMBER_EDGE = "#fdf0d2", "#a86f0c"
GREY, GREY_EDGE = "#f1f3f5", "#7b8794"


# ---- shapes


def text(x, y, words, size=14, bold=False, fill=INK, anchor="middle"):
    """Returns a line of text; y is that of its middle."""
    weight = ' font-weight="bold"' if bold else ""
    place = f'x="{x:g}" y="{y + size * 0.35:g}" font-size="{size}" text-anchor="{anchor}" fill="{fill}"'
    return f"<text {place}{weight}>{escape(words)}</text>"


def lines(x, y, rows, size=13, fill=SOFT, anchor="middle"):
    """Returns lines of text below each other; y is that of the middle of the first."""
    return [text(x, y + i * (size + 5), row, size, fill=fill, anchor=anchor) for i, row in enumerate(rows)]


def box(x, y, width, height, fill, edge, round_by=6):
    place = f'x="{x:g}" y="{y:g}" width="{width:g}" height="{height:g}" rx="{round_by}"'
    return f'<rect {place} fill="{fill}" stroke="{edge}" stroke-width="1.5"/>'


def arrow(drawn):
    """Returns an arrow along a path."""
    return f'<path d="{drawn}" fill="none" stroke="{LINE}" stroke-width="1.5" marker-end="url(#head)"/>'


def flat(parts):
    """Returns the elements of nested lists, in order."""
    return [one for part in parts for one in (flat(part) if isinstance(part, list) else [part])]


def picture(height, title, parts):
    """Returns a whole SVG file, on a white ground."""
    head = f'<svg xmlns="http://www.w3.org/2000/svg" width="{WIDTH}" height="{height}" viewBox="0 0 {WIDTH} {height}"'
    point = '<path d="M 0 0 L 10 5 L 0 10 z" fill="#5f6c79"/>'
    marker = 'viewBox="0 0 10 10" refX="9" refY="5" markerWidth="10" markerHeight="10" orient="auto-start-reverse"'
    rows = [
        f'{head} role="img" font-family="{FONT}">',
        f"<title>{escape(title)}</title>",
        f'<defs><marker id="head" {marker} markerUnits="userSpaceOnUse">{point}</marker></defs>',
        f'<rect width="{WIDTH}" height="{height}" fill="#ffffff"/>',
    ]
    return "\n".join(rows + flat(parts) + ["</svg>"]) + "\n"


# ---- what uses what


ROW, BOX_WIDTH, BOX_HEIGHT = 86, 138, 50
# the middle of each box, and what is written below the name
CRATES = {
    "pp6600": (590, "the program"),
    "pp_library": (440, "the calls for C"),
    "pp_listing": (656, "texts of a source"),
    "pp_disassembly": (801, "words to a source"),
    "pp_encoder": (806, "words of programs"),
    "pp_meaning": (806, "words of statements"),
    "pp_assembler": (656, "a source to words"),
    "pp_expansion": (665, "a pass over the lines"),
    "pp_statements": (811, "statements to words"),
    "pp_complaints": (524, "what is wrong"),
    "pp_source": (645, "fields and names"),
    "pp_decks": (645, "lines, common decks"),
    "pp_notation": (740, "names, cells"),
    "pp_program": (511, "the program over a host"),
    "pp_console": (330, "answers to a script"),
    "pp_loading": (366, "lines that load a program"),
    "pp_host": (490, "words and files"),
    "pp_command": (242, "what a line asks for"),
    "pp_trouble": (383, "what ends a run early"),
    "pp_rig": (76, "barrel and devices"),
    "pp_actions": (360, "what an action sets"),
    "pp_files": (529, "deck and panel files"),
    "pp_arguments": (670, "the command line"),
    "pp_history": (76, "undo history, redo list"),
    "pp_turn_origins": (76, "origins of a turn"),
    "pp_origins": (110, "origins of a step"),
    "pp_search": (221, "searches of a session"),
    "pp_step": (218, "one step of a processor"),
    "pp_lines": (540, "bytes, lines, words"),
    "pp_machine": (300, "the machine, its places"),
    "pp_arith": (640, "one's complement, octal"),
}
ROOMS = {
    "front": (450, "what one sees"),
    "convert": (300, "from form to form"),
    "devices": (600, "companion devices"),
    "language": (450, "sources, listings, names"),
    "shell": (450, "options, files, scripts"),
    "run": (450, "a run, and its questions"),
    "engine": (450, "what simulates"),
}
LAYERS_KEY = [
    "An arrow goes from a crate to one that it uses.",
    "Left out are arrows that others imply,",
    "those for tests or of a theorem, and the kit.",
]
ROOMS_KEY = ["An arrow goes from a layer", "to one that it imports.", "Left out are arrows", "that others imply."]


def reached(uses, user):
    """Returns all that is below a crate or room."""
    return set(uses[user]).union(*(reached(uses, used) for used in uses[user]))


def direct(uses, user):
    """Returns what a crate or room uses, without what that uses."""
    return [used for used in uses[user] if not any(used in reached(uses, other) for other in uses[user])]


class Graph:
    """A drawing of what uses what: each is one row below the lowest of those that use it."""

    def __init__(self, uses, places, source):
        self.uses, self.places = {user: direct(uses, user) for user in uses}, places
        missing = [user for user in uses if user not in places]
        if missing:
            sys.exit(f"draw.py: {missing[0]} of {source} has no place")
        self.rows = {user: self.row_of(user) for user in uses}

    def row_of(self, used):
        return 1 + max((self.row_of(user) for user, below in self.uses.items() if used in below), default=-1)

    def middle(self, name):
        return self.places[name][0], 52 + self.rows[name] * ROW

    def gap_near(self, row, x):
        """Returns the x nearest to this one at which a line passes between the boxes of a row."""
        boxes = sorted(self.places[name][0] for name in self.rows if self.rows[name] == row)
        edges = [boxes[0] - 2 * BOX_WIDTH] + boxes + [boxes[-1] + 2 * BOX_WIDTH]
        room = BOX_WIDTH / 2 + 14
        free = [(left + room, right - room) for left, right in zip(edges, edges[1:]) if right - left >= 2 * room]
        return min((min(max(x, left), right) for left, right in free), key=lambda near: abs(near - x))

    def arrow(self, user, used):
        """Returns the arrow from one to another, around the boxes between them and upright at each point."""
        (x, y), (x_end, y_end) = self.middle(user), self.middle(used)
        lean = max(-48, min(48, (x_end - x) / 8))
        points, steps = [(x + lean, y + BOX_HEIGHT / 2)], self.rows[used] - self.rows[user]
        for step in range(1, steps):
            x = self.gap_near(self.rows[user] + step, x + (x_end - x) / (steps - step + 1))
            y += ROW
            points += [(x, y - BOX_HEIGHT / 2), (x, y + BOX_HEIGHT / 2)]
        points.append((x_end - lean, y_end - BOX_HEIGHT / 2 - 2))
        drawn = f"M {points[0][0]:g} {points[0][1]:g}"
        for (x, y), (x_end, y_end) in zip(points, points[1:]):
            half = (y + y_end) / 2
            drawn += f" C {x:g} {half:g} {x_end:g} {half:g} {x_end:g} {y_end:g}"
        return arrow(drawn)

    def box_of(self, name):
        x, y = self.middle(name)
        kind = (AMBER, AMBER_EDGE) if self.rows[name] == 0 else (BLUE, BLUE_EDGE)
        return [
            box(x - BOX_WIDTH / 2, y - BOX_HEIGHT / 2, BOX_WIDTH, BOX_HEIGHT, *kind),
            text(x, y - 10, name, 15, True),
            text(x, y + 11, self.places[name][1], 12, fill=SOFT),
        ]

    def drawn(self, title, key):
        last = max(self.rows.values()) * ROW
        arrows = [self.arrow(user, used) for user in self.uses for used in self.uses[user]]
        boxes = [self.box_of(name) for name in self.uses]
        return picture(52 + last + 44, title, [lines(28, last + 52 - 18 * (len(key) - 2), key, anchor="start"), arrows, boxes])


def layers():
    title = "The layers of crates: an arrow goes from a crate to one that it uses"
    return Graph(USES["crates"](), CRATES, "crates.txt").drawn(title, LAYERS_KEY)


def rooms():
    title = "The layers of the tools: each imports those below it alone"
    return Graph(USES["rooms"](), ROOMS, "docs/ARCHITECTURE.md").drawn(title, ROOMS_KEY)


# ---- where a turn's time goes


BAR_X, BAR_WIDTH, BAR_TOP, BAR_ROW, BAR_HEIGHT = 110, 700, 78, 74, 15
SHOWN = ["count", "loop4", "clear", "waits", "crm", "mixed", "exn"]
COSTS = [
    ("C kernel", GREEN, GREEN_EDGE),
    ("C kernel with records", AMBER, AMBER_EDGE),
    ("FORWARD", BLUE, BLUE_EDGE),
    ("STEP", GREY, GREY_EDGE),
]


def read_speed():
    """Returns the rows of the table of SPEED.md: for each program its rate."""
    with open(SPEED, encoding="utf-8") as file:
        made = file.read().split("\nMade on ")[1]
    rows = [[cell.strip() for cell in row.split("|")[1:-1]] for row in made.splitlines() if row.startswith("|")]
    cells = {row[0].replace("`", ""): [cell.split(" (")[0] for cell in row[1:]] for row in rows}
    return {name: dict(zip(cells[""], row)) for name, row in cells.items()}


def bars_of(number, program, costs, scale):
    """Returns the bars of a program, one below the other, each with its nanoseconds a turn."""
    y, drawn = BAR_TOP + number * BAR_ROW, []
    for cost, (_, fill, edge) in zip(costs, COSTS):
        drawn += [box(BAR_X, y, cost * scale, BAR_HEIGHT - 2, fill, edge, round_by=2)]
        drawn += [text(BAR_X + cost * scale + 8, y + BAR_HEIGHT / 2 - 1, f"{cost:.1f}", 11, anchor="start")]
        y += BAR_HEIGHT
    return [text(BAR_X - 10, y - 2 * BAR_HEIGHT, program, 14, True, anchor="end"), drawn]


def speed():
    table = read_speed()
    costs = [[1000 / float(table[row][program]) for row, *_ in COSTS] for program in SHOWN]
    scale = BAR_WIDTH / max(map(max, costs))
    key = [
        [box(110 + i * 190, 20, 18, 18, fill, edge, round_by=2), text(134 + i * 190, 29, name, 12, anchor="start")]
        for i, (name, fill, edge) in enumerate(COSTS)
    ]
    bars = [bars_of(i, program, cost, scale) for i, (program, cost) in enumerate(zip(SHOWN, costs))]
    title = "The nanoseconds of a turn, for each program of the benchmark"
    return picture(BAR_TOP + len(SHOWN) * BAR_ROW + 16, title,
                   [key, text(BAR_X, 58, "nanoseconds a turn", 12, fill=SOFT, anchor="start"), bars])


# ---- a listing, from paper to the machine


STEPS = [
    ("the paper", ["a printed listing,", "or a scan of it"], GREY, GREY_EDGE),
    ("the file", ["address, words and", "source line, as printed"], AMBER, AMBER_EDGE),
    ("load --listing", ["the assembler makes", "each line once more"], BLUE, BLUE_EDGE),
    ("SET lines", ["all words agree:", "the program is loaded"], GREEN, GREEN_EDGE),
]
STEP_LEFT, STEP_TOP, STEP_WIDTH, STEP_HEIGHT, STEP_PITCH = 20, 30, 170, 84, 230


def listing():
    starts = [STEP_LEFT + STEP_PITCH * at for at in range(len(STEPS))]
    middle, bottom = STEP_TOP + STEP_HEIGHT / 2, STEP_TOP + STEP_HEIGHT
    boxes = [
        [box(x, STEP_TOP, STEP_WIDTH, STEP_HEIGHT, fill, edge), text(x + STEP_WIDTH / 2, STEP_TOP + 22, name, 15, True),
         lines(x + STEP_WIDTH / 2, STEP_TOP + 46, rows, 12)]
        for x, (name, rows, fill, edge) in zip(starts, STEPS)
    ]
    ways = [
        [arrow(f"M {x + STEP_WIDTH + 4} {middle:g} L {x + STEP_PITCH - 4} {middle:g}"),
         text(x + STEP_WIDTH + 30, middle - 12, word, 12, fill=SOFT)]
        for x, word in zip(starts, ("type", "load", "right"))
    ]
    load, file = (starts[at] + STEP_WIDTH / 2 for at in (2, 1))
    back = arrow(f"M {load:g} {bottom + 4:g} L {load:g} {bottom + 36:g} L {file:g} {bottom + 36:g} L {file:g} {bottom + 4:g}")
    said = "FILE:5:7: the line has 3421, and STD COUNT makes 3420; COUNT is 0020, as line 2 (decimal) says"
    notes = [text((load + file) / 2, bottom + 24, "mend each line in doubt", 12, fill=SOFT), text(WIDTH / 2, bottom + 62, said, 13)]
    return picture(bottom + 86, "A listing is typed, loaded and mended until all its words agree", [boxes, ways, back, notes])


# ---- the files


PICTURES = {
    "listing.svg": listing,
    "layers.svg": layers,
    "rooms.svg": rooms,
    "speed.svg": speed,
}


def is_drawn(name, drawn):
    full = os.path.join(HERE, name)
    if not os.path.exists(full):
        return False
    with open(full, encoding="utf-8", newline="") as file:
        return file.read() == drawn


def write(name, drawn):
    with open(os.path.join(HERE, name), "w", encoding="utf-8", newline="\n") as file:
        file.write(drawn)


def main():
    if sys.argv[1:] not in ([], ["--check"]):
        sys.exit(__doc__)
    if not sys.argv[1:]:
        for name, draw in PICTURES.items():
            write(name, draw())
        return 0
    stale = [name for name, draw in PICTURES.items() if not is_drawn(name, draw())]
    for name in stale:
        print(f"docs/drawings/{name} is not what docs/drawings/draw.py draws: run it")
    return 1 if stale else 0


sys.exit(main())
