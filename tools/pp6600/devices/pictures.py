"""Pictures of devices: symbols and dots on screens, as SVG and as text for a terminal.

A device that shows something has a method `picture(state)`, which returns a Picture. Equal pictures are the same SVG, byte for
byte. The symbols are of strokes, and so is everything that is shown here."""

from __future__ import annotations

from html import escape
from typing import Dict, FrozenSet, Iterator, List, NamedTuple, Sequence, Tuple

Point = Tuple[int, int]
Line = List[Point]
SIDE = 512  # of a screen, in its units
COLUMNS, ROWS = 136, 66  # of a page of paper
GRID = 8  # a symbol of size GRID has a unit of its strokes in one of the screen
# The strokes of each symbol: x from 0 to 4 and y from 0 to 6 of each point; a blank begins another stroke.
STROKES = {
    "A": "0004264440 0343", "B": "00063645443303 3342413000", "C": "4130100105163645", "D": "00063645413000", "E": "46060040 0333",
    "F": "460600 0333", "G": "45361605011030414323", "H": "0006 4046 0343", "I": "1030 2026 1636", "J": "0110304146",
    "K": "0006 4602 1340", "L": "060040", "M": "0006234640", "N": "00064046", "O": "011030414536160501", "P": "00063645443303",
    "Q": "011030414536160501 2240", "R": "00063645443303 2340", "S": "011030414233130405163645", "T": "0646 2026",
    "U": "060110304146", "V": "062046", "W": "0600234046", "X": "0046 0640", "Y": "062346 2320", "Z": "06460040",
    "0": "011030414536160501 2224", "1": "152620 1030", "2": "05163645440040", "3": "05163645443313 334241301001", "4": "30360242",
    "5": "460603334241301001", "6": "4536160501103041423303", "7": "064610", "8": "13040516364544331302011030414233",
    "9": "0110304145361605041343", "+": "2125 0343", "-": "0343", "*": "2125 0244 0442", "/": "0046", "(": "36242230",
    ")": "16242210", "=": "0242 0444", ",": "2110", ".": "2030312120"}


class Mark(NamedTuple):
    """A symbol or a dot. A symbol has its lower left corner at x and y, counted from the lower left corner of the screen, and the
    next one of the line is at x + size. A dot has no symbol, and size 0."""

    y: int
    x: int
    size: int = 0
    symbol: str = ""

    def lines(self) -> List[Line]:
        """Returns its strokes, in the units of the screen."""
        if not self.symbol:
            return [[(self.x, self.y)]]
        unit = self.size // GRID
        return [[(self.x + unit * int(x), self.y + unit * int(y)) for x, y in zip(stroke[::2], stroke[1::2])]
                for stroke in STROKES[self.symbol].split()]


class Picture(NamedTuple):
    """What is on the screens of a device, from left to right; or without screens the lines of a page of paper, or of several pages,
    with a form feed as the line between two."""

    screens: Tuple[FrozenSet[Mark], ...]
    lines: Tuple[str, ...] = ()

    @property
    def pages(self) -> List[List[str]]:
        return [page.split("\n") for page in "\n".join(self.lines).split("\n\f\n")]

    def last_lines(self, most: int) -> List[str]:
        """Returns the last lines of each page, at most so many of one, with an empty line between two pages."""
        return [line for page in self.pages for line in ("", *page[-most:])][1:]


def joined(pictures: Sequence[Picture]) -> Picture:
    """Returns pictures as one, beside each other."""
    pages = (one.lines for one in pictures if one.lines)
    return Picture(tuple(screen for one in pictures for screen in one.screens),
                   tuple("\n\f\n".join(map("\n".join, pages)).split("\n")))


# ---- SVG

FRAME = 372  # from the middle of a round screen to its edge; its square of 512 by 512 is within
STYLE = 'fill="none" stroke="#7dffb0" stroke-linecap="round" stroke-linejoin="round"'
WIDTHS = {0: 3, 8: 1, 16: 1.4, 32: 2}  # of the strokes, by the size of the symbol; a dot has size 0


def svg(picture: Picture) -> str:
    """Returns a picture as SVG, a mark or a line of paper a line."""
    if not picture.screens:
        return paper_as_svg(picture.pages)
    width, height = 2 * FRAME * len(picture.screens), 2 * FRAME
    lines = [f'<svg xmlns="http://www.w3.org/2000/svg" viewBox="0 0 {width} {height}">'
             f'<rect width="{width}" height="{height}" fill="#3a3f42"/>']
    for number, marks in enumerate(picture.screens):
        middle, left = FRAME * (2 * number + 1), FRAME * (2 * number + 1) - SIDE // 2
        lines.append(f'<circle cx="{middle}" cy="{FRAME}" r="{FRAME - 6}" fill="#1c2421" stroke="#15181a" stroke-width="10"/>')
        lines.append(f'<g transform="matrix(1 0 0 -1 {left} {FRAME + SIDE // 2})" {STYLE}>')
        lines += map(path_of, sorted(marks))
        lines.append("</g>")
    return "\n".join([*lines, "</svg>", ""])


ACROSS_PAPER, DOWN_PAPER = 7, 12  # from a symbol of paper to the next, and from a line


def paper_as_svg(pages: Sequence[Sequence[str]]) -> str:
    """Returns pages of paper as SVG, beside each other."""
    page_width, height = (COLUMNS + 2) * ACROSS_PAPER, (ROWS + 1) * DOWN_PAPER
    width = page_width * len(pages)
    return "\n".join([f'<svg xmlns="http://www.w3.org/2000/svg" viewBox="0 0 {width} {height}" font-family="monospace" '
                      f'font-size="11">'
                      f'<rect width="{width}" height="{height}" fill="#f6f4ea"/>',
                      *(f'<path d="M{page_width * at} 0V{height}" stroke="#15181a"/>' for at in range(1, len(pages))),
                      *(f'<text x="{page_width * at + ACROSS_PAPER}" y="{DOWN_PAPER * number}" '
                        f'textLength="{ACROSS_PAPER * len(line)}" '
                        f'xml:space="preserve">{escape(line)}</text>'
                        for at, page in enumerate(pages) for number, line in enumerate(page, 1) if line), "</svg>", ""])


def path_of(mark: Mark) -> str:
    """Returns a mark as an element of SVG. A stroke of one point alone is a dot."""
    strokes = ["M" + "L".join(f"{x} {y}" for x, y in line) + ("h0" if len(line) == 1 else "") for line in mark.lines()]
    return f'<path stroke-width="{WIDTHS.get(mark.size, 1)}" d="{"".join(strokes)}"/>'


# ---- text

ACROSS, DOWN = 2, 4  # dots in a cell of a terminal
BITS = ((0x01, 0x08), (0x02, 0x10), (0x04, 0x20), (0x40, 0x80))  # of the dots of a braille symbol
BRAILLE = 0x2800
MOST_CELLS, FEWEST_CELLS = 256, 16  # of a screen


def braille(picture: Picture, width: int) -> List[str]:
    """Returns a picture as lines of at most so many cells, the screens beside each other; paper as its lines. Its dots are those of
    braille symbols; a symbol too small for strokes is a letter. A screen has 16, 32, 64 .. cells a line, so its symbols are at
    equal distances."""
    if not picture.screens:
        return picture.last_lines(len(picture.lines))
    cells = MOST_CELLS
    while cells > FEWEST_CELLS and (cells + 1) * len(picture.screens) - 1 > width:
        cells //= 2
    return [" ".join(row) for row in zip(*(screen_lines(marks, cells) for marks in picture.screens))]


def screen_lines(marks: FrozenSet[Mark], width: int) -> List[str]:
    """Returns the lines of a screen, each of so many cells."""
    cells: Dict[Point, str] = {}
    side = ACROSS * width
    for mark in sorted(marks):
        for (x, y), symbol in cells_of(mark, side):
            before = ord(cells.get((x, y), " "))
            is_braille = symbol >= chr(BRAILLE) and before >= BRAILLE
            cells[x, y] = chr(ord(symbol) | before) if is_braille else symbol
    return ["".join(cells.get((x, y), " ") for x in range(width)) for y in range(side // DOWN)]


def cells_of(mark: Mark, side: int) -> Iterator[Tuple[Point, str]]:
    """Yields the cells of a mark on a screen of so many dots a side, each with its symbol."""
    distance = mark.size * side // SIDE  # in dots, from a symbol to the next
    if ACROSS <= distance < GRID:
        x, y = dot_of(mark.x, mark.y + mark.size // 4, side)
        yield (x // ACROSS, y // DOWN), mark.symbol
        return
    for line in mark.lines():
        for start, end in zip(line, line[1:] or line):
            for x, y in (dot_of(*point, side) for point in points_between(start, end)):
                yield (x // ACROSS, y // DOWN), chr(BRAILLE + BITS[y % DOWN][x % ACROSS])


def dot_of(x: int, y: int, side: int) -> Point:
    """Returns the dot of a point of the screen, from its upper left corner."""
    return min(x * side // SIDE, side - 1), max(side - 1 - y * side // SIDE, 0)


def points_between(start: Point, end: Point) -> Iterator[Point]:
    """Yields the points of a straight line."""
    (x, y), (to_x, to_y) = start, end
    steps = max(abs(to_x - x), abs(to_y - y), 1)
    for step in range(steps + 1):
        yield x + (to_x - x) * step // steps, y + (to_y - y) * step // steps
