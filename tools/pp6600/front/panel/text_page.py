"""Text over the whole screen: all keys, all lines and answers, or steps of which one is chosen."""

from typing import Callable, Container, Optional, Sequence

from .screen import Screen, is_too_small, small_screen
from .text import HEAD, TITLE, MarkedLine, in_height

CLOSES = ("q", "Enter", "Escape", "Ctrl-C")


class TextPage:
    """Lines to be read. With a function `choose` one of them is marked, and Enter calls it with the number of this line."""

    passes: Container[str] = ()  # keys that are not for the page

    def __init__(self, title: str, lines: Sequence[MarkedLine], at_end: bool = False, choose: Optional[Callable[[int],
                 object]] = None, closes: str = "") -> None:
        """A key `closes` closes it too, beside the usual ones."""
        self.title, self.lines, self.choose, self.closes = title, lines, choose, (*CLOSES, closes)
        self.first, self.at = len(lines) if at_end else 0, 0

    def press(self, key: str, rows: int) -> bool:
        """Performs a key; returns whether the page stays."""
        height, end = max(rows - 2, 1), len(self.lines)
        step = {"Up": -1, "k": -1, "Down": 1, "j": 1, "Page Up": -height, "b": -height, "Page Down": height, " ": height,
                "Home": -end, "<": -end, "End": end, ">": end}.get(key, 0)
        if self.choose:
            self.at = max(0, min(self.at + step, end - 1))
            self.first = max(min(self.first, self.at), self.at - height + 1)
        else:
            self.first += step
        if self.choose and key == "Enter":
            self.choose(self.at)
        return key not in self.closes

    def bottom(self, height: int) -> str:
        """Returns the text of the last line."""
        if self.choose:
            return "Enter goes to before that step, and > comes back; Escape closes this page"
        return f"{'arrows and Page Up/Down move; ' if len(self.lines) > height else ''}q, Escape or Enter closes this page"

    def screen(self, columns: int, rows: int) -> Screen:
        if is_too_small(columns, rows):
            return small_screen(columns, rows)
        height, lines = rows - 2, self.lines
        self.first = max(min(self.first, len(lines) - height), 0)
        if self.choose:
            lines = [MarkedLine(">" if at == self.at else " ").add_line(line) for at, line in enumerate(lines)]
        whole = [MarkedLine(f" {self.title}".ljust(columns), TITLE), *in_height(lines[self.first:self.first + height], height),
                 MarkedLine(self.bottom(height), HEAD)]
        return Screen([line.fit(columns) for line in whole], (1 + self.at - self.first, 0) if self.choose else (rows - 1, 0))
