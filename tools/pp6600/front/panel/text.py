"""Lines of text with marks, and how they are put beside each other."""

from __future__ import annotations

import re
from typing import List, Optional, Sequence, Tuple

NOT_PRINTABLE = re.compile("[^ -~]")

# The kinds of marks.
TITLE = "title"
HEAD = "head"
SLOT = "slot"  # the processor whose turn comes next
CHOSEN = "chosen"
CURSOR = "cursor"
CHANGED = "changed"  # by the last action
WATCHED = "watched"
HERE = "here"  # the cell at P, and the present line of a source
OVERWRITTEN = "overwritten"  # what is said of a cell that has no longer the word of its line
REFUSED = "refused"

CUT, CUT_IN_ASCII = "\u2026", ">"  # the last character of a text that is cut


class MarkedLine:
    """A line of text. A mark has its first column, the column after its last one, and its kind."""

    def __init__(self, text: str = "", *marks: Optional[str]) -> None:
        self.text = ""
        self.marks: List[Tuple[int, int, str]] = []
        self.add(text, *marks)

    def add(self, text: str, *marks: Optional[str]) -> MarkedLine:
        """Appends a text, with the marks that are not None. A question mark is there for a character that is not ASCII."""
        if not (text.isascii() and text.isprintable()):
            text = NOT_PRINTABLE.sub("?", text)
        first = len(self.text)
        self.text += text
        self.marks += [(first, len(self.text), mark) for mark in marks if mark and text]
        return self

    def add_number(self, now: str, was: Optional[str], *marks: Optional[str]) -> MarkedLine:
        """Appends a number and a blank, or a star in its place if the number is not what it was."""
        if was is None or now == was:
            return self.add(now, *marks).add(" ")
        return self.add(now, CHANGED, *marks).add("*", CHANGED)

    def add_line(self, other: MarkedLine) -> MarkedLine:
        """Appends another line with its marks."""
        first = len(self.text)
        self.text += other.text
        self.marks += [(start + first, end + first, mark) for start, end, mark in other.marks]
        return self

    def fit(self, width: int) -> MarkedLine:
        """Cuts the line, or appends blanks, to a width."""
        is_cut = self.text[width:].strip() and width
        self.text = self.text[:width - 1] + CUT if is_cut else self.text[:width].ljust(width)
        self.marks = [(start, min(end, width), mark) for start, end, mark in self.marks if start < width]
        return self

    def marked(self, mark: str) -> List[str]:
        """Returns the texts with such a mark."""
        return [self.text[start:end] for start, end, kind in self.marks if kind == mark]


def beside(left: Sequence[MarkedLine], right: Sequence[MarkedLine], column: int) -> List[MarkedLine]:
    """Returns lines with the right part from a column on."""
    parts = (in_height(part, max(len(left), len(right))) for part in (left, right))
    return [first.fit(column).add_line(second) for first, second in zip(*parts)]


def in_height(lines: Sequence[MarkedLine], height: int) -> List[MarkedLine]:
    """Returns so many lines, the first ones; blank lines follow if there are fewer."""
    return [*lines[:height]] + [MarkedLine() for _ in range(height - len(lines))]
