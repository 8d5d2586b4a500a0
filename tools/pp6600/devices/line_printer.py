"""A 501 line printer behind a 6681 converter. docs/PYTHON.md has its codes, all from memory."""

from __future__ import annotations

from typing import NamedTuple, Optional, Tuple, Union

from ..language.display_code import SYMBOLS
from ..run.device import Chain
from .card_reader import equipment_of
from .converter import Converter, ConverterState
from .pictures import COLUMNS, ROWS, Picture

SINGLE, DOUBLE, LAST_LINE, EJECT, AUTO_EJECT, NO_SPACE = 0o1, 0o2, 0o3, 0o4, 0o5, 0o6
AFTER = {SINGLE: "\n", DOUBLE: "\n\n", LAST_LINE: "\f", EJECT: "\f", NO_SPACE: "\r"}  # what moves the paper
FORMATS, INTERRUPTS = range(0o10, 0o17), range(0o20, 0o26)  # they are taken, and do nothing here
READY = 0o1


class Paper(NamedTuple):
    """What was printed, the line that is not printed yet, and the lines of the last page."""

    printed: Chain = Chain()
    line: str = ""
    has_line: bool = False
    page: Tuple[str, ...] = ("",)

    def moved(self, text: str) -> Paper:
        """Returns the paper after a text was printed: symbols, and what moves it."""
        lines = ("\n".join(self.page) + text).rpartition("\f")[2].replace("\r", "").split("\n")
        return Paper(self.printed.push(text), page=tuple(lines[ROWS:] if len(lines) > ROWS else lines))


class LinePrinter(Converter):
    """A line printer."""

    start = ConverterState(Paper())

    def __init__(self, equipment: str = "5", channel: int = 0o13, busy: Union[int, str] = 0) -> None:
        super().__init__(equipment_of(equipment), channel, busy)

    def performed(self, inner: Paper, code: int) -> Tuple[Paper, bool]:
        """Moves the paper."""
        if code in AFTER:
            return inner.moved(AFTER[code]), True
        return inner, code == AUTO_EJECT or code in FORMATS or code in INTERRUPTS

    def cleared(self, inner: Paper) -> Paper:
        """Forgets the line that is not printed yet."""
        return inner._replace(line="", has_line=False)

    def status(self, inner: Paper) -> int:
        return READY

    def taken_over(self, inner: Paper, word: int) -> Paper:
        return inner._replace(line=inner.line + SYMBOLS[word >> 6] + SYMBOLS[word & 0o77], has_line=True)

    def ended(self, inner: Paper) -> Paper:
        """Prints the line, and moves the paper by one. Symbols past the last column are lost."""
        return inner.moved(inner.line[:COLUMNS].rstrip() + "\n") if inner.has_line else inner

    def paper(self, state: ConverterState) -> str:
        return self.output(state)

    def picture(self, state: ConverterState) -> Optional[Picture]:
        """Returns the last page."""
        return Picture((), state.inner.page)

    @staticmethod
    def output(state: ConverterState) -> str:
        """Returns what is on the paper."""
        return "".join(state.inner.printed.items())
