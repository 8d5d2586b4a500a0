"""What a tool can't do."""

import contextlib
from typing import Iterable, Iterator


class Failure(Exception):
    """Ends a tool with a message in plain words."""


class Faults(Failure):
    """Ends a tool with lines about a source, FILE:LINE:COLUMN: and a text."""

    def __init__(self, lines: Iterable[str]) -> None:
        self.lines = list(lines)
        super().__init__("; ".join(self.lines))


@contextlib.contextmanager
def naming_line(number: int) -> Iterator[None]:
    """Names a line, counted from 1, in a failure."""
    try:
        yield
    except Failure as failure:
        raise Failure(f"line {number} (decimal): {failure}") from failure
