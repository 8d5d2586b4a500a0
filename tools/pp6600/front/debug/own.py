"""The user's own sources in an editor: which line a processor is at, which cells a line has, and whether a file has been
changed."""

from __future__ import annotations

import os
from typing import Any, Dict, FrozenSet, List, NamedTuple, Optional, Sequence, Set

from ...failure import Failure
from ...run.forms import CELLS
from ...run.turn import Processor
from .breakpoints import ProcessorCell


class OwnLine(NamedTuple):
    """A line of a source, and the addresses at which its words may be."""

    file: SourceFile
    number: int
    addresses: FrozenSet[int]


class SourceLines:
    """The lines of a source: the rows with words before which a stop at a line is, and the addresses at which its words may be."""

    def __init__(self, source: Any) -> None:
        self.source, self.rows = source, rows_of_lines(source.program)
        self.addresses: Dict[int, Set[int]] = {}
        for row in source.program.rows:
            cells = ((first + at) % CELLS for at in range(len(row.words)) for first in (row.location, row.origin))
            self.addresses.setdefault(row.number, set()).update(cells)


class SourceFile:
    """A file with the source of some processors, as it was at the launch."""

    def __init__(self, path: str) -> None:
        self.path = os.path.abspath(path)
        self.source = {"name": os.path.basename(path), "path": self.path}
        self.of: Dict[int, SourceLines] = {}  # the lines by processors
        self.lines, self.is_told = self.read(), False  # that it has changed

    def read(self) -> Optional[List[str]]:
        """Returns its lines as they are now; None if it can't be read."""
        from ...language.sources import source_lines  # few editors have sources
        try:
            return source_lines(self.path)
        except Failure:
            return None

    def cells(self, line: int) -> Dict[ProcessorCell, FrozenSet[int]]:
        """Returns the cells at which a line begins, each time that it makes words, with the numbers of the lines that they are
        of."""
        found: Dict[ProcessorCell, Set[int]] = {}
        for number, lines in self.of.items():
            for row in lines.rows.get(line, ()):
                for address in {row.location % CELLS, row.origin}:
                    found.setdefault(ProcessorCell(number, address), set()).add(row.number)
        return {cell: frozenset(lines) for cell, lines in found.items()}

    def next_line(self, line: int) -> Optional[int]:
        """Returns the first line from this one on that makes words; None if there is none."""
        return min((one for lines in self.of.values() for one in lines.rows if one >= line), default=None)

    def has_changed(self) -> bool:
        """Returns whether the file is another one than at the launch; once."""
        was, self.is_told = self.is_told, self.is_told or self.read() != self.lines
        return self.is_told and not was


class OwnSources:
    """The sources of all processors."""

    def __init__(self, symbols: Any) -> None:
        """The symbols are those of all processors, as `pp6600.language.listing` has them."""
        self.symbols, self.of = symbols, dict(symbols.sources())
        self.file_of: Dict[int, SourceFile] = {}
        for number, source in self.of.items():
            self.file_of[number] = self.file(source.path) or SourceFile(source.path)
            self.file_of[number].of[number] = SourceLines(source)

    @property
    def files(self) -> List[SourceFile]:
        return list(dict.fromkeys(self.file_of.values()))

    def file(self, path: Optional[str]) -> Optional[SourceFile]:
        """Returns the file with this path; None if it is no source."""
        real = os.path.realpath(path) if isinstance(path, str) else None
        return next((file for file in self.files if os.path.realpath(file.path) == real), None)

    def line(self, number: int, address: int, words: Sequence[int]) -> Optional[OwnLine]:
        """Returns the line of which the instruction in a cell of a processor is, with its words; None if it is of no line."""
        found = self.of[number].line_of(address, *words) if number in self.of else None
        if not found or not found.is_there:
            return None
        file = self.file_of[number]
        return OwnLine(file, found.number, frozenset(file.of[number].addresses[found.number]))

    def line_at_p(self, number: int, processor: Processor) -> Optional[OwnLine]:
        """Returns the line at P of a processor; None in a block transfer, in which P is no instruction's."""
        return None if processor.phase else self.line(number, processor.p, processor.words)


def rows_of_lines(program: Any) -> Dict[int, List[Any]]:
    """Returns the rows of a listing with words by the lines of the file at which a stop is before them: of each line the first one
    each time that it is assembled, of a macro's call the first one that the call makes, and of a line of a macro that of each
    call."""
    found: Dict[int, List[Any]] = {}
    due: Set[int] = set()
    for row in program.rows:
        lines = (row.number, *(program.macros.get(row.first, ()) if row.is_made else ()))
        due = due.intersection(lines) | {lines[-1]}
        if row.words:
            for line in due - {0}:
                found.setdefault(line, []).append(row)
            due = set()
    return found
