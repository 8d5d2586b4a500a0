"""The memory of the chosen processor by rows: an instruction each, or as the source. Then a row has the line that it is of, or was,
and before it are the lines without words, as notes. `Source.line_of` says whose line a cell is. A cell of no line has its own
row."""

from __future__ import annotations

import functools
import os
from typing import TYPE_CHECKING, Any, Dict, Iterable, List, NamedTuple, Optional, Sequence, Tuple

from ...language.display_code import text_of
from ...language.notation import TAB
from ...run.disassembly import Row, rows_above, rows_around, rows_from
from ...run.forms import CELLS
from ...run.sentences import sentence
from ...run.state import State
from .text import HEAD, HERE, OVERWRITTEN, MarkedLine

if TYPE_CHECKING:
    from ...language.program import ListingRow
    from ...language.sources import CellLine
    from .screen import ScreenContent

TEXT_FROM, LABEL_FROM = 17, 33  # the columns of an instruction and of its label
DISPLAY_WIDTH = 5
WIDTH = 52  # beside central memory, on the least screen


class Entry(NamedTuple):
    """What a line of the pane shows: a row of cells, with the source line that it is of, or was; or a line without words before
    it."""

    row: Row
    line: Optional[CellLine] = None
    note: Optional[ListingRow] = None

    def has(self, address: int) -> bool:
        return self.note is None and self.row.has(address)


class Notes:
    """The lines of a source without words, by what comes after them: a row of words, or the address of cells that a line leaves
    out, as BSS does. Those that a macro made are none."""

    def __init__(self, rows: Sequence[ListingRow]) -> None:
        """The rows are those of the listing."""
        self.before: Dict[ListingRow, List[ListingRow]] = {}
        self.at: Dict[int, List[ListingRow]] = {}
        waiting: List[ListingRow] = []
        self.digits = len(str(max(row.number for row in rows)))
        for row, after in zip(rows, [*rows[1:], None]):
            if row.words:
                self.before[row], waiting = waiting, []
                continue
            waiting += [] if row.is_made else [row]
            if after is None or row.has_address and after.origin != row.origin:
                self.at.setdefault((row.location if after else row.origin) % CELLS, []).extend(waiting)
                waiting = []

    def of(self, address: int, line: Optional[CellLine]) -> Sequence[ListingRow]:
        """Returns those that come before a cell, which is of a line."""
        return self.at.get(address, []) + (self.before[line.row] if line and begins(line) else [])


notes_of = functools.lru_cache(maxsize=None)(lambda source: Notes(source.program.rows))


def begins(line: Optional[CellLine]) -> bool:
    """Returns whether a line begins at its cell, and is still there."""
    return line is not None and line.is_there and not line.at


class Cells:
    """The cells of a processor, with the lines of its source if it has one."""

    def __init__(self, state: State, number: int, source: Any = None) -> None:
        self.processor, memory, self.source = state.processors[number], state.memories[number], source
        self.word, p = memory.number, self.processor.p
        self.back = (memory.number(0) + 1) % CELLS if self.processor.phase else None  # where a block transfer goes on
        self.here = self.processor.address(memory.number)  # its instruction, or that which began a block transfer, if it is there
        self.present = p if self.here is None else self.here
        self.heads = {self.present, p, self.back}

    def __contains__(self, address: Any) -> bool:
        """Returns whether a row begins at an address: one of the machine's, or where a line of the source begins."""
        return address in self.heads or self.source is not None and begins(self.line(address))

    def line(self, address: int) -> Optional[CellLine]:
        """Returns the line that a cell is of, or was; None if it is of none."""
        line: Optional[CellLine] = self.source and self.source.line_of(address, self.word(address), self.word(address + 1))
        return line

    def entries(self, rows: Iterable[Row]) -> List[Entry]:
        """Returns what is shown of rows of cells."""
        found: List[Entry] = []
        for row in rows:
            line = self.line(row.address)
            notes = notes_of(self.source).of(row.address, line) if self.source else ()
            found += [*(Entry(row, note=note) for note in notes), Entry(row, line)]
        return found

    def window(self, top: Tuple[int, int], address: int, count: int,
               is_centred: bool = False) -> Tuple[List[Entry], Tuple[int, int]]:
        """Returns so many entries with a cell among them: from the top on if it is there with rows above it, else with some before
        it. The top is the address of a row, and how many of its entries are above the window. Returns the top too. The cell may
        have to be in the middle."""
        first, above = top
        found = self.entries(rows_from(self.word, first, count + above, self))[above:above + count]
        before = rows_above(next((at for at, entry in enumerate(found) if entry.has(address)), None), count, first, is_centred)
        if before is None:
            return found, top
        found = self.entries(rows_around(self.word, address, before, count - before - 1, self))
        start = next(at for at, entry in enumerate(found) if entry.has(address)) - before
        top = found[start].row.address, sum(entry.row == found[start].row for entry in found[:start])
        return found[start:start + count], top


# ---- the lines of the pane

def cells_line(shown: ScreenContent, row: Row) -> MarkedLine:
    """Returns the beginning of the line of a row: > for the cell at P, r where a block transfer goes on, or w for a watched cell;
    the address, and the words."""
    number, cells = shown.view.processor, shown.view.rows
    is_watched = any(map(row.has, shown.state.watched_cells(number)))
    sign = ">" if row.address == cells.processor.p else "r" if row.address == cells.back else "w" if is_watched else " "
    line = MarkedLine(sign, HERE if sign in ">r" else None).add(f"{row.address:04o} ")
    for at in range(len(row.words)):
        shown.add(line, "M", number, (row.address + at) % CELLS)
    return line.fit(TEXT_FROM)


def instruction_line(shown: ScreenContent, entry: Entry, width: int) -> MarkedLine:
    """Returns the line of a row as an instruction, and beside it the source line that it was of, or a text, or else its label. A
    text without room has one blank between its columns."""
    row, symbols, number, address = entry.row, shown.symbols, shown.view.processor, entry.row.address
    was = f"was {os.path.basename(shown.view.source.path)}:{entry.line.number}" if entry.line and shown.view.source else ""
    line = cells_line(shown, row).add(text_of(row.words).ljust(DISPLAY_WIDTH) if shown.view.has_display_code else "").add(row.text)
    text, column = symbols.text(number, address, row.words[0]), max(LABEL_FROM, len(line.text) + 1)
    named = was or (text if len(text) <= width - column else " ".join(text.split())) or symbols.name(number, address)
    return line.fit(column).add(named, OVERWRITTEN if was else None) if named else line


def source_line(shown: ScreenContent, entry: Entry, width: int) -> MarkedLine:
    """Returns the line of an entry as its source line. The present one has > before its number; a + after it says that a macro made
    the text."""
    cells, cell, source = shown.view.rows, entry.line, entry.note or entry.line and entry.line.row
    assert source
    mark = HERE if not entry.note and entry.row.address == cells.here else None
    text, note = "" if cell and cell.at else source.text.expandtabs(TAB).rstrip(), cell.note if cell else ""
    line = (MarkedLine() if entry.note else cells_line(shown, entry.row)).fit(TEXT_FROM)
    line.add(f"{'>' if mark else ' '}{source.number:{notes_of(cells.source).digits}}{'+' if source.is_made else ' '}", mark)
    room = width - len(line.text) - len(note)
    has_other_word = cell and cell.second is not None
    return line.add_line(MarkedLine(text, mark).fit(min(len(text), room))).add(note, OVERWRITTEN if has_other_word else None)


def head_line(shown: ScreenContent) -> MarkedLine:
    """Returns the line above the rows: what they are, and where the processor is."""
    number, cells, source = shown.view.processor, shown.view.rows, shown.view.source
    at = shown.symbols.name(number, cells.processor.p)
    where = f"in a block; returns to {cells.back:04o}" if cells.back is not None else f"P is {at}" if at else ""
    name = f"SOURCE {os.path.basename(source.path)}" if source else "INSTRUCTIONS"
    return MarkedLine(f"PP {number:02o}  {name}", HEAD).add(f"   {where}" if where else "")


def rows_pane(shown: ScreenContent, count: int, width: int) -> List[MarkedLine]:
    """Returns so many lines of the memory by rows, around P or the cursor, below a head."""
    entries, _ = shown.view.rows.window(shown.view.top_of_rows, shown.view.cell, count, shown.view.following)
    lines = (source_line(shown, entry, width) if entry.note or entry.line and entry.line.is_there
             else instruction_line(shown, entry, width)
             for entry in entries)
    return [line.fit(width) for line in (head_line(shown), *lines)]


def sentence_line(shown: ScreenContent) -> MarkedLine:
    """Returns what the next turn of the chosen processor does."""
    number, state = shown.view.processor, shown.state
    return MarkedLine(f"PP {number:02o} {sentence(state.processors[number], state.memories[number].number, state.channels)}")
