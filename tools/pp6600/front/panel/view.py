"""What the panel looks at: the part of the screen with the cursor, and the place of the cursor in each part."""

from __future__ import annotations

import re
from dataclasses import dataclass
from typing import TYPE_CHECKING, Any, Dict, Optional, Tuple

from ...failure import Failure
from ...run.disassembly import moved
from ...run.forms import CELLS, CLOCK, KINDS, PROCESSORS, ROW, Place
from ...run.state import State
from .rows_pane import Cells

if TYPE_CHECKING:
    from ...language.sources import Source

PANES = ("processors", "channels", "memory", "central")
PANE_OF = {"H": "channels", "M": "memory", "C": "central"}  # by the kind of a place
REGISTERS = ("P", "A", "Q")  # those that can be watched
CHANNELS_IN_COLUMN = 7


@dataclass
class View:
    pane: str = "processors"
    processor: int = 0
    register: str = "P"
    channel: int = 0
    cell: int = 0
    word: int = 0  # the central address
    following: bool = True  # the memory follows P
    top: int = 0  # the first cell shown
    top_of_rows: Tuple[int, int] = (0, 0)  # the address of the first row shown, and how many of its lines are above
    central_top: int = 0
    as_program: bool = False  # the cells are shown as instructions
    has_display_code: bool = False  # and beside them as two symbols each
    as_source: bool = True  # they are shown as the source of their processor, if it has one
    source: Optional[Source] = None  # that is shown
    has_central: bool = False  # central memory is beside it
    rows: Any = None  # the cells that are shown by rows

    @property
    def cursor(self) -> Place:
        """The place of the cursor."""
        return Place(*{"processors": (self.register, (self.processor,)), "channels": ("H", (self.channel,)),
                       "memory": ("M", (self.processor, self.cell)), "central": ("C", (self.word,))}[self.pane])

    @property
    def is_by_rows(self) -> bool:
        """Whether the cells are shown as instructions or as a source, and not as numbers."""
        return self.as_program or self.source is not None

    @property
    def shows_central(self) -> bool:
        return self.source is None or self.has_central or self.pane == "central"

    def next_pane(self, steps: int) -> None:
        panes = PANES if self.shows_central else PANES[:-1]
        self.pane = panes[(panes.index(self.pane) + steps) % len(panes)]

    def toggle_program(self, is_display_code: bool = False) -> None:
        """Shows the cells as instructions, or as numbers again; or as instructions, with display code or without."""
        self.has_display_code ^= is_display_code
        self.as_program = is_display_code or self.source is not None or not self.as_program
        if self.source is not None:
            self.as_source, self.source = False, None

    def toggle_central(self) -> None:
        """Shows central memory beside the source, or the source alone."""
        self.has_central = not self.shows_central
        if self.pane == "central" and not self.has_central:
            self.pane = "memory"

    def choose_processor(self, number: int) -> None:
        self.processor = number % PROCESSORS

    def move(self, key: str, count: int, rows: int, size: int) -> None:
        """Moves the cursor by an arrow; a page has so many rows, and central memory so many words."""
        steps = -count if key in ("Up", "Left", "Page Up") else count
        is_across, is_page = key in ("Left", "Right"), key in ("Page Up", "Page Down")
        down = steps * (rows if is_page else 1)
        if self.pane == "memory" and self.is_by_rows and not is_across:
            self.go_to_cell(moved(self.rows.word, self.cell, max(min(down, CELLS), -CELLS), self.rows))
        elif self.pane == "memory":
            self.go_to_cell(self.cell + (steps if is_across else down * ROW))
        elif self.pane == "central":
            self.word = max(min(self.word + (steps * ROW if is_across else down), size - 1), 0)
        elif self.pane == "channels":  # across to the other column, if there is a channel
            channel = self.channel + steps * (CHANNELS_IN_COLUMN if is_across else 1)
            self.channel = self.channel if is_across and not 0 <= channel <= CLOCK else channel % (CLOCK + 1)
        elif is_across:
            self.register = REGISTERS[(REGISTERS.index(self.register) + steps) % len(REGISTERS)]
        else:
            self.choose_processor(self.processor + steps)

    def go_to_cell(self, address: int) -> None:
        self.pane, self.following, self.cell = "memory", False, address % CELLS

    def go_to(self, text: str, size: int) -> None:
        """Moves the cursor to an address of the memory that it is in, or to a place; central memory has so many words."""
        sizes: Dict[str, Tuple[int, ...]] = {**{kind: one.sizes for kind, one in KINDS.items()}, "PP": (PROCESSORS,), "C": (size,)}
        words = text.upper().split()
        if words[0] not in sizes:
            words = ["C", *words] if self.pane == "central" else ["M", f"{self.processor:o}", *words]
        kind, *digits = words
        if any(not re.fullmatch("[0-7]{1,12}", word) for word in digits):
            raise Failure(f"{text} is neither an octal address nor a place, as M 0 106, A 0, H 12 or C 1000")
        numbers = [int(word, 8) for word in digits]
        if len(numbers) != len(sizes[kind]):
            raise Failure(f"{text} does not name one place")
        if any(number >= one for number, one in zip(numbers, sizes[kind])):
            raise Failure(f"there is no place {text}")
        self.go_to_place(kind, *numbers)

    def go_to_place(self, kind: str, number: int, address: int = 0) -> None:
        self.pane = PANE_OF.get(kind, "processors")
        if kind == "C":
            self.word = number
        elif kind == "H":
            self.channel = number
        else:
            self.processor, self.register = number, kind if kind in REGISTERS else self.register
        if kind == "M":
            self.go_to_cell(address)

    def scroll(self, state: State, rows: int, size: int) -> None:
        """Moves the windows to their cursors; each has so many rows, and central memory so many words."""
        self.rows = Cells(state, self.processor, self.source)
        if self.following:
            self.cell = self.rows.present if self.is_by_rows else state.processors[self.processor].p
        if self.is_by_rows:
            _, self.top_of_rows = self.rows.window(self.top_of_rows, self.cell, rows, self.following)
        else:
            self.top = memory_top(self.top, self.cell, rows)
        self.central_top = central_top(self.central_top, self.word, rows, size)


def memory_top(top: int, address: int, rows: int) -> int:
    """Returns the first cell of a window of so many rows that has the address in it: the same one, if it has."""
    distance = (address // ROW - top // ROW) % (CELLS // ROW)
    steps = 0 if distance < rows else 1 if distance == rows else -1 if distance == CELLS // ROW - 1 else distance - rows // 3
    return (top + steps * ROW) % CELLS


def central_top(top: int, address: int, rows: int, size: int) -> int:
    """Returns what `memory_top` does, of central memory, which does not begin anew after its end."""
    if not top <= address < top + rows:
        top = address - (rows - 1 if address == top + rows else 0 if address == top - 1 else rows // 3)
    return max(min(top, size - rows), 0)
