"""What the panel shows: from the machine's state to lines of text with marks. No terminal is needed for it."""

import textwrap
from typing import Any, List, NamedTuple, Optional, Sequence, Tuple

from ...run.forms import CELLS, PROCESSORS, ROW, Place, ranges_of
from ...run.names import AllSymbols
from ...run.state import State
from .logged_session import Log
from .rows_pane import WIDTH, rows_pane, sentence_line
from .text import CHANGED, CHOSEN, CURSOR, HEAD, HERE, REFUSED, SLOT, TITLE, WATCHED, MarkedLine, beside, in_height
from .view import View, central_top, memory_top

LEAST_COLUMNS, LEAST_ROWS = 80, 24
WIDE = 120  # columns from which on watches, paper and lines have a part of their own beside the machine
LEFT = 80  # columns of the machine
CHANNELS_FROM, CENTRAL_FROM = 54, 53  # the columns
COLUMN_FROM = 15  # the column of the device's column
MACHINE_ROWS = 12  # the ten processors, their head and that of the memory
MOST_LEFT = 100  # of the machine with memory by rows
LEAST_RIGHT, RIGHT_OF_CENTRAL = 40, 52  # beside a source, and beside central memory
HINTS = "s step  b back  G turn  g cursor  W who changed it  i program  ? help  q quit"
HINTS_OF_SOURCE = "N next line  P line before  s step  b back  m cells  C central  ? help  q quit"


class ScreenContent(NamedTuple):
    """All that a screen shows. `before` is the state before the last action; the log has lines with their answers."""

    state: State
    before: State
    view: View
    turn: int = 0  # how many turns are in effect
    kept: int = 0
    ahead: int = 0
    size: int = 0o400000  # of central memory
    log: Log = []
    message: str = ""
    prompt: Optional[Tuple[str, str, int]] = None  # what is asked, the text so far, and the place in it
    symbols: AllSymbols = AllSymbols()

    def marks(self, place: Place) -> Tuple[Optional[str], Optional[str]]:
        """Returns the marks of a place: of the cursor if it is there, and of a watch."""
        return CURSOR if place == self.view.cursor else None, WATCHED if place in self.state.watched else None

    def add(self, line: MarkedLine, kind: str, *numbers: int, is_new: bool = True) -> MarkedLine:
        """Appends the number at a place with its marks, and a star if it is a new one that the last action changed."""
        place = Place(kind, numbers)
        return line.add_number(self.state.number_at(place), self.before.number_at(place) if is_new else None, *self.marks(place))


class Screen(NamedTuple):
    """The lines of a screen, all equally long, and where the terminal's cursor belongs (row and column)."""

    lines: List[MarkedLine]
    cursor: Tuple[int, int]


class Layout(NamedTuple):
    """How many lines each part has on a screen. On a wide one watches and log have what is left beside the machine."""

    wide: bool
    memory: int
    watches: int
    paper: int
    log: int


def layout(columns: int, rows: int, is_by_rows: bool = False, folded: int = 0) -> Layout:
    """Returns how a screen is divided. If memory is shown as instructions or a source, a line is below it. So many processors are
    one line, whose rows the memory has."""
    spare, line = rows - LEAST_ROWS, int(is_by_rows)
    if columns >= WIDE:
        return Layout(True, rows - 2 - MACHINE_ROWS - line, 0, 4 + spare // 3, 0)
    memory, log = spare // 2, spare // 3
    return Layout(False, 5 + memory + max(folded - 1, 0), 2, 1 + spare - memory - log, 2 + log - line)


# ---- the parts of the machine

def is_idle(now: State, was: State, number: int) -> bool:
    """Returns whether a processor only passed through words 0000 between two states. The clock grows by 1 in a round, so that
    it and the slot say how many turns the processor had."""
    first, last = was.processors[number], now.processors[number]
    turns = (int(now.clock, 8) - int(was.clock, 8) + (now.slot > number) - (was.slot > number)) % CELLS
    if (last.p - first.p - turns) % CELLS or first.phase or first[1:4] != last[1:4]:
        return False
    begin, count = (first.p, turns + 1) if turns <= CELLS // 2 else (last.p, CELLS - turns + 1)  # on, or back
    return not any(any([*state.memories[number].numbers, *state.memories[number].numbers][begin:begin + count])
                   for state in (was, now))


def folded_processors(columns: int, state: State, before: State, view: View) -> List[int]:
    """Returns the processors that are one line of a narrow screen with a source: those that only pass, but for the chosen one."""
    if columns >= WIDE or view.shows_central:
        return []
    return [number for number, one in enumerate(state.processors) if number != view.processor and not one.phase
            and not state.memories[number].number(one.p) and is_idle(state, before, number)]


def names_of(numbers: Sequence[int]) -> str:
    """Returns the numbers of processors, as 01, 03 to 11."""
    return ", ".join(f"{first:02o}{f' to {first + size - 1:02o}' if size > 1 else ''}" for first, size in ranges_of(numbers))


def folded_line(shown: ScreenContent, numbers: Sequence[int]) -> MarkedLine:
    """Returns the line of the processors that only pass; the slot is said if it is at one of them."""
    slot = shown.state.slot
    line = MarkedLine(">" if slot in numbers else " ", SLOT).add(f"{names_of(numbers)}: only passing")
    return line.add(f", next is {slot:02o}") if slot in numbers else line


def processor_line(shown: ScreenContent, number: int) -> MarkedLine:
    state, before = shown.state, shown.before
    now, memory, memory_before = state.processors[number], state.memories[number], before.memories[number]
    line = MarkedLine(">" if state.slot == number else " ", SLOT)
    line.add(f"{number:02o}", CHOSEN if number == shown.view.processor else None).add(" ")
    shown.add(line, "P", number, is_new=not is_idle(state, before, number))
    for address in (now.p,) if now.phase else (now.p, now.p + 1):
        line.add_number(memory.word(address), memory_before.word(address))
    line.add(f"{'  in ' if now.phase else ''}{now.name} ")
    for register in ("A", "Q", "PHASE"):
        shown.add(line, register, number)
    return line.add(f"  {now.waits_for(state.states())}")


def channel_part(shown: ScreenContent, number: int) -> MarkedLine:
    """Returns a channel: its number, state and register."""
    now, was = shown.state.channels[number], shown.before.channels[number]
    return shown.add(MarkedLine(f"{now.number} ").add_number(now.state, was.state), "H", number)


def device_line(name: str, now: Any, was: Any) -> MarkedLine:
    """Returns the channel, the mode and the column of a device."""
    line = MarkedLine(f"{name} {now.channel} ").add_number(now.mode, was.mode).fit(COLUMN_FROM)
    return line.add("COLUMN ").add_number(now.column, was.column)


def channel_lines(shown: ScreenContent) -> List[MarkedLine]:
    """Returns the channels and the clock in two columns, and the devices below."""
    channels = [channel_part(shown, number) for number in range(len(shown.state.channels))]
    half = (len(channels) + 1) // 2
    clock = channels[-1].add("clk")
    now, was = shown.state, shown.before
    return [MarkedLine("CHANNELS", HEAD), *beside(channels[:half], channels[half:-1] + [clock], 13),
            device_line("CR", now.reader, was.reader),
            MarkedLine("      CARD ").add_number(now.reader.card, was.reader.card).add(f"OF {now.reader.cards}"),
            device_line("LP", now.printer, was.printer)]


def memory_row(shown: ScreenContent, first: int) -> MarkedLine:
    """Returns a row of eight cells of the chosen processor: > is before the cell at P, w before a watched one."""
    number = shown.view.processor
    here, watched = shown.state.processors[number].p, shown.state.watched_cells(number)
    line = MarkedLine(f"{first:04o}")
    for address in range(first, first + ROW):
        line.add(">" if address == here else "w" if address in watched else " ", HERE if address == here else None)
        shown.add(line, "M", number, address)
    return line


def memory_lines(shown: ScreenContent, rows: int) -> List[MarkedLine]:
    """Returns the cells around P or the cursor."""
    view = shown.view
    head = MarkedLine(f"PP {view.processor:02o}" + "".join(f"{digit:4o}  " for digit in range(ROW)), HEAD)
    top = memory_top(view.top, view.cell, rows)
    return [head.fit(CENTRAL_FROM - 1)] + [memory_row(shown, (top + row * ROW) % CELLS) for row in range(rows)]


def central_line(shown: ScreenContent, address: int) -> MarkedLine:
    """Returns a central word: a star is before one that the last action changed, w before a watched one."""
    place = Place("C", (address,))
    now, marks = shown.state.number_at(place), shown.marks(place)
    changed = CHANGED if now != shown.before.number_at(place) else None
    return MarkedLine(f"{address:06o}").add("*" if changed else "w" if WATCHED in marks else " ", changed).add(now, changed, *marks)


def machine_lines(shown: ScreenContent, rows: int, width: int, folded: Sequence[int] = ()) -> List[MarkedLine]:
    """Returns processors, channels, devices, and so many rows of memory: that of the chosen processor with central memory beside
    it, or a source in the whole width, which begins beside the channels if some processors are one line."""
    view = shown.view
    processors = [processor_line(shown, number) for number in range(PROCESSORS) if number not in folded]
    left = [MarkedLine(" PP P    AT P          A      Q    PHASE  WAITS FOR", HEAD), *processors]
    last = [sentence_line(shown)] if view.is_by_rows else []
    if folded:
        return source_beside(shown, [*left, folded_line(shown, folded)], rows, width) + last
    if not view.shows_central:
        memory = rows_pane(shown, rows, width)
    else:
        more = min(width, MOST_LEFT) - LEFT if view.is_by_rows else 0
        cells = rows_pane(shown, rows, WIDTH + more) if view.is_by_rows else memory_lines(shown, rows)
        top = central_top(view.central_top, view.word, rows, shown.size)
        central = [MarkedLine("CENTRAL MEMORY", HEAD), *(central_line(shown, top + row) for row in range(rows))]
        memory = beside(cells, central, CENTRAL_FROM + more)
    return beside(left, channel_lines(shown), CHANNELS_FROM) + memory + last


def source_beside(shown: ScreenContent, processors: Sequence[MarkedLine], rows: int, width: int) -> List[MarkedLine]:
    """Returns the processors and so many rows of a source: the first ones beside the channels, the others in the whole width."""
    channels = channel_lines(shown)
    count = min(max(len(channels) - len(processors), 0), rows + 1)
    narrow, wide = rows_pane(shown, rows, CHANNELS_FROM - 1)[:count], rows_pane(shown, rows, width)[count:]
    return beside([*processors, *narrow], channels, CHANNELS_FROM) + wide


# ---- watches, paper and the lines typed

def watch_parts(shown: ScreenContent) -> List[MarkedLine]:
    """Returns each watched place with its number."""
    return [MarkedLine(f"{place.text} ").add_number(shown.state.number_at(place), shown.before.number_at(place))
            for place in shown.state.watched]


def watch_rows(shown: ScreenContent, width: int, rows: int) -> List[MarkedLine]:
    """Returns the watches in at most so many rows, several in a row."""
    parts = watch_parts(shown) or [MarkedLine("none")]
    lines = [MarkedLine("WATCHES ", HEAD)]
    for number, part in enumerate(parts):
        if len(lines[-1].text) + len(part.text) >= width:
            if len(lines) == rows:
                lines[-1].fit(width - 10).add(f" {len(parts) - number:o} more")
                break
            lines.append(MarkedLine(" " * 8))
        lines[-1].add_line(part.add(" "))
    return lines


def paper_lines(shown: ScreenContent, rows: int) -> List[MarkedLine]:
    """Returns the end of the paper; the last line is `/` and not `|` if it has no line end."""
    return in_height([MarkedLine(text) for text in shown.state.printer.paper[-rows:]] or [MarkedLine("none")], rows)


def paper_head(shown: ScreenContent) -> MarkedLine:
    """Returns the number of symbols on the paper."""
    return MarkedLine("PAPER ", HEAD).add_number(shown.state.printer.symbols, shown.before.printer.symbols)


def refused_mark(text: str) -> Optional[str]:
    """Returns the mark of a text that begins with a refusal."""
    return REFUSED if text.startswith("ERR ") else None


def log_rows(log: Log, rows: int) -> List[MarkedLine]:
    """Returns the last lines, each with its answer beside it."""
    lines: List[MarkedLine] = []
    for typed, answers in log[-rows:]:
        line, answer = MarkedLine(f"> {typed}   "), "; ".join(answers)
        lines.append(line.fit(max(len(line.text), 24)).add(answer, refused_mark(answer)))
    return [MarkedLine() for _ in range(rows - len(lines))] + lines


def log_lines(log: Log) -> List[MarkedLine]:
    """Returns lines and answers, each in a row of its own."""
    return [line for typed, answers in log
            for line in (MarkedLine(f"> {typed}"), *(MarkedLine(answer, refused_mark(answer)) for answer in answers))]


# ---- the whole screen

def title_line(shown: ScreenContent, width: int) -> MarkedLine:
    """Returns the line at the top."""
    left = f" TURN {shown.turn:o}  SLOT {shown.state.slot:02o}  KEPT {shown.kept:o}  AHEAD {shown.ahead:o}"
    right = f"cursor {shown.view.cursor.short}  all octal  ? help "
    return MarkedLine(left + right.rjust(width - len(left)), TITLE)


def bottom_line(shown: ScreenContent) -> Tuple[MarkedLine, Optional[int]]:
    """Returns the line at the bottom, and the column of the terminal's cursor in it if there is a prompt."""
    if shown.prompt:
        asked, text, place = shown.prompt
        return MarkedLine(asked, HEAD).add(text), len(asked) + place
    return MarkedLine(shown.message or (HINTS if shown.view.source is None else HINTS_OF_SOURCE), refused_mark(shown.message)), None


def narrow_lines(shown: ScreenContent, columns: int, parts: Layout) -> List[MarkedLine]:
    """Returns the lines between top and bottom, one part below the other."""
    watches = watch_rows(shown, columns, parts.watches)
    log = log_rows(shown.log, parts.log + parts.watches - len(watches))
    paper = beside([paper_head(shown)], paper_lines(shown, parts.paper), 14)
    return machine_lines(shown, parts.memory, columns,
                         folded_processors(columns, shown.state, shown.before, shown.view)) + watches + paper + log


def wide_lines(shown: ScreenContent, columns: int, parts: Layout) -> List[MarkedLine]:
    """Returns the lines between top and bottom, with watches, paper and the lines typed at the right."""
    room = columns - (RIGHT_OF_CENTRAL if shown.view.shows_central else LEAST_RIGHT)
    left = max(LEFT, min(MOST_LEFT, room)) if shown.view.is_by_rows else LEFT
    right = [MarkedLine("WATCHES", HEAD), *(watch_parts(shown) or [MarkedLine("none")]), MarkedLine(), paper_head(shown),
             *paper_lines(shown, parts.paper), MarkedLine("LINES", HEAD)]
    height = parts.memory + MACHINE_ROWS + int(shown.view.is_by_rows) - len(right)
    right += in_height(log_lines(shown.log[-height:])[-height:], height)
    return beside(machine_lines(shown, parts.memory, left), right, left + 2)


def cursor_of(lines: Sequence[MarkedLine]) -> Tuple[int, int]:
    """Returns the row and the column of the mark of the cursor."""
    found = ((row, start) for row, line in enumerate(lines) for start, _, mark in line.marks if mark == CURSOR)
    return next(found, (len(lines) - 1, 0))


def screen(shown: ScreenContent, columns: int, rows: int) -> Screen:
    """Returns the screen of a machine's state on a terminal of so many columns and rows."""
    if is_too_small(columns, rows):
        return small_screen(columns, rows)
    parts = layout(columns, rows, shown.view.is_by_rows, len(folded_processors(columns, shown.state, shown.before, shown.view)))
    middle = (wide_lines if parts.wide else narrow_lines)(shown, columns, parts)
    bottom, column = bottom_line(shown)
    lines = [line.fit(columns) for line in [title_line(shown, columns), *middle, bottom]]
    return Screen(lines, (rows - 1, min(column, columns - 1)) if column is not None else cursor_of(lines))


def is_too_small(columns: int, rows: int) -> bool:
    return columns < LEAST_COLUMNS or rows < LEAST_ROWS


def small_screen(columns: int, rows: int) -> Screen:
    """Returns what a terminal shows that is too small."""
    text = f"The panel needs {LEAST_COLUMNS} columns and {LEAST_ROWS} lines (decimal). q quits."
    return Screen([line.fit(columns) for line in in_height(list(map(MarkedLine, textwrap.wrap(text, columns))), rows)], (0, 0))
