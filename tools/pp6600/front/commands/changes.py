"""Every change of a place over a whole run, or what each of its last turns changed."""

from collections import ChainMap
from itertools import takewhile
from typing import Any, Dict, Iterator, List, Mapping, Tuple

from ...devices.options import DEVICE_OPTIONS, replayed
from ...engine.interface import PAPER, PAPER_LENGTH
from ...language.display_code import SYMBOLS
from ...language.symbol_options import SYMBOL_OPTIONS, symbols_of
from ...run.conditions import changes, column_of, first_place
from ...run.forms import Place
from ...run.names import AllSymbols
from ...run.recording import Numbers, next_turn
from ...run.search import Progress, Search, TurnFinder, no_progress, turn_at
from ...run.session import Session
from ...run.state import differences
from ...run.tape import STEP, Position, SourceLine
from ...run.turn import places_of_setting
from ...shell.command_line import arguments, count, words_after, write_lines
from ...shell.progress import Progress as ShownProgress

LINE_END = 0o100  # among the symbols of the paper
DESCRIPTION = """Shows every change of a place (M 0 106, A 0, C 1000, H 12 ..) over the whole run of a script, however
long: the turn, counted in octal from 1, the processor whose turn it was, its P before the turn, the name of its
instruction, and the number before and after. H c is the register of a channel, with the state of the channel beside it.
In that turn the card reader, the printer or the clock may have made the change. A SET, a DEADSTART or a device of one's own is
shown by its name, with the turns before it. What the script took back and did not perform again has no changes. With --turns COUNT,
and without PLACE, it shows what each of the last COUNT turns changed: the numbers of the processor whose turn it was, the channels
and the clock, the frame (XP), reader and printer, and the central words from A to A+17; a turn changes no others. Of a channel
it shows the state and the register in one; of the paper the number of symbols and the last line."""


def place_changes(run: Session, place: Place, symbols: Any = AllSymbols(), progress: Progress = no_progress) -> Iterator[str]:
    """Yields the line of each change of a place."""
    column = column_of(run.checked(place))
    finder, tape = TurnFinder([[form] for form in changes(column).forms]), run.tape
    for start, end, action in zip(tape.starts, tape.starts[1:], tape.runs):
        if action.line == STEP:
            yield from (turn_at(run, position, [column]).text(symbols)
                        for position, _ in Search(run, [finder], progress).in_row(finder, start, end))
        elif place in places_of_setting(action.line):
            run.goto(start)
            (_, was), = column.shown(run)
            run.goto(end)
            (_, now), = column.shown(run)
            if was.split()[-1] != now.split()[-1]:
                yield f"TURN {run.turn:o} {action.setter} WAS {was} NOW {now}{source_of(action.line, place)}"
    run.close()


def source_of(line: str, place: Place) -> str:
    """Returns the place in a source from which a setting took the number at a place, after two blanks; nothing without a source."""
    return f"  {line.origin(places_of_setting(line)[place])}" if isinstance(line, SourceLine) else ""


def last_turns(run: Session, count: int, symbols: Any = AllSymbols()) -> Iterator[str]:
    """Yields a line with what it changed for each of the last turns, and the line of each action between them."""
    position = run.tape.at_turn(max(run.tape.turns - count, 0))
    for action in run.tape.actions(position):
        if action.line == STEP:
            run.goto(position)
            yield from (turn_line(run, symbols) for _ in range(action.times))
        elif not action.is_watch:
            yield action.line
        position = Position(position + action.times)
    run.end()


def turn_line(run: Session, symbols: Any) -> str:
    """Makes the next turn. Returns a line with what it changed."""
    slot = run.slot()
    processor, (was, now) = run.processor(slot), next_turn(run)
    changes = ", ".join(f"{place} {before} -> {after}" for place, before, after in shown(was, now)) or "NOTHING"
    return f"TURN {run.turn:o} PP {slot:02o}: {changes}{symbols.line_at_p(slot, processor)}"


def shown(was: Dict[int, int], now: Numbers) -> List[Tuple[str, ...]]:
    """Returns what a turn changed as one reads it: the places, with the numbers before and after; after the printer the last line
    of its paper."""
    before = ChainMap(was, now)
    found: List[Tuple[str, ...]] = [*differences([place for place, number in was.items() if number != now[place]], before, now)]
    if before[PAPER_LENGTH] != now[PAPER_LENGTH]:
        at = next((at for at, (place, *_) in enumerate(found) if place.startswith("C ")), len(found))
        found.insert(at, ("PAPER", *(last_line(numbers[PAPER_LENGTH], now) for numbers in (before, now))))
    return found


def last_line(length: int, numbers: Mapping[int, int]) -> str:
    """Returns the last line of a paper of so many symbols, as a DUMP LP has it."""
    if not length:
        return "EMPTY"
    is_whole = numbers[PAPER + length - 1] == LINE_END
    symbols = takewhile(lambda symbol: symbol != LINE_END, (numbers[PAPER + at] for at in range(length - is_whole - 1, -1, -1)))
    return "|" * is_whole + "/" * (not is_whole) + "".join(SYMBOLS[symbol] for symbol in symbols)[::-1]


def main() -> int:
    parser = arguments(DESCRIPTION, "[OPTION ..] (PLACE | --turns COUNT) [SCRIPT]")
    parser.add_argument("--turns", metavar="COUNT", type=count, help="show what each of the last turns changed, octal")
    parser.add_argument("words", nargs="*", metavar="PLACE [SCRIPT]", help="without a script, standard input is it")
    asked = parser.parse(SYMBOL_OPTIONS, DEVICE_OPTIONS)
    symbols = symbols_of(asked)
    place, rest = (None, asked.words) if asked.turns else first_place(asked.words, symbols)
    (path,) = words_after(rest, 1, "give --turns, one script" if asked.turns else "give one place, one script")
    run, refusals = replayed(asked, symbols, path)
    if place is None:
        write_lines(last_turns(run, asked.turns, symbols))
    else:
        shown = ShownProgress(run.tape.turns)
        write_lines(shown.passed(place_changes(run, place, symbols, shown.show)), "NO CHANGE")
    return refusals.status()
