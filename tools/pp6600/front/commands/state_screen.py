"""The whole machine on a screen of 80 columns and 24 lines (decimal)."""

from argparse import Namespace
from typing import Any, List, Sequence, Tuple

from ...devices.options import DEVICE_OPTIONS, devices_of, timeline
from ...language.calls import calls, sentence
from ...language.symbol_options import SYMBOL_OPTIONS, symbols_of
from ...run.console import Console
from ...run.forms import PROCESSORS
from ...run.session import Session
from ...run.tape import counted
from ...run.turn import states_of
from ...shell.command_line import SCRIPT_WORD, TURN_OPTION, arguments, script_lines, simulator, write_lines
from ...shell.script import Refusals

DESCRIPTION = """Shows the machine at the end of a script, or after a turn, on one screen: the ten processors with the two words
from P on, the name of the instruction, and WAITS if it waits as the channels are; the channels and the clock beside them, the
number of turns that were made, octal, the card reader, the printer, and the watches. A > marks the processor whose turn comes
next. It fits a terminal of 80 columns and 24 lines (decimal). With --symbols a label is shown in the place of the words.
With --source a line for the processor has the line of the source at P, and more lines the subroutines that it is in."""

WIDTH = 11  # of two words, or a label
LEFT = 68  # columns, to the left of the channels


def processor_line(console: Console, number: int, states: Sequence[str], symbols: Any) -> str:
    """Returns the line of a processor; a > marks the one whose turn comes next."""
    processor = console.processor(number)
    mark = ">" if console.slot() == number else " "
    fields = " ".join(f"{name} {digits}" for name, digits in processor.registers.items())
    waits = " WAITS" if processor.would_wait(states) else ""
    at = symbols.name(number, processor.p) or "P {:04o} {:04o}".format(*processor.words)
    return f"{mark}PP {number:02o} {fields}  AT {at:{WIDTH}.{WIDTH}} {processor.name}{waits}"


def watch_lines(dumped: Sequence[str]) -> List[str]:
    """Returns the lines of the watches, four a line."""
    watches = [line.removeprefix("W ") for line in dumped]
    rows = [", ".join(watches[at:at + 4]) for at in range(0, len(watches), 4)]
    return [f"{'WATCHES' if number == 0 else '':7} {row}" for number, row in enumerate(rows)]


def source_line(console: Console, number: int, symbols: Any) -> str:
    """Returns the line of the source at P of a processor; nothing without a source."""
    line = symbols.line_at_p(number, console.processor(number))
    return f" PP {number:02o}{line}"[:LEFT - 1] if line else ""


def call_lines(run: Session, symbols: Any) -> List[str]:
    """Returns a line for each subroutine of a source that its processor is in, the innermost first."""
    with run.search(run.in_effect()) as again:
        return [f" PP {number:02o}  {sentence(again, number, call, symbols)}"
                for number, source in symbols.sources() for call in calls(again, number, source, again.tape.end)]


def screen(run: Session, symbols: Any) -> List[str]:
    right = run.channels()
    left = [processor_line(run, number, states_of(right), symbols) for number in range(PROCESSORS)]
    left += [f" TURN {run.turn:o}", *filter(None, (source_line(run, number, symbols) for number in symbols.of))]
    beside = [*left[:len(right)], *[""] * (len(right) - len(left))]
    lines = [f"{line:{LEFT}}{channel}".rstrip() for line, channel in zip(beside, right)]
    lines += [run.reader(), run.printer()[0]]
    return lines + watch_lines(run.demand("DUMP W")) + left[len(right):] + (call_lines(run, symbols) if symbols.sources() else [])


def performed(asked: Namespace, symbols: Any) -> Tuple[Session, Refusals]:
    """Returns a run that has performed a script, or its actions up to a turn, and the refused lines."""
    run, refusals = timeline(simulator(asked), devices_of(asked)), Refusals()
    for number, line in counted(symbols.loading(script_lines(asked.script))):
        refusals.note(number, line, run.act(line))
    if asked.turn is not None:
        run.cut(run.position)
        run.goto(run.tape.after_turn(asked.turn))
    return run, refusals


def main() -> int:
    asked = arguments(DESCRIPTION).parse(TURN_OPTION, SYMBOL_OPTIONS, DEVICE_OPTIONS, SCRIPT_WORD)
    symbols = symbols_of(asked)
    run, refusals = performed(asked, symbols)
    write_lines(screen(run, symbols))
    run.end()
    return refusals.status()
