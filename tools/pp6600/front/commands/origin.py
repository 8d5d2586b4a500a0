"""tools/origin."""

from typing import Any, List, Optional, Sequence, Tuple

from ...devices.options import DEVICE_OPTIONS, devices_of
from ...language.origin_text import MOST_STEPS, origin_rows
from ...language.symbol_options import SYMBOL_OPTIONS, symbols_of
from ...run.conditions import first_place
from ...run.forms import Place
from ...run.names import AllSymbols
from ...run.session import Session
from ...run.tape import Tape, numbered
from ...shell.command_line import Failure, arguments, count, octal, script_lines, simulator, words_after, write_lines
from ...shell.progress import Progress
from ...shell.script import performed

DESCRIPTION = """Shows where the number at a place (M 0 106, A 0, C 1000, H 12 ..; XP 0: a word of the frame; LP 7: a symbol of the
paper) came from at the end of a script: the last write, in which turn, by which instruction, and from what; then the same of
each source, back to a word of the script, a column of a card, a word of the panel, a constant of an instruction or the start. A
number that was stored again counts as written. FROM a place: the number was moved. SUM OF places and the like: it was computed from
the numbers that these had. What the script took back and did not perform again counts for nothing."""


def place_of(words: List[str], symbols: Any) -> Tuple[Place, List[str]]:
    """Returns the place that words begin with, and the words after it."""
    place, rest = first_place(words, symbols, ("XP", "LP"))
    if not place.exists:
        raise Failure(f"there is no {place.short}")
    return place, rest


def origin_lines(words: Sequence[str], tape: Tape, place: Place, turn: Optional[int] = None, most_steps: Optional[int] = MOST_STEPS,
                 with_addresses: bool = False, symbols: Any = AllSymbols(), with_reasons: bool = False) -> List[str]:
    """Returns the lines of the origin of the number at a place after so many turns of a tape, or at its end. The words are the
    program and its options."""
    run = Session(words, tape, is_search=True)
    run.checked(place)
    position, progress = tape.end if turn is None else tape.after_turn(turn), Progress(tape.turns)
    rows = origin_rows(run, place, position, most_steps, with_addresses, lambda at: progress.show(tape.turn(at)), symbols=symbols,
                       with_reasons=with_reasons)
    run.end()
    progress.end()
    return [line for _, line in rows]


def main() -> int:
    parser = arguments(DESCRIPTION, "[OPTION ..] PLACE [SCRIPT]")
    parser.add_argument("--turn", "--at", metavar="N", type=octal,
                        help="as it is after turn N, octal, with the settings before the next one")
    parser.add_argument("--depth", metavar="N", type=count, default=MOST_STEPS,
                        help="follow the sources until N steps by processors are found, octal (40)")
    parser.add_argument("--all", action="store_true", help="follow all sources to their ends")
    parser.add_argument("--addresses", action="store_true", help="follow also the cells and registers that addresses came from")
    parser.add_argument("--why", action="store_true", help="say also what decided: A, a count, or the state of a channel")
    parser.add_argument("words", nargs="*", metavar="PLACE [SCRIPT]", help="without a script, standard input is it")
    asked = parser.parse(SYMBOL_OPTIONS, DEVICE_OPTIONS)
    words, symbols = simulator(asked), symbols_of(asked)
    place, rest = place_of(asked.words, symbols)
    (script,) = words_after(rest, 1, "give one place, one script")
    done, refusals = performed(words, numbered(symbols.loading(script_lines(script))), devices_of(asked))
    most_steps = None if asked.all else asked.depth
    write_lines(origin_lines(words, done.in_effect(), place, asked.turn, most_steps, asked.addresses, symbols, asked.why))
    return refusals.status()
