"""The turns at which a condition comes to hold."""

from itertools import islice
from typing import Any, List, Optional, Tuple

from ...devices.options import DEVICE_OPTIONS, replayed
from ...language.symbol_options import SYMBOL_OPTIONS, symbols_of
from ...run.conditions import Condition, first_of
from ...run.names import AllSymbols
from ...run.search import last_found, turn_at
from ...run.searches import search_for
from ...shell.command_line import Failure, arguments, count, words_after, write
from ...shell.progress import Progress

DESCRIPTION = """Shows the first turn at whose end a condition holds and at whose beginning it did not. A condition is PLACE = 105,
also != < > <= >= (in quotation marks, for the shell), PLACE outside 100 117 or inside, PLACE changes or is written, M 0 100 117
changes or is written, H 12 is F, H 12 changes state, PP 3 performs 105 (it is about to), PP 3 waits, PP 3 in a block or not in a
block, or PP 3 returns wrongly (with the labels NAMEX and NAME of its subroutines); conditions are joined by and, and these by or. A
place is M n a, A n, P n, Q n, C a or H c. All numbers are octal; with --symbols a label may be in the place of an address. A line
has the turn, counted from 1, the processor whose turn it was, its P before the turn, the name of its instruction, and the numbers
before and after. A processor waits if its latest turn was a wait. If there is no such turn, the tool writes NONE and ends with
1."""


def condition_and_script(words: List[str], symbols: Any = AllSymbols()) -> Tuple[Condition, Optional[str]]:
    """Returns the condition and the script of a command line. The condition may be one word or several."""
    tokens = [(token, at) for at, word in enumerate(words) for token in word.split() or [word]]
    condition, rest = first_of([token for token, _ in tokens], symbols)
    if rest:
        at = tokens[-len(rest)][1]
        if len(rest) < len(tokens) and tokens[-len(rest) - 1][1] == at:
            raise Failure(f"{words[at]!r} does not end where the condition does")
        words = words[at:]
    return condition, words_after(words if rest else [], 1, "give one condition, one script")[0]


def main() -> int:
    parser = arguments(DESCRIPTION, "[OPTION ..] CONDITION [SCRIPT]")
    parser.add_argument("--from", metavar="N", type=count, dest="first", help="search from turn N on, octal")
    parser.add_argument("--last", action="store_true", help="search backwards from the end")
    much = parser.add_mutually_exclusive_group()
    much.add_argument("--all", action="store_true", help="show each turn that is found, not one alone")
    much.add_argument("--count", metavar="K", type=count, help="show at most K turns, octal")
    parser.add_argument("words", nargs="*", metavar="CONDITION [SCRIPT]", help="without a script, standard input is it")
    asked = parser.parse(SYMBOL_OPTIONS, DEVICE_OPTIONS)
    symbols = symbols_of(asked)
    condition, path = condition_and_script(asked.words, symbols)
    run, refusals = replayed(asked, symbols, path)
    first, most, is_found = asked.first - 1 if asked.first else 0, run.tape.turns if asked.all else asked.count or 1, False
    progress = Progress(run.tape.turns)
    search = search_for(run, condition, progress.show)
    for position, _ in last_found(search, most, first) if asked.last else islice(search.found(first), most):
        progress.end()
        write(turn_at(run, position, condition.columns).text(symbols), at_once=not asked.all)
        is_found = True
    run.end()
    progress.end()
    if not is_found:
        write("NONE")
    return refusals.status() or int(not is_found)
