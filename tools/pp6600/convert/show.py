"""Lines with their answers, as a session is shown."""

from ..language.symbol_options import SOURCE_OPTIONS, symbols_of
from ..run.session import Session
from ..run.tape import Position
from ..shell.command_line import SCRIPT_WORD, TURN_OPTION, arguments, script_lines, simulator
from ..shell.script import performed, show_lines

DESCRIPTION = """Shows each line of a script after '> ', and below it the answer. The exit status is 0 if no line was refused, else
1. With --turn N it shows the lines that lead to turn N: those of the actions that are in effect at the end of the script, up to
there, with the last STEP cut short. At a terminal a line that is refused has the reason below its answer."""


def main() -> int:
    parser = arguments(DESCRIPTION)
    parser.add_argument("--stop", action="store_true", help="stop at the first line that is refused")
    asked = parser.parse(TURN_OPTION, SOURCE_OPTIONS, SCRIPT_WORD)
    words = simulator(asked)
    lines, status = symbols_of(asked).loading(script_lines(asked.script)), 0
    if asked.turn is not None:
        done, refusals = performed(words, lines)
        tape = done.in_effect()
        lines, status = list(tape.lines(Position(0), tape.after_turn(asked.turn), with_watches=False)), refusals.status()
    run = Session(words)
    status |= show_lines(run, lines, asked.stop)
    return max(run.end(), status)
