"""Shows the live machine on a full screen, and steps it forward and back by keys."""

from ...devices.options import DEVICE_OPTIONS, devices_of
from ...language.symbol_options import SYMBOL_OPTIONS, symbols_of
from ...shell.command_line import Failure, arguments, octal, script_lines, simulator, words_after
from .app import Panel
from .logged_session import LoggedSession

DESCRIPTION = """Shows the live machine on a full screen: processors, channels, devices, memories, watches. It performs
SCRIPT, then waits for keys, which step it forward and back; ? shows them all. Each key sends lines of the console, and
w FILE saves what was sent as a script. It needs a terminal of 80 columns and 24 lines (decimal) or more."""


def main() -> None:
    parser = arguments(DESCRIPTION, "[OPTION ..] [SCRIPT]")
    parser.add_argument("--turn", metavar="N", type=octal, help="go to this turn of the script, counted in octal from 1")
    parser.add_argument("script", metavar="SCRIPT", nargs="*", help="lines of the console to begin with")
    asked = parser.parse(SYMBOL_OPTIONS, DEVICE_OPTIONS)
    (script,) = words_after(asked.script, 1, "give one script")
    try:
        from . import terminal  # it needs a module of Python's that is not everywhere
    except ImportError:
        raise Failure("this Python has no module curses, so it can't draw on a terminal; the tool talk needs none") from None
    terminal.check()
    symbols = symbols_of(asked)
    lines = symbols.loading([] if script is None else script_lines(script))
    panel = Panel(LoggedSession(simulator(asked), devices_of(asked)), symbols)
    terminal.run(panel, lines, asked.turn)
    panel.session.close()
