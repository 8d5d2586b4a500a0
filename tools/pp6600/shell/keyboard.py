"""Lines typed at a terminal."""

import os
import re
import shutil
import signal
import sys
from typing import Any, Iterator, List, Tuple

from ..engine.choice import ABOVE, HOME, PACKAGE
from ..failure import Failure
from ..run.device import DeviceFailure
from ..run.session import Session
from .ending import complain, flush, write
from .script import Refusals, answer, show_answer
from .text_files import input_lines, shown

PROMPT = "> "  # after the number of turns
WRAPPED = "PP6600_WRAPPED"  # set for the tool that rlwrap runs
MOVES = {"undo": "BACK", "redo": "FORWARD"}  # without the limits of these
MOVE = re.compile(rf"\s*({'|'.join(MOVES)})(?:\s+([0-7]+))?\s*", re.I)
FIRST_WORDS = ("help", "?", "quit", "exit")  # what a newcomer may type; the simulator has no such commands


def is_terminal() -> bool:
    return sys.stdin is not None and sys.stdin.isatty() and sys.stdout.isatty()


def card() -> str:
    """Returns where the lines of the console are described: in a checkout, a release or a class, in a package of pip, and
    elsewhere."""
    if os.path.exists(os.path.join(ABOVE, "docs", "CARD.md")):
        return "docs/CARD.md"
    page = os.path.join(sys.prefix, "share", "pp6600", "docs", "CARD.md")
    return page if HOME == PACKAGE and os.path.exists(page) else "man pp6600"


def completions() -> List[str]:
    """Returns the file of the console's words: beside the tools in an installation, in share in a checkout."""
    found = [path for path in (os.path.join(ABOVE, "commands"), os.path.join(ABOVE, "share", "commands")) if os.path.exists(path)]
    return ["--file", *found[:1]] if found else []


def edit_lines() -> None:
    """Has rlwrap run the tool again at a terminal, which then has line editing and the history of ./pp6600. Without
    rlwrap Python's own line editing does that, if it is there. An interrupt does not end the tool."""
    if not is_terminal():
        return
    signal.signal(signal.SIGINT, signal.SIG_IGN)
    if WRAPPED in os.environ:
        return
    # for which rlwrap ends
    is_dumb = os.environ.get("TERM", "dumb") == "dumb" or os.get_terminal_size(sys.stdin.fileno()).columns == 0
    if shutil.which("rlwrap") and not is_dumb:
        os.environ[WRAPPED] = "yes"
        wrap = ["rlwrap", "--case-insensitive", "--command-name", "pp6600", *completions()]
        os.execvp("rlwrap", [*wrap, sys.executable, *sys.argv])
    try:
        import readline  # input() then has it
        readline.parse_and_bind("set enable-bracketed-paste off")
    except ImportError:
        pass


def typed_lines(run: Session) -> Iterator[str]:
    """Yields the lines of a terminal, each after a prompt with the number of turns in effect."""
    while True:
        flush()
        try:
            line = input(f"{run.turn:o}{PROMPT}")
        except EOFError:
            if WRAPPED not in os.environ:
                write("")
            return
        except OSError as error:
            raise Failure(f"can't read the terminal: {error.strerror}") from error
        yield line.encode("utf-8", "surrogateescape").decode("latin-1")


def converse(run: Session, transcript: Any) -> int:
    """Performs the lines that are typed, or those of standard input. Returns the exit status."""
    if not is_terminal():
        return perform_input(run, transcript)
    status = 0
    for line in typed_lines(run):
        if line.strip().lower() in FIRST_WORDS:
            write(f"Ctrl-D ends. undo and redo go back and forward. Card: {card()}.")
        else:
            status |= perform_typed(run, line, transcript)
        flush()
    return status


def perform_typed(run: Session, line: str, transcript: Any) -> bool:
    """Performs a line that was typed, and shows what came of it. Returns whether it was refused, or a device failed."""
    ahead, place = run.to_redo, place_of(run)
    asked = MOVE.fullmatch(line)
    try:
        lines = run.act_by_move(f"{MOVES[asked[1].lower()]} {asked[2] or 1}") if asked else run.act(line)
    except DeviceFailure as failure:
        complain(failure)
        return True
    show_answer(run, line, lines)
    kind = lines[0].split()[0] if lines else ""
    if kind != "ERR":
        transcript.add_since(run, place)
    note = note_on(run, lines[0][:6], ahead) if lines else ""
    if note:
        write(f"  {note}")
    return kind == "ERR"


def place_of(run: Session) -> Tuple[int, int]:
    """Returns how often the script of a run has begun anew, and how many lines were sent since."""
    return run.replays, len(run.sent)


def note_on(run: Session, answer: str, ahead: int) -> str:
    """Returns what may not be expected after an answer, of which these are the first letters."""
    if ahead and not run.to_redo and answer[:2] in ("OK", "TU"):
        return f"the {ahead:o} actions ahead are discarded"
    if answer == "ERR 07":
        return f"undo goes back over the {run.unit:o} actions in effect" if run.oldest else ""
    return f"redo goes over the {run.to_redo:o} actions ahead" if answer == "ERR 16" and run.to_redo else ""


def perform_input(run: Session, transcript: Any) -> int:
    refusals = Refusals()
    for number, line in enumerate(input_lines(), 1):
        write(f"> {shown(line)}".rstrip())
        place = place_of(run)
        if not answer(run, line, number, refusals):
            transcript.add_since(run, place)
        flush()
    return refusals.status()
