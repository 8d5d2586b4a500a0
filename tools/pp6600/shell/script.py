"""A script that is performed: its lines with their answers, and those that were refused."""

import re
import sys
from typing import Iterable, List, Optional, Sequence, Tuple

from ..failure import Failure, naming_line
from ..run.console import COUNTED, LONGEST_LINE
from ..run.device import CompanionDevice, DeviceFailure
from ..run.forms import MOST_TURNS, refused
from ..run.reasons import reason
from ..run.session import Session
from ..run.tape import counted
from .ending import complain, flush, shown_text, write
from .text_files import shown

MOST_SHOWN = 60  # characters of a line that was refused
BY_TURNS = re.compile(r"[ \t]*(?:BACK|FORWARD|WATCH)", re.I)  # lines after which it counts what turns did


class Refusals:
    """The lines of a script that were refused: how many they are, and the first."""

    count, first = 0, ""

    def note(self, number: int, line: str, answer: Sequence[str]) -> bool:
        """Counts a line if its answer says that it was refused. Returns whether it was."""
        refusal = refused(answer)
        if refusal and not self.count:
            self.first = f"line {number} (decimal), {refusal}: {shown(line)[:MOST_SHOWN]}"
        self.count += refusal is not None
        return refusal is not None

    def status(self) -> int:
        """Says on standard error how many lines were refused, and which was the first. Returns the exit status."""
        if self.count:
            flush()
            complain(f"{self.count} lines (decimal) were refused, the first is {self.first}" if self.count > 1
                     else f"one line was refused: {self.first}")
        return 1 if self.count else 0


def answer(run: Session, line: str, number: int = 0, refusals: Optional[Refusals] = None) -> bool:
    """Performs a line, and shows its answer. Returns whether the line was refused."""
    lines = run.act(line)
    show_answer(run, line, lines)
    return (refusals or Refusals()).note(number, line, lines)


def show_answer(run: Session, line: str, lines: List[str]) -> None:
    """Shows the lines of an answer, and what devices have printed; at a terminal also why the line was refused."""
    for text in [*lines, *run.printed()]:
        write(text)
    if lines and lines[0].startswith("ERR ") and sys.stdout is not None and sys.stdout.isatty():
        why = reason(line, lines[0], run.central_size)
        if why:
            write(f"  {shown_text(why)}")


def show_lines(run: Session, lines: Iterable[str], stop: bool = False) -> int:
    """Shows lines with their answers, to the first one that is refused if it is to stop there. Returns the exit status."""
    refusals = Refusals()
    for number, line in counted(lines):
        write(f"> {shown(line)}".rstrip(), at_once=True)
        with naming_line(number):
            is_refused = answer(run, line, number, refusals)
        if stop and is_refused:
            flush()
            complain(f"stopped at line {number} (decimal), which was refused")
            return 1
    return refusals.status()


class WithoutTurns(Session):
    """A simulator that makes no turns: for a script of which nothing counts but which lines are refused and what is in effect at
    its end."""

    def ask(self, line: str) -> List[str]:
        asked = COUNTED.fullmatch(line) if len(line) <= LONGEST_LINE else None
        return [f"TURNS {asked[2] or '1'}"] if asked and int(asked[2] or "1", 8) <= MOST_TURNS else super().ask(line)


def performed(words: Sequence[str], lines: Sequence[str], devices: Sequence[CompanionDevice] = ()) -> Tuple[Session, Refusals]:
    """Performs a script in a simulator of its own, with devices if there are any: then what is in effect has their replies. Returns
    its session, which has ended, and the lines that were refused."""
    if devices:
        from ..run.attached import Attached  # few sessions have devices
        run: Session = Attached(words, devices)
    else:
        run = (Session if any(map(BY_TURNS.match, lines)) else WithoutTurns)(words)
    refusals, number = Refusals(), 0
    try:
        for number, line in counted(lines):
            refusals.note(number, line, run.act(line))
    except DeviceFailure as failure:
        raise Failure(f"line {number} (decimal): {failure}") from failure
    run.end()
    return run, refusals
