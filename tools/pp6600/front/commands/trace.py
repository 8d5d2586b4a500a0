"""A run turn by turn."""

from __future__ import annotations

import re
from array import array
from itertools import takewhile
from typing import Any, Callable, Container, Iterable, Iterator, List, Optional, Set

from ...devices.options import DEVICE_OPTIONS, replayed
from ...engine import interface as flat
from ...language.symbol_options import SYMBOL_OPTIONS, symbols_of
from ...run.conditions import is_written
from ...run.forms import CLOCK, PROCESSORS
from ...run.names import AllSymbols
from ...run.search import Progress, Search, Turn, TurnFinder, spans, turns_in_row
from ...run.session import Session
from ...run.tape import REJECT, Position, ReplyLine, Tape
from ...run.turn import CHANNEL_CODES, CHANNEL_JUMPS, Processor
from ...shell.command_line import SCRIPT_WORD, Failure, arguments, channel, count, processor, write_lines
from ...shell.progress import Progress as ShownProgress

DESCRIPTION = """Shows each turn of a script, as the processor stood before it: the turn, counted in octal from 1, the
processor, P, the one or two words of the instruction, its name, A, Q and the phase; and WAITS if the turn was a wait.
In a block transfer P is the cell of the next word, and the name is that of the transfer. Turns that the script took back and did
not perform again are left out. With --channel it shows the turns that touched the channel: that
completed an instruction on it, or in which it changed, by a processor, a device or the clock; a wait is not one. Its
state and register are shown in place of Q and the phase, and WORD LOST if the turn disconnected a full channel, or WORD LEFT if
a block of input has ended and the channel is still full. With --symbols an address has its label after it, and the listing's own
text is at the end of the line."""

SAME = re.compile(r"(.)\1*", re.DOTALL)  # numbers in a row that are the same


class Tracer:
    """Shows turns of a run."""

    def __init__(self, run: Session, symbols: Any = AllSymbols()) -> None:
        self.run, self.symbols = run, symbols

    def lines(self, first: int, last: int, processors: Container[int]) -> Iterator[str]:
        """Yields the lines of the turns of some processors after turn `first`, up to turn `last`."""
        tape = self.run.tape
        for begin, end in tape.rows_of_turns(tape.after_turn(first), tape.at_turn(last)):
            for turn in turns_in_row(self.run, begin, end, processors):
                before, is_last = turn.processor, turn.position + 1 == end  # before another action, as a device's reply
                wait = self.wait(turn) if is_last else waits(turn)
                yield f"{self.begin(turn)} Q {before.q:04o} PHASE {before.phase:04o}{wait}{self.listed(turn)}"

    def touch(self, channel: int, position: Position) -> Optional[str]:
        """Returns the line of the turn after a position; None if it did not touch the channel."""
        self.run.goto(position)
        was = self.run.channel(channel)
        turn, = turns_in_row(self.run, position, Position(position + 1))
        before, now = turn.processor, self.run.channel(channel)
        if was == now and (before.waited(turn.after) or not before.uses(channel)):
            return None
        step = f"H {channel:02o} {was if was == now else f'{was} -> {now}'}"
        fate = fate_of_word(before, turn.after, was, now) if before.channel == channel else ""
        return f"{self.begin(turn)}{self.wait(turn)} {step}{fate}{self.listed(turn)}"

    def begin(self, turn: Turn) -> str:
        """Returns the number of a turn, and what its processor was about to do."""
        before = turn.processor
        second, address = "    " if before.second is None else f"{before.second:04o}", self.symbols.beside(turn.slot, before.p)
        return (f"TURN {turn.turn:o} PP {turn.slot:02o} P {address} {before.words[0]:04o} {second} {before.name} "
                f"A {before.a:06o}")

    def wait(self, turn: Turn) -> str:
        """Returns whether a turn was a wait, and which device rejected its code."""
        return f"{waits(turn)}{reject_after(self.run.tape, Position(turn.position + 1))}"

    def listed(self, turn: Turn) -> str:
        """Returns the text of the listing beside the instruction, or the line of the source."""
        slot, before = turn.slot, turn.processor
        line = self.symbols.line_at_p(slot, before)
        text = "" if line or before.phase else self.symbols.text(slot, before.p, before.words[0])
        return f"  {text}" if text else str(line)


def waits(turn: Turn) -> str:
    return " WAITS" if turn.processor.waited(turn.after) else ""


def reject_after(tape: Tape, position: Position) -> str:
    """Returns which device rejects the code of the turn before a position, if one does."""
    replies = takewhile(lambda line: isinstance(line, ReplyLine), (action.line for action in tape.actions(position)))
    rejects = [words for line in replies if isinstance(line, ReplyLine) and (words := line.origin.split())[1:] == [REJECT]]
    return f" REJECTED BY {rejects[0][0]}" if rejects else ""


def fate_of_word(processor: Processor, after: Processor, was: str, now: str) -> str:
    """Returns what a turn on a channel did to a word there that nobody has read: DCN loses it, the end of an input leaves it."""
    if processor.name == "DCN" and was[0] == "F" and now[0] == "I":
        return " WORD LOST"
    has_ended = processor.phase and not after.phase
    is_left = has_ended and processor.name == "IAM" and now[0] == "F" and processor.channel != CLOCK
    return " WORD LEFT" if is_left else ""


class Touches:
    """The turns of a run that may have touched a channel; whether one did is seen there. They are those at a word that uses it, but
    for waits, and those in which a device or the clock wrote it."""

    def __init__(self, run: Session, channel: int, processors: Container[int], progress: Progress) -> None:
        self.run, self.channel, self.processors, self.progress = run, channel, processors, progress
        self.uses, self.jumps = (re.compile(f"[{''.join(chr(code << 6 | channel) for code in codes)}]")
                                 for codes in (CHANNEL_CODES, CHANNEL_JUMPS))
        self.has_device = channel in (run.reader_channel, run.printer_channel)
        self.writes = TurnFinder([[is_written(first + channel)] for first in (flat.STATES, flat.REGISTERS)])

    def positions(self, first: int, last: int) -> Iterator[Position]:
        """Yields the positions before those after turn `first`, up to turn `last`, in their order."""
        tape, room = self.run.tape, self.run.room  # as many as the engine goes back
        for begin, end in tape.rows_of_turns(tape.after_turn(first), tape.at_turn(last)):
            for at in range(begin, end, room):
                self.progress(tape.turn(Position(at)))
                yield from self.part(Position(at), Position(min(at + room, end)))

    def part(self, begin: Position, end: Position) -> List[Position]:
        """Returns those of some turns without another action between."""
        run, size = self.run, end - begin
        run.goto(begin)
        columns, _ = run.engine.columns(size)
        run.performed(size)
        p, phase, word = map(text_of, (columns.p, columns.phase, columns.word))
        found = {offset + PROCESSORS * at for offset in range(PROCESSORS)
                 for at in self.completed(*(column[offset::PROCESSORS] for column in (p, phase, word)))}
        if self.has_device:
            found.update(position - begin for position, _ in Search(run, [self.writes]).in_row(self.writes, begin, end))
        elif self.channel == CLOCK:  # which goes on with the last processor's turn
            found.update(range((PROCESSORS - 1 - columns.processor[0]) % PROCESSORS, size, PROCESSORS))
        return [Position(begin + at) for at in sorted(found) if columns.processor[at] in self.processors]

    def completed(self, p: str, phase: str, word: str) -> Set[int]:
        """Returns which turns of one processor may have completed an instruction on the channel: the last ones of a row in which it
        stays where it is, and jumps, which may lead to themselves."""
        if not any(map(self.uses.search, (word, phase))):
            return set()
        ends = {row.end() - 1 for column in (p, phase) for row in SAME.finditer(column)}
        return {at for at in ends if self.uses.match(word, at) or self.uses.match(phase, at)}.union(
            jump.start() for jump in self.jumps.finditer(word))


def text_of(column: array[int]) -> str:
    """Returns a text with a character for each number of a column, in which patterns are found fast."""
    return column.tobytes().decode("utf-16-le")


def last_lines(lines: Callable[[int, int], Iterable[str]], count: int, first: int, last: int) -> List[str]:
    """Returns the last lines of the turns after `first`, up to `last`, so many."""
    found: List[str] = []
    for start, end in spans(last, first, PROCESSORS * count):
        found[:0] = lines(start, end)
        if len(found) >= count:
            break
    return found[-count:]


def main() -> int:
    parser = arguments(DESCRIPTION)
    parser.add_argument("--processor", metavar="N", type=processor, action="append",
                        help="this one alone, octal; may be given several times")
    parser.add_argument("--channel", metavar="H", type=channel, help="the turns that touched this channel, octal")
    parser.add_argument("--last", metavar="COUNT", type=count, help="the last of these turns alone, octal")
    parser.add_argument("--from", metavar="N", type=count, dest="first", default=1, help="the turns from N on, octal")
    parser.add_argument("--to", metavar="N", type=count, dest="to", help="the turns up to N, octal")
    asked = parser.parse(SYMBOL_OPTIONS, DEVICE_OPTIONS, SCRIPT_WORD)
    if asked.to is not None and asked.to < asked.first:
        raise Failure(f"turn {asked.to:o} is before turn {asked.first:o}")
    symbols = symbols_of(asked)
    run, refusals = replayed(asked, symbols, asked.script)
    last = run.tape.turns if asked.to is None else min(asked.to, run.tape.turns)
    first, tracer = min(asked.first - 1, last), Tracer(run, symbols)
    shown, processors = ShownProgress(run.tape.turns), asked.processor or range(PROCESSORS)

    def lines(start: int, end: int) -> Iterator[str]:
        if asked.channel is None:
            return tracer.lines(start, end, processors)
        positions = Touches(run, asked.channel, processors, shown.show).positions(start, end)
        return filter(None, (tracer.touch(asked.channel, position) for position in positions))

    write_lines(shown.passed(lines(first, last) if asked.last is None else last_lines(lines, asked.last, first, last)))
    run.close()
    return refusals.status()
