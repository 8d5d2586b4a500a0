"""The subroutines that a processor is in: its calls that have not returned, as `Stack` has them, and what is said of each. In a
block transfer P is the cell of the next word, and no jump."""

from __future__ import annotations

from typing import TYPE_CHECKING, List, NamedTuple, Optional

from ..run.forms import CELLS, Place
from ..run.names import AllSymbols
from ..run.origin_search import SET, TURN, OriginSearch, Step
from ..run.session import Session
from ..run.subroutines import Call, calls_at
from ..run.tape import Position

if TYPE_CHECKING:
    from .sources import Source


class SubroutineCall(NamedTuple):
    """A subroutine that was called and has not returned, and the last write of its return word and of its jump back, if that was
    after its RJM."""

    call: Call
    overwritten: Optional[Step]
    lost: Optional[Step]

    @property
    def jump(self) -> int:
        """The address of its jump back."""
        return (self.call.entry - 1) % CELLS

    @property
    def address(self) -> int:
        """The address of the RJM."""
        return self.call.address


def write_after(run: Session, number: int, cell: int, call: Call, position: Position) -> Optional[Step]:
    """Returns the last write of a cell after a call, up to a position; None if there was none."""
    step = OriginSearch(run, 0).origin(Place("M", (number, cell % CELLS)), position)
    return step if step.cause in (TURN, SET) and step.position > call.position else None


def address_of(run: Session, number: int, position: Position) -> Optional[int]:
    """Returns the address of the instruction that a processor performs: P, or in a block transfer where that began; None if nothing
    in the run began it."""
    run.goto(position)
    processor = run.processor(number)
    if not processor.phase:
        return processor.p
    step = OriginSearch(run, 0).origin(Place("PHASE", (number,)), position)
    return step.processor.p if step.cause == TURN else None


def calls(run: Session, number: int, source: Source, position: Position) -> List[SubroutineCall]:
    """Returns the subroutines that a processor is in at a position of a run, the innermost first."""
    return [SubroutineCall(call, *(write_after(run, number, cell, call, position) for cell in (call.entry, call.entry - 1)))
            for call in reversed(calls_at(run, number, source.entries().values(), position))]


def sentence(run: Session, number: int, call: SubroutineCall, symbols: AllSymbols) -> str:
    """Returns what is said of a call."""
    text = f"{symbols.called(number, call.call.entry)} called from {symbols.called(number, call.address)}, " \
           f"turn {run.tape.turn(call.call.position):o}"
    for step, what in ((call.overwritten, "its return word"), (call.lost, "its jump back")):
        if step:
            text += f"; {what} is {step.number} now, overwritten in turn {run.tape.turn(step.position):o} by " \
                    f"{writer(step, number, symbols)}"
    return text


def writer(step: Step, number: int, symbols: AllSymbols) -> str:
    """Returns what wrote a cell: a SET, or an instruction and its address, in a block transfer that which began it."""
    if step.cause != TURN:
        return "SET"
    performer = step.processor
    if performer.phase and step.block and step.block.step and step.block.step.cause == TURN:
        performer = step.block.step.processor
    return f"{performer.name} at {symbols.called(number, performer.p)}"
