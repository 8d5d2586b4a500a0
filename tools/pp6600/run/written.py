"""What a turn wrote, and from what: the origins of the engine as places of the tools."""

from __future__ import annotations

from typing import List, NamedTuple, Optional, Sequence, Tuple

from ..engine import origins as of
from ..engine.origins import Origin, Origins
from .forms import CELLS, Place
from .session import Session
from .turn import A_IS_AN_ADDRESS, BLOCKS_OF_CENTRAL, CONDITIONAL_JUMPS, INDEXED, INDIRECT, RELATIVE_JUMPS, TWO_WORDS, Processor

# The parts of a word, of twelve bits each from the left, that a field has.
PARTS = {**{of.FIRST + part: (part,) for part in range(5)}, of.WITHOUT_B0: (0, 1, 2, 3), of.PROGRAM_ADDRESS: (0, 1)}
ADVANCES = (of.AFTER1, of.AFTER2, of.AFTER5)
MOVES = (of.MOVED, of.JOINED, of.NO_WORD, of.ZERO, of.ONE, of.TWO, of.THREE)
# How a number that is computed is made, before what it is made from.
WORDS = {of.SUM: "SUM OF", of.LOW_SUM: "SUM OF", of.DIFFERENCE: "DIFFERENCE OF", of.LOGICAL_DIFFERENCE: "LOGICAL DIFFERENCE OF",
         of.LOGICAL_PRODUCT: "LOGICAL PRODUCT OF", of.CLEARED: "SELECTIVE CLEAR OF", of.SHIFTED: "SHIFT OF",
         of.COMPLEMENT: "COMPLEMENT OF", of.ONE_MORE: "ONE MORE THAN", of.LOW_ONE_MORE: "ONE MORE THAN",
         of.ONE_LESS: "ONE LESS THAN", of.LOW_ONE_LESS: "ONE LESS THAN", of.RELATIVE: "RELATIVE JUMP BY",
         of.INDEXED: "INDEXED ADDRESS OF", of.AFTER_INDEXED: "AFTER INDEXED ADDRESS OF", of.AFTER1: "ADDRESS AFTER",
         of.CENTRAL_AFTER: "ADDRESS AFTER", of.COUNT_DOWN: "ONE LESS THAN"}
END_OF_BLOCK = "END OF BLOCK OF"


class Read(NamedTuple):
    """A place that is read; of a word of sixty bits the parts alone that are read, of which part 0 is the leftmost."""

    place: Place
    parts: Optional[Tuple[int, ...]] = None


class Write(NamedTuple):
    """A place that is written, and from what. A number that is moved is that of its source, or a part of it. A central word that is
    moved from several cells has a part of each, in their order."""

    place: Place
    origin: Origin

    @property
    def sources(self) -> List[Read]:
        """What it is made from, beside P and the constants of the instruction."""
        read = [Read(Place.at(number), PARTS.get(field)) for number, field in self.origin.reads
                if field not in (of.D, of.M, of.WORD)]
        return [one for one in read if one.place.kind != "P"]

    @property
    def code(self) -> List[Place]:
        """The cells that have the constants of the instruction which it is made from."""
        return [Place.at(number) for number, field in self.origin.reads if field in (of.D, of.M)]

    @property
    def is_return(self) -> bool:
        """Whether it is a return address."""
        return self.place.kind != "P" and any(Place.at(number).kind == "P" for number, _ in self.origin.reads)

    def constants(self, processor: Processor) -> List[str]:
        """Returns what it is made from beside the sources, if the processor was so before."""
        digits = {of.D: f"{processor.channel:02o}", of.M: f"{processor.words[1]:04o}"}
        given = "".join(digits.get(field, "") for _, field in self.origin.reads)
        is_zero = "" if self.origin.reads else "ZERO PAST THE LAST WORD" if self.origin.operation == of.NO_WORD else "ZERO"
        return [text for text in (f"CONSTANT {given}" if given else "", "RETURN ADDRESS" if self.is_return else "", is_zero)
                if text]

    @property
    def ends_block(self) -> bool:
        operation = self.origin.operation
        return self.place.kind == "P" and (operation == of.ONE or operation == of.AFTER1 and bool(self.sources))

    @property
    def is_moved(self) -> bool:
        return (self.origin.operation in MOVES or self.is_return) and not self.ends_block

    @property
    def is_joined(self) -> bool:
        return self.origin.operation == of.JOINED

    @property
    def words(self) -> str:
        """How it is made, if it is computed."""
        return END_OF_BLOCK if self.ends_block else WORDS[self.origin.operation]


def made_turn(run: Session) -> Origins:
    """Makes the next turn of the tape of a run. Returns it with where its numbers come from."""
    (turn,), _ = run.engine.origins(1)
    run.performed(1)
    return turn


def addresses_of(turn: Origins) -> List[Place]:
    """Returns the places that say where a turn read or wrote: cell d of an indirect or indexed address, and A."""
    (code, d), in_block = divmod(turn.word, 0o100), turn.kind == of.IN_BLOCK
    if not in_block and (code in INDIRECT or d and code in INDEXED):
        return [Place("M", (turn.processor, d))]
    return [Place("A", (turn.processor,))] if code in (BLOCKS_OF_CENTRAL if in_block else A_IS_AN_ADDRESS) else []


def reasons_of(control: Sequence[int]) -> List[Place]:
    """Returns which of the control places of a turn decided beside P and the instruction: A, Q or the state of a channel."""
    return [place for place in map(Place.at, control) if place.kind in ("A", "Q", "S")]


def writes_of(turn: Origins, p: int) -> List[Write]:
    """Returns what the processor of a turn wrote, with P after it. That P goes on to the next instruction, or a block to its next
    cell, is no write."""
    return [Write(Place.at(origin.place), origin) for origin in turn.own if not goes_on(turn, origin, p)]


def goes_on(turn: Origins, origin: Origin, p: int) -> bool:
    """Returns whether P goes on. A jump to the instruction after it is as if P had gone on, and a relative one by no cells is a
    stop."""
    if Place.at(origin.place).kind != "P":
        return False
    code, d = divmod(turn.word, 0o100)
    if turn.kind != of.IN_BLOCK and code in CONDITIONAL_JUMPS:
        following = (turn.address + 1 + (code in TWO_WORDS)) % CELLS
        return p == following or code in RELATIVE_JUMPS and d in (0o00, 0o77)
    return origin.operation in ADVANCES and origin.reads[0].place == origin.place
