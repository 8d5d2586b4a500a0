"""The search for where a number came from: from the end of a run backwards, to the last write of a place that is still asked
for."""

from __future__ import annotations

from typing import Any, Callable, Dict, List, Optional, Sequence, Set, Tuple

from ..engine.interface import CARD, PAPER_LENGTH, P
from ..engine.origins import PUNCHED, Origins
from ..failure import Failure
from .conditions import is_written
from .forms import CELLS, CLOCK, Place, ranges_of
from .search import TurnFinder, last_turn
from .session import Session
from .tape import STEP, Position
from .turn import Processor, places_of_setting
from .written import Read, Write, addresses_of, made_turn, reasons_of, writes_of

CLOCK_PLACE = Place("H", (CLOCK,))
CARD_COLUMN = CARD + 1

LINE_END = "LINE END"

# What wrote a number.
TURN, SET, DEADSTART, READER, PRINTER, PAPER, TICK, START = range(8)


class Link:
    """A source of a step: a place, of a word of sixty bits perhaps parts alone, and the step that wrote it, if it was searched."""

    def __init__(self, owner: Optional[Step], place: Place, parts: Optional[Tuple[int, ...]] = None) -> None:
        self.owner, self.place, self.parts = owner, place, parts
        self.step: Optional[Step] = None
        self.number = ""  # what was read, of a step whose number is computed


class Step:
    """A write of a place: what wrote it and when, and the sources."""

    turn: Origins  # the processor's turn that wrote it, if one did, and the processor before it
    processor: Processor
    write: Write

    def __init__(self, place: Place, cause: int, position: Position = Position(0), detail: Any = None) -> None:
        """The position is that after the action that wrote it. The detail: of a turn it, its processor and its write; of a SET or a
        DEADSTART a pair of its line and the number of the word, from 1, or None; of the reader a pair of card and column, or
        None."""
        self.place, self.cause, self.position, self.first_position, self.detail = place, cause, position, position, detail
        self.times = 1
        self.links: List[Link] = []
        self.addresses: List[Link] = []
        self.code: List[Link] = []  # links to the words of its instruction that have its constants, and were written in the run
        self.block: Optional[Link] = None  # the link to the write of the phase, of a turn of a block transfer
        self.number = ""
        self.reasons: List[Tuple[Place, int]] = []  # what decided beside P and the instruction, with its number before the turn
        if cause == TURN:
            self.turn, self.processor, self.write = detail


class OriginSearch:
    """Goes backwards from a place to the roots of its number."""

    def __init__(self, run: Session, most_steps: Optional[int] = None, with_addresses: bool = False,
                 progress: Optional[Callable[[Position], object]] = None,
                 is_loaded: Callable[[int, int, int], bool] = lambda number, address, word: True) -> None:
        """After so many steps by processors the sources of a step are searched no more; None: there is no limit. The function
        `progress` is called with each position that is reached. The function `is_loaded` returns whether a word of an instruction
        may be as it was loaded into a processor; if not, a constant in it is followed to who wrote the word."""
        self.run, self.tape, self.is_loaded = run, run.tape, is_loaded
        self.most_steps, self.with_addresses, self.progress = most_steps, with_addresses, progress or (lambda position: None)
        self.asked: Dict[Place, List[Link]] = {}  # places, each with the links that ask for it
        self.steps: List[Step] = []
        self.count = 0  # of steps by processors

    def origin(self, place: Place, position: Position) -> Step:
        """Returns the step that wrote the number which is at a place at a position."""
        root = Link(None, place)
        if place.kind == "LP":
            self._check_symbol(place.numbers[0], position)
        self._ask(root, position)
        self._go_back(position)
        self._read_numbers()
        assert root.step is not None
        return root.step

    # ---- what is asked for

    def _ask(self, link: Link, position: Position) -> None:
        """Asks for the last write of a link's place before a position."""
        if link.place == CLOCK_PLACE:
            tick = self.tape.last_tick(position)
            link.step = Step(CLOCK_PLACE, TICK if tick else START, tick)
            self.steps.append(link.step)
        else:
            self.asked.setdefault(link.place, []).append(link)

    def _found(self, step: Step) -> Optional[Set[int]]:
        """Takes a write of a place that is asked for. Returns the parts of it that are, or None for all of it."""
        links = self.asked.pop(step.place)
        self.steps.append(step)
        self.count += step.cause == TURN and step.place.kind != "PHASE"
        for link in links:
            link.step = step
        if any(link.parts is None for link in links):
            return None
        return {part for link in links for part in link.parts or ()}

    def _follow(self, step: Step, parts: Optional[Set[int]], position: Position) -> None:
        """Asks for the sources of a step; of a central word or a word of the frame so many parts are asked for."""
        if step.processor.phase:
            step.block = Link(step, Place("PHASE", (step.turn.processor,)))
            self._ask(step.block, position)
        if step.place.kind == "PHASE":
            return
        step.links = [Link(step, place, wanted) for place, wanted in wanted_sources(step.write, parts)]
        if self.with_addresses:
            step.addresses = [Link(step, place) for place in addresses_of(step.turn)]
        step.code = [Link(step, place) for place in self._written_words(step)]
        if self.most_steps is None or self.count < self.most_steps:
            for link in (*step.links, *step.addresses, *step.code):
                self._ask(link, position)

    def _written_words(self, step: Step) -> List[Place]:
        """Returns the cells that have the constants of a step and a word that was not loaded."""
        number, processor = step.turn.processor, step.processor
        cells = [(place, place.numbers[1]) for place in step.write.code]
        return [place for place, at in cells if not self.is_loaded(number, at, processor.words[(at - processor.p) % CELLS])]

    # ---- backwards

    def _go_back(self, position: Position) -> None:
        while self.asked and position:
            self.progress(position)
            part = self.tape.run_before(position)
            first = self.tape.starts[part]
            if self.tape.runs[part].line != STEP:
                self._look_at_line(self.tape.runs[part].line, position)
            else:
                position = self._last_write(first, position)
                if position == first:
                    continue
                self._look_at_turn(position)
            position = Position(position - 1)
        for place in list(self.asked):
            self._found(Step(place, START))

    def _last_write(self, first: Position, last: Position) -> Position:
        """Returns the position after the last turn between two positions that wrote a place that is asked for; the first if there
        is none."""
        ranges = ranges_of(place.number for place in self.asked)
        for condition in TurnFinder([[is_written(place, size)] for place, size in ranges]).conditions:
            self.run.goto(last)
            if last_turn(self.run, condition, first, self.progress):
                first = self.run.position
        return first

    def _look_at_line(self, line: str, position: Position) -> None:
        """Looks at a SET or a DEADSTART."""
        cause, places = DEADSTART if line.upper().split()[0] == "DEADSTART" else SET, places_of_setting(line)
        for place in self.asked.keys() & places.keys():
            self._found(Step(place, cause, position, (line, places[place])))

    def _look_at_turn(self, position: Position) -> None:
        """Looks at the turn before a position: of all that it wrote and is asked for, the sources were read before."""
        run, number = self.run, self.run.number_of
        run.goto(Position(position - 1))
        processor, control = run.processor(run.slot()), run.engine.next_origins().control
        reasons = [(place, number(place.number)) for place in reasons_of(control)]
        card, column, length = map(number, (CARD, CARD_COLUMN, PAPER_LENGTH))
        turn = made_turn(run)
        self._look_at_devices(turn, position, (card, column), length)
        writes = [write for write in writes_of(turn, number(P + turn.processor)) if write.place in self.asked]
        steps = [Step(write.place, TURN, position, (turn, processor, write)) for write in writes]
        followed = []
        for step in steps:
            step.reasons = reasons
            if not self._is_counted_again(step):
                followed.append((step, self._found(step)))
        for step, parts in followed:
            self._follow(step, parts, Position(position - 1))

    def _look_at_devices(self, turn: Origins, position: Position, read: Tuple[int, int], length: int) -> None:
        """Looks at what the reader and the printer wrote in a turn, before which the reader was at a card and column, and the paper
        had so many symbols."""
        written = {origin.place: origin.operation for origin in turn.others}
        for place in [place for place in self.asked if place.number in written]:
            if place.kind == "LP":
                self._printed(place, position, length)
            elif place.kind == "H":
                cause = READER if place.numbers[0] == self.run.reader_channel else PRINTER
                self._found(Step(place, cause, position, read if written[place.number] == PUNCHED else None))

    def _printed(self, place: Place, position: Position, length: int) -> None:
        """Takes the turn that printed a symbol on a paper of so many, which came from the printer's channel."""
        step = Step(place, PAPER, position, place.numbers[0] - length)
        self._found(step)
        link = Link(step, Place("H", (self.run.printer_channel,)))
        step.links = [link]
        self._ask(link, position)

    def _is_counted_again(self, step: Step) -> bool:
        """Joins a step with the one that asks for it if the same instruction has counted the same place before, and asks for the
        place once more."""
        links = self.asked[step.place]
        later = links[0].owner
        if later is None or later.links != links or later.place != step.place or later.cause != TURN or later.write != step.write:
            return False
        if (step.write.is_moved or self._instruction(step) != self._instruction(later) or addresses_of(step.turn)
            and self.with_addresses):
            return False
        if step.processor.phase and later.block and later.block.step:  # the later one's block has begun since
            return False
        later.times += 1
        later.first_position = step.position
        return True

    @staticmethod
    def _instruction(step: Step) -> Tuple[int, Any]:
        """The processor and its instruction, with the address; in a block transfer P is none."""
        processor = step.processor
        return step.turn.processor, processor.phase or (processor.p, processor.words)

    # ---- the paper, and the numbers

    def _check_symbol(self, index: int, position: Position) -> None:
        """Sees that the paper has a symbol."""
        self.run.goto(position)
        count = self.run.number_of(PAPER_LENGTH)
        if index >= count:
            raise Failure(f"the paper has {count:o} symbols (octal), from LP 0 on" if count else "nothing is on the paper")

    def _symbol(self, index: int) -> str:
        """Returns a symbol of the paper."""
        symbol = "".join(line[1:] + "\n" * (line[0] == "|") for line in self.run.printer()[1:])[index]
        return LINE_END if symbol == "\n" else f'"{symbol}"'

    def _read_numbers(self) -> None:
        """Reads the number of each step after its write, from the earliest to the latest."""
        for step in sorted(self.steps, key=lambda step: step.position):
            if step.cause == START:
                step.number = step.place.digits * "0"
                continue
            if step.cause == TURN and not step.write.is_moved:
                self.run.goto(Position(step.position - 1))
                for link in step.links:
                    link.number = self.run.number_at(link.place)
            self.run.goto(step.position)
            step.number = self._symbol(*step.place.numbers) if step.cause == PAPER else self.run.number_at(step.place)


def wanted_sources(write: Write, parts: Optional[Set[int]]) -> Sequence[Read]:
    """Returns the sources of a write, each with the parts of it that are wanted, if these parts of what was written are."""
    if write.is_joined:
        return [source for part, source in enumerate(write.sources) if parts is None or part in parts]
    if parts is None or not write.is_moved or write.place.kind not in ("C", "XP"):
        return write.sources
    wanted = [Read(place, tuple(sorted(part for part in parts if of_source is None or part in of_source)))
              for place, of_source in write.sources]
    return [source for source in wanted if source.parts]
