"""The search for stops: where a processor comes to a breakpoint, and where a place changes.

A position is the machine between two actions. At it a processor has come to a breakpoint if its turn is next, its P is there, it
is in no block transfer, and before its latest turn it was elsewhere. So a processor that waits comes there once. A position after a
setting, at which the same processor is where it was before that, is not another one. A place changes by a turn or by a setting:
the stop is after that. A scout makes turns up to the next one in which a processor comes to an address or a place changes; what a
setting does is seen by a look after it.

A condition is judged where the processor has come to the breakpoint, and of a data breakpoint after the change. That a number
changes, or that a processor waits, is judged after the latest turn."""

from itertools import chain, groupby
from typing import Any, FrozenSet, Iterable, Iterator, List, NamedTuple, Optional, Tuple

from ...engine import interface as flat
from ...engine.interface import CHANGES, Form
from ...run.conditions import is_written
from ...run.forms import CELLS, PROCESSORS, Place, ranges_of
from ...run.search import Forms, Search, TurnFinder, arrivals, holds
from ...run.session import Session
from ...run.tape import Position
from .breakpoints import Point, ProcessorCell
from .debugged import is_turn
from .terms import Terms


class Aim(NamedTuple):
    """Where a step of a processor ends: at some addresses outside a block transfer, or at the address that a cell of it has."""

    processor: int
    addresses: FrozenSet[int] = frozenset()
    entry: Optional[int] = None
    number: int = 0  # as a breakpoint has it, and its terms
    terms: Terms = Terms()


class Stop(NamedTuple):
    """Why a run stops at a position: a processor has come to a breakpoint, or a place has changed, or will by the next action."""

    position: int
    number: int
    address: Any = None  # of the breakpoint, or the place that changes
    place: Any = None
    was: int = 0
    now: int = 0
    met: Tuple[Any, ...] = ()  # the breakpoints, or the aim, that it is for
    is_next: bool = False

    @property
    def text(self) -> str:
        was, now = (f"{number:0{self.place.digits}o}" for number in (self.was, self.now))
        return f"{self.place.text} is {was}, and will be {now}" if self.is_next else f"{self.place.text} was {was} and is {now}"


class StopSearch:
    """A search for the stops at breakpoints, and at the aim of a step, which finds the turns after which there may be one. A run
    forward to changes of places alone goes no farther than to the stop, so the machine itself searches there."""

    remembers = False

    def __init__(self, machine: Any, points: Iterable[Point], aim: Optional[Aim] = None, scout: str = "looks",
                 is_forward: bool = False) -> None:
        self.machine, self.tape = machine, machine.tape
        self.points: List[Any] = [*points, *([aim] if aim else [])]
        self.places = list(dict.fromkeys(place for point in points for place in point.places))
        self.numbers = [place.number for place in self.places]
        self.addresses = {aim.processor: set(aim.addresses)} if aim else {}  # of the breakpoints, by processor
        for number, address in chain.from_iterable(point.cells for point in points):
            self.addresses.setdefault(number, set()).add(address)
        self.scout = machine if is_forward and machine.may_search and not self.addresses else machine.scout(scout)
        # By processor the cell of an address that is one too.
        self.entries = {aim.processor: flat.CELLS + CELLS * aim.processor + aim.entry} if aim and aim.entry is not None else {}
        self.fixed: List[Forms] = [[Form(CHANGES, place, size)] for place, size in ranges_of(self.numbers)]
        for number, addresses in self.addresses.items():
            self.fixed += arrivals(number, addresses)

    def stops(self, first: int, last: int) -> Iterator[List[Stop]]:
        """Yields the stops after a position, up to a later one, in their order, those of one position together. Turns alone are
        between, or one other action."""
        if self.fixed or self.entries:
            by = self.by_turns if is_turn(self.tape, first) else self.by_setting
            yield from filter(None, map(self.judged, by(first, last)))

    def at(self, position: int) -> List[Stop]:
        """Returns the stop of the processor whose turn is next at a position, if it has come to a breakpoint."""
        return self.judged(self.came(self.tape.slot(position), position))

    def by_turns(self, first: int, last: int) -> Iterator[List[Stop]]:
        due = [stop for number in self.addresses for stop in self.came(number, first) if stop.position > first]
        found = (position + 1 for position, _ in Search(self.scout, [self]).in_row(self, Position(first), Position(last)))
        at_end: List[Tuple[int, List[Stop]]] = [(last, [])]
        for here, new in chain(((position, self.after_turn(position)) for position in found), at_end):
            due = sorted([*due, *new], key=lambda stop: (stop.position, not stop.place))
            for _, some in groupby([stop for stop in due if stop.position <= here], lambda stop: stop.position):
                yield list(some)
            due = [stop for stop in due if stop.position > here]

    def begin(self, run: Session) -> None:
        """What came before the turns of a search is seen before it."""

    def next(self, run: Session, most: int) -> bool:
        """Finds the next turn after which there may be a stop. Where an entry leads may change, and is seen anew."""
        entries: List[Forms] = [[is_written(cell)] for cell in self.entries.values()]
        for number, cell in self.entries.items():
            entries += arrivals(number, {self.number(cell)})
        return TurnFinder([*self.fixed, *entries]).next(run, most)

    def after_turn(self, position: int) -> List[Stop]:
        """Returns the stops that the turn before a position makes: after the change of a place, and before the processor's next
        turn."""
        number = self.tape.slot(position - 1)
        self.scout.goto(position - 1)
        before, was = list(map(self.number, self.numbers)), self.where(number)
        self.scout.goto(position)
        came = [Stop(position + PROCESSORS - 1, number, address) for address in self.arrived(number, was)]
        return [*self.changed(position, before, map(self.number, self.numbers)), *came]

    def by_setting(self, position: int, _: int) -> Iterator[List[Stop]]:
        (was, *before), (now, *after) = self.seen(position), self.seen(position + 1)
        came = self.came(now[0], position + 1) if was != now else ()
        yield [*self.changed(position + 1, before, after), *came]

    def seen(self, position: int) -> List[Any]:
        """Returns the processor whose turn is next at a position with its P and phase, and the numbers at the places."""
        self.scout.goto(position)
        slot = self.tape.slot(position)
        return [(slot, *self.where(slot)), *map(self.number, self.numbers)]

    # ---- where processors come to

    def number(self, place: int) -> int:
        """Returns the number at a place, as it is for the scout."""
        return int(self.scout.number_of(place))

    def where(self, number: int) -> Tuple[int, int]:
        """Returns P and phase of a processor, as they are for the scout."""
        return self.number(flat.P + number), self.number(flat.PHASE + number)

    def came(self, number: int, position: int) -> Iterator[Stop]:
        """Yields the stop before the next turn of a processor, if it came to a breakpoint by its latest turn before a position."""
        at = self.tape.latest_turn(number, position)
        if number not in self.addresses:
            return
        was = None
        if at is not None:
            self.scout.goto(at)
            was = self.where(number)
        self.scout.goto(position)
        for address in self.arrived(number, was):
            yield Stop(position + (number - self.tape.slot(position)) % PROCESSORS, number, address)

    def arrived(self, number: int, was: Optional[Tuple[int, int]]) -> Iterator[int]:
        """Yields the address of a breakpoint at which a processor is, if it was elsewhere."""
        p, phase = self.where(number)
        if (p, phase) != was and not phase and number in self.addresses:
            if p in self.addresses[number] or number in self.entries and p == self.number(self.entries[number]):
                yield p

    # ---- what changes

    def changed(self, position: int, before: Iterable[int], after: Iterable[int]) -> List[Stop]:
        """Returns the stops at a position after the changes of all places that had other numbers before."""
        return [self.change(position, *one) for one in zip(self.places, before, after) if one[1] != one[2]]

    def change(self, position: int, place: Place, was: int, now: int) -> Stop:
        """Returns the stop at a position after the change of a place."""
        return Stop(position, self.tape.slot(position - 1), None, place, was, now)

    # ---- which breakpoints they are for

    def judged(self, stops: Iterable[Stop]) -> List[Stop]:
        """Returns those of some stops that are for a breakpoint or the aim."""
        met = [stop._replace(met=tuple(point for point in self.points if self.is_on(point, stop) and self.holds(point, stop)))
               for stop in stops]
        return [stop for stop in met if stop.met]

    def is_on(self, point: Any, stop: Stop) -> bool:
        """Returns whether a stop is at a place or a cell of a breakpoint or aim; of a line of a source the cell must have its
        word."""
        if isinstance(point, Aim):
            self.scout.goto(stop.position)
            is_end = stop.address in point.addresses or stop.address in map(self.number, self.entries.values())
            return stop.number == point.processor and not stop.place and is_end
        cell = ProcessorCell(stop.number, stop.address)
        if stop.place or cell not in point.cells:
            return stop.place in point.places
        lines, file = point.cells[cell], point.file
        if lines is None or file is None:
            return True
        self.scout.goto(stop.position)
        read = self.scout.cell_of(stop.number)
        found = file.of[stop.number].source.line_of(stop.address, read(stop.address), read(stop.address + 1))
        return found is not None and found.number in lines

    def holds(self, point: Any, stop: Stop) -> bool:
        """Returns whether the condition of a breakpoint holds at a stop."""
        condition = point.terms.condition(stop.number)
        self.scout.goto(stop.position)
        return condition is None or any(holds(self.scout, one) for one in condition.alternatives)
