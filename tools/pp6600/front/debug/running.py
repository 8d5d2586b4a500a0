"""Running forward and back, to a breakpoint or to a change of a data breakpoint or of a place that the user watches. A scout
searches, part by part; between the parts the requests of the client are taken, which may end the run or change the breakpoints.

A log point writes as the machine comes to it, forward and back, but not where a run begins."""

import math
import time
from contextlib import suppress
from itertools import chain
from typing import Any, Callable, Iterable, Iterator, List, Optional, Tuple

from ...run.search import spans
from .breakpoints import DATA, Point
from .stops import Aim, Stop, StopSearch
from .terms import Tally

AT_ONCE, AT_FIRST = 0o1000000, 0o10000  # turns between two looks at the requests of a client, at most and at first
PATIENCE = 0.1  # seconds between these looks, about: where conditions are judged, turns take longer
NEAR = 200  # actions back that are searched first
Say = Callable[[Stop, Point], object]


class Ended(Exception):
    """The client has ended a run."""


def quiet(stop: Stop, point: Point) -> None:
    """Writes nothing for a log point."""


class Runner:
    """Runs the machine to stops. The function `goes_on` takes the requests that have come, and returns whether to run on; `say`
    writes the text of a log point. The points are the breakpoints, which may change meanwhile."""

    def __init__(self, machine: Any, points: Any, goes_on: Callable[[], bool] = lambda: True, say: Say = quiet) -> None:
        self.machine, self.points, self.goes_on, self.say = machine, points, goes_on, say
        self.watched = machine.state.watched  # by the user
        self.end = machine.tape.end  # what the tape has after it is not ahead

    # ---- forward

    def forward(self, shown: Optional[int], aim: Optional[Aim] = None, last: float = math.inf, kind: str = "all") -> Optional[Stop]:
        """Runs to the next stop at breakpoints of a kind, or at an aim, or else to a position, over what is ahead first. A
        processor at a breakpoint is reported if it is not the one that is shown. Returns the stop; None at the aim or the position,
        or if the client ended it."""
        machine, stop = self.machine, None
        with suppress(Ended):
            stop = self.next_stop(lambda: self.search(getattr(self.points, kind), aim, True), shown, last)
        machine.goto(machine.settled(machine.position))
        end = max(machine.position, self.end)
        machine.withdraw(end)
        machine.cut(end)
        return None if stop and stop.met == (aim,) else stop

    def step(self, number: int) -> Optional[Stop]:
        """Makes one turn of a processor, and the actions before it. Returns the stop at a change on the way, or None."""
        return self.forward(None, last=self.machine.next_turn(number) + 1, kind="in_a_step")

    def to_turn(self, number: int) -> Optional[Stop]:
        """Runs to where the turn of a processor is next. Returns the stop on the way, or None."""
        return self.forward(number, last=self.machine.next_turn(number))

    def next_stop(self, search: Callable[[], StopSearch], shown: Optional[int], last: float) -> Optional[Stop]:
        """Goes to the next stop, or to a position. Returns the stop or None; the function `search` makes a search for it."""
        machine = self.machine
        stop = self.first_due([search().at(machine.position)], quiet) if machine.tape.slot(machine.position) != shown else None
        for first, end in () if stop else self.parts(machine.position, last):
            stop = self.first_due(search().stops(first, end), self.say)
            machine.goto(stop.position if stop else end)
            if stop:
                break
            if next(machine.tape.actions(first)).is_watch:
                machine.look()
                self.watched = machine.state.watched
        return stop

    def search(self, points: Iterable[Point], aim: Optional[Aim] = None, is_forward: bool = False) -> StopSearch:
        """Returns the search for the stops at breakpoints, and at changes of what the user watches."""
        return StopSearch(self.machine, [Point(0, DATA, places=tuple(self.watched)), *points], aim, is_forward=is_forward)

    def parts(self, first: int, last: float) -> Iterator[Tuple[int, int]]:
        """Yields the ends of parts of the tape, and takes the requests of the client between them."""
        size = AT_FIRST
        while first < last:
            if not self.goes_on():
                raise Ended
            began, end = time.monotonic(), self.machine.part(first, min(size, AT_ONCE, last - first))
            yield first, end
            first = end
            size = min(2 * size, AT_ONCE) if time.monotonic() < began + PATIENCE / 2 else max(size // 2, 1)

    def first_due(self, stops: Iterable[List[Stop]], say: Say) -> Optional[Stop]:
        """Returns the first of some stops that ends a run, or None. What log points write up to its position is said. Stops of one
        position are together."""
        for some in stops:
            found = [due for stop in some if (due := self.due(stop, say))]
            if found:
                return found[0]
        return None

    # ---- back

    def back(self, is_typed: bool = False) -> Optional[Stop]:
        """Goes back to the latest stop, or to the beginning, unless the client ends it; if BACK W was typed, to the latest change
        of what the user watches, or nowhere. Returns the stop or None."""
        machine, here, said = self.machine, self.machine.position, []  # type: Any, int, List[Any]
        stop: Optional[Stop] = None
        with suppress(Ended):
            for first, last in spans(here, span=NEAR):
                stop, logs = self.last_of(self.search(() if is_typed else self.points.all), first, last, here)
                said += reversed(logs)
                if stop:
                    break
            if stop or not is_typed:
                position = stop.position if stop else 0
                machine.goto(machine.before(position - 1) if stop and stop.place else machine.settled(position))
                for log in said:
                    self.say(*log)
            return stop and stop._replace(is_next=True)
        return None

    def last_of(self, search: StopSearch, first: int, last: int, here: int) -> Tuple[Optional[Stop], List[Any]]:
        """Returns the last stop after a position, up to a later one, or None, and what log points write from there on, or else
        after the first position. The beginning belongs to the first part."""
        stop, logs, least = None, [], first + 1 if first else 0
        for one in chain.from_iterable(self.stops(search, first - 1, last)):
            due = self.due(one, lambda *log: logs.append(log))
            is_before = one.position >= least and (one.place or self.machine.settled(one.position) < here)
            if due and is_before and not (one.place and stop and stop.position == one.position):
                stop = due
        least = stop.position - bool(stop.place) if stop else least
        return stop, [log for log in logs if least <= log[0].position < here]

    def stops(self, search: StopSearch, first: int, last: int) -> Iterator[List[Stop]]:
        """Yields the stops after a position, up to a later one, those of one position together; after -1 that at the beginning
        too."""
        if first < 0:
            yield search.at(0)
        for begin, end in self.parts(max(first, 0), last):
            yield from search.stops(begin, end)

    # ---- hits

    def due(self, stop: Stop, say: Say) -> Optional[Stop]:
        """Returns a stop with what ends a run there; None if nothing does. What log points write there is said."""
        met = [point for point in stop.met if not point.terms.hits or point.terms.hits(self.hits(point, stop.position))]
        for point in met:
            if point.terms.log:
                say(stop, point)
        ends = tuple(point for point in met if not point.terms.log)
        return stop._replace(met=ends) if ends else None

    def hits(self, point: Point, position: int) -> int:
        """Returns how many hits a breakpoint has up to a position."""
        tally: Tally = self.machine.tallies.setdefault(point.key, Tally())
        for stop in chain.from_iterable(self.stops(StopSearch(self.machine, [point], scout="hits"), tally.known, position)):
            tally.add(stop.position)
        tally.known = max(tally.known, position)
        return tally.number(position)
