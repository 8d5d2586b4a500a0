"""The search for the turns of a run that are found: at which a condition comes to hold, or another finder says so; forward from a
turn, or backward in widening spans. What the replies of devices after a turn make true is found too.

What an engine can judge it finds itself, by one call for many turns. A finder of rows of waits and one of wrong returns make
several of these calls. The session that searches is not the one of a user, which stays where it is. A function `progress` is called
with a number of turns after each part. It may raise an exception, which ends the search."""

from __future__ import annotations

import heapq
import itertools
from collections import deque
from itertools import chain
from typing import Any, Callable, Container, Dict, Iterable, Iterator, List, NamedTuple, Optional, Protocol, Sequence, Tuple

from ..engine import interface as flat
from ..engine import plain_conditions
from ..engine.interface import CHANGES, INSIDE, MOST_ALTERNATIVES, OUTSIDE, PERFORMS, WAITS, Form
from .conditions import Alternative, Column, is_written, joined
from .forms import PROCESSORS, ranges_of
from .session import Session
from .tape import STEP, Position, is_reply
from .turn import Processor

FIRST_SPAN = 0o10000  # of turns at the end that are searched first
WIDER = 8  # times as many in each span before
PARTS = 64  # of a run that are searched one by one
MOST_AT_ONCE = 0o200000  # turns between two calls of `progress`
ROWS_AT_ONCE = 0o4000  # turns that are read by one call

Progress = Callable[[int], object]
Found = Tuple[Position, int]  # the position before a turn, or before the replies to it, and its number from 1
Forms = Sequence[Form]


def no_progress(turn: int) -> None:
    """Shows nothing of a search."""


def go_on(run: Session, position: Position, progress: Progress) -> None:
    """Goes to a position of the tape, by parts."""
    for part in range(0 if position < run.oldest else run.position, position, MOST_AT_ONCE):
        run.goto(Position(part))
        progress(run.turn)
    run.goto(position)


def first_turn(run: Session, condition: Forms, most: int) -> bool:
    """Makes turns of a run, at most so many, up to the first in which a condition comes to hold. Returns whether it does."""
    made, is_found = run.engine.until(condition, min(most, MOST_AT_ONCE))
    run.performed(made)
    return is_found


def is_met(run: Session, forms: Iterable[Form]) -> bool:
    """Returns whether tests of the machine hold as it is. One of a turn does not."""
    return all(plain_conditions.is_met(form, run.number_of) for form in forms)


def arrivals(number: int, addresses: Iterable[int]) -> List[Forms]:
    """Returns alternatives of which one comes to hold in each turn in which a processor comes to one of some addresses: P or the
    phase has changed, and it is in no block transfer."""
    found: List[Forms] = []
    out_of_block = Form(INSIDE, flat.PHASE + number)
    for first, size in ranges_of(addresses):
        if size == 1:
            found.append([Form(PERFORMS, number, first)])
        else:
            within = Form(INSIDE, flat.P + number, first, first + size - 1)
            found += [[Form(CHANGES, place + number, 1), within, out_of_block] for place in (flat.P, flat.PHASE)]
    return found


class Finder(Protocol):
    """What finds turns."""

    remembers: bool  # what came before, so that it must see all turns

    def begin(self, run: Session) -> None:
        """Sees where a run is, before some turns. What came before may have been a setting."""

    def next(self, run: Session, most: int) -> bool:
        """Makes turns of a run, at least one and at most so many, up to the first that is found. Returns whether one is."""


class TurnFinder:
    """Finds the turns in which alternatives come to hold that an engine can judge. It takes only so many at once."""

    remembers = False

    def __init__(self, alternatives: Sequence[Forms]) -> None:
        self.alternatives = alternatives
        parts = (alternatives[at:at + MOST_ALTERNATIVES] for at in range(0, len(alternatives), MOST_ALTERNATIVES))
        self.conditions = list(map(joined, parts))

    def begin(self, run: Session) -> None:
        """Whether a condition holds already depends on the machine alone."""

    def next(self, run: Session, most: int) -> bool:
        first, is_found = run.position, False
        most = most if len(self.conditions) == 1 else min(most, run.room)  # as many as it goes back
        for condition in self.conditions:
            run.goto(first)
            if first_turn(run, condition, most):
                is_found, most = True, run.position - first
        return is_found


def comes_by_replies(run: Session, alternatives: Sequence[Forms], begin: Position, end: Position) -> bool:
    """Returns whether one of some alternatives comes to hold in the replies of devices between two positions."""
    written = [place for action in run.tape.actions(begin, end) for place in numbers_of_reply(action.line)]
    run.goto(begin)
    old = {place: run.number_of(place)
           for place in chain(written, *(places_of_test(form) for tests in alternatives for form in tests))}
    run.goto(end)
    return plain_conditions.comes_to_hold(alternatives, plain_conditions.Done(old.__getitem__, run.number_of, written))


def places_of_test(form: Form) -> Sequence[int]:
    """Returns the places whose numbers decide a test of a machine as it is."""
    if form.kind == PERFORMS:
        return [flat.P + form.place, flat.PHASE + form.place]
    return [form.place] if form.kind in (INSIDE, OUTSIDE) else []


def numbers_of_reply(line: str) -> Sequence[int]:
    """Returns the places that a reply of a device writes: a central word, or the state and the register of a channel."""
    _, kind, number, *_ = line.split()
    return [first + int(number, 8) for first in ((flat.CENTRAL,) if kind == "C" else (flat.STATES, flat.REGISTERS))]


class RowFinder:
    """Finds the turns in which an alternative comes to hold that has processors wait: the latest turn of each was a wait. It goes
    from one turn to the next in which one of them begins or ends to wait, or in which the other tests come to hold while all
    wait."""

    remembers = False

    def __init__(self, alternative: Alternative) -> None:
        self.numbers, self.others = alternative.waits, alternative.forms
        self.waiting: Dict[int, bool] = {}

    def begin(self, run: Session) -> None:
        self.waiting = {number: waits(run, number) for number in self.numbers}

    def next(self, run: Session, most: int) -> bool:
        end = run.position + most
        while run.position < end and first_turn(run, self.condition(), end - run.position):
            number = run.tape.slot(Position(run.position - 1))
            if number in self.waiting:
                self.waiting[number] = waits(run, number)
            if all(self.waiting.values()) and hold(run, self.others):
                return True
        return False

    def condition(self) -> Forms:
        """Returns what comes next: a wait, the end of one, or what else must hold while all wait."""
        ends = [[is_written(flat.P + number)] if is_waiting else [Form(WAITS, number)]
                for number, is_waiting in self.waiting.items()]
        return joined([*ends, *(self.others if all(self.waiting.values()) else ())])


# ---- what holds of a run as it is

def holds(run: Session, one: Alternative) -> bool:
    """Returns whether all tests of an alternative hold, but for those of wrong returns."""
    return hold(run, one.forms) and all(waits(run, number) for number in one.waits)


def hold(run: Session, alternatives: Sequence[Forms]) -> bool:
    """Returns whether all tests of one of some alternatives hold of the machine, or of the latest turn if no other action is after
    it; with no alternative they do."""
    return not alternatives or any(is_met(run, forms) or holds_in_latest(run, forms) for forms in alternatives)


def holds_in_latest(run: Session, condition: Forms) -> bool:
    """Returns whether the latest action is a turn in which a condition comes to hold. It is made again."""
    here = run.position
    if not here or run.tape.runs[run.tape.run_before(here)].line != STEP:
        return False
    run.goto(Position(here - 1))
    return first_turn(run, condition, 1)


def waits(run: Session, number: int) -> bool:
    """Returns whether the latest turn of a processor was a wait. A setting is no turn."""
    here, at = run.position, run.tape.latest_turn(number, run.position)
    if at is None:
        return False
    run.goto(at)
    is_wait = first_turn(run, [Form(WAITS, number)], 1)
    run.goto(here)
    return is_wait


# ---- backwards

def last_turn(run: Session, condition: Forms, first: Position, progress: Callable[[Position], object]) -> bool:
    """Goes back to the end of the last turn after a position in which a condition comes to hold, or else to that position. Turns
    alone are in between. Returns whether there is one. What the engine no longer keeps is made anew by parts, up to the last of
    them that has one."""
    begin, end = max(first, run.oldest), run.position
    if last_kept(run, condition, begin):
        return True
    begin, end = first, begin
    while end - begin > run.room:
        size = max(run.room, (end - begin) // PARTS)
        parts = ((Position(at), min(Position(at + size), end)) for at in range(begin, end, size))
        begin, end = ([part for part in parts if is_between(run, condition, *part, progress)] or [(first, first)])[-1]
    run.goto(begin)
    run.goto(end)
    if not last_kept(run, condition, begin):
        run.goto(first)
        return False
    return True


def last_kept(run: Session, condition: Forms, first: Position) -> bool:
    """Goes back to the end of the last turn after a position in which a condition comes to hold. The engine keeps the turns after
    it. Returns whether there is one."""
    most = run.position - first
    if most <= 0 or holds_in_latest(run, condition):
        return most > 0
    undone = run.engine.back_until(condition)
    if undone >= most:
        run.engine.forward(undone)
        return False
    run.moved(-undone)
    return undone > 0


def is_between(run: Session, condition: Forms, first: Position, last: Position, progress: Callable[[Position], object]) -> bool:
    """Returns whether a condition comes to hold in a turn between two positions."""
    run.goto(first)
    while run.position < last:
        if first_turn(run, condition, last - run.position):
            return True
        progress(run.position)
    return False


class Turn(NamedTuple):
    """A turn of a run, or the replies of devices to it: its number from 1, the position before it, its processor as it was then and
    after it, and numbers that were and are."""

    turn: int
    position: Position
    slot: int
    processor: Processor
    after: Processor
    numbers: List[Tuple[str, str, str]]  # names, with the digits before and after the turn
    is_named: bool  # whether the numbers are shown with their names
    device: str = ""  # that replies, with DEVICE and its remark

    def text(self, symbols: Any) -> str:
        """Returns its line: its number, the processor with its P and instruction, the numbers before and after it, and the line of
        its source."""
        parts = "".join(f" {f'{name} ' if self.is_named else ''}WAS {was} NOW {now}" for name, was, now in self.numbers)
        return f"TURN {self.turn:o} {self.maker(symbols, parts)}"

    def maker(self, symbols: Any, numbers: str = "") -> str:
        """Returns who made it, with numbers: the processor with its P and instruction, before the line of its source, or a
        device."""
        if self.device:
            return f"{self.device}{numbers}"
        address, line = symbols.beside(self.slot, self.processor.p), symbols.line_at_p(self.slot, self.processor)
        return f"PP {self.slot:02o} P {address} {self.processor.name}{numbers}{line}"


def turn_at(run: Session, position: Position, columns: Sequence[Column] = ()) -> Turn:
    """Returns the turn after a position, or the replies to one, with the numbers of columns before and after it."""
    replies = list(itertools.takewhile(is_reply, run.tape.actions(position)))
    end = Position(position + (len(replies) or 1))
    run.goto(end)
    turn, slot = run.turn, (run.slot() - 1) % PROCESSORS
    now, after = [number for column in columns for number in column.shown(run)], run.processor(slot)
    run.goto(position)
    was, processor = [number for column in columns for number in column.shown(run)], run.processor(slot)
    is_range = len(was) > len(columns)  # of which the cells that differ are shown
    differ = [(name, old, new) for (name, old), (_, new) in zip(was, now) if old != new or not is_range]
    shown = {column.place.number for column in columns}
    by = [reply for reply in replies if not shown.isdisjoint(numbers_of_reply(reply.line))] or replies  # the last one counts
    return Turn(turn, position, slot, processor, after, differ, len(was) > 1, by[-1].setter if by else "")


def turns_in_row(run: Session, begin: Position, end: Position, processors: Container[int] = range(PROCESSORS)) -> Iterator[Turn]:
    """Yields the turns of some processors between two positions with turns alone, without numbers. Of a processor after its turn
    the registers alone count. The run is after the turn, or some turns later."""
    for first in range(begin, end, ROWS_AT_ONCE):
        run.goto(Position(first))
        turn, made = run.turn + 1, min(end - first, ROWS_AT_ONCE)
        rows: List[Sequence[int]] = [*zip(*run.engine.columns(made)[0])]
        run.performed(made)
        a, p, q, phase = (run.engine.numbers(place, PROCESSORS) for place in (flat.A, flat.P, flat.Q, flat.PHASE))
        slot = run.slot()
        rows += [(number, p[number], a[number], q[number], phase[number], 0, 0)
                 for number in (*range(slot, PROCESSORS), *range(slot))]
        for at, row in enumerate(rows[:made]):
            if row[0] in processors:
                yield Turn(turn + at, Position(first + at), row[0], of_row(*row), of_row(*rows[at + PROCESSORS]), [], False)


def of_row(_: int, p: int, a: int, q: int, phase: int, word: int, m: int) -> Processor:
    """Returns the processor of a row of the engine's columns."""
    return Processor(p, a, q, phase, (word, m))


class Search(NamedTuple):
    """A search for the turns of some finders, over the tape of a session of its own."""

    run: Session
    finders: Sequence[Finder]
    progress: Progress = no_progress

    def found(self, first: int = 0, last: Optional[int] = None) -> Iterator[Found]:
        """Yields the position before each turn after `first`, up to `last`, that is found, and its number."""
        seen = 0 if any(finder.remembers for finder in self.finders) else max(first - PROCESSORS, 0)
        begin = self.run.tape.after_turn(seen)  # where a processor is, is known after a round
        found = heapq.merge(*(self.onward(finder, begin, first, last) for finder in self.finders))
        return (turn for turn, _ in itertools.groupby(found))

    def onward(self, finder: Finder, begin: Position, first: int = 0, last: Optional[int] = None) -> Iterator[Found]:
        """As `found`, of one finder, from a position on. In between others may have moved the session."""
        run, tape = self.run, self.run.tape
        actions = tape.actions(begin, None if last is None else tape.after_turn(max(last, 0)))
        for are_replies, row in itertools.groupby(actions, is_reply):
            if are_replies:
                here, begin = begin, Position(begin + sum(1 for _ in row))
                is_found = isinstance(finder, TurnFinder) and comes_by_replies(run, finder.alternatives, here, begin)
                if is_found and tape.turn(here) > first:
                    yield here, tape.turn(here)
                continue
            for action in row:
                here, begin = begin, Position(begin + action.times)
                if action.line == STEP:
                    yield from self.in_row(finder, here, begin, first)

    def in_row(self, finder: Finder, row: Position, end: Position, first: int = 0) -> Iterator[Found]:
        """As `onward`, between two positions with turns alone."""
        run = self.run
        run.goto(row)
        finder.begin(run)
        while run.position < end:
            is_found, here, turn = finder.next(run, min(end - run.position, MOST_AT_ONCE)), run.position, run.turn
            if is_found and turn > first:
                yield Position(here - 1), turn
                run.goto(here)
            self.progress(turn)

    def back(self, finder: TurnFinder, first: int, last: int) -> Iterator[Found]:
        """Yields what `found` does, the last one first, of a finder with one condition."""
        run, tape = self.run, self.run.tape
        here, begin = tape.after_turn(max(last, 0)), tape.after_turn(first)
        while here > begin:
            part, end = tape.run_before(here), here
            here = max(tape.starts[part], begin)
            if tape.runs[part].line == STEP:
                run.goto(end)
                if last_turn(run, finder.conditions[0], here, lambda position: self.progress(tape.turn(position))):
                    here = Position(run.position - 1)
                    yield here, tape.turn(run.position)
            elif is_reply(tape.runs[part]):
                here = tape.starts[next((number for number in range(part, -1, -1) if not is_reply(tape.runs[number])), -1) + 1]
                if comes_by_replies(run, finder.alternatives, here, end):
                    yield here, tape.turn(here)


def spans(end: int, first: int = 0, span: int = FIRST_SPAN) -> Iterator[Tuple[int, int]]:
    """Yields spans from the end backwards, each wider than that after it."""
    while end > first:
        start = max(end - span, first)
        yield start, end
        end, span = start, WIDER * span


def last_found(search: Search, most: int, first: int = 0, last: Optional[int] = None) -> List[Found]:
    """Returns the last turns of a run that are found, as many as there are up to `most`, in their order."""
    found: List[Found] = []
    last = search.run.tape.turns if last is None else last
    if isinstance(search.finders[0], TurnFinder) and len(search.finders) == len(search.finders[0].conditions) == 1:
        return list(itertools.islice(search.back(search.finders[0], first, last), most))[::-1]
    remembers = any(finder.remembers for finder in search.finders)
    for start, end in spans(last, first, max(last, 1) if remembers else FIRST_SPAN):
        found[:0] = deque(search.found(start, end), most)
        if len(found) >= most:
            break
    return found[-most:]


def halve(low: int, high: int, holds: Callable[[int], bool]) -> int:
    """Returns the least number over `low`, up to `high`, from which on something holds. It holds at `high`, and not at `low`."""
    while high - low > 1:
        middle = (low + high) // 2
        low, high = (low, middle) if holds(middle) else (middle, high)
    return high
