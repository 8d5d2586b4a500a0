"""The actions of a run, and a history as a place in them.

A tape is a list of actions in the order of a script: each a line, and how often it was performed in a row. All turns are one kind
of action, STEP, however they were asked for. A position is a number of actions: at position n so many are performed. A tape turns
positions into turns and back by prefix sums and a search by halves, so 20 million turns cost no more than one.

A history is a cursor on a tape. What is before its position is in effect, and what is after it is ahead. The simulator itself can
go by BACK to the positions from `oldest` on, and by FORWARD to those up to `newest`; all others need a replay. A new action cuts
what is ahead off the tape, as the console discards its redo list. An action that is replayed does not, so a session goes back and
forward without a limit."""

from __future__ import annotations

import bisect
import functools
import re
from array import array
from itertools import repeat
from typing import (Any, Dict, Iterable, Iterator, List, MutableSequence, NamedTuple, NewType, Optional, Sequence,
                    Tuple, Type, TypeVar)

from ..failure import Failure
from .forms import MOST_TURNS, PROCESSORS

MOST_KEPT = 10000  # decimal, without --history
Position = NewType("Position", int)  # how many actions of a tape come before
Units = NewType("Units", int)  # a number of actions as a user counts them
L = TypeVar("L", bound="KnownLine")
STEP = "STEP"
# the line after it is a reply of this device, with a remark
NOTE_OF_DEVICE = re.compile(r"\* DEVICE (\S+)((?: [A-Z]+(?: [0-7]+)?)*)\r?")
REJECT = "REJECT"  # the remark of a device that takes no such code
REPLIES = "SET H ", "SET C "
WATCH = re.compile(r"[ \t]*(?:UN)?WATCH\b", re.I)
DEAD_START = re.compile(r"[ \t]*DEADSTART\b", re.I)


def room_of(words: Sequence[str]) -> int:
    """Returns how many actions a simulator keeps that was begun by these words. It has accepted them."""
    return int(words[words.index("--history") + 1]) if "--history" in words else MOST_KEPT


class KnownLine(str):
    """A line of which it is known where it came from."""

    origin: Any

    def __new__(cls: Type[L], text: str, origin: Any) -> L:
        line = super().__new__(cls, text)
        line.origin = origin
        return line


class ScriptLine(KnownLine):
    """A line of a script, with its number, from 1."""


class ReplyLine(KnownLine):
    """A SET H or SET C that is the reply of a device of one's own, with the name of this, and its remark."""


class SourceLine(KnownLine):
    """A line before a script that loads words of a source. It has the function that returns the place in the source of each of its
    numbers, by its number in the line."""


def counted(lines: Iterable[str]) -> Iterator[Tuple[int, str]]:
    """Yields the lines of a script, each with its number, from 1; those of a source before it are not counted."""
    number = 0
    for line in lines:
        number += not isinstance(line, SourceLine)
        yield number, line


def numbered(lines: Iterable[str]) -> List[str]:
    """Returns the lines of a script, each with its number, or with the device whose reply it is by the note before it."""
    found: List[str] = []
    note: Optional["re.Match[str]"] = None
    for number, line in counted(lines):
        if isinstance(line, SourceLine):
            found.append(line)
        else:
            found.append(ReplyLine(line, note[1] + note[2]) if note and line.startswith(REPLIES) else ScriptLine(line, number))
        note = NOTE_OF_DEVICE.fullmatch(line)
    return found


def with_notes(lines: Iterable[str]) -> Iterator[str]:
    """Yields lines, and before each reply the note that names its device."""
    for line in lines:
        if isinstance(line, ReplyLine):
            yield f"* DEVICE {line.origin}"
        yield line


class Action(NamedTuple):
    """An action by its line, performed so many times in a row. All turns are one action, STEP."""

    line: str
    times: int = 1

    @property
    def turns(self) -> int:
        return self.times if self.line == STEP else 0

    @property
    def setter(self) -> str:
        """Who made a setting: SET, DEADSTART, or a device of one's own with the remark of its reply."""
        return f"DEVICE {self.line.origin}" if isinstance(self.line, ReplyLine) else self.line.upper().split()[0]

    @property
    def is_watch(self) -> bool:
        return WATCH.match(self.line) is not None


def is_reply(action: Action) -> bool:
    """Returns whether an action is the reply of a device of one's own."""
    return type(action[0]) is ReplyLine


turns_of = functools.lru_cache(maxsize=4096)(functools.partial(Action, STEP))


class Tape:
    """The actions of a run. A unit is an action as a user counts them: with the replies of devices after it."""

    def __init__(self, actions: Iterable[Action] = ()) -> None:
        self.runs: List[Action] = []
        sums: Any = array("q", [0])  # which has no object for each
        # of each run of actions, and of the end; and the turns and units before them
        self.starts: MutableSequence[Position] = sums[:]
        self.turns_before: MutableSequence[int] = sums[:]
        self.units_before: MutableSequence[int] = sums[:]
        self.dead_starts: List[Position] = []  # the positions after them
        self.watches = 0  # how many of them are WATCH or UNWATCH
        self.seen: Dict[Any, List[Tuple[Position, Any]]] = {}  # what has been found out, each at some positions in their order
        for line, times in actions:
            self.append(line, times)

    def append(self, line: str, times: int = 1) -> None:
        """Adds an action at the end, so many times."""
        if not times:
            return
        is_turn, is_of_device = line == STEP, type(line) is ReplyLine
        if is_turn and self.runs and self.runs[-1].line == STEP:
            times += self._pop().times
        self._begin(Action(line, times), Position(self.end + times), self.turns + times * is_turn,
                    self.units_before[-1] + times * (not is_of_device))
        if not (is_turn or is_of_device):
            self.watches += WATCH.match(line) is not None
            if DEAD_START.match(line):
                self.dead_starts.append(self.end)

    def append_replies(self, turns: Sequence[int], replies: Sequence[Action]) -> None:
        """Adds replies, and the turns before each of them: it comes after so many in all."""
        for at in turns[:1]:  # the first turns go on with those before them
            self.append(STEP, at - self.turns)
        before, others, ends = self.turns, self.end - self.turns, []
        for at, reply in zip(turns, replies):
            if at > before:
                self.runs.append(turns_of(at - before))
                ends.append((at + others, at))
                before = at
            others += 1
            self.runs.append(reply)
            ends.append((at + others, at))
        more = self.units_before[-1] - self.turns
        self.starts.extend([Position(end) for end, _ in ends])
        self.turns_before.extend([turn for _, turn in ends])
        self.units_before.extend([turn + more for _, turn in ends])

    def _begin(self, run: Action, end: Position, turns: int, units: int) -> None:
        """Adds a run of actions, after which there are so many actions, turns and units."""
        self.runs.append(run)
        self.starts.append(end)
        self.turns_before.append(turns)
        self.units_before.append(units)

    def _pop(self) -> Action:
        """Removes the last run, and returns it."""
        del self.starts[-1], self.turns_before[-1], self.units_before[-1]
        return self.runs.pop()

    def cut(self, position: Position) -> None:
        """Removes what is after a position."""
        while self.starts[-1] > position:
            action = self._pop()
            self.watches -= action.is_watch
            self.append(action.line, max(position - self.end, 0))
        while self.dead_starts and self.dead_starts[-1] > position:
            self.dead_starts.pop()
        for found in self.seen.values():
            while found[-1][0] > position:
                found.pop()

    # ---- how far

    @property
    def end(self) -> Position:
        return self.starts[-1]

    @property
    def turns(self) -> int:
        return self.turns_before[-1]

    def run_before(self, position: Position) -> int:
        """Returns the number of the run of actions that has the action before a position."""
        return bisect.bisect_left(self.starts, position) - 1

    def run_after(self, position: Position) -> int:
        """Returns the number of the run that has the action after a position."""
        return bisect.bisect_right(self.starts, position) - 1

    def turn(self, position: Position) -> int:
        """Returns the number of turns before a position."""
        run = self.run_after(position)
        passed = position - self.starts[run]
        return self.turns_before[run] + (passed if passed and self.runs[run].line == STEP else 0)

    def slot(self, position: Position) -> int:
        """Returns the slot at a position: that of the turn that begins there."""
        last = bisect.bisect_right(self.dead_starts, position)
        begun = self.turn(self.dead_starts[last - 1]) if last else 0
        return (self.turn(position) - begun) % PROCESSORS

    def units(self, position: Position) -> Units:
        """Returns how many units are whole at a position, or begun: those whose own action is before it."""
        run = max(self.run_before(position), 0)
        return Units(min(self.units_before[run] + position - self.starts[run], self.units_before[min(run + 1, len(self.runs))]))

    def whole_units(self, position: Position) -> Units:
        """Returns how many units are whole at a position."""
        units = self.units(position)
        return units if self.after_units(units) == position else Units(units - 1)

    def after_units(self, units: Units) -> Position:
        """Returns the position after so many units, with their replies."""
        run = bisect.bisect_right(self.units_before, units) - 1
        return Position(self.starts[run] + units - self.units_before[run])

    def after_turn(self, turn: int) -> Position:
        """Returns the position after so many turns, and after the other actions before the next turn."""
        if turn > self.turns:
            raise Failure(f"there is no turn {turn:o}: the run has {self.turns:o} turns, octal")
        run = bisect.bisect_right(self.turns_before, turn) - 1
        return self.end if run == len(self.runs) else Position(self.starts[run] + turn - self.turns_before[run])

    def at_turn(self, turn: int) -> Position:
        """Returns the position right after so many turns, before any other action."""
        run = bisect.bisect_left(self.turns_before, turn)
        return Position(self.starts[run] - (self.turns_before[run] - turn))

    def latest_turn(self, number: int, position: Position) -> Optional[Position]:
        """Returns the position before the latest turn of a processor before a position; None if there is none."""
        for first, end in self.rows_back(position):
            at = end - 1 - (self.slot(Position(end - 1)) - number) % PROCESSORS
            if at >= first:
                return Position(at)
        return None

    def next_turn(self, number: int, position: Position) -> Optional[Position]:
        """Returns the position before the next turn of a processor from a position on; None if there is none."""
        for begin, end in self.rows_of_turns(position):
            at = begin + (number - self.slot(begin)) % PROCESSORS
            if at < end:
                return Position(at)
        return None

    def last_tick(self, position: Position) -> Position:
        """Returns the position after the last turn before this one in which the clock changed; 0 if there is none."""
        for first, end in self.rows_back(position):
            passed = (self.slot(first) + end - first) % PROCESSORS  # turns since the last turn of the last processor
            if end - passed > first:
                return Position(end - passed)
        return Position(0)

    def rows_back(self, position: Position) -> Iterator[Tuple[Position, Position]]:
        """Yields the beginning and the end of each row of turns before a position, the last one first."""
        while position:
            run, end = self.run_before(position), position
            position = self.starts[run]
            if self.runs[run].line == STEP:
                yield position, end

    # ---- what

    def actions(self, first: Position = Position(0), last: Position | None = None) -> Iterator[Action]:
        """Yields the actions from a position to a later one, or to the end."""
        last = self.end if last is None else last
        while first < last:
            run = self.run_after(first)
            count = min(last, self.starts[run + 1]) - first
            yield Action(self.runs[run].line, count)
            first = Position(first + count)

    def rows_of_turns(self, first: Position = Position(0), last: Optional[Position] = None) -> Iterator[Tuple[Position, Position]]:
        """Yields the positions before and after each row of turns, with no other action in it, from a position to a later one, or
        to the end."""
        for action in self.actions(first, last):
            first, before = Position(first + action.times), first
            if action.line == STEP:
                yield before, first

    def lines(self, first: Position, last: Position, with_watches: bool = True) -> Iterator[str]:
        """Yields the lines that perform the actions from a position to a later one, with the STEPs as long as they may be."""
        for line, times in self.actions(first, last):
            if line == STEP:
                yield from (f"{STEP} {min(times - made, MOST_TURNS):o}" for made in range(0, times, MOST_TURNS))
            elif with_watches or not WATCH.match(line):
                yield from repeat(line, times)


class History:
    """A cursor on a tape, and how far the simulator itself can go from it: by BACK to the oldest position, by FORWARD to the
    newest."""

    position = oldest = newest = Position(0)

    def __init__(self, room: int, tape: Tape) -> None:
        """The simulator keeps so many actions; it is at the beginning of the tape."""
        self.room, self.tape = room, tape

    @property
    def turn(self) -> int:
        """How many turns are in effect."""
        return self.tape.turn(self.position)

    def in_effect(self) -> Tape:
        """Returns the actions that were not taken back, or were performed again."""
        return Tape(self.tape.actions(Position(0), self.position))

    # ---- what the simulator did

    def restarted(self) -> None:
        """Notes that a fresh simulator is at the beginning of the tape."""
        self.position = self.oldest = self.newest = Position(0)

    def performed(self, count: int, room: Optional[int] = None) -> None:
        """Notes that the simulator has performed the next so many actions by their lines, and keeps so many at most."""
        self.position = self.newest = Position(self.position + count)
        self.oldest = max(self.oldest, Position(self.position - (self.room if room is None else room)))

    def moved(self, count: int) -> None:
        """Notes that the simulator has gone forward by so many actions, or back if it is negative."""
        if not self.oldest <= self.position + count <= self.newest:
            raise Failure(f"what is run is not the simulator: it went by {abs(count):o} actions, and there are fewer")
        self.position = Position(self.position + count)

    def added(self, line: str, times: int = 1) -> None:
        """Notes that the simulator has performed a new action: what was ahead is gone."""
        self.cut(self.position)
        self.tape.append(line, times)
        self.performed(times)

    def cut(self, position: Position) -> None:
        """Discards what comes after a position, which is not before the present one."""
        self.tape.cut(position)
        self.newest = min(self.newest, position)

    # ---- in units, as BACK and FORWARD of its user count

    @property
    def unit(self) -> Units:
        """How many units are in effect."""
        return self.tape.units(self.position)

    @property
    def kept(self) -> int:
        """How many units the simulator itself can undo."""
        return self.unit - self.tape.units(self.oldest)

    @property
    def to_redo(self) -> int:
        """How many units are ahead, with those that the simulator no longer has."""
        return self.tape.units(self.tape.end) - self.unit

    @property
    def ahead(self) -> int:
        """How many units of the redo list are ahead."""
        return self.tape.units(self.newest) - self.unit

    def over(self, actions: int) -> int:
        """Returns how many units the last so many actions of the tape are."""
        return self.unit - self.tape.whole_units(Position(self.position - actions))

    def back_over(self, turns: int) -> int:
        """Returns how many units in effect have the last so many turns; more than there are if these have fewer turns."""
        if turns > self.turn:
            return self.unit + turns - self.turn
        return self.unit - self.tape.units(self.tape.after_turn(self.turn - turns)) if turns else 0

    def forward_over(self, turns: int) -> int:
        """Returns how many units ahead have the first so many turns."""
        return self.tape.units(self.tape.at_turn(self.turn + turns)) - self.unit if turns else 0
