"""The engine in plain Python: the simulator of `plain`, in this process. It is not proved."""

from __future__ import annotations

import bisect
from array import array
from typing import Callable, Iterator, List, Optional, Sequence, Sized, Tuple

from ..failure import Failure
from . import interface as flat
from . import plain_origins as origins
from .interface import Columns, Counts, Form, Records, Rejection
from .origins import Origin, Origins, Reading
from .plain import places
from .plain.lines import Rejected
from .plain.machine import Record
from .plain.program import USAGE, console_of, read_words
from .plain_conditions import Done, alternatives_of, comes_to_hold

# The places of the flat order by ranges: the first one, and the place of the simulator that it is.
RANGES: Sequence[Tuple[int, int]] = (
    (flat.CELLS, places.M), (flat.A, places.A), (flat.P, places.P), (flat.Q, places.Q), (flat.PHASE, places.PHASE),
    (flat.STATES, places.STATE), (flat.REGISTERS, places.H), (flat.CLOCK, places.CLOCK), (flat.FRAME, places.FRAME),
    (flat.CARD, places.CARD),
    (flat.PAPER_LENGTH, places.PAPER_LENGTH), (flat.PAPER, places.PAPER), (flat.SLOT, places.SLOT), (flat.CENTRAL, places.C))
FIRST = [first for first, _ in RANGES]
OWN = sorted((own, first) for first, own in RANGES)
FIRST_OWN = [own for own, _ in OWN]


def own_place(place: int) -> int:
    """Returns the simulator's place of a place in the flat order."""
    first, own = RANGES[bisect.bisect_right(FIRST, place) - 1]
    return own + place - first


def flat_place(place: int) -> int:
    """Returns the place in the flat order of a place of the simulator."""
    own, first = OWN[bisect.bisect_right(FIRST_OWN, place) - 1]
    return first + place - own


class PlainEngine:
    """A session of the simulator in plain Python."""

    def __init__(self, words: Sequence[str]) -> None:
        """The words are the options of the program."""
        try:
            self.console = console_of(read_words(words))
        except Rejected as rejected:
            status, text = rejected.args or (0, USAGE)  # if help is asked for
            raise Rejection(f"pp6600: {text}", status) from None
        self.machine = self.console.machine

    def answers(self, text: str) -> List[str]:
        lines = text.encode("latin-1").split(b"\n")
        return [answer for line in (lines if lines[-1] else lines[:-1]) for answer in self.console.answer(line.removesuffix(b"\r"))]

    def numbers(self, first: int, count: int) -> Sequence[int]:
        found: List[int] = []
        while len(found) < count:
            at = first + len(found)
            after = bisect.bisect_right(FIRST, at)
            most = min(count - len(found), FIRST[after] - at if after < len(FIRST) else count)
            own = own_place(at)
            found += self.machine.numbers[own:own + most] if at != flat.WATCHES else [0] * most
        return found

    def counts(self) -> Counts:
        history = self.machine.history
        changed = bool(history) and self.console.hit(history[-1], self.console.watches()) is not None
        return Counts(len(history), len(self.machine.ahead), history.maxlen or 0, changed)

    def records(self, most: int, call: str = "turns") -> Records:
        if call == "again":
            self.forward(most)
            history = self.machine.history
            return records_of([history[at] for at in range(len(history) - most, len(history))], False)
        made = list(self._made(most))
        return records_of(made, self.is_watched)

    def origins(self, most: int) -> Tuple[List[Origins], Records]:
        turns: List[Origins] = []

        def turn() -> Record:
            made, record = origins.turn(self.machine)
            turns.append(of_flat_places(made)._replace(control=()))
            return record

        made = list(self._made(most, turn))
        return turns, records_of(made, self.is_watched)

    def next_origins(self) -> Origins:
        return of_flat_places(origins.next_turn(self.machine))

    def numbers_after(self, most: int, places: Sequence[int]) -> Tuple[List[int], bool]:
        own, numbers = [own_place(place) for place in places], self.machine.numbers
        return [numbers[place] for _ in self._made(most) for place in own], self.is_watched

    def columns(self, most: int) -> Tuple[Columns, bool]:
        machine, rows = self.machine, []

        def turn() -> Record:
            s = machine.processors[machine.numbers[places.SLOT]]
            s.look()
            rows.append((s.n, s.p, s.a, s.q, s.phase, s.cell(s.p), s.m))
            return machine.turn()

        list(self._made(most, turn))
        return Columns(*[array(kind, column) for kind, column in zip("HHIHHHH", zip(*rows))]), self.is_watched

    def until(self, condition: Sequence[Form], most: int) -> Tuple[int, bool]:
        alternatives = alternatives_of(condition)
        for made in range(1, most + 1):
            if comes_to_hold(alternatives, self._done(self.machine.turn())):
                return made, True
        return most, False

    def back_until(self, condition: Sequence[Form]) -> int:
        alternatives, last = alternatives_of(condition), len(self.machine.history) - 1
        for undone in range(1, last + 1):
            self.machine.back()
            if comes_to_hold(alternatives, self._done(self.machine.history[-1])):
                return undone
        self.forward(max(last, 0))
        return 0

    def _done(self, record: Record) -> Done:
        """Returns the newest action, by what it overwrote."""
        numbers = self.machine.numbers

        def old(place: int) -> int:
            own = own_place(place)
            return int(record.get(own, numbers[own]))

        return Done(old, lambda place: int(numbers[own_place(place)]), [flat_place(place) for place in record])

    def _made(self, most: int, turn: Optional[Callable[[], Record]] = None) -> Iterator[Record]:
        """Makes turns, at most so many, up to a change of a watched number. Yields what each overwrote."""
        watches, self.is_watched = self.console.watches(), False
        while most and not self.is_watched:
            record = turn() if turn else self.machine.turn()
            yield record
            self.is_watched = bool(watches) and self.console.hit(record, watches) is not None
            most -= 1

    def perform(self, typed: bytes) -> None:
        text = typed.decode("latin-1")
        if not all(answer == "OK" for answer in self.answers(text)):
            raise Failure(f"the simulator refuses {text}")

    def back(self, count: int) -> bool:
        return self._move(count, self.machine.history, self.machine.back)

    def forward(self, count: int) -> bool:
        return self._move(count, self.machine.ahead, self.machine.forward)

    @staticmethod
    def _move(count: int, actions: Sized, move: Callable[[], object]) -> bool:
        is_enough = count <= len(actions)
        for _ in range(count if is_enough else 0):
            move()
        return is_enough

    def close(self) -> None:
        """Nothing is to be given back."""


def of_flat_places(turn: Origins) -> Origins:
    """Returns a turn with its places in the flat order."""
    own, others = ([Origin(flat_place(place), operation, tuple(Reading(flat_place(one), field) for one, field in reads))
                    for place, operation, reads in part] for part in (turn.own, turn.others))
    return turn._replace(own=own, others=others, control=[flat_place(place) for place in turn.control])


def records_of(made: Sequence[Record], is_watched: bool) -> Records:
    """Returns the records of actions."""
    olds = array("Q", [one for record in made for place, number in record.items() for one in (flat_place(place), number)])
    return Records(array("I", map(len, made)), olds.tobytes(), is_watched)
