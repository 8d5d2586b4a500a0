"""What simulates, as the tools ask it: a session of the machine. The engines are the proved library, and the simulator in plain
Python."""

from __future__ import annotations

from array import array
from typing import List, NamedTuple, Protocol, Sequence, Tuple

from ..failure import Failure
from .origins import Origins

# The places in the flat order of the engines: a range of them begins at each of these numbers.
CELLS, A, P, Q, PHASE, STATES, REGISTERS, CLOCK = 0, 40960, 40970, 40980, 40990, 41000, 41012, 41024
FRAME, CARD, PAPER_LENGTH, PAPER_COLUMN, PAPER, SLOT, WATCHES, CENTRAL = 41025, 41041, 41044, 41045, 41047, 106583, 106584, 106592
# The first place of each kind, in the order of the places. S is the state of a channel, LP a symbol of the paper.
FIRST = {"M": CELLS, "A": A, "P": P, "Q": Q, "PHASE": PHASE, "S": STATES, "H": REGISTERS, "XP": FRAME,
         "CR CARD": CARD, "CR COLUMN": CARD + 1, "CR MODE": CARD + 2,
         "LP SYMBOLS": PAPER_LENGTH, "LP COLUMN": PAPER_COLUMN, "LP MODE": PAPER_COLUMN + 1, "LP": PAPER,
         "SLOT": SLOT, "W": WATCHES, "C": CENTRAL}
# Of a form: the number at a place is inside or outside a range; one of some numbers changes; one of some places is written; a
# processor is about to perform the instruction at an address; a processor waits; another alternative begins.
INSIDE, OUTSIDE, CHANGES, WRITES, PERFORMS, WAITS, OR = range(7)
MOST_TESTS, MOST_ALTERNATIVES = 8, 64  # of an alternative, and of a condition


class Form(NamedTuple):
    """A test of a turn, or the beginning of another alternative. What a kind does not need is 0."""

    kind: int
    place: int = 0  # the number of a place, or of a processor
    first: int = 0  # the least number; how many places from that one on; or the address
    last: int = 0  # the greatest number


class Rejection(Failure):
    """The options or the files of a machine are wrong. It has the line that the program writes then, and its exit status."""

    def __init__(self, text: str, status: int) -> None:
        super().__init__(text)
        self.text, self.status = text, status


class Counts(NamedTuple):
    """How many actions can be undone, are ahead, and are kept at most; and whether the newest changed a watched number."""

    kept: int
    ahead: int
    capacity: int
    changed: bool


class Records(NamedTuple):
    """Actions one after the other, mostly turns, with the numbers that they overwrote."""

    counts: Sequence[int]  # of each action how many numbers it overwrote
    # of all actions the places and the numbers, in turn, eight bytes each; where one has a place twice, the first counts
    olds: bytes
    is_watched: bool  # whether the last turn changed a watched number

    @property
    def places(self) -> Sequence[int]:
        return array("Q", self.olds)[::2]

    @property
    def numbers(self) -> Sequence[int]:
        return array("Q", self.olds)[1::2]


class Columns(NamedTuple):
    """Turns, by what their processors were about to do: of each number a column, with one of each turn."""

    processor: array[int]
    p: array[int]
    a: array[int]
    q: array[int]
    phase: array[int]
    word: array[int]  # in the cell P
    m: array[int]  # in the cell after that


class Engine(Protocol):
    """A session of the machine. Numbers of places are those of the flat order; `most` is at least 1."""

    def answers(self, text: str) -> List[str]:
        """Performs lines of the console, and returns the lines of their answers."""

    def perform(self, typed: bytes) -> None:
        """Performs lines of actions, none of which is rejected."""

    def numbers(self, first: int, count: int) -> Sequence[int]:
        """Returns the numbers at places one after the other."""

    def counts(self) -> Counts: ...

    def records(self, most: int, call: str = "turns") -> Records:
        """Makes turns, at most so many. It ends at a change of a watched number. Or by "again" performs as many undone actions
        again."""

    def origins(self, most: int) -> Tuple[List[Origins], Records]:
        """Makes turns as `records` does. Returns also where each number that they wrote comes from."""

    def next_origins(self) -> Origins:
        """Returns the next turn, with where each number that its processor will write comes from. No turn is made."""

    def numbers_after(self, most: int, places: Sequence[int]) -> Tuple[List[int], bool]:
        """Makes turns as `records` does. Returns the numbers at some places (1 to 16) after each, in turn, and whether a watched
        one changed."""

    def columns(self, most: int) -> Tuple[Columns, bool]:
        """Makes turns as `records` does. Returns what their processors were about to do, and whether a watched number changed."""

    def until(self, condition: Sequence[Form], most: int) -> Tuple[int, bool]:
        """Makes turns, at most so many, up to the first in which a condition comes to hold, whatever is watched. Returns how many
        they are, and whether it does in the last one."""

    def back_until(self, condition: Sequence[Form]) -> int:
        """Goes back to the end of the last action before the newest in which a condition came to hold. Returns how many actions
        were undone; 0 if there is none that can be undone."""

    def back(self, count: int) -> bool:
        """Undoes actions, or by `forward` performs them again. Returns whether there were enough; if not, nothing is done."""

    def forward(self, count: int) -> bool: ...

    def close(self) -> None: ...
