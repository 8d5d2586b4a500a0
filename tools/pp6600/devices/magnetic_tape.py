"""A magnetic tape unit of the 3000 series, as one that is connected through a 6681 converter.

The tape is a row of blocks, and the head is between two of them. A block is a record, the tuple of its words, or a file mark. The
head goes to and fro by one block, so the blocks before and after it are two chains. docs/PYTHON.md has the function codes and
the status word, and which facts the manuals have."""

from __future__ import annotations

from typing import Callable, Dict, Iterable, List, NamedTuple, Union

from ..failure import Failure
from ..run.device import EMPTY, INACTIVE, NOTHING, Answer, Chain, Device, Event, chain_of, full
from .tape_file import MARK, Block, read_tape, write_tape

# Function codes. Those of PLAIN choose binary words and a density, or clear, and do nothing here.
PLAIN = (0o1, 0o3, 0o4, 0o5, 0o6)
REWIND, BACKSPACE, FIND_MARK, FIND_MARK_BEFORE, WRITE_MARK = 0o10, 0o12, 0o13, 0o14, 0o15
STATUS, READ, WRITE = 0o1300, 0o1400, 0o1600
# The status word.
READY, WRITE_ENABLED, AT_MARK, AT_LOAD_POINT, AT_END = 0o1, 0o4, 0o10, 0o20, 0o40


class TapeState(NamedTuple):
    """The state of the unit."""

    behind: Chain = Chain()  # the blocks before the head
    ahead: Chain = Chain()  # those after it, the next one last
    met: int = 0  # what the last movement met: AT_MARK, AT_END, or 0
    code: int = 0  # the function code in effect
    place: int = 0  # of the next word of the record that is read, the block before the head
    words: Chain = Chain()  # of the record that is written


def forward(state: TapeState) -> TapeState:
    """Moves the tape forward by a block."""
    if not state.ahead.length:
        return state._replace(met=AT_END)
    block, ahead = state.ahead.last, state.ahead.before or Chain()
    return state._replace(behind=state.behind.push(block), ahead=ahead, met=0 if block else AT_MARK)


def backward(state: TapeState) -> TapeState:
    """Moves the tape back by a block."""
    if not state.behind.length:
        return state._replace(met=0)
    block, behind = state.behind.last, state.behind.before or Chain()
    return state._replace(behind=behind, ahead=state.ahead.push(block), met=0 if block else AT_MARK)


def rewound(state: TapeState) -> TapeState:
    """Moves the tape back to its beginning."""
    while state.behind.length:
        state = backward(state)
    return state._replace(met=0)


def at_next_mark(state: TapeState) -> TapeState:
    """Moves the tape forward to after a file mark, or to its end."""
    state = forward(state)
    while not state.met:
        state = forward(state)
    return state


def at_mark_before(state: TapeState) -> TapeState:
    """Moves the tape back to before a file mark, or to its beginning."""
    state = backward(state)
    while not state.met and state.behind.length:
        state = backward(state)
    return state


def written(state: TapeState, block: Block) -> TapeState:
    """Writes a block. What was after it on the tape is lost."""
    return state._replace(behind=state.behind.push(block), ahead=Chain(), met=0)


MOVEMENTS: Dict[int, Callable[[TapeState], TapeState]] = {
    REWIND: rewound, BACKSPACE: backward, FIND_MARK: at_next_mark, FIND_MARK_BEFORE: at_mark_before,
    WRITE_MARK: lambda state: written(state, MARK)}
CODES = {*PLAIN, *MOVEMENTS, STATUS, READ, WRITE}


class MagneticTape(Device):
    """A magnetic tape unit."""

    def __init__(self, tape: Union[str, Iterable[Block]] = (), ring: str = "", channel: int = 0o5) -> None:
        """The tape is its blocks, or the name of a file that has them. With the word ring it can be written."""
        if ring not in ("", "ring"):
            raise Failure(f"the word after a tape is ring, and not {ring}")
        self.channel = channel
        self.codes = CODES if ring else CODES - {WRITE, WRITE_MARK}
        if isinstance(tape, str):
            tape = read_tape(tape) if tape else ()  # without a name it is a new one
        self.start = TapeState(ahead=chain_of(reversed(list(tape))))

    def status(self, state: TapeState) -> int:
        """Returns the status word."""
        ring = WRITE_ENABLED if WRITE in self.codes else 0
        return READY | ring | state.met | (0 if state.behind.length else AT_LOAD_POINT)

    def function(self, state: TapeState, event: Event) -> Answer:
        if event.word not in self.codes:
            return state, NOTHING
        move = MOVEMENTS.get(event.word)
        state = state._replace(code=event.word, place=0, words=Chain())
        return move(state) if move else state, INACTIVE

    def activated(self, state: TapeState, event: Event) -> Answer:
        """Gives the status word, or begins to read a record."""
        if state.code == STATUS:
            return state, full(self.status(state))
        return self.taken(forward(state) if state.code == READ else state, event)

    def taken(self, state: TapeState, event: Event) -> Answer:
        """Gives the next word of the record; after the last one makes the channel inactive."""
        if state.code != READ:
            return state, NOTHING
        record = MARK if state.met else state.behind.last
        if state.place == len(record):
            return state._replace(code=0), INACTIVE
        return state._replace(place=state.place + 1), full(record[state.place])

    def word(self, state: TapeState, event: Event) -> Answer:
        return (state._replace(words=state.words.push(event.word)), EMPTY) if state.code == WRITE else (state, NOTHING)

    def disconnected(self, state: TapeState, event: Event) -> Answer:
        """Ends the record that is written."""
        if state.words.length:
            state = written(state, tuple(state.words.items()))
        return state._replace(code=0, words=Chain()), NOTHING

    @staticmethod
    def blocks(state: TapeState) -> List[Block]:
        """Returns what is on the tape."""
        return [*state.behind.items(), *reversed(state.ahead.items())]

    def save(self, state: TapeState, path: str) -> None:
        """Writes what is on the tape into a new file."""
        write_tape(path, self.blocks(state))
