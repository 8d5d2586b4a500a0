"""A device of one's own, as a pure function.

A device is on a channel. After each turn it looks at it, never after a SET. If the channel is not as the device left it, one of
its methods is called: it gets the state of the device and an event, and returns the new state and a reply, which is a SET H. A
state is a value that can't be changed in place: a number, a text, bytes, a tuple (so a NamedTuple too), a frozenset, or a Chain
of these. So a session keeps each state by reference, and goes back to it."""

from __future__ import annotations

import enum
import functools
from typing import Any, Callable, Iterable, List, NamedTuple, Optional, Tuple

from ..failure import Failure
from .forms import STATES

MOST_WORD = 0o7777
# of events, by the state that a channel has come to, in the order of STATES
KINDS = ("disconnected", "activated", "word", "function")
INACTIVE_STATE, EMPTY_STATE, FULL_STATE = map(STATES.index, "IEF")


class DeviceFailure(Failure):
    """A device that can't go on."""


class Event(NamedTuple):
    """What a device sees: the name of its method that is called, the word on its channel, and how many turns were made. For
    `told` the word is what it is told."""

    kind: str
    word: Any
    turn: int


class Reply(NamedTuple):
    """What a device does: it makes its channel inactive (I), empty (E) or full (F) with a word; and `wake` turns later its method
    `due` is called. Each part may be left out. The remark is REJECT, or says where the word is from, as CARD 1 COLUMN 12: words in
    capitals, and octal numbers. The tools show it."""

    state: Optional[str] = None
    word: Optional[int] = None
    wake: Optional[int] = None
    remark: str = ""

    def waking(self, turns: int) -> Reply:
        """Returns this reply with a call of `due` so many turns later."""
        return self._replace(wake=turns)

    def remarked(self, remark: str) -> Reply:
        """Returns this reply with a remark."""
        return self._replace(remark=remark)


INACTIVE, EMPTY, NOTHING = Reply("I"), Reply("E"), Reply()
Answer = Tuple[Any, Reply]  # a new state, and a reply


FULL = [Reply("F", word) for word in range(MOST_WORD + 1)]


def full(word: int) -> Reply:
    """Returns the reply that puts a word on the channel."""
    # the session says what is wrong with another
    return FULL[word] if type(word) is int and 0 <= word <= MOST_WORD else Reply("F", word)


class CompanionDevice:
    """What a device of a channel and one of central memory have in common."""

    channel: Optional[int] = None
    start: Any = None  # its state at first

    def due(self, state: Any, event: Any) -> Tuple[Any, Any]:
        """Handles the turn that an earlier reply asked for by `waking`, or one of central memory by `wake`."""
        return state, NOTHING

    def told(self, state: Any, event: Any) -> Tuple[Any, Any]:
        """Handles what the user has done to the device, for example which key was pressed: event.word, or event.new of a Change."""
        return state, NOTHING

    def paper(self, state: Any) -> str:
        """Returns all that the device has printed."""
        return ""

    def picture(self, state: Any) -> Any:
        """Returns what the device shows in a state, a `Picture`; None if it shows nothing."""
        return None


class Device(CompanionDevice):
    """A device on a channel. A subclass overrides the methods for what it reacts to. A method may be called for a turn that is
    then taken back, or with a word that does not come: it must depend on its arguments alone, and change nothing.

    The option `--device NAME:WORD,..@CHANNEL` calls the constructor with the words, as texts, and then sets `channel`."""

    channel: int = 0o11

    def function(self, state: Any, event: Event) -> Answer:
        """Handles a function code on the channel. The processor goes on when the channel is made inactive."""
        return state, NOTHING

    def word(self, state: Any, event: Event) -> Answer:
        """Handles a word that a processor has put on the channel. EMPTY takes it."""
        return state, NOTHING

    def activated(self, state: Any, event: Event) -> Answer:
        """Handles a channel that has become active, and is empty."""
        return state, NOTHING

    def taken(self, state: Any, event: Event) -> Answer:
        """Handles a channel from which a processor has taken the word."""
        return state, NOTHING

    def disconnected(self, state: Any, event: Event) -> Answer:
        """Handles a channel that has become inactive."""
        return state, NOTHING


class Chain(NamedTuple):
    """A list that grows and is never changed: `push` returns a longer one, which shares this one. A state has one where a tuple
    would be copied for each word."""

    before: Optional[Chain] = None
    last: Any = None
    length: int = 0

    def push(self, item: Any) -> Chain:
        """Returns the list with one more item."""
        if not is_value(item):
            raise DeviceFailure(f"a chain can't have {item!r:.60}, which can be changed in place")
        return Chain(self, item, self.length + 1)

    def items(self) -> List[Any]:
        """Returns its items, the oldest one first."""
        found, chain = [], self
        while chain.before is not None:
            found.append(chain.last)
            chain = chain.before
        return found[::-1]

    def __eq__(self, other: object) -> bool:
        return isinstance(other, Chain) and (self is other or self.length == other.length and self.items() == other.items())

    def __ne__(self, other: object) -> bool:
        return not self == other

    def __hash__(self) -> int:
        return hash((self.length, self.last))

    def __repr__(self) -> str:
        return f"Chain of {self.length}"


def chain_of(items: Iterable[Any]) -> Chain:
    """Returns the chain of these items."""
    chain = Chain()
    for item in items:
        chain = chain.push(item)
    return chain


PLAIN = frozenset((int, str, bytes, bool, float, type(None), Chain, Reply))


def is_value(state: Any) -> bool:
    """Returns whether nothing can change a value in place. The items of a chain were seen when they were pushed."""
    kind = type(state)
    if kind in PLAIN:
        return True
    if issubclass(kind, (tuple, frozenset)) and not kind.__dictoffset__:
        for item in state:
            if type(item) not in PLAIN and not is_value(item):
                return False
        return True
    return isinstance(state, enum.Enum)


def drawn(device: CompanionDevice, state: Any, draw: Callable[[Any], Any]) -> Any:
    """Returns what a function makes of the picture of a device in a state; None if it shows nothing."""
    try:
        picture = device.picture(state)
        return None if picture is None else draw(picture)
    except Exception as error:
        said = f"{type(error).__name__}: {error}{place_of(error)}"
        raise DeviceFailure(f"picture of {type(device).__name__} fails: {said}") from error


Channel = Tuple[int, int]  # its state, by its number in STATES, and its register


class Value(NamedTuple):
    """All that is known of a device at a position: its state, the numbers that it sees as it left them, the next turn for which it
    is due, and the stores that come then and later."""

    state: Any
    seen: Tuple[int, ...]
    due: Optional[int] = None
    to_come: Tuple[Any, ...] = ()


# As Event(..) and Value(..) of a tuple, in less than half the time.
event_of: Callable[[Tuple[str, Any, int]], Event] = functools.partial(tuple.__new__, Event)  # type: ignore[assignment]
value_of: Callable[[Tuple[Any, ...]], Value] = functools.partial(tuple.__new__, Value)  # type: ignore[assignment]


def value_at_start(device: CompanionDevice, seen: Tuple[int, ...]) -> Value:
    """Returns the value of a device at the beginning."""
    if not is_value(device.start):
        raise DeviceFailure(f"{device.start!r:.60} can't be the state of a device: it can be changed in place")
    return Value(device.start, seen)


def place_of(error: Exception) -> str:
    """Returns the last line of its own file where a device failed, in brackets; nothing if it is not known."""
    import traceback  # devices seldom fail
    frames = traceback.extract_tb(error.__traceback__)[1:]
    frames = [frame for frame in frames if frame.filename == frames[0].filename]
    return f" ({frames[-1].filename}, line {frames[-1].lineno} (decimal))" if frames else ""


def call_method(device: CompanionDevice, kind: str, state: Any, event: Any, kinds: Any, wanted: str) -> Tuple[Any, Any]:
    """Returns what a method of a device returns: its new state, and what it does, which is of some types."""
    try:
        answer = getattr(device, kind)(state, event)
    except Exception as error:
        raise failure_of(device, kind, f"fails: {type(error).__name__}: {error}{place_of(error)}") from error
    if not isinstance(answer, tuple) or len(answer) != 2 or not isinstance(answer[1], kinds):
        raise failure_of(device, kind, f"must return a state and {wanted}, and returned {answer!r:.60}")
    if answer[0] is not state and not is_value(answer[0]):
        raise failure_of(device, kind, f"returned a state that can be changed in place: {answer[0]!r:.60}")
    return answer[0], answer[1]


def failure_of(device: CompanionDevice, kind: str, what: str) -> DeviceFailure:
    """Returns why a device can't go on after a call of a method."""
    return DeviceFailure(f"{kind} of {type(device).__name__} {what}")


def called(device: Device, value: Value, event: Event, now: Channel) -> Tuple[Value, Optional[Reply]]:
    """Returns the value of a device after an event, and its reply if it changes the channel, which is as `now`."""
    kind, _, turn = event
    state, reply = call_method(device, kind, value[0], event, Reply, "a Reply")
    due: Optional[int] = value[2]
    letter, word, wake, _ = reply
    if wake is not None:
        if type(wake) is not int or wake < 1:
            raise failure_of(device, kind, f"can't wake after {wake!r:.60} turns")
        due = turn + wake
    elif kind == "due":
        due = None
    if letter == "F" and type(word) is int and 0 <= word <= MOST_WORD:
        now = FULL_STATE, word
    elif letter is not None:
        if letter not in ("I", "E") or word is not None:
            raise failure_of(device, kind,
                             f"can't reply {letter} {word!r:.60}: a reply is INACTIVE, EMPTY, or full(word up to 7777 octal)")
        now = STATES.index(letter), now[1]
    return value_of((state, now, due, ())), None if letter is None else reply


def looked(device: Device, value: Value, now: Channel, turn: int) -> Tuple[Value, Optional[Reply]]:
    """Returns the value of a device after it has looked at its channel, which is so after so many turns, and its reply if it
    changes the channel."""
    state, word = now
    if now != value.seen:
        kind = "taken" if state == EMPTY_STATE and value.seen[0] != INACTIVE_STATE else KINDS[state]
    elif value.due is not None and value.due <= turn:
        kind = "due"
    else:
        return value, None
    return called(device, value, event_of((kind, word, turn)), now)
