"""A device of a session, with what is known of it at each position."""

from __future__ import annotations

import bisect
import functools
from typing import Any, Callable, Dict, List, Optional, Sequence, Tuple

from ..engine import interface as flat
from ..engine.interface import CHANGES, OUTSIDE, Engine, Form
from .central_device import CentralDevice, CentralView, Store
from .console import Console
from .device import INACTIVE_STATE, Channel, CompanionDevice, Device, Event, Reply, Value, called, looked, value_at_start
from .forms import CHANNELS, ranges_of
from .tape import Action, Position, ReplyLine

MOST_NAME = 60  # letters
MOST_TEXTS = 8192  # replies whose lines are kept
EXACT, EVERY = 20000, 1000  # values
Seen = Tuple[int, ...]  # the numbers that a device sees
Lines = Tuple[Sequence[Action], bytes]


def name_of(device: CompanionDevice) -> str:
    """Returns the name of a device: that of its class, as a note of the console may have it."""
    return type(device).__name__.encode("ascii", "replace").decode()[:MOST_NAME]


class Past:
    """The values of a device at each position where they changed, and the one at hand. Of those that are far back, one in many is
    kept: the others are worked out anew when they are needed."""

    is_found = False  # whether a search of the engine goes at once to the next turn that changes what the device sees
    places: Sequence[int]  # the numbers that it sees
    now: Callable[[Engine], Seen]  # these numbers
    alternatives: Callable[[Seen], List[List[Form]]]  # of which one comes to hold in the next turn that changes what it saw
    # its value after it has looked at numbers, after so many turns, and its reply or None
    looked: Callable[[Any, Any, int], Tuple[Value, Any]]
    told: Callable[[Value, object, Any, int], Tuple[Value, Any]]  # the same after it was told something; it does not look
    lines: Callable[[Any], List[Tuple[str, str]]]  # that a reply is, each with its remark

    def __init__(self, device: CompanionDevice, exact: int, every: int, seen: Seen) -> None:
        """At least so many of the newest values are kept, and one in so many of those before. It sees these numbers at first."""
        self.device, self.exact, self.every = device, exact, every
        self.value = value_at_start(device, seen)
        self.entry = 0  # which one it is; -1 if it is none
        self.at = [0]  # positions
        self.values: List[Optional[Value]] = [self.value]
        self.folded = 0  # so many of the first are not all kept
        self.replies: Dict[Any, Lines] = {}

    def add(self, at: Sequence[int], values: Sequence[Value]) -> None:
        """Adds values. The last one is at hand then."""
        self.at += at
        self.values += values
        self.have(values[-1], len(self.at) - 1)
        while len(self.at) - self.folded > 2 * self.exact:
            end = self.folded + self.exact
            self.values[self.folded:end] = [value if number % self.every == 0 else None
                                            for number, value in enumerate(self.values[self.folded:end], self.folded)]
            self.folded = end

    def have(self, value: Value, entry: int) -> None:
        """Takes the value of an entry as that at hand."""
        self.value, self.entry = value, entry

    def entry_at(self, position: Position) -> int:
        """Returns the number of the entry for a position."""
        return bisect.bisect_right(self.at, position) - 1

    def kept_before(self, entry: int) -> Tuple[int, Value]:
        """Returns the nearest entry up to this one whose value is kept, and the value."""
        return next((number, value) for number in range(entry, -1, -1) if (value := self.values[number]) is not None)

    def cut(self, position: Position) -> None:
        """Forgets what is after a position."""
        end = self.entry_at(position) + 1
        del self.at[end:], self.values[end:]
        self.folded = min(self.folded, end)
        if self.entry >= end:
            self.entry = -1

    def actions(self, reply: Any) -> Lines:
        """Returns the actions that a reply is, and their lines as the engine takes them."""
        found = self.replies.get(reply)
        if found is None:
            lines, name = self.lines(reply), name_of(self.device)
            actions = [Action(ReplyLine(line, f"{name} {remark}" if remark else name)) for line, remark in lines]
            if len(self.replies) >= MOST_TEXTS:
                self.replies.clear()
            found = self.replies[reply] = actions, "\n".join(line for line, _ in lines).encode("ascii")
        return found


class ChannelPast(Past):
    """That of a device of a channel, whose state and register it sees. An instruction that changes a channel changes its state."""

    def __init__(self, device: Device, exact: int, every: int) -> None:
        super().__init__(device, exact, every, (INACTIVE_STATE, 0))
        self.channel = device.channel
        self.places = flat.STATES + device.channel, flat.REGISTERS + device.channel
        self.looked = functools.partial(looked, device)
        self.called = functools.partial(called, device)

    def now(self, engine: Engine) -> Channel:
        numbers = engine.numbers(self.places[0], CHANNELS + 1)
        return numbers[0], numbers[-1]

    def alternatives(self, seen: Seen) -> List[List[Form]]:
        return [[Form(OUTSIDE, self.places[0], seen[0], seen[0])]]

    def told(self, value: Value, what: object, now: Any, turn: int) -> Tuple[Value, Optional[Reply]]:
        new, reply = self.called(value, Event("told", what, turn), now)
        return (new._replace(seen=value.seen) if reply is None else new), reply

    def lines(self, reply: Reply) -> List[Tuple[str, str]]:
        return [(f"SET H {self.channel:02o} {reply.state}{'' if reply.word is None else f' {reply.word:o}'}", reply.remark)]


class CentralPast(Past):
    """That of a device of central memory, some of whose words it sees."""

    is_found = True

    def __init__(self, device: CentralDevice, exact: int, every: int, view: CentralView) -> None:
        super().__init__(device, exact, every, (0,) * len(view.words))
        self.view, self.looked = view, view.looked
        self.places = [flat.CENTRAL + word for word in view.words]
        self.ranges = ranges_of(self.places)
        self.changes = [[Form(CHANGES, *one)] for one in self.ranges]

    def now(self, engine: Engine) -> Seen:
        return tuple([number for first, size in self.ranges for number in engine.numbers(first, size)])

    def alternatives(self, seen: Seen) -> List[List[Form]]:
        return self.changes

    def told(self, value: Value, what: object, now: Seen, turn: int) -> Tuple[Value, Optional[Sequence[Store]]]:
        return self.view.told(value, what, turn)

    def lines(self, reply: Sequence[Store]) -> List[Tuple[str, str]]:
        return [(f"SET C {one.address:o} {one.word:o}", one.remark) for one in reply]


def past_of(device: CompanionDevice, machine: Console, exact: int = EXACT, every: int = EVERY) -> Past:
    """Returns the past of a device at the beginning of a session of this machine."""
    if isinstance(device, CentralDevice):
        return CentralPast(device, exact, every, CentralView(device, machine.number_of, machine.central_size))
    assert isinstance(device, Device)
    return ChannelPast(device, exact, every)
