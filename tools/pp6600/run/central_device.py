"""A device of central memory, as a monitor is one: a pure function like a device of a channel, beside some words of central memory.

After each turn it looks at its words, never after a SET. For each that is not as it left it, in the order of their addresses, its
method `changed` gets the state of the device and the change, and returns the new state and the stores that it makes, each a SET C:
right after this turn, or after a later one. It sees an exchange jump by the words of the package, which change as words of the
frame come into them."""

from __future__ import annotations

import functools
from typing import Any, Callable, List, NamedTuple, Optional, Sequence, Tuple, Union

from ..engine import interface as flat
from .device import NOTHING, CompanionDevice, DeviceFailure, Reply, Value, call_method, failure_of
from .forms import FRAME_WORDS

MOST_WORD = (1 << 60) - 1


class Store(NamedTuple):
    """What a device does `after` so many turns: it sets a central word, or without an address has its method `due` called. The
    remark is as that of a Reply."""

    address: Optional[int]
    word: int = 0
    after: int = 0
    remark: str = ""

    def remarked(self, remark: str) -> Store:
        """Returns this store with a remark."""
        return self._replace(remark=remark)


def store(address: int, word: int, after: int = 0) -> Store:
    """Returns what sets a central word, right after this turn or so many turns later."""
    return Store(address, word, after)


def wake(after: int) -> Store:
    """Returns what has `due` called so many turns later."""
    return Store(None, 0, after)


class Change(NamedTuple):
    """What a device sees: the name of its method that is called; an address, the word that it left there and the word that is there
    now, or for `told` what it is told; how many turns were made; and functions that return the word at an address of central
    memory, and word 0 to 17 (octal) of the frame, as they are after the turn."""

    kind: str
    address: int
    old: int
    new: Any
    turn: int
    central: Callable[[int], int]
    frame: Callable[[int], int]


Stores = Union[Store, Sequence[Store], Reply]  # a Reply is NOTHING


class CentralDevice(CompanionDevice):
    """A device of central memory. As one of a channel it depends on its arguments alone, and changes nothing. Its methods `due` and
    `told` get a Change too.

    The option `--device NAME:WORD,..@C` calls the constructor with the words, as texts."""

    words: Sequence[int] = ()  # the addresses that it watches

    def changed(self, state: Any, event: Change) -> Tuple[Any, Stores]:
        """Handles a word that is not as the device left it."""
        return state, NOTHING


class ToCome(NamedTuple):
    """A store that comes after a turn."""

    turn: int
    store: Store


# As Change(..) of a tuple, in less than half the time.
change_of: Callable[[Tuple[Any, ...]], Change] = functools.partial(tuple.__new__, Change)  # type: ignore[assignment]


class CentralView:
    """What a device of central memory sees and does beside a machine."""

    def __init__(self, device: CentralDevice, number_of: Callable[[int], int], size: int) -> None:
        """The function reads the number at a place of the flat order. There are so many central words."""
        self.device, self.number_of, self.size = device, number_of, size
        given: Any = device.words
        words = given if hasattr(given, "__iter__") else [given]
        for word in words:
            if not self.has(word):
                raise DeviceFailure(f"{type(device).__name__} can't watch {self.named(word)}")
        self.words = sorted(set(words))
        self.index = {address: number for number, address in enumerate(self.words)}

    def central(self, address: int) -> int:
        """Returns a central word."""
        if not self.has(address):
            raise DeviceFailure(f"there is no {self.named(address)}")
        return self.number_of(flat.CENTRAL + address)

    def frame(self, number: int) -> int:
        """Returns a word of the frame."""
        if type(number) is not int or not 0 <= number < FRAME_WORDS:
            raise DeviceFailure(f"there is no word {number!r:.40} of the frame (decimal)")
        return self.number_of(flat.FRAME + number)

    def has(self, address: object) -> bool:
        return type(address) is int and 0 <= address < self.size

    def named(self, address: object) -> str:
        """Returns the name of a central word that there is not, with the reason."""
        return (f"word {f'{address:o}' if type(address) is int else f'{address!r:.40}'}: central memory has {self.size:o} words, "
                f"octal")

    def looked(self, value: Value, now: Tuple[int, ...], turn: int) -> Tuple[Value, Optional[Sequence[Store]]]:
        """Returns the value of the device after it has looked at its words, which are so after so many turns, and the stores that
        it makes at once, if it makes some: first what is due, in the order of the turns for which it was asked, then what it asks
        for now."""
        state, seen, due, to_come = value
        if now == seen and (due is None or due > turn):
            return value, None
        new: List[Store] = []
        at_once: List[Store] = []
        while to_come and to_come[0].turn <= turn:
            (_, one), *rest = to_come
            to_come = tuple(rest)
            if one.address is None:
                state, stores = self.called("due", state, (0, 0, 0, turn))
                to_come = self.sorted_by_turn(stores, at_once, to_come, turn)
            else:
                at_once.append(one)
        if now != seen:
            for address, old, word in zip(self.words, seen, now):
                if old != word:
                    state, stores = self.called("changed", state, (address, old, word, turn))
                    new += stores
        return self.value_with(state, now, at_once, self.sorted_by_turn(new, at_once, to_come, turn) if new else to_come)

    def told(self, value: Value, what: object, turn: int) -> Tuple[Value, Optional[Sequence[Store]]]:
        """Returns the value of the device after it was told something, and the stores that it makes at once. It does not look."""
        state, stores = self.called("told", value.state, (0, 0, what, turn))
        at_once: List[Store] = []
        return self.value_with(state, value.seen, at_once, self.sorted_by_turn(stores, at_once, value.to_come, turn))

    def called(self, kind: str, state: Any, seen: Tuple[Any, ...]) -> Tuple[Any, Sequence[Store]]:
        """Returns the state of the device after a call of a method, and the stores that this returns."""
        event = change_of((kind, *seen, self.central, self.frame))
        after, returned = call_method(self.device, kind, state, event, (tuple, list), "stores")
        stores = () if returned is NOTHING else (returned,) if type(returned) is Store else returned
        for one in stores:
            if fault := self.fault(one):
                raise failure_of(self.device, kind, fault)
        return after, stores

    def fault(self, one: Any) -> str:
        """Returns what is wrong with a store."""
        if type(one) is not Store:
            return f"must return stores, and returned {one!r:.60}"
        address, word, after, remark = one
        if type(remark) is not str or not remark.isprintable():
            return f"can't have the remark {remark!r:.60}"
        if type(after) is not int or after < (address is None):
            return f"can't {'wake' if address is None else 'store'} after {after!r:.40} turns"
        if address is not None and not self.has(address):
            return f"can't store into {self.named(address)}"
        return "" if type(word) is int and 0 <= word <= MOST_WORD else f"can't store {word!r:.60}: a word has 60 bits (decimal)"

    @staticmethod
    def sorted_by_turn(stores: Sequence[Store], at_once: List[Store], to_come: Tuple[ToCome, ...], turn: int) -> Tuple[ToCome, ...]:
        """Adds the stores to make at once to a list. Returns those that are to come with the others, the next one first."""
        later = [ToCome(turn + one.after, one) for one in stores if one.after]
        at_once += stores if not later else [one for one in stores if not one.after]
        return tuple(sorted((*to_come, *later), key=lambda one: one.turn)) if later else to_come

    def value_with(self, state: Any, seen: Tuple[int, ...], at_once: List[Store],
                   to_come: Tuple[ToCome, ...]) -> Tuple[Value, Optional[Sequence[Store]]]:
        """Returns the value of the device after stores: these are no changes for it. And the stores, if there are some."""
        if at_once:
            left = list(seen)
            for one in at_once:
                if one.address in self.index:
                    left[self.index[one.address]] = one.word
            seen = tuple(left)
        return Value(state, seen, to_come[0].turn if to_come else None, to_come), tuple(at_once) or None
