"""The display console of 1964: two screens of 512 by 512 places, and a keyboard.

A function code chooses the screen, and symbols of a size or dots. Words of 6000 and more are coordinates; others are two symbols
each. docs/PYTHON.md has the codes, and which the manuals have. What was put on a screen fades, so a program draws it again
and again."""

from __future__ import annotations

from typing import Dict, List, NamedTuple, Tuple, Union

from ..run.device import EMPTY, INACTIVE, NOTHING, Answer, Chain, Device, DeviceFailure, Event, chain_of, full
from .pictures import Mark, Picture

BLANK = " "
SYMBOLS = " ABCDEFGHIJKLMNOPQRSTUVWXYZ0123456789+-*/() = ,."  # by their codes; those after them are blanks
NO_KEY = 0
KEYS = {**{symbol: code for code, symbol in enumerate(SYMBOLS)}, "\r": 0o60, "\n": 0o60, "\b": 0o61, BLANK: 0o62}
KEYBOARD, DOTS = 0o7020, 0o10
SIZES = {0: 8, 1: 16, 2: 32}  # of symbols, by the last digit of the function code: 64, 32 and 16 a line
DRAWING = {0o7000 + screen + kind for screen in (0, 0o100) for kind in (*SIZES, DOTS)}  # function codes
X, Y, PLACE = 0o6000, 0o7000, 0o777
FADING = 200000  # turns after which a mark is seen no longer: 20 ms, if a turn has 0.1 µs


class Shown(NamedTuple):
    """A symbol, a blank or a dot, and the turn in which it was put on its screen."""

    mark: Mark
    turn: int


class DisplayState(NamedTuple):
    """The state of the console."""

    screens: Tuple[Chain, Chain] = (Chain(), Chain())  # what was put on them
    code: int = 0  # the function code in effect
    x: int = 0
    y: int = 0
    keys: str = ""  # that were pressed, and not yet taken
    turn: int = 0  # in which something was put on a screen, or faded


class ConsoleDisplay(Device):
    """A display console."""

    start = DisplayState()
    most_marks = 4096  # of which a screen's newest are kept

    def __init__(self, fading: Union[str, int] = FADING, channel: int = 0o10) -> None:
        """What is drawn fades in so many turns, which are octal in a text."""
        self.fading, self.channel = int(fading, 8) if isinstance(fading, str) else fading, channel
        if self.fading < 1:
            raise DeviceFailure("what is drawn can't fade in less than a turn")

    def function(self, state: DisplayState, event: Event) -> Answer:
        is_known = event.word == KEYBOARD or event.word in DRAWING
        return (state._replace(code=event.word), INACTIVE) if is_known else (state, NOTHING)

    def word(self, state: DisplayState, event: Event) -> Answer:
        """Takes a coordinate, or two symbols."""
        if state.code not in DRAWING:
            return state, NOTHING
        word, state = event.word, state._replace(turn=event.turn)
        if word >= Y:
            state = state._replace(y=word & PLACE)
            if state.code & DOTS:
                state = self.put(state, Mark(state.y, state.x))
        elif word >= X:
            state = state._replace(x=word & PLACE)
        elif not state.code & DOTS:
            state = self.put_symbol(self.put_symbol(state, word >> 6), word & 0o77)
        return state, EMPTY.waking(self.fading)

    def put_symbol(self, state: DisplayState, code: int) -> DisplayState:
        """Puts a symbol on the screen, and moves to the place of the next one."""
        size = SIZES[state.code & 0o7]
        symbol = SYMBOLS[code] if code < len(SYMBOLS) else BLANK
        return self.put(state, Mark(state.y, state.x, size, symbol))._replace(x=(state.x + size) & PLACE)

    def put(self, state: DisplayState, mark: Mark) -> DisplayState:
        """Puts a mark on the screen."""
        number = state.code >> 6 & 1
        chain = state.screens[number].push(Shown(mark, state.turn))
        if chain.length > 2 * self.most_marks:  # seldom: all that is seen goes into a new chain
            chain = chain_of(self.seen(state, chain)[-self.most_marks:])
        return state._replace(screens=(chain, state.screens[1]) if number == 0 else (state.screens[0], chain))

    def seen(self, state: DisplayState, chain: Chain) -> List[Shown]:
        """Returns what has not faded of a screen: at each place what was put there last, the oldest first."""
        found: Dict[Tuple[int, ...], Shown] = {}
        for shown in chain.items():
            place = shown.mark[:3]
            found.pop(place, None)
            found[place] = shown
        return [shown for shown in found.values() if shown.turn > state.turn - self.fading]

    def picture(self, state: DisplayState) -> Picture:
        """Returns what is seen on the screens."""
        marks = [[shown.mark for shown in self.seen(state, chain)] for chain in state.screens]
        return Picture(tuple(frozenset(mark for mark in screen if mark.symbol != BLANK) for screen in marks))

    def activated(self, state: DisplayState, event: Event) -> Answer:
        """Gives the word of the next key, or that of none."""
        if state.code != KEYBOARD:
            return state, NOTHING
        return state._replace(keys=state.keys[1:]), full(KEYS[state.keys[0]] if state.keys else NO_KEY)

    def due(self, state: DisplayState, event: Event) -> Answer:
        """Lets all fade that is on the screens, because nothing was drawn for so long."""
        return state._replace(turn=event.turn), NOTHING

    def told(self, state: DisplayState, event: Event) -> Answer:
        """Presses keys, one after the other: a text, of which a line feed is the key of the carriage return."""
        keys = str(event.word).upper()
        wrong = [key for key in keys if key not in KEYS]
        if wrong:
            raise DeviceFailure(f"the keyboard has no {wrong[0]!a}")
        return state._replace(keys=state.keys + keys), NOTHING
