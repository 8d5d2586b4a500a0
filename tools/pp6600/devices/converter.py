"""A 6681 data channel converter with one equipment of the 3000 series behind it. A program first connects the equipment, and then
gives it functions, asks for its status, and moves words. docs/PYTHON.md has the codes, all from memory."""

from __future__ import annotations

import re
from typing import Any, NamedTuple, Tuple, Union

from ..failure import Failure
from ..run.device import EMPTY, INACTIVE, NOTHING, Answer, Device, Event, Reply, full
from ..run.tape import REJECT as REJECT_REMARK

CONNECT_BY_WORD, FUNCTION_BY_WORD, CONVERTER_STATUS, STATUS = 0o1000, 0o1100, 0o1200, 0o1300
INPUT_TO_END, INPUT, OUTPUT, MASTER_CLEAR, SELECT, DESELECT = 0o1400, 0o1500, 0o1600, 0o1700, 0o2000, 0o2100
CONNECT, EQUIPMENT, FUNCTIONS = 0o4000, 0o7000, 0o777  # codes from 4000 on connect; up to 0777 they are the equipment's
REJECT = 0o1  # of the converter's status
BUSY = 0o2  # of an equipment's status
CODES = (CONNECT_BY_WORD, FUNCTION_BY_WORD, CONVERTER_STATUS, STATUS, INPUT_TO_END, INPUT, OUTPUT, SELECT, DESELECT)


class ConverterState(NamedTuple):
    """The state of the converter: the code in effect, what is connected, the last reject, and the state of the equipment, which is
    busy up to a turn."""

    inner: Any
    code: int = 0
    is_connected: bool = False
    is_rejected: bool = False
    busy_to: int = 0


class Converter(Device):
    """A converter with an equipment. A subclass says what that does; its state is the inner one."""

    def __init__(self, equipment: int = 0o4, channel: int = 0o5, busy: Union[int, str] = 0) -> None:
        """The equipment has a number from 4 to 7, and is busy for so many turns after each function, input and output."""
        self.equipment, self.channel, self.busy = equipment, channel, turns_of(busy)

    # ---- what an equipment overrides

    def cleared(self, inner: Any) -> Any:
        """Returns the equipment's state after a master clear or a release."""
        return inner

    def performed(self, inner: Any, code: int) -> Tuple[Any, bool]:
        """Performs a function. Returns the new state, and whether the code was taken."""
        return inner, False

    def status(self, inner: Any) -> int:
        """Returns the equipment's status word."""
        return 0o1

    def begun(self, inner: Any) -> Any:
        """Begins to input."""
        return inner

    def given(self, inner: Any) -> Tuple[Any, Reply]:
        """Gives the next word of an input, or INACTIVE after the last one."""
        return inner, INACTIVE

    def taken_over(self, inner: Any, word: int) -> Any:
        """Takes a word of an output."""
        return inner

    def ended(self, inner: Any) -> Any:
        """Ends an output."""
        return inner

    # ---- the converter

    def function(self, state: ConverterState, event: Event) -> Answer:
        code = event.word
        if code >= CONNECT:
            return self.answered(self.connected(state, code), INACTIVE)
        if code == MASTER_CLEAR:
            return ConverterState(self.cleared(state.inner)), INACTIVE
        if code <= FUNCTIONS:
            return self.answered(self.functioned(state, code, event.turn), INACTIVE)
        return (state._replace(code=code), INACTIVE) if code in CODES else (state, NOTHING)

    def answered(self, state: ConverterState, reply: Reply) -> Answer:
        """Returns the answer to a code; its remark says if it was a reject."""
        return state, reply.remarked(REJECT_REMARK) if state.is_rejected else reply

    def connected(self, state: ConverterState, code: int) -> ConverterState:
        """Connects the equipment, if the code has its number; else it is a reject, and nothing is connected."""
        is_ours = (code & EQUIPMENT) >> 9 == self.equipment
        return state._replace(code=0, is_connected=is_ours, is_rejected=not is_ours)

    def functioned(self, state: ConverterState, code: int, turn: int) -> ConverterState:
        """Gives a function to the equipment; 0000 releases it. Without one, and while it is busy, that is a reject."""
        if not state.is_connected or code and turn < state.busy_to:
            return state._replace(code=0, is_rejected=True)
        if code == 0:
            return ConverterState(self.cleared(state.inner))
        inner, is_taken = self.performed(state.inner, code)
        return self.busied(state._replace(inner=inner, code=0, is_rejected=not is_taken), turn) if is_taken else \
            state._replace(code=0, is_rejected=True)

    def busied(self, state: ConverterState, turn: int) -> ConverterState:
        """Returns the state in which the equipment has begun what takes it some turns."""
        return state._replace(busy_to=turn + self.busy) if self.busy else state

    def activated(self, state: ConverterState, event: Event) -> Answer:
        """Gives a status word, or the first word of an input, as soon as the equipment is not busy."""
        if state.code == CONVERTER_STATUS:
            return state, full(REJECT if state.is_rejected else 0)
        if state.code == STATUS:
            busy = BUSY if event.turn < state.busy_to else 0
            return state, full(self.status(state.inner) | busy if state.is_connected else 0)
        if state.code in (INPUT, INPUT_TO_END):
            return self.due(self.busied(state._replace(inner=self.begun(state.inner)), event.turn), event)
        return state, NOTHING

    def due(self, state: ConverterState, event: Event) -> Answer:
        """Gives the first word of an input, for which the equipment was busy."""
        if state.code not in (INPUT, INPUT_TO_END) or event.turn >= state.busy_to:
            return self.taken(state, event)
        return state, NOTHING.waking(state.busy_to - event.turn)

    def taken(self, state: ConverterState, event: Event) -> Answer:
        if state.code not in (INPUT, INPUT_TO_END):
            return state, NOTHING
        inner, reply = self.given(state.inner) if state.is_connected else (state.inner, INACTIVE)
        return state._replace(inner=inner, code=0 if reply == INACTIVE else state.code), reply

    def word(self, state: ConverterState, event: Event) -> Answer:
        """Takes a code that is a word, or a word of an output."""
        if state.code == CONNECT_BY_WORD:
            return self.answered(self.connected(state, event.word), EMPTY)
        if state.code == FUNCTION_BY_WORD:
            return self.answered(self.functioned(state, event.word, event.turn), EMPTY)
        if state.code == OUTPUT and state.is_connected:
            return state._replace(inner=self.taken_over(state.inner, event.word)), EMPTY
        return state, NOTHING

    def disconnected(self, state: ConverterState, event: Event) -> Answer:
        if state.code == OUTPUT:
            state = self.busied(state._replace(inner=self.ended(state.inner)), event.turn)
        return state._replace(code=0), NOTHING


def turns_of(busy: Union[int, str]) -> int:
    """Returns for how many turns an equipment is busy; a text is octal."""
    if isinstance(busy, int):
        return busy
    if not re.fullmatch("[0-7]{1,7}", busy):
        raise Failure(f"an equipment is busy for a number of turns, octal, and not {busy}")
    return int(busy, 8)
