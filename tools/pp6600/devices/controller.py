"""Several equipments on one channel, behind one controller: a code that connects chooses one of them."""

from __future__ import annotations

from typing import Any, NamedTuple, Optional, Tuple

from ..failure import Failure
from ..run.device import Answer, Device, Event
from .converter import CONNECT, CONNECT_BY_WORD, EQUIPMENT, MASTER_CLEAR, Converter
from .pictures import Picture, joined


class ControllerState(NamedTuple):
    """The states of the equipments, and the number of the one that was chosen last."""

    states: Tuple[Any, ...]
    chosen: int = 0


class Controller(Device):
    """A controller with equipments, each a Converter with a number of its own."""

    def __init__(self, *equipments: Converter, channel: int = 0o5) -> None:
        numbers = [one.equipment for one in equipments]
        twice = next((number for number in numbers if numbers.count(number) > 1), None)
        if twice is not None or not equipments:
            raise Failure("a controller has one or more equipments" if twice is None
                          else f"two equipments on one channel have number {twice}")
        self.equipments, self.channel = equipments, channel
        self.start = ControllerState(tuple(one.start for one in equipments))

    def passed(self, state: ControllerState, event: Event) -> Answer:
        """Passes an event to the equipment that was chosen."""
        inner, reply = getattr(self.equipments[state.chosen], event.kind)(state.states[state.chosen], event)
        return state._replace(states=(*state.states[:state.chosen], inner, *state.states[state.chosen + 1:])), reply

    activated = taken = disconnected = due = passed

    def function(self, state: ControllerState, event: Event) -> Answer:
        if event.word == MASTER_CLEAR:
            state = state._replace(states=tuple(one.function(inner, event)[0] for one, inner in zip(self.equipments, state.states)))
        return self.passed(self.connected(state, event.word) if event.word >= CONNECT else state, event)

    def word(self, state: ControllerState, event: Event) -> Answer:
        code = state.states[state.chosen].code
        return self.passed(self.connected(state, event.word) if code == CONNECT_BY_WORD else state, event)

    def connected(self, state: ControllerState, code: int) -> ControllerState:
        """Chooses the equipment that a code connects, and disconnects the others; without one the last one rejects the code."""
        number = (code & EQUIPMENT) >> 9
        chosen = next((at for at, one in enumerate(self.equipments) if one.equipment == number), state.chosen)
        code_in_effect = state.states[state.chosen].code
        return ControllerState(tuple(inner._replace(is_connected=False, code=code_in_effect if at == chosen else 0)
                                     for at, inner in enumerate(state.states)), chosen)

    def picture(self, state: ControllerState) -> Optional[Picture]:
        shown = [one.picture(inner) for one, inner in zip(self.equipments, state.states)]
        return joined([picture for picture in shown if picture]) if any(shown) else None

    def paper(self, state: ControllerState) -> str:
        return "".join(one.paper(inner) for one, inner in zip(self.equipments, state.states))
