"""What an editor shows beside the source: the scopes of a processor, and the values of places."""

import re
from typing import Any, Dict, Iterable, List, Optional, Tuple

from ...failure import Failure
from ...run.conditions import Column, first_place
from ...run.forms import KINDS, PROCESSORS, REGISTERS, Place
from ...run.names import AllSymbols
from ...run.session import Session
from ...run.turn import Processor
from .breakpoints import ProcessorCell, checked

SCOPES = ("Registers", "Channels and clock", "Devices", "Watches", "History", "Calls")
REGISTER_SCOPE, CHANNEL_SCOPE, DEVICE_SCOPE, WATCH_SCOPE, HISTORY_SCOPE, CALL_SCOPE = range(1, len(SCOPES) + 1)


def scope_and_number(asked: int) -> Tuple[int, int]:
    """Returns the scope and the processor of a reference."""
    if not isinstance(asked, int) or not 0 < asked >> 8 <= len(SCOPES) or not 0 <= asked & 0xFF < PROCESSORS:
        raise Failure(f"{asked} is no reference to variables")
    return asked >> 8, asked & 0xFF


def scopes(number: int, has_source: bool) -> List[Dict[str, Any]]:
    """Returns the scopes of a processor. Its calls are known by a source alone, and take a search."""
    return [{"name": name, "variablesReference": scope << 8 | number, "expensive": scope == CALL_SCOPE,
             **({"presentationHint": "registers"} if scope == REGISTER_SCOPE else {})}
            for scope, name in enumerate(SCOPES, 1) if has_source or scope != CALL_SCOPE]


def variable(name: str, value: str, place: str = "") -> Dict[str, Any]:
    return {"name": name, "value": value, "variablesReference": 0, **({"evaluateName": place} if place else {})}


def variables(machine: Any, scope: int, number: int, places: Iterable[Place]) -> List[Dict[str, Any]]:
    """Returns the variables of a scope; the places are those that are watched."""
    state = machine.state
    if scope == REGISTER_SCOPE:
        return [register(state.processors[number], number, name) for name in REGISTERS]
    if scope == CHANNEL_SCOPE:
        return [variable(f"H {one.number}", f"{one.state} {one.register}", f"H {one.number}") for one in state.channels]
    if scope == DEVICE_SCOPE:
        return devices(state)
    if scope == WATCH_SCOPE:
        return [variable(place.short, value_of(machine, place), place.short) for place in places]
    counts = {"turns": machine.turn, "kept": machine.unit, "ahead": machine.to_redo, "slot": state.slot}
    return [variable(name, f"{count:o}") for name, count in counts.items()]


def register(processor: Processor, number: int, name: str) -> Dict[str, Any]:
    """Returns a register of a processor; P leads to the memory."""
    memory = {"memoryReference": ProcessorCell(number, processor.p).reference} if name == "P" else {}
    return {**variable(name, processor.registers[name], f"{name} {number:o}" if name in KINDS else ""), **memory}


def devices(state: Any) -> List[Dict[str, Any]]:
    return [variable(f"{device} {name}", value if isinstance(value, str) else "\n".join(value))
            for device, of in (("CR", state.reader), ("LP", state.printer)) for name, value in of._asdict().items()]


def value_of(machine: Session, place: Place) -> str:
    """Returns the digits of the number at a place; of a channel the state too."""
    if place.kind == "C" and place.numbers[0] >= machine.central_size:
        raise Failure(f"ERR 04 RANGE: {place.short} is not in central memory")
    return Column(place).shown(machine)[0][1]


def place_of(text: str, number: Optional[int] = None, symbols: Any = AllSymbols()) -> Place:
    """Returns the place of a text. Of a processor that is given, A is its A, and M 106 or a label its cell; a name may be in the
    place of an address or a number."""
    try:
        place, rest = first_place(text.split(), symbols, own=number)
        if rest:
            raise Failure(f"{text} does not name one place")
        return checked(place)
    except Failure as failure:
        raise Failure(f"{text} is no place: {failure}") from None


def set_line(scope: int, number: int, name: str, value: str) -> Tuple[Place, str]:
    if not re.fullmatch("[0-7A-Za-z ]+", value):
        raise Failure(f"{value} is not octal")
    if scope == REGISTER_SCOPE and name == "PHASE":
        raise Failure("PHASE can't be set; to set P ends a block transfer")
    if scope in (DEVICE_SCOPE, HISTORY_SCOPE, CALL_SCOPE):
        raise Failure(f"{name} can't be set")
    place = place_of(name, number if scope == REGISTER_SCOPE else None)
    return place, f"SET {place.short} {value}"
