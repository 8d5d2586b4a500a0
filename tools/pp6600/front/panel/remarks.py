"""What the panel says of the lines that were sent, beside their answers."""

import os
from typing import Any, List, Optional, Sequence

from ...language.calls import address_of
from ...run.forms import Place, hit_of
from ...run.names import AllSymbols
from ...run.reasons import reason
from ...run.recording import next_changes
from ...run.session import REPLAYED
from ...run.state import Memory
from ...run.tape import STEP
from .logged_session import LoggedSession, Outcome, kind_of

# What a key does about a refusal.
ADVICE = {"ERR 07": "< goes back to the beginning", "ERR 10": "[ goes to older changes",
          "ERR 15": "t watches the number at the cursor",
          "ERR 16": "> goes to the newest state"}


def remarks(session: LoggedSession, outcome: Outcome, cursor: Place, symbols: AllSymbols) -> List[str]:
    """Returns what an operator may not expect of the last lines, the most important first; the cursor is at a place, and processors
    have these symbols and sources."""
    kind, hit = kind_of(outcome.answer), hit_of(outcome.answer)
    if kind == "ERR" or hit:
        return [hit or advice(session.log[-1][0], outcome.answer[0], session.size)]
    if kind != "BACK":
        return [f"the {outcome.discarded:o} actions ahead are discarded"] if outcome.discarded else []
    is_to_change = session.log[-1][0].upper().split() == ["BACK", "W"]
    change = next_change(session, list(map(Place.parse, outcome.watched)) or [cursor], symbols) if is_to_change else []
    replayed = [f"{REPLAYED} in a fresh simulator"] if REPLAYED in outcome.answer else []
    undone = [watched for watched in outcome.watched if watched not in session.watched()]
    return change + replayed + [f"WATCH {watched} is undone too" for watched in undone[:1]]


def advice(line: str, answer: str, size: int) -> str:
    """Returns a refusal with what may be done about it, or why the line was refused."""
    more = ADVICE.get(answer[:6]) or reason(line, answer, size)
    return f"{answer}; {more}" if more else answer


def next_change(session: LoggedSession, places: Sequence[Place], symbols: AllSymbols) -> List[str]:
    """Returns in words the next action, which makes the change before which a BACK W has stopped, with the first of the places that
    it changes; and the line of a source that its instruction is of, in a block transfer that of the instruction which began it."""
    simulator, slot = session.simulator, session.state.slot
    line = next(simulator.tape.actions(simulator.position)).line
    if line != STEP:
        return [f"the change is the next action, {line.strip()}"]
    was, processor = next_changes(simulator), session.state.processors[slot]
    with simulator.search() as run:
        address = address_of(run, slot, simulator.position)
    change = next((f"changes {place.short} from {was[place.number]:0{place.digits}o}" for place in places if place.number in was),
                  "makes the change")
    instruction = f"{'in' if processor.phase else 'with'} {processor.text}{'' if address is None else f' at {address:04o}'}"
    return [f"the next turn, PP {slot:02o} {instruction}, {change}",
            *line_of(session.state.memories[slot], address, symbols.of.get(slot))]


def line_of(memory: Memory, address: Optional[int], source: Any) -> List[str]:
    """Returns the file and the line that an instruction is of, or was, in a list; an empty one without a source."""
    is_known = source and source.is_source
    line = source.line_of(address, memory.number(address), memory.number(address + 1)) if is_known and address is not None else None
    return [f"{os.path.basename(source.path)}:{line.number}"] if line else []


def in_width(parts: Sequence[str], width: int) -> str:
    """Returns the first of the parts, and those of the others that a line has room for."""
    text = "".join(parts[:1])
    for part in parts[1:]:
        text += f"; {part}" if len(text) + len(part) + 2 <= width else ""
    return text
