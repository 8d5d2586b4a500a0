"""A paper tape station: a reader and a punch on one channel.

Function code 0001 reads: each word is a byte of the tape, and after the last one the channel becomes inactive. Code 0002 punches:
the lower eight bits of each word are a byte. Code 0003 rewinds the reader. A processor that gives another code waits for ever.
The codes are this project's choice; a real station had others."""

from __future__ import annotations

from typing import NamedTuple, Union

from ..run.device import EMPTY, INACTIVE, NOTHING, Answer, Chain, Device, Event, full
from ..shell.text_files import bytes_of

READ, PUNCH, REWIND = 0o1, 0o2, 0o3  # function codes
BYTE = 0o377


class StationState(NamedTuple):
    """The state: the function code in effect, the place of the next byte on the tape, and what was punched."""

    code: int = 0
    place: int = 0
    punched: Chain = Chain()


class PaperTape(Device):
    """A paper tape reader and punch."""

    start = StationState()

    def __init__(self, tape: Union[bytes, str] = b"", channel: int = 0o11) -> None:
        """The tape is its bytes, or the name of a file that has them."""
        self.tape: bytes = bytes_of(tape) if isinstance(tape, str) else bytes(tape)
        self.channel = channel

    def function(self, state: StationState, event: Event) -> Answer:
        if event.word == REWIND:
            return state._replace(code=0, place=0), INACTIVE
        return (state._replace(code=event.word), INACTIVE) if event.word in (READ, PUNCH) else (state, NOTHING)

    def next_byte(self, state: StationState, event: Event) -> Answer:
        """Puts the next byte on the channel, if the tape is read; after the last one makes it inactive."""
        if state.code != READ:
            return state, NOTHING
        if state.place == len(self.tape):
            return state._replace(code=0), INACTIVE
        return StationState(READ, state.place + 1, state.punched), full(self.tape[state.place])

    activated = taken = next_byte

    def word(self, state: StationState, event: Event) -> Answer:
        """Punches a word."""
        if state.code != PUNCH:
            return state, NOTHING
        return StationState(PUNCH, state.place, state.punched.push(event.word & BYTE)), EMPTY

    @staticmethod
    def output(state: StationState) -> bytes:
        """Returns what was punched."""
        return bytes(state.punched.items())
