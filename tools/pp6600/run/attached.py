"""A session with devices of one's own, in which all goes back.

Its unit is an action of the user: a turn with the replies of the devices after it is one, and so is each other action. BACK and
FORWARD count units and have no limit. The tape has each reply as the SET H or SET C that it is. What a device is told is an action
too: its line sets Q of PP 00 to the number that it has."""

from __future__ import annotations

import re
from typing import Any, Dict, List, Sequence, Tuple

from ..engine.interface import MOST_ALTERNATIVES
from ..failure import Failure
from .central_device import CentralDevice
from .console import COUNTED, LONGEST_LINE
from .device import CompanionDevice, Device, DeviceFailure, Value, is_value
from .forms import CHANNELS, MOST_TURNS, MOST_WATCHES, Place, refused
from .new_turns import NewTurns
from .past import EVERY, EXACT, name_of, past_of
from .plain_script import PlainScript
from .session import Session
from .tape import STEP, Position, Units

BACK_W = re.compile(r"[ \t]*BACK[ \t]+W[ \t\r]*", re.I)


def names_of(devices: Sequence[CompanionDevice]) -> Dict[int, str]:
    """Returns the names of devices of channels by their channels."""
    return {device.channel: name_of(device) for device in devices if device.channel is not None}


class Attached(Session):
    """A simulator with devices. A front end can take it in the place of a Session."""

    exact_values, every_value = EXACT, EVERY

    def __init__(self, words: Sequence[str] = (), devices: Sequence[CompanionDevice] = ()) -> None:
        """Begins a session with devices of channels, no two of them on one channel, and of central memory."""
        self.devices = tuple(devices)
        super().__init__(words)
        try:
            self._check_channels()
            self.pasts = [past_of(device, self, self.exact_values, self.every_value) for device in self.devices]
            self._check_alternatives()
        except Failure:
            self.close()
            raise
        self.plain = PlainScript(self.room, self.tape)
        self.papers = [""] * len(self.devices)  # as they were shown last
        self.told: Dict[Position, Tuple[int, Any]] = {}  # the number of a device and what it was told, by the position after it

    def _check_channels(self) -> None:
        taken = {self.reader_channel: "the card reader", self.printer_channel: "the printer"}
        for device in self.devices:
            if isinstance(device, CentralDevice):
                continue
            if not isinstance(device, Device):
                raise Failure(f"{device!r:.60} is not a Device")
            channel, name = device.channel, type(device).__name__
            if type(channel) is not int or not 0 <= channel < CHANNELS:
                raise Failure(f"{name} can't be on channel {channel!r:.60}: there are the channels 0 to {CHANNELS - 1:o}, octal")
            if channel in taken:
                raise Failure(f"{name} can't be on channel {channel:o}: {taken[channel]} is on it")
            taken[channel] = f"{name}, another device,"

    def _check_alternatives(self) -> None:
        """Sees that one search can judge what all devices see, and what the user watches."""
        count, most = sum(len(past.alternatives(past.value.seen)) for past in self.pasts), MOST_ALTERNATIVES - MOST_WATCHES
        if count > most:
            raise Failure(f"devices of channels and rows of words that devices watch are at most {most}, and these are {count} "
                          f"(decimal)")

    # ---- what there is to see

    def state(self, number: int = 0) -> Any:
        """Returns the present state of a device."""
        self._recall()
        return self.pasts[number].value.state

    def printed(self) -> List[str]:
        """Returns what devices have printed since this was asked last, each line after the name of its device. What is taken back
        is printed no more."""
        found = []
        for number, device in enumerate(self.devices):
            if type(device).paper is not CompanionDevice.paper:
                paper, shown = device.paper(self.state(number)), self.papers[number]
                new = paper[len(shown):] if paper.startswith(shown) else ""
                whole = new.rpartition("\n")[0]
                self.papers[number] = paper
                found += [f"  {name_of(device)}: {line}" for line in re.sub("[\f\r]", "", whole).split("\n") if line]
        return found

    @property
    def ahead(self) -> int:
        return self.plain.ahead

    @property
    def sent(self) -> List[str]:
        """A script for the simulator alone that gives the session again, with what was taken back and the dumps. Lines that were
        refused are left out. After `replays` it begins anew."""
        return self.plain.lines

    @property
    def replays(self) -> int:
        """How often `sent` has begun anew."""
        return self.plain.times_anew

    def save(self) -> List[str]:
        """Returns a script for the simulator alone that makes the present machine. Its turns are those of the session."""
        return list(self.plain.part(Position(0), self.position))

    # ---- lines of the user

    def act(self, line: str) -> List[str]:
        """Performs a line of any kind. Returns the lines of its answer."""
        self._recall()
        before = self.position
        try:
            answer = self._perform_line(line)
        except DeviceFailure:
            self.goto(before)
            raise
        if self.position != before:
            self.plain.go(self.position)
        elif not refused(answer):
            self.plain.lines.append(line)
        return answer

    def go_over(self, word: str, count: int) -> List[str]:
        return self.act(f"{word} {count:o}")

    def _perform_line(self, line: str) -> List[str]:
        asked = COUNTED.fullmatch(line) if len(line) <= LONGEST_LINE else None
        count = int(asked[2] or "1", 8) if asked else 0
        if asked and count <= MOST_TURNS:
            word = asked[1].upper()
            return self._step(count) if word == "STEP" else super().go_over(word, count)
        answer = self.ask(line)
        if BACK_W.fullmatch(line):
            return self._back_to_unit(answer)
        if answer == ["OK"]:
            self.added(line)
        return answer

    def tell(self, number: int, what: Any) -> None:
        """Tells a device something, which is an action. What it is told is a value that can't be changed in place."""
        if not is_value(what):
            raise Failure(f"a device can't be told {what!r:.60}: it can be changed in place")
        self._recall()
        begin, new = self.position, self._new_turns()
        line = new.tell(number, what)
        self._commit(new, line)
        self.told[Position(begin + 1)] = number, what
        self.plain.go(self.position)

    def cut(self, position: Position) -> None:
        if position < self.tape.end:
            self.plain.go(self.position)
            super().cut(position)
            for past in self.pasts:
                past.cut(position)
            self.plain.cut(position)
            self.told = {at: what for at, what in self.told.items() if at <= position}

    # ---- back and forward

    def _recall(self) -> None:
        """Sees that the values at hand are those at the position."""
        here = self.position
        for number, past in enumerate(self.pasts):
            entry = past.entry_at(here)
            if entry != past.entry:
                past.have(past.values[entry] or self._value_anew(number, entry), entry)
                self.goto(here)

    def _value_anew(self, number: int, entry: int) -> Value:
        """Returns the value of a device that was not kept: it looks again."""
        past = self.pasts[number]
        begin, value = past.kept_before(entry)
        for at in past.at[begin + 1:entry + 1]:
            end = Position(self.tape.after_units(Units(self.tape.units(Position(at)) - 1)) + 1)  # of the unit, without its replies
            self.goto(end)
            now = past.now(self.engine)
            value, _ = (past.told(value, self.told[end][1], now, self.turn) if end in self.told
                        else past.looked(value, now, self.turn))
        return value

    def _back_to_unit(self, answer: List[str]) -> List[str]:
        """Goes back to before a whole unit, after the simulator has answered BACK W."""
        if not answer[0].startswith("BACK "):
            return answer
        here = self.unit
        self.moved(-int(answer[0].split()[1], 8))
        units = self.tape.whole_units(self.position)
        self.goto(self.tape.after_units(units))
        return [f"BACK {here - units:o} SLOT {self.slot():02o}"]

    # ---- new actions

    def _step(self, most: int) -> List[str]:
        """Makes turns. If a device fails, the session is as it was."""
        begin, turn, new = self.position, self.turn, self._new_turns()
        watched = [Place.parse(line[2:]) for line in self.demand("DUMP W") if line != "W NONE"]
        try:
            hit = new.make(most, watched)
        except DeviceFailure:
            self.performed(new.position - begin, self.engine.counts().kept)
            self.goto(begin)
            self.newest = begin
            raise
        self._commit(new)
        return [f"TURNS {new.turn - turn:o} SLOT {self.slot():02o}", *([hit] if hit else [])]

    def _new_turns(self) -> NewTurns:
        return NewTurns(self.engine, self.pasts, self.room, self.tape, self.position)

    def _commit(self, new: NewTurns, line: str = "") -> None:
        """Takes a line and what was made after it into the tape, in place of what is ahead."""
        self.cut(self.position)
        self.tape.append(line, bool(line))
        self.tape.append_replies(*new.replies)
        self.tape.append(STEP, new.turn - self.tape.turns)
        self.performed(new.position - self.position, self.engine.counts().kept)
        self.plain.stops += new.stops
        for past, (at, values) in zip(self.pasts, new.new):
            if values:
                past.add(at, values)
