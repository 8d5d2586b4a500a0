"""One run of the machine: its tape, a position in it, and the way to any other.

A session performs lines of its user (`act`), and goes to any position of its tape (`goto`): back and forward by the engine's undo
history and redo list, else by the lines of the tape, from here or from the start in a fresh engine. BACK and FORWARD of its user
may go over all actions (`act_by_move`). A session that searches performs the actions of a tape anew, but for its watches, so it
stops nowhere. One with devices is an `Attached`."""

from __future__ import annotations

import itertools
import re
from typing import TYPE_CHECKING, Iterator, List, Optional, Sequence

from ..failure import Failure
from .console import Console
from .forms import MOST_TURNS, refused
from .tape import STEP, History, Position, Tape, Units, room_of

if TYPE_CHECKING:
    from .past import Past

MOVE = re.compile(r"[ \t]*(BACK|FORWARD)(?:[ \t]+([0-7]{1,10}))?[ \t\r]*", re.I)
TOO_FEW_KEPT, TOO_FEW_AHEAD = "ERR 07 TOO FEW KEPT", "ERR 16 TOO FEW AHEAD"
REPLAYED = "replayed"  # the second line of an answer to a BACK
AT_ONCE = 4096  # lines of a tape that are performed at once


def without_history(words: Sequence[str]) -> List[str]:
    """Returns the words of the simulator without --history: a replay needs no length of its own."""
    at = words.index("--history") if "--history" in words else len(words)
    return [*words[:at], *words[at + 2:]]


def number_in(line: str) -> int:
    """Returns the number of turns of a STEP or of its answer."""
    return int(line.split()[1], 8)


class Session(Console, History):
    """A run, and a position in it."""

    pasts: Sequence[Past] = ()  # of the devices of one's own that replied when its tape was made

    def __init__(self, words: Sequence[str] = (), tape: Optional[Tape] = None, is_search: bool = False) -> None:
        """It begins at the beginning of the tape. A search counts the watches of the tape, and performs none; its history is as
        long as can be."""
        Console.__init__(self, without_history(words) if is_search else words)
        History.__init__(self, room_of(self.words), tape or Tape())
        self.is_search = is_search
        self.watched: List[str] = []  # places, beside those of the tape
        self.written: List[str] = []  # what the engine was sent since it began
        self.times_anew = 0

    def search(self, tape: Optional[Tape] = None) -> Session:
        """Returns a session that searches its tape, or another one. It is used in a `with` block."""
        return Session(self.words, tape or self.tape, is_search=True)

    # ---- lines of the user

    @property
    def sent(self) -> List[str]:
        """A script that gives the same session again: the lines that were sent. After `replays` it begins anew."""
        return self.written

    @property
    def replays(self) -> int:
        """How often `sent` has begun anew."""
        return self.times_anew

    def act(self, line: str) -> List[str]:
        """Performs a line of any kind. Returns the lines of its answer."""
        answer = self.ask(line)
        kind, *rest = answer[0].split() if answer else ["NOTE"]
        if kind == "OK":
            self.added(line)
        elif kind == "TURNS":
            self.added(STEP, int(rest[0], 8))
        elif kind in ("BACK", "FORWARD"):
            self.moved(int(rest[0], 8) * (-1 if kind == "BACK" else 1))
        self.written.append(line)
        return answer

    def printed(self) -> List[str]:
        """Returns what devices of one's own have printed since this was asked last, a line each."""
        return []

    def act_by_move(self, line: str) -> List[str]:
        """As `act`, but BACK goes back over all actions in effect, and FORWARD on over all that are ahead. The answer says also
        whether `sent` has begun anew."""
        replays, asked = self.replays, MOVE.fullmatch(line)
        word, count = (asked[1].upper(), int(asked[2] or "1", 8)) if asked else ("", 0)
        near, far = (self.kept, self.unit) if word == "BACK" else (self.ahead, self.to_redo)
        answer = self.go_over(word, count) if near < count <= far else self.act(line)
        return [*answer, REPLAYED] if self.replays > replays else answer

    def go_over(self, word: str, count: int) -> List[str]:
        """Goes BACK or FORWARD over so many units. Returns the answer."""
        unit = self.unit + (count if word == "FORWARD" else -count)
        if not 0 <= unit <= self.tape.units(self.tape.end):
            return [TOO_FEW_KEPT if unit < 0 else TOO_FEW_AHEAD]
        self.goto(self.tape.after_units(Units(unit)))
        return [f"{word} {count:o} SLOT {self.slot():02o}"]

    def lines_to(self, turn: int) -> Iterator[str]:
        """Yields the lines that go back or on to where so many turns are in effect, after the settings that follow the last of
        them. Each must be performed before the next one. New turns do not end where a watched number changes."""
        if turn < self.turn:
            yield f"BACK {self.back_over(self.turn - turn):o}"
        elif turn >= self.tape.turns and self.to_redo:
            yield f"FORWARD {self.to_redo:o}"
        elif self.turn < turn < self.tape.turns:
            yield f"FORWARD {self.forward_over(turn - self.turn + 1) - 1:o}"
        while turn > self.turn:
            yield f"STEP {min(turn - self.turn, MOST_TURNS):o}"

    # ---- any position

    def goto(self, position: Position) -> None:
        """Goes to a position of the tape."""
        if position < self.oldest:
            self._go_anew(position)
        count = min(position, self.newest) - self.position
        if count:
            passed = self._watches_over(count) if self.is_search and self.tape.watches else 0
            self.moved(count)
            (self.engine.back if count < 0 else self.engine.forward)(abs(count) - passed)
            self.written += [] if self.is_search else [f"{'BACK' if count < 0 else 'FORWARD'} {abs(count):o}"]
        if self.position < position:
            self._play(position)

    def _watches_over(self, count: int) -> int:
        """Returns how many of the next so many actions are watches."""
        first, last = sorted((self.position, Position(self.position + count)))
        return sum(action.times for action in self.tape.actions(first, last) if action.is_watch)

    def _play(self, position: Position) -> None:
        """Performs the actions of the tape up to a position by their lines. A STEP may end where a watched number changes, and goes
        on."""
        stops = self.watched or self.tape.watches and not self.is_search
        lines = self.tape.lines(self.position, position, not self.is_search)
        while some := list(itertools.islice(lines, 1 if stops else AT_ONCE)):
            answers = self.engine.answers("".join(f"{line}\n" for line in some))
            if refusal := refused(answers):
                raise Failure(f"the simulator answers {refusal} to what it has performed before")
            self.written += [] if self.is_search else some
            if stops and answers[0] != "OK" and (left := number_in(some[0]) - number_in(answers[0])):
                lines = itertools.chain([f"{STEP} {left:o}"], lines)
        self.performed(position - self.position)

    def _go_anew(self, position: Position) -> None:
        """Goes to a position from the beginning, in a fresh engine."""
        watched, self.watched, self.written = self.watched, [], []
        self.times_anew += 1
        self.engine.close()
        self.start()
        self.restarted()
        self._play(position)
        self.watch(watched)

    def watch(self, places: List[str]) -> None:
        """Watches these places alone, beside those of the tape, from here on; it can't go back to before without a replay."""
        if places != self.watched:
            for line in [*(f"UNWATCH {place}" for place in self.watched), *(f"WATCH {place}" for place in places)]:
                self.demand(line)
            self.watched, self.oldest, self.newest = places, self.position, self.position
