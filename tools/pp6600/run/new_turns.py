"""New turns of a session with devices, and the replies to them, before they are on its tape: a device may fail in one of them.

A device uses no watch. Turns are made many at once: as many as passed between the last two changes of what the devices see, with a
look after each, and those after the first that changed it are undone; or up to the next change, which a search of the engine
finds."""

from __future__ import annotations

from typing import Any, Dict, List, Optional, Sequence, Tuple

from ..engine import interface as flat
from ..engine.interface import CHANGES, Engine, Form
from .conditions import joined
from .device import Value
from .forms import Place
from .past import Past, Seen
from .tape import Action, Position, Tape

MOST_AT_ONCE = 4096  # turns
FEW_NUMBERS = 1024  # to look at so many takes less time than a search
FEW_TURNS = 32  # the same, if a search would judge each turn
MOST_PLACES = 16  # of a look
Numbers = List[int]


class NewTurns:
    """Turns and replies that are made from a position on."""

    def __init__(self, engine: Engine, pasts: Sequence[Past], room: int, tape: Tape, position: Position) -> None:
        """The engine keeps so many actions, and is at a position of the tape."""
        self.engine, self.room, self.turn = engine, min(room, MOST_AT_ONCE), tape.turn(position)
        self.others = position - self.turn  # the actions that are no turns
        self.replies: Tuple[List[int], List[Action]] = [], []  # each after so many turns
        self.stops: List[int] = []  # positions after turns with a HIT
        self.pasts, self.values = pasts, [past.value for past in pasts]
        self.new: List[Tuple[List[int], List[Value]]] = [([], []) for _ in pasts]  # the values that came, with their positions
        self.places = tuple([place for past in pasts for place in past.places])
        ends = [0]
        for past in pasts:
            ends.append(ends[-1] + len(past.places))
        self.parts = [slice(*part) for part in zip(ends, ends[1:])]  # of all numbers that are seen, those of each device
        self.seen = [number for value in self.values for number in value.seen]  # as the devices left them
        self.conditions: Dict[Seen, Tuple[Sequence[Form], Sequence[Form]]] = {}
        self.gap, self.changed = 1, self.turn  # turns between the last two changes of what is seen, and the turn of the last one
        few = FEW_NUMBERS // max(len(self.places), 1) if all(past.is_found for past in pasts) else FEW_TURNS
        # turns: as many as are made with a look after each
        self.few = min(few, self.room) if 0 < len(self.places) <= MOST_PLACES else 0
        self._see_dues()

    @property
    def position(self) -> Position:
        return Position(self.turn + self.others)

    # ---- turns

    def make(self, most: int, watched: Sequence[Place]) -> Optional[str]:
        """Makes so many turns, or up to a HIT. Returns the HIT."""
        end, hit = self.turn + most, None
        is_new = self._now() != self.seen  # after a SET or a DEADSTART there is something to see
        while self.turn < end and hit is None:
            now = self._turns(1 if is_new else self._expected(end), watched)
            is_new = False
            hit = self._hit(watched) if watched else None
            if now != self.seen:
                self.gap, self.changed = min(self.turn - self.changed, self.room), self.turn
            elif self.due is None or self.due > self.turn:
                continue
            before = self._digits(watched) if watched else []
            if self._look(now) and len(self.pasts) > 1:
                is_new = self._now() != self.seen  # one has set a word that another one sees
            if watched:
                hit = hit_with_replies(watched, hit, before, self._digits(watched))
        return hit

    def _turns(self, most: int, watched: Sequence[Place]) -> Numbers:
        """Makes turns up to the first that changes what a device sees, or a watched number, at most so many. Returns what all see
        then."""
        if most > self.few:
            return self._many_turns(most, watched)
        seen, numbers = self.seen, self.engine.numbers_after(most, self.places)[0]
        width = len(seen)
        made, same = len(numbers) // width, numbers[:-width]
        if same and same != seen * (made - 1):
            count = next(at for at in range(made) if same[at * width:at * width + width] != seen) + 1
            self.engine.back(made - count)
            self.turn += count
            return same[(count - 1) * width:count * width]
        self.turn += made
        return numbers[-width:]

    def _many_turns(self, most: int, watched: Sequence[Place]) -> Numbers:
        """Makes turns as `_turns` does, by searches of the engine."""
        key = tuple([value.seen[0] for past, value in zip(self.pasts, self.values) if not past.is_found])  # the states of channels
        if key not in self.conditions:
            self.conditions[key] = self._conditions(watched)
        found, judged = self.conditions[key]
        if found and judged:  # two searches are faster than one for both, which would judge all in each turn
            most = self.engine.until(found, min(most, self.room))[0]
            self.engine.back(most)
        self.turn += self.engine.until(judged or found, most)[0]
        return self._now()

    def _conditions(self, watched: Sequence[Place]) -> Tuple[Sequence[Form], Sequence[Form]]:
        """Returns what a search goes to at once, and what it judges in each turn."""
        found: List[List[Form]] = [[Form(CHANGES, place.number, 1)] for place in watched]
        judged: List[List[Form]] = []
        for past, value in zip(self.pasts, self.values):
            (found if past.is_found else judged).extend(past.alternatives(value.seen))
        return joined(found), joined(judged)

    def _expected(self, end: int) -> int:
        """Returns after how many turns what is seen may change, if it goes on as before, or a device is due; or if these are more
        than a few, how many turns there are up to then: a search stops by itself."""
        quiet = self.turn - self.changed
        expected = self.gap - quiet if self.gap > quiet else quiet + 1
        most = end - self.turn if self.due is None else min(end - self.turn, max(self.due - self.turn, 1))
        return min(expected, most) if expected <= self.few else most

    def _now(self) -> Numbers:
        """Returns the numbers that all devices see."""
        return [number for past in self.pasts for number in past.now(self.engine)]

    # ---- what devices do

    def _look(self, now: Numbers) -> bool:
        """Lets the devices look after a turn, and performs their replies. Returns whether there are some."""
        changed: List[Tuple[int, Value, Any]] = []
        for number, value in enumerate(self.values):
            new, reply = self.pasts[number].looked(value, tuple(now[self.parts[number]]), self.turn)
            if new is not value:
                changed.append((number, new, reply))
        return self._note(changed)

    def tell(self, number: int, what: object) -> str:
        """Tells a device something. It does not look. Returns the line that the action is."""
        past = self.pasts[number]
        value, reply = past.told(self.values[number], what, past.now(self.engine), self.turn)
        line = f"SET Q 0 {self.engine.numbers(flat.Q, 1)[0]:04o}"
        self.engine.perform(line.encode())
        self.others += 1
        self._note([(number, value, reply)])
        return line

    def _note(self, changed: Sequence[Tuple[int, Value, Any]]) -> bool:
        """Performs the replies of devices, each by its number, and notes what they are after them. Returns whether there are
        some."""
        turns, replies = self.replies
        before = len(replies)
        for number, _, reply in changed:
            if reply is not None:
                actions, typed = self.pasts[number].actions(reply)
                self.engine.perform(typed)
                replies += actions
                turns += [self.turn] * len(actions)
        self.others += len(replies) - before
        position, has_dues = self.turn + self.others, self.due is not None
        for number, value, _ in changed:
            at, values = self.new[number]
            at.append(position)
            values.append(value)
            self.values[number] = value
            _, self.seen[self.parts[number]], due, _ = value
            has_dues = has_dues or due is not None
        if has_dues:
            self._see_dues()
        return len(replies) > before

    def _see_dues(self) -> None:
        """Sees for which turn the first device is due."""
        self.due = min((value.due for value in self.values if value.due is not None), default=None)

    # ---- watches

    def _hit(self, watched: Sequence[Place]) -> Optional[str]:
        """Returns the HIT of the latest turn, or None."""
        now = self._digits(watched)
        self.engine.back(1)
        was = self._digits(watched)
        self.engine.forward(1)
        hit = next((f"HIT {place.text} {old} {new}" for place, old, new in zip(watched, was, now) if old != new), None)
        self.stops += [self.position] if hit else []
        return hit

    def _digits(self, places: Sequence[Place]) -> List[str]:
        return [f"{self.engine.numbers(place.number, 1)[0]:0{place.digits}o}" for place in places]


def hit_with_replies(watched: Sequence[Place], hit: Optional[str], before: Sequence[str], after: Sequence[str]) -> Optional[str]:
    """Returns the HIT of a turn with its replies: that of the first watched place that one of them changed, with the numbers before
    and after the replies if they did, else before and after the turn."""
    hits = {" ".join(hit.split()[1:-2]): hit} if hit else {}
    hits.update((place.text, f"HIT {place.text} {was} {now}") for place, was, now in zip(watched, before, after) if was != now)
    return next((hits[place.text] for place in watched if place.text in hits), None)
