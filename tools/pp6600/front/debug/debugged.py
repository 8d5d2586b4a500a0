"""The machine that is debugged: a session of the simulator, and scouts that search in its run.

The session performs the lines of the user, and turns, and nothing else: it is what the editor is told of. It goes back and
forward without a limit. A scout is another simulator on the same tape, at a position of its own. It stays between searches, so each
goes on from where the last one ended."""

from typing import TYPE_CHECKING, Any, Callable, Dict, List, Sequence

from ...run.attached import Attached
from ...run.device import CompanionDevice
from ...run.forms import PROCESSORS
from ...run.session import REPLAYED, Session, without_history
from ...run.state import state_of
from ...run.tape import STEP, Position, Tape
from .terms import Tally

if TYPE_CHECKING:
    Base = Session
else:
    Base = object

MADE_AT_ONCE = 0o2000  # turns that a session with devices makes


def is_turn(tape: Tape, position: int) -> bool:
    """Returns whether the action after a position is a turn."""
    return next(tape.actions(Position(position))).line == STEP


class Debugged(Base):
    """What a session that is debugged has beside its run: its scouts, the hits of its breakpoints, and its state as it was when it
    was last looked at."""

    may_search: bool  # whether it may itself search ahead
    add_turns: Callable[[int], None]  # adds turns to the end of the tape, at most so many

    def __init__(self, *words: Any) -> None:
        self.scouts: Dict[str, Session] = {}  # by their names
        self.tallies: Dict[Any, Tally] = {}  # by what hits depend on
        super().__init__(*words)

    def scout(self, name: str = "looks") -> Session:
        if name not in self.scouts:
            self.scouts[name] = self.search()
        return self.scouts[name]

    def close(self) -> None:
        for scout in self.scouts.values():
            scout.close()
        super().close()

    def look(self) -> None:
        """Reads the state."""
        self.state: Any = state_of(self)

    def typed(self, line: str) -> List[str]:
        """Performs a line that was typed. BACK and FORWARD go over all actions, and not only those that the simulator keeps."""
        self.withdraw(self.position)
        answer = self.act_by_move(line)
        return answer[:1] if answer[1:] == [REPLAYED] else answer

    def settled(self, position: int) -> Position:
        """Returns the first position from a position on that the user can be at: after the replies to an action."""
        return self.tape.after_units(self.tape.units(Position(position)))

    def before(self, position: int) -> Position:
        """Returns the last position up to a position that the user can be at."""
        return self.tape.after_units(self.tape.whole_units(Position(position)))

    def withdraw(self, position: int) -> None:
        """Sees that no scout is beyond a position, nor goes there by FORWARD, for the tape may be cut there."""
        for tally in self.tallies.values():
            tally.cut(position)
        for scout in self.scouts.values():
            scout.goto(Position(min(scout.position, position)))
            scout.newest = min(scout.newest, Position(position))

    def next_turn(self, number: int) -> Position:
        """Returns the position before the next turn of a processor. After the tape come turns."""
        while (found := self.tape.next_turn(number, self.position)) is None:
            self.add_turns(PROCESSORS)
        return found

    def part(self, position: int, most: int) -> Position:
        """Returns the end of the next turns, at most so many, or of another action. After the tape come turns, which are added to
        it."""
        if position == self.tape.end:
            self.add_turns(most)
        return min(self.tape.starts[self.tape.run_after(Position(position)) + 1], Position(position + most))


class MachineWithoutDevices(Debugged, Session):
    """A session without devices."""

    may_search = True

    def add_turns(self, most: int) -> None:
        """Adds turns to the tape, so many; they are made by who goes there."""
        self.tape.append(STEP, most)


class MachineWithDevices(Debugged, Attached):
    """A session with devices, which makes each new turn itself. The scouts perform what is on the tape, and know no device."""

    may_search = False

    def __init__(self, words: Any, devices: Sequence[CompanionDevice]) -> None:
        super().__init__(without_history(words), devices)

    def add_turns(self, most: int) -> None:
        """Makes new turns at the end of the tape, at most so many."""
        here = self.position
        self.goto(self.tape.end)
        self.act(f"STEP {min(most, MADE_AT_ONCE):o}")
        self.goto(here)
