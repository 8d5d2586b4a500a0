"""The session of the panel: lines sent to the simulator, a log of these and of their answers, and the machine's state after
them."""

import os
from typing import Any, Callable, List, NamedTuple, Sequence, Tuple

from ...devices.options import timeline
from ...failure import Failure
from ...run.attached import Attached
from ...run.console import Console, has_no_answer
from ...run.device import CompanionDevice
from ...run.forms import hit_of, refused
from ...run.searches import MOST_NEW
from ...run.state import State, state_of
from ...run.tape import ScriptLine, SourceLine
from ...shell.keyboard import place_of

LOG_LENGTH = 10000  # decimal, lines and answers
Log = List[Tuple[str, List[str]]]  # lines with their answers


class Outcome(NamedTuple):
    """What came of some lines."""

    answer: List[str]  # to the last one that was sent
    discarded: int  # how many actions that were ahead are so no longer
    watched: List[str]  # the places that were watched before


def kind_of(answer: Sequence[str]) -> str:
    """Returns the first word of an answer, as TURNS; nothing if there is no answer."""
    return answer[0].split()[0] if answer else ""


class LoggedSession:
    """A simulator, all lines that it was sent, and its state. The lines that ask for the state are not among them."""

    def __init__(self, words: Sequence[str], devices: Sequence[CompanionDevice] = ()) -> None:
        self.simulator = timeline(words, devices)
        self.most_new = 0 if devices else MOST_NEW  # a search has no devices
        self.size = self.simulator.central_size
        self.lines_sent = 0
        self.saved = (0, 0)  # the lines that are in a file
        self.log: Log = []
        self.logged = 0  # the lines of the log
        self.look_again()

    @property
    def sent(self) -> List[str]:
        """The lines that were sent; after a replay those of the replay, and what was sent after it."""
        return self.simulator.sent

    def read(self) -> State:
        """Returns the machine's state."""
        return state_of(self.simulator, with_central=True)

    def look_again(self) -> None:
        """Reads the state, in which nothing is marked."""
        self.state = self.before = self.read()

    def watched(self) -> List[str]:
        return [place.short for place in self.state.watched]

    def would_refuse(self, line: str) -> bool:
        """Returns whether a new action would be refused: whether another simulator, which watches the same places, refuses it."""
        with Console(self.simulator.words) as other:
            *_, answer = other.ask_each([*(f"WATCH {place}" for place in self.watched()), line])
        return refused(answer) is not None

    def send(self, line: str) -> List[str]:
        if not isinstance(line, SourceLine):
            self.lines_sent += 1
            line = ScriptLine(line, self.lines_sent)
        answer = self.simulator.act_by_move(line)
        if line.strip():
            self.log_line(line, answer)
        return answer

    def log_line(self, line: str, answer: List[str]) -> None:
        """Adds a line with its answer to the log, and drops the oldest of a log that is too long."""
        self.log.append((line, answer))
        self.logged += 1 + len(answer)
        while self.logged > LOG_LENGTH and len(self.log) > 1:
            self.logged -= 1 + len(self.log.pop(0)[1])

    def perform(self, lines: Sequence[str], stops: Callable[[int, int], bool] = lambda done, total: False) -> Outcome:
        """Sends lines up to one that is refused, or that ends with a HIT, or until it `stops`: that is asked before each
        line but the first, with how many are done and how many there are. Then reads the state. Returns the outcome."""
        state, position, watched = self.state, self.simulator.position, self.watched()
        answer: List[str] = []
        discarded = 0
        for number, line in enumerate(lines):
            if number and stops(number, len(lines)):
                break
            ahead, answer = self.simulator.to_redo, self.send(line)
            discarded += ahead if kind_of(answer) in ("OK", "TURNS") else 0
            if refused(answer) or hit_of(answer):
                break
        if self.simulator.position != position:
            self.state, self.before = self.read(), state
        return Outcome(answer, discarded, watched)

    def tell(self, number: int, what: Any) -> None:
        """Tells a device something, as which keys are pressed."""
        assert isinstance(self.simulator, Attached)  # for it has a device
        self.simulator.tell(number, what)
        self.log_line(f"* {what!a} to device {number + 1} (decimal)", [])
        self.state, self.before = self.read(), self.state

    def to_turn(self, turn: int) -> None:
        """Goes to where so many turns are in effect. What the last of them changed is marked. New turns do not end where a watched
        number changes."""
        for goal in range(max(turn - 1, 0), turn + 1):
            for line in self.simulator.lines_to(goal):
                self.send(line)
            self.before, self.state = self.state, self.read()
        self.before = self.before if turn else self.state

    def perform_script(self, lines: Sequence[str], stops: Callable[[int, int], bool] = lambda done, total: False) -> bool:
        """Performs a script, whatever is refused; `stops` is asked before each line. What the last action changed is marked.
        Returns whether all was performed."""
        acting = (number for number, line in enumerate(lines) if not has_no_answer(line) and line.upper().split()[:1] != ["DUMP"])
        last = max(acting, default=None)
        for number, line in enumerate(lines):
            if stops(number, len(lines)):
                self.look_again()
                return False
            self.before = self.read() if number == last else self.before
            self.send(line)
        self.state, self.saved = self.read(), place_of(self.simulator)
        return True

    def close(self) -> None:
        self.simulator.close()

    # ---- the file of what was sent

    def save(self, path: str, over: bool = False) -> None:
        """Writes all that was sent into a file, a script that gives the same session again. It begins with the options, if a note
        can say them."""
        if over and os.path.exists(path) and not os.path.isfile(path):  # a FIFO would wait for a reader
            raise Failure(f"can't write {path}: it is not a file")
        options = self.simulator.words[1:]
        note = " ".join(["* A session of panel.", *(["Its options:", *options] if options else [])])
        note = note if note.isascii() and has_no_answer(note) else "* A session of panel."
        text = "".join(f"{line}\n" for line in [note, *self.sent]).encode("latin-1")
        try:
            with open(path, "wb" if over else "xb") as file:
                file.write(text)
        except FileExistsError:
            raise Failure(f"{path} exists; w! {path} writes over it") from None
        except (OSError, ValueError) as error:
            raise Failure(f"can't write {path}: {getattr(error, 'strerror', None) or error}") from error
        self.saved = place_of(self.simulator)

    def is_saved(self) -> bool:
        return self.saved == place_of(self.simulator)
