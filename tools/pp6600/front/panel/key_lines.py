"""The lines of the console that keys of the panel send, and the page of all keys."""

from typing import Any, Callable, Dict, List

from ...run.forms import MOST_TURNS, PROCESSORS
from ...run.session import Session
from ..keys import help_rows
from .logged_session import LoggedSession
from .view import View

ROUND = PROCESSORS  # turns


def counted(word: str, count: int) -> List[str]:
    """Returns the line of so many actions; none of no action."""
    return [word if count == 1 else f"{word} {count:o}"] if count else []


def step_lines(turns: int) -> List[str]:
    """Returns the lines that make so many turns."""
    whole, rest = divmod(turns, MOST_TURNS)
    return [f"STEP {MOST_TURNS:o}"] * whole + counted("STEP", rest)


def turns_to(slot: int, processor: int, count: int) -> int:
    """Returns how many turns it is to the turn of a processor that comes after so many others of it."""
    return (processor - slot - 1) % PROCESSORS + 1 + ROUND * (count - 1)


def on(run: Session, turns: int) -> List[str]:
    """Returns the lines that go on by so many turns: over those that are ahead, then over new ones."""
    again = run.tape.turns - run.turn
    return counted("FORWARD", run.forward_over(turns) if turns <= again else run.to_redo) + step_lines(max(turns - again, 0))


def to_turn(run: Session, turn: int) -> List[str]:
    """Returns the lines that go to before the turn that comes after so many: back, or over what is ahead and then over new
    turns."""
    if turn < run.turn:
        return back_over(run, run.turn - turn)
    ahead = run.forward_over(turn + 1 - run.turn) - 1 if turn < run.tape.turns else run.to_redo
    return counted("FORWARD", ahead) + step_lines(max(turn - run.tape.turns, 0))


def back_over(run: Session, turns: int) -> List[str]:
    """Returns the line that goes back over so many turns."""
    return counted("BACK", run.back_over(turns))


def toggle_watch(session: LoggedSession, view: View, count: int = 1) -> List[str]:
    return [f"{'UNWATCH' if view.cursor.short in session.watched() else 'WATCH'} {view.cursor.short}"]


# The lines of each action that sends some, by the session, what is looked at, and a count.
LINES: Dict[str, Callable[[Any, Any, int], List[str]]] = {
    "on": lambda session, view, count: on(session.simulator, count),
    "back": lambda session, view, count: counted("BACK", count),
    "round-on": lambda session, view, count: on(session.simulator, ROUND * count),
    "round-back": lambda session, view, count: back_over(session.simulator, ROUND * count),
    "next-turn": lambda session, view, count: on(session.simulator, turns_to(session.state.slot, view.processor, count)),
    "turn-before": lambda session, view, count: back_over(session.simulator, turns_to(view.processor, session.state.slot, count)),
    "beginning": lambda session, view, count: counted("BACK", session.simulator.unit or 1),
    "newest": lambda session, view, count: counted("FORWARD", session.simulator.to_redo or 1),
    # With nothing watched it is the number at the cursor. Each BACK W but a refused one undoes an action.
    "back-to-change": lambda session, view, count: ([] if session.watched() else toggle_watch(session, view))
    + ["BACK W"] * min(count, session.simulator.kept + 1),
    "watch": toggle_watch,
}


def help_lines() -> List[str]:
    """Returns the page of all keys."""
    lines = ["Each key of the first part sends lines of the console. They are shown with their",
             "answers, and w FILE saves them. A count before a key, in octal, repeats it: 12s",
             "makes ten turns.", ""]
    for number, (names, text) in enumerate(help_rows()):
        lines += [""] if number == len(LINES) else []
        lines.append(f"{'  '.join(names):17}{text}")
    return lines + [
        "",
        "A star is beside each number that the last action changed, but not beside P of a",
        "processor that only passed through words 0000. > is before the processor whose",
        "turn comes next, and before the cell at P; w is before a watched cell. WAITS FOR",
        "has a channel, and the state in which the processor would go on. Among the",
        "instructions r is before the cell at which a block transfer goes on. In a source",
        "> before a line number, decimal, is the present line; a + after it, a macro's.",
        "TURN: how many turns are in effect. KEPT: how many actions the simulator can",
        "undo; a step back over more is a replay. AHEAD: how many can be performed again."]
