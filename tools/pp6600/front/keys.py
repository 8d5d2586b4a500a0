"""The keys of the panel and of a film's page: one table, so that a key that both have does the same in both. Each has a function of
its own for an action. The help of both has the rows of this table."""

from __future__ import annotations

from typing import Dict, List, NamedTuple, Tuple

ARROWS = {"Left": "Left", "Right": "Right", "Up": "Up", "Down": "Down", "h": "Left", "l": "Right", "k": "Up", "j": "Down"}
PAGES = {"Page Up": "Page Up", "Page Down": "Page Down"}
NAMES_OF_ARROWS = ("arrows", "h j k l")
# Names of keys as a browser's events have them, where they are others.
EVENTS = {"Left": "ArrowLeft", "Right": "ArrowRight", "Up": "ArrowUp", "Down": "ArrowDown"}


class HelpRow(NamedTuple):
    """A row of the help: each key with its action, and a sentence for the panel and for the page; "" if it has none of these
    keys."""

    actions: Dict[str, str]
    panel: str
    page: str
    names: Tuple[str, ...] = ()  # how the help names the keys, if not each by its own name

    def shown(self) -> Tuple[str, ...]:
        """Returns the names of the keys."""
        return self.names or tuple("Space" if key == " " else key for key in self.actions)


def both(actions: Dict[str, str], text: str, *names: str) -> HelpRow:
    """Returns a row with one sentence for the panel and for the page."""
    return HelpRow(actions, text, text, names)


# Those that send lines of the console come first.
ROWS = (
    HelpRow({"s": "on"}, "one turn on: FORWARD if something is ahead, else STEP", "one turn on; at the end it makes one"),
    HelpRow({"b": "back", "Backspace": "back"}, "BACK: undoes the newest action",
            "back by one turn, or by one line that makes none"),
    both({"S": "round-on"}, "on by a round of turns, 12"),
    both({"B": "round-back"}, "back by a round of turns"),
    both({"n": "next-turn"}, "on to the next turn of the chosen processor"),
    both({"p": "turn-before"}, "back to its turn before"),
    both({"<": "beginning", "Home": "beginning"}, "back to the beginning"),
    both({">": "newest", "End": "newest"}, "forward to the newest state"),
    HelpRow({"W": "back-to-change"}, "BACK W: to before a watched (else the cursor's) number changed",
        "BACK W: to before a watched (else the chosen) number changed"),
    HelpRow({"t": "watch"}, "WATCH the number at the cursor, or UNWATCH it", "WATCH the chosen number, or UNWATCH it"),
    both({"G": "turn"}, "go to a turn: its number, before the key or after it"),
    both({"u": "until", "U": "back-until"}, "on until a condition comes to hold, as P 0 = 105; and back"),
    both({"f": "again", "F": "back-again"}, "on, and back, until the same condition again"),
    HelpRow({"]": "next-change", "[": "change-before"}, "on, and back, to a change of the number at the cursor",
        "on, and back, to a change of the chosen number"),
    both({"N": "next-line", "P": "line-before"}, "on to the next line of the processor's source; back by a line"),
    HelpRow({"Tab": "next-part", "Shift-Tab": "part-before"}, "to the next part of the screen; to the one before", ""),
    HelpRow({**ARROWS, **PAGES}, "move the cursor; Page Up and Page Down too", "", NAMES_OF_ARROWS),
    HelpRow(ARROWS, "", "choose the number beside; on the slider a turn back or on", NAMES_OF_ARROWS),
    both({"(": "processor-before", ")": "next-processor"}, "choose the processor before; the next one"),
    both({"x": "processor-in-slot"}, "choose the processor whose turn comes next"),
    HelpRow({"o": "follow"}, "memory around P again, after the cursor was moved", "memory around P again"),
    both({"i": "instructions", "d": "display-code"}, "memory as instructions, or as numbers again; with display code"),
    HelpRow({"m": "source", "C": "central"}, "memory as the source, or as cells; central memory beside it", ""),
    HelpRow({"g": "place"}, "go to an address, a label or a place: 106, M 3 106, C 1000, A 0",
        "choose a place: M 0 106, P 0, A 0, Q 0, PHASE 0, H 12, STATE 12, C 1000, XP 3"),
    HelpRow({"/": "search"}, "search words from the cursor on; / and Enter: the next ones", ""),
    HelpRow({"c": "origin"}, "where the cursor's number came from; Enter: to before a step", "where the chosen number came from"),
    HelpRow({"r": "calls"}, "the subroutines that the processor is in, of its source", ""),
    HelpRow({":": "line"}, "a line of the console; Up and Down: lines typed before", "a line of the console"),
    HelpRow({"w": "save"}, "w FILE saves what was sent as a script; w! FILE writes over it", ""),
    HelpRow({"v": "pictures", "K": "keys"}, "what devices show; keys of a device, \\r is the carriage return", ""),
    HelpRow({"L": "log"}, "all lines and answers", ""),
    both({"?": "help"}, "all keys"),
    HelpRow({"q": "quit"}, "quit", ""),
    HelpRow({"Escape": "forget", "Ctrl-C": "forget"}, "forget a count or a line begun; Ctrl-C also stops a long run", ""),
    HelpRow({"Ctrl-Z": "suspend", "Ctrl-L": "draw"}, "suspend the panel (fg continues it); draw the screen again", ""),
    HelpRow({"Escape": "forget"}, "", "choose nothing, and memory around P again"),
    HelpRow({" ": "play", "+": "faster", "-": "slower"}, "", "play or pause; faster; slower"),
    HelpRow({",": "script-line-before", ".": "next-script-line"}, "", "to the line of the script before; to the next one"),
    HelpRow({"}": "run-to", "{": "run-back"}, "", "on, and back, to where P is at the chosen cell, or to a breakpoint"),
    HelpRow({"*": "breakpoint"}, "", "set a breakpoint at the chosen cell, or take it away"),
    HelpRow({"e": "set"}, "", "set the chosen number to another one"),
    HelpRow({"O": "barrel"}, "", "fold the picture of the barrel away, or unfold it"),
    HelpRow({"z": "projector"}, "", "large, for a projector; again, as before"),
)
PANEL: Dict[str, str] = {key: action for row in ROWS if row.panel for key, action in row.actions.items()}
PAGE: Dict[str, str] = {key: action for row in ROWS if row.page for key, action in row.actions.items()}


def for_page() -> Dict[str, object]:
    """Returns what the page has to know: the action of each key, by the name of the key in a browser's events; and the rows of its
    help."""
    return {"actions": {EVENTS.get(key, key): action for key, action in PAGE.items()},
            "help": [(row.shown(), row.page) for row in ROWS if row.page]}


def help_rows() -> List[Tuple[Tuple[str, ...], str]]:
    """Returns the rows of the panel's help: the names of keys, and a sentence."""
    return [(row.shown(), row.panel) for row in ROWS if row.panel]
