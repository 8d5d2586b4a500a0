"""The keys of the panel: a key sends lines, moves the cursor, begins a count or a line, or opens a page."""

import os
import re
import time
from typing import Any, Callable, Dict, List, Optional, Tuple

from ...failure import Failure
from ...run.forms import KINDS
from ...run.names import AllSymbols
from ...run.search import Turn
from ...run.searches import last_before, next_found, turn_of_line_before, turn_of_next_line
from ...run.state import Memory
from ...shell.keyboard import FIRST_WORDS, card
from ..keys import ARROWS, PAGES, PANEL
from .display import Display
from .key_lines import LINES, to_turn
from .logged_session import LoggedSession
from .picture_page import devices_that
from .prompt import Prompt

MOST_COUNT_DIGITS = 10
LONG_ANSWER = 2  # lines; a longer answer is shown on a page
MOVES = {*ARROWS.values(), *PAGES}  # actions that move the cursor
NEW_ACTIONS = (["SET"], ["STEP"], ["WATCH"], ["UNWATCH"], ["DEADSTART"])  # the first words of their lines

Find = Callable[..., Optional[Turn]]


class Panel(Display):
    """What a key does. Before it a count may be typed, and after it a line."""

    def __init__(self, session: LoggedSession, symbols: AllSymbols = AllSymbols()) -> None:
        super().__init__(session, symbols)
        self.count = ""
        self.typed: Dict[str, List[str]] = {action: [] for action in PROMPTS}
        self.typed["back-until"] = self.typed["until"]
        self.asked: List[str] = []  # lines that would discard what is ahead
        self.is_asked_to_quit = self.is_ended = False

    # ---- keys

    def press(self, key: str) -> None:
        """Performs a key, by its name."""
        self.shown_at = time.monotonic()
        try:
            if self.asked:
                self.press_when_asked(key)
            elif self.page and key not in self.page.passes:
                self.page = self.page.press(key, self.rows) and self.page or None
            elif self.prompt:
                self.press_in_prompt(self.prompt, key)
            else:
                self.press_alone(key)
        except Failure as failure:
            self.take_failure(failure)
        self.see()

    def press_alone(self, key: str) -> None:
        """Performs a key outside a line and a page."""
        count, self.count, self.message = self.count, "", ""
        asked, self.is_asked_to_quit = self.is_asked_to_quit, False
        action, times = PANEL.get(key, ""), int(count or "1", 8)
        if key.isdecimal() and key.isascii():
            self.add_to_count(count, key)
        elif action == "forget":
            self.message = "" if count else "q quits, ? shows all keys"
        elif action == "quit":
            self.quit(asked)
        elif action in LINES:
            self.send(LINES[action](self.session, self.view, times))
        elif action in MOVES:
            self.view.move(action, times, self.memory_rows(), self.session.size)
        elif action == "turn" and count:
            self.go_to_turn(count)
        elif action in PROMPTS:
            self.prompt = Prompt(action, PROMPTS[action][0], self.typed[action])
        elif action:
            ACTIONS[action](self, times)
        elif key != "Enter":
            self.message = f"no key {key}; ? shows all keys"

    def add_to_count(self, count: str, digit: str) -> None:
        """Adds a digit to the count before a key."""
        if digit in "89":
            raise Failure(f"{digit} is not octal; the count is forgotten")
        self.count = f"{count}{digit}".lstrip("0")[:MOST_COUNT_DIGITS]
        self.message = f"count {self.count}" if self.count else ""

    def quit(self, is_asked: bool) -> None:
        """Ends the panel, at the second time if something that was sent is in no file."""
        self.is_ended = is_asked or self.session.is_saved()
        self.is_asked_to_quit = True
        self.message = "the session is not saved: w FILE saves what was sent, q again quits"

    # ---- lines that are sent

    def send(self, lines: List[str]) -> None:
        """Sends lines, but asks before the first of them discards what is ahead, unless it will be refused."""
        ahead = self.session.simulator.to_redo
        if ahead and lines[0].upper().split()[:1] in NEW_ACTIONS and not self.session.would_refuse(lines[0]):
            self.asked = lines
            raise Failure(f"{lines[0]} discards the {ahead:o} actions ahead: y sends it, any other key does not")
        self.send_at_once(lines)

    def press_when_asked(self, key: str) -> None:
        """Performs the key that says whether what is ahead may be discarded."""
        lines, self.asked = self.asked, []
        if key != "y":
            raise Failure(f"{lines[0]} was not sent")
        self.send_at_once(lines)

    # ---- a line that is typed

    def press_in_prompt(self, prompt: Prompt, key: str) -> None:
        """Performs a key while a line is typed."""
        if key == "Enter":
            self.prompt = None
            prompt.keep()
            PROMPTS[prompt.kind][1](self, prompt.text.strip())
        elif key in ("Escape", "Ctrl-C") or key == "Backspace" and not prompt.text:
            self.prompt = None
        else:
            prompt.press(key)

    def take_console_line(self, text: str) -> None:
        if text.lower() in FIRST_WORDS:
            self.message = f"q quits, ? shows all keys. Card of the console: {card()}."
        elif text:
            self.send([self.symbols.in_digits(text)])
            if self.session.log and len(self.session.log[-1][1]) > LONG_ANSWER:
                self.show_log()

    def go_to(self, text: str) -> None:
        address, words = self.symbols.address(self.view.processor, text), text.split()
        if address is not None:
            self.view.go_to_cell(address)
        elif words:
            place = self.symbols.place_in_digits([words[0].upper(), *words[1:]])
            self.view.go_to(text if place[1:] == words[1:] else " ".join(place), self.session.size)

    def go_to_found(self, text: str, find: Find = next_found) -> None:
        """Goes to the next turn at which a condition comes to hold, or the last one before; without a text, that typed before."""
        run, text = self.session.simulator, text or (self.typed["until"] or [""])[-1]
        if not text:
            raise Failure("give a condition, as P 0 = 105 or M 0 106 changes")
        found = find(self.session, text, self.symbols, self.report_search)
        if found is None:
            new = f"in turns {run.turn + 1:o} to {run.tape.turns + self.session.most_new:o}"
            raise Failure(f"NONE: {text}, {new if find is next_found else f'before turn {run.turn:o}'}")
        self.show_turn(found.turn, found.text(self.symbols))

    def go_by_lines(self, find: Callable[..., int], count: int) -> None:
        """Goes on to where the chosen processor begins another line of its source; or back to where it began the line that it is
        in, or the one before."""
        source = self.source()
        turn = find(self.session, self.view.processor, source, count, self.report_search)
        self.send(to_turn(self.session.simulator, turn))

    def press_keys(self, text: str) -> None:
        """Presses keys of the first device that has some."""
        session, devices = self.session, devices_that(self.session, "told")
        if not devices:
            raise Failure("no device has keys; --device console_display@10 is one that has some")
        if session.simulator.to_redo:
            raise Failure(f"a key would discard the {session.simulator.to_redo:o} actions ahead: > goes to the newest")
        session.tell(devices[0][0], text.replace("\\r", "\r"))

    def search(self, text: str) -> None:
        """Moves the cursor to the next words of this kind; without a text, of the kind that was searched before."""
        text, view, state = text or (self.typed["search"] or [""])[-1], self.view, self.session.state
        words, is_central = text.split(), view.pane == "central"
        most = KINDS["C" if is_central else "M"].digits
        if not words or any(not re.fullmatch("[0-7]+", word) or len(word.lstrip("0")) > most for word in words):
            raise Failure(f"{text or 'nothing'} can't be searched: give octal words, as 7512 0100")
        if is_central and len(words) > 1:
            raise Failure("in central memory one word is searched at a time")
        memory = Memory(state.central) if is_central else state.memories[view.processor]
        found = memory.find([int(word, 8) for word in words], 1 + (view.word if is_central else view.cell))
        if found is None:
            raise Failure(f"{text} is not there")
        kind, number = ("C", found) if is_central else ("M", view.processor)
        view.go_to_place(kind, number, found)

    def save(self, text: str) -> None:
        over = text.startswith("!")
        path = text[over:].strip()
        if not path:
            raise Failure("w FILE saves what was sent: name a file")
        self.session.save(os.fsdecode(path.encode("latin-1")), over)
        later = self.session.simulator.to_redo - self.session.simulator.ahead
        without = f", without the last {later:o} actions ahead" if later else ""
        self.message = f"{len(self.session.sent)} (decimal) lines are saved in {path}{without}"


# Of each action that begins a line what is asked, and what is done with the line that is typed.
PROMPTS: Dict[str, Tuple[str, Callable[[Panel, str], None]]] = {
    "line": ("> ", Panel.take_console_line), "place": ("go to ", Panel.go_to), "turn": ("turn ", Panel.go_to_turn),
    "until": ("until ", Panel.go_to_found), "back-until": ("back until ", lambda panel, text: panel.go_to_found(text, last_before)),
    "search": ("search ", Panel.search), "save": ("w ", Panel.save), "keys": ("keys ", Panel.press_keys)}
# What the others do, with the count before their key.
ACTIONS: Dict[str, Callable[[Panel, int], Any]] = {
    "again": lambda panel, count: panel.go_to_found(""), "back-again": lambda panel, count: panel.go_to_found("", last_before),
    "next-change": lambda panel, count: panel.go_to_found(f"{panel.view.cursor.short} changes"),
    "change-before": lambda panel, count: panel.go_to_found(f"{panel.view.cursor.short} changes", last_before),
    "next-line": lambda panel, count: panel.go_by_lines(turn_of_next_line, count),
    "line-before": lambda panel, count: panel.go_by_lines(turn_of_line_before, count),
    "next-part": lambda panel, count: panel.view.next_pane(1), "part-before": lambda panel, count: panel.view.next_pane(-1),
    "processor-before": lambda panel, count: panel.view.choose_processor(panel.view.processor - count),
    "next-processor": lambda panel, count: panel.view.choose_processor(panel.view.processor + count),
    "processor-in-slot": lambda panel, count: panel.view.choose_processor(panel.session.state.slot),
    "follow": lambda panel, count: setattr(panel.view, "following",
                                           True), "instructions": lambda panel, count: panel.view.toggle_program(),
    "display-code": lambda panel, count: panel.view.toggle_program(True), "source": lambda panel, count: panel.toggle_source(),
    "central": lambda panel, count: panel.toggle_central(), "origin": lambda panel, count: panel.show_origin(),
    "calls": lambda panel, count: panel.show_calls(), "pictures": lambda panel, count: panel.show_pictures(),
    "log": lambda panel, count: panel.show_log(), "help": lambda panel, count: panel.show_keys(),
}
