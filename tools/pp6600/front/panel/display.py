"""What a panel shows: a session, what of it is looked at, and the pages. It performs lines, and goes to turns."""

import re
import time
from typing import Any, Callable, Optional, Sequence

from ...failure import Failure
from ...language.calls import calls, sentence
from ...language.origin_text import MOST_STEPS, origin_rows
from ...run.device import DeviceFailure
from ...run.names import AllSymbols
from ...run.searches import Stopped
from ...run.session import REPLAYED
from ...run.tape import Position
from .key_lines import help_lines
from .logged_session import LoggedSession
from .picture_page import PicturePage
from .prompt import Prompt
from .remarks import in_width, remarks
from .screen import LEAST_COLUMNS, LEAST_ROWS, Screen, ScreenContent, folded_processors, is_too_small, layout, log_lines, screen
from .text import MarkedLine
from .text_page import TextPage
from .view import View


class Display:
    """A session as it is shown. What is said of it is the message, in the last line."""

    def __init__(self, session: LoggedSession, symbols: AllSymbols = AllSymbols()) -> None:
        """The symbols are the labels and the texts of listings, for each processor."""
        self.session, self.symbols = session, symbols
        self.view = View(processor=next((number for number, _ in symbols.sources()), 0))
        self.columns, self.rows = LEAST_COLUMNS, LEAST_ROWS
        self.message = ""
        self.prompt: Optional[Prompt] = None
        self.page: Optional[TextPage] = None
        self.show: Callable[[], object] = lambda: None  # draws the screen
        self.is_stopped: Callable[[], bool] = lambda: False  # by the operator
        self.shown_at, self.between_reports = 0.0, 0.2  # seconds
        self.see()

    # ---- what is shown

    def resize(self, columns: int, rows: int) -> None:
        self.columns, self.rows = columns, rows
        self.see()

    def memory_rows(self) -> int:
        folded = folded_processors(self.columns, self.session.state, self.session.before, self.view)
        return layout(self.columns, self.rows, self.view.is_by_rows, len(folded)).memory

    def source(self, is_needed: bool = True) -> Any:
        """Returns the source of the chosen processor, if it has one; else None, or a failure if an action needs it."""
        number, sources = self.view.processor, dict(self.symbols.sources())
        if is_needed and number not in sources:
            raise Failure(f"PP {number:02o} has no source: the option --source {number:o} FILE loads one")
        return sources.get(number)

    def see(self) -> None:
        """Moves the windows to their cursors."""
        if not is_too_small(self.columns, self.rows):
            self.view.source = self.source(False) if self.view.as_source else None
            self.view.scroll(self.session.state, self.memory_rows(), self.session.size)

    def screen(self) -> Screen:
        if self.page:
            return self.page.screen(self.columns, self.rows)
        session, run = self.session, self.session.simulator
        content = ScreenContent(session.state, session.before, self.view, run.turn, run.kept, run.to_redo, session.size,
                                session.log, self.message, self.prompt.shown() if self.prompt else None, self.symbols)
        return screen(content, self.columns, self.rows)

    # ---- pages, and what else sends nothing

    def toggle_source(self) -> None:
        """Shows the source, or the cells."""
        self.view.as_source = bool(self.source()) and not self.view.as_source

    def toggle_central(self) -> None:
        """Shows central memory beside the source, or no longer."""
        if self.source() and self.view.source is None:
            raise Failure("central memory is beside the cells; m shows the source")
        self.view.toggle_central()

    def show_log(self) -> None:
        self.page = TextPage("All lines and answers", log_lines(self.session.log), at_end=True)

    def show_keys(self) -> None:
        self.page = TextPage("The keys of the panel", list(map(MarkedLine, help_lines())))

    def show_origin(self) -> None:
        """Opens the page of where the number at the cursor came from. Enter goes to before the action that wrote the number of a
        step."""
        simulator, place = self.session.simulator, self.view.cursor

        def searched(reached: Position) -> None:
            self.report_search(simulator.tape.turn(reached), f" of {simulator.turn:o}")

        with self.session.simulator.search() as run:
            rows = origin_rows(run, place, simulator.position, MOST_STEPS, False, searched, symbols=self.symbols)

        def go_before(at: int) -> None:
            self.page, (step, text) = None, rows[at]
            if not (step and step.position):
                raise Failure(f"nothing wrote it: {text.strip()}")
            self.send_at_once([f"BACK {simulator.over(simulator.position - step.position + 1):o}"])

        title, lines = f"Where the number at {place.text} came from", [MarkedLine(text) for _, text in rows]
        self.page = TextPage(title, lines, choose=go_before, closes="c")

    def show_calls(self) -> None:
        """Opens the page of the subroutines that the chosen processor is in."""
        number, source = self.view.processor, self.source()
        with self.session.simulator.search() as run:
            found = calls(run, number, source, self.session.simulator.position)
            lines = [MarkedLine(sentence(run, number, call, self.symbols)) for call in found]
        none = [MarkedLine("none that was called and has not returned")]
        self.page = TextPage(f"The subroutines that PP {number:02o} is in", lines or none)

    def show_pictures(self) -> None:
        page = PicturePage(self)
        if not page.devices:
            raise Failure("no device shows a picture; --device console_display@10 is one that does")
        self.page = page

    # ---- lines that are sent, and turns

    def perform_script(self, lines: Sequence[str], turn: Optional[int] = None) -> None:
        """Performs the lines of a script, and goes to the turn if there is one."""
        try:
            whole = self.session.perform_script(lines, self.stops)
            self.message = "" if whole else f"the script was stopped after {len(self.session.sent)} (decimal) lines"
            if whole and turn is not None:
                self.go_to_turn(f"{turn:o}")
        except DeviceFailure as failure:
            self.take_failure(failure)
        self.see()

    def stops(self, done: int, total: int) -> bool:
        """Shows now and then how many lines are done. Returns whether the operator stops them."""
        self.report(f"{done} of {total} (decimal) lines are done; Ctrl-C stops after the next one")
        return self.is_stopped()

    def report(self, text: str) -> bool:
        """Shows a text, if the last one was shown a while ago. Returns whether it did."""
        if time.monotonic() - self.shown_at <= self.between_reports:
            return False
        self.message = text
        self.show()
        self.shown_at = time.monotonic()
        return True

    def report_search(self, turn: int, whole: str = "") -> None:
        """Shows now and then how far a search is, and ends it if the operator stops it; of one back it is said how many turns
        the `whole` run has."""
        if self.report(f"searched {whole and 'back '}to turn {turn:o}{whole}; Ctrl-C stops") and self.is_stopped():
            raise Stopped

    def send_at_once(self, lines: Sequence[str]) -> None:
        """Sends lines, and shows what is to be said about them."""
        outcome = self.session.perform(lines, self.stops)
        self.message = in_width(remarks(self.session, outcome, self.view.cursor, self.symbols), self.columns)

    def go_to_turn(self, text: str) -> None:
        """Goes to a turn that was made."""
        if not re.fullmatch("[0-7]{1,20}", text):
            raise Failure(f"{text or 'nothing'} is no turn: give an octal number, as 405")
        turn, last = int(text, 8), self.session.simulator.tape.turns
        if turn > last:
            raise Failure(f"there is no turn {turn:o} yet: the last one is {last:o}")
        self.show_turn(turn)

    def show_turn(self, turn: int, *said: str) -> None:
        """Goes to a turn, and shows what is to be said of it."""
        replays = self.session.simulator.replays
        self.session.to_turn(turn)
        more = [f"{REPLAYED} in a fresh simulator"] if self.session.simulator.replays > replays else []
        self.message = in_width([*said, *more], self.columns)

    def take_failure(self, failure: Failure) -> None:
        """Shows why something can't be done. If a device failed, the machine is where it was."""
        self.message = str(failure)
        if isinstance(failure, DeviceFailure):
            self.session.look_again()
