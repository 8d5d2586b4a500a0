"""The terminal of the panel: keys in, screens out. All that is shown and all that a key does the panel decides."""

from __future__ import annotations

import curses
import functools
import locale
import operator
import os
import select
import signal
import sys
import time
from contextlib import suppress
from typing import Dict, List, Optional, Sequence, Tuple

from ...devices.pictures import BRAILLE
from ...failure import Failure
from .app import Panel
from .text import CHANGED, CHOSEN, CURSOR, CUT, CUT_IN_ASCII, HEAD, HERE, OVERWRITTEN, REFUSED, SLOT, TITLE, WATCHED, MarkedLine

ESCAPE_DELAY = 20  # milliseconds in which the rest of a key's sequence comes
IN_ASCII = {ord(CUT): CUT_IN_ASCII, **dict.fromkeys(range(BRAILLE, BRAILLE + 0o400), ".")}
BETWEEN_DRAWINGS = 0.03  # seconds, while more keys are waiting
# The names of keys by their codes: of characters, and of keys that curses knows.
KEYS = {**{code: f"Ctrl-{chr(code + 64)}" for code in range(1, 32)}, **{code: chr(code) for code in range(32, 256)},
        curses.KEY_UP: "Up", curses.KEY_DOWN: "Down", curses.KEY_LEFT: "Left", curses.KEY_RIGHT: "Right",
        curses.KEY_PPAGE: "Page Up", curses.KEY_NPAGE: "Page Down", curses.KEY_HOME: "Home", curses.KEY_END: "End",
        curses.KEY_BTAB: "Shift-Tab", curses.KEY_BACKSPACE: "Backspace", curses.KEY_DC: "Delete", curses.KEY_ENTER: "Enter",
        8: "Backspace", 9: "Tab", 10: "Enter", 13: "Enter", 27: "Escape", 127: "Backspace"}
SUSPEND, REDRAW, INTERRUPT, RESIZE = "Ctrl-Z", "Ctrl-L", "Ctrl-C", "Resize"
OF_TERMINAL = (SUSPEND, REDRAW, RESIZE)  # keys that the panel does not know
# The keys that signals are as; others end the panel.
SIGNALS: Dict[int, str] = {signal.SIGWINCH: RESIZE, signal.SIGCONT: RESIZE, signal.SIGTSTP: SUSPEND, signal.SIGINT: INTERRUPT}
ENDS = (signal.SIGTERM, signal.SIGHUP)
# How each mark looks, and with colours its colour and how it looks beside.
LOOKS = {TITLE: curses.A_REVERSE, HEAD: curses.A_BOLD, SLOT: curses.A_BOLD, CHOSEN: curses.A_REVERSE, CURSOR: curses.A_REVERSE,
         CHANGED: curses.A_BOLD, WATCHED: curses.A_UNDERLINE, HERE: curses.A_BOLD, REFUSED: curses.A_BOLD,
         OVERWRITTEN: curses.A_BOLD}
COLOURS: Dict[str, Tuple[int, int]] = {
    SLOT: (curses.COLOR_GREEN, curses.A_BOLD), HERE: (curses.COLOR_GREEN, curses.A_BOLD),
    CHANGED: (curses.COLOR_RED, curses.A_BOLD), REFUSED: (curses.COLOR_RED, curses.A_BOLD),
    HEAD: (curses.COLOR_CYAN, curses.A_BOLD), OVERWRITTEN: (curses.COLOR_YELLOW, curses.A_NORMAL)}


def check() -> None:
    """Raises Failure if there is no terminal that can show a screen."""
    if sys.stdin is None or not sys.stdin.isatty() or not sys.stdout.isatty():
        raise Failure("standard input and output must be a terminal; for a script alone there is the tool show")
    name = os.environ.get("TERM", "")
    try:
        curses.setupterm(name or "unknown", sys.stdout.fileno())
        can_move = curses.tigetstr("cup") and curses.tigetstr("clear")
    except curses.error:
        can_move = None
    if not can_move:
        raise Failure(f"a terminal of the kind {name or '(TERM is not set)'} can't show a screen; set TERM, or use the tool talk")


class Terminal:
    """A terminal under curses, with a panel. Use it in a `with` statement, which puts the terminal back whatever happens."""

    def __init__(self, panel: Panel) -> None:
        self.panel = panel
        self.signalled: List[str] = []  # keys of signals
        self.pending: List[str] = []  # and keys that are still to be performed
        self.drawn = 0.0
        panel.is_stopped, panel.show = self.is_stopped, self.draw

    def __enter__(self) -> Terminal:
        self.reading, self.writing = os.pipe()
        for end in (self.reading, self.writing):
            os.set_blocking(end, False)
        signal.set_wakeup_fd(self.writing, warn_on_full_buffer=False)
        for number in (*SIGNALS, *ENDS):
            signal.signal(number, self.take_signal)
        os.environ.setdefault("ESCDELAY", str(ESCAPE_DELAY))
        self.window = curses.initscr()
        curses.noecho()
        curses.raw()
        self.window.keypad(True)
        self.window.nodelay(True)
        self.looks = looks()
        self.in_ascii = {} if has_utf8() else IN_ASCII
        return self

    def __exit__(self, *what: object) -> None:
        signal.set_wakeup_fd(-1)
        with suppress(curses.error):
            curses.endwin()

    def take_signal(self, number: int, frame: object) -> None:
        """Takes a signal as a key, or ends the panel at once."""
        if number in ENDS:
            sys.exit(128 + number)
        self.signalled.append(SIGNALS[number])

    def suspend(self) -> None:
        """Gives the terminal back to the shell until the panel is continued."""
        curses.endwin()
        signal.signal(signal.SIGTSTP, signal.SIG_DFL)
        os.kill(0, signal.SIGTSTP)
        signal.signal(signal.SIGTSTP, self.take_signal)
        self.window.refresh()

    def resize(self) -> None:
        """Tells curses and the panel the terminal's columns and rows. All is to be drawn anew then."""
        try:
            size = os.get_terminal_size(sys.stdout.fileno())
        except OSError as error:
            raise Failure(f"the terminal is gone: {error.strerror}") from error
        columns, rows = size.columns or 80, size.lines or 24
        curses.resizeterm(rows, columns)
        self.window.clear()
        self.panel.resize(columns, rows)

    # ---- out

    def draw(self) -> None:
        screen = self.panel.screen()
        self.window.erase()
        for row, line in enumerate(screen.lines):
            self.draw_line(row, line)
        with suppress(curses.error):  # the terminal has just become smaller
            self.window.move(*screen.cursor)
        self.window.refresh()
        self.drawn = time.monotonic()

    def draw_line(self, row: int, line: MarkedLine) -> None:
        """Draws a line. A part of it has the looks of all its marks."""
        with suppress(curses.error):  # after the last character of a screen the cursor has no place
            self.window.addstr(row, 0, line.text.translate(self.in_ascii))
        for start, end, _ in line.marks:
            marks = (mark for first, last, mark in line.marks if first <= start and end <= last)
            with suppress(curses.error):
                self.window.chgat(row, start, end - start, functools.reduce(operator.or_, (self.looks[mark] for mark in marks)))

    # ---- in

    def run(self) -> None:
        """Performs keys until one ends the panel. While more of them wait, not every state is drawn."""
        self.draw()
        while not self.panel.is_ended:
            self.take_keys(None)
            while self.pending and not self.panel.is_ended:
                self.panel.press(self.pending.pop(0))
                self.take(self.typed_keys())
                if not self.pending or time.monotonic() - self.drawn > BETWEEN_DRAWINGS:
                    self.draw()

    def take_keys(self, seconds: Optional[float]) -> None:
        """Takes the keys that come in so many seconds (None: however long)."""
        keys = self.typed_keys()
        if not keys:
            self.wait(seconds)
        self.take(keys or self.typed_keys())

    def typed_keys(self) -> List[str]:
        """Returns the keys that were typed so far, those of signals first."""
        keys, self.signalled = self.signalled, []
        while (code := self.window.getch()) != -1:
            keys += [KEYS[code]] if code in KEYS else []
        return keys

    def take(self, keys: Sequence[str]) -> None:
        """Performs those keys that are the terminal's own, and keeps the others."""
        self.pending += [key for key in keys if key not in OF_TERMINAL]
        if SUSPEND in keys:
            self.suspend()
        if not set(OF_TERMINAL).isdisjoint(keys):
            self.resize()
            self.draw()

    def is_stopped(self) -> bool:
        """Returns whether Ctrl-C was typed while the simulator is busy; keeps the other keys."""
        self.take_keys(0)
        is_stopped = INTERRUPT in self.pending
        self.pending = [] if is_stopped else self.pending
        return is_stopped

    def wait(self, seconds: Optional[float]) -> None:
        """Waits for a key or a signal."""
        poll = select.poll()
        for number in (sys.stdin.fileno(), self.reading):
            poll.register(number, select.POLLIN)
        ready = dict(poll.poll(None if seconds is None else 1000 * seconds))
        if self.reading in ready:
            os.read(self.reading, 4096)
        if ready.get(sys.stdin.fileno(), 0) & (select.POLLHUP | select.POLLERR | select.POLLNVAL):  # it was closed at its other end
            raise Failure("the terminal is gone")


def looks() -> Dict[str, int]:
    """Returns how each mark looks: with colours, if the terminal has them and NO_COLOR is not set."""
    if not has_colours():
        return LOOKS
    for colour, _ in COLOURS.values():
        curses.init_pair(colour, colour, -1)
    return {**LOOKS, **{mark: curses.color_pair(colour) | beside for mark, (colour, beside) in COLOURS.items()}}


def has_utf8() -> bool:
    """Returns whether the terminal is said to show UTF-8. LC_CTYPE does not say it: Python sets it in the locale C."""
    name = os.environ.get("LC_ALL") or os.environ.get("LANG") or ""
    return locale.nl_langinfo(locale.CODESET).upper() == "UTF-8" and "UTF8" in name.upper().replace("-", "")


def has_colours() -> bool:
    if os.environ.get("NO_COLOR"):
        return False
    try:
        curses.start_color()
        curses.use_default_colors()
    except curses.error:
        return False
    return curses.has_colors() and curses.COLORS >= 8


def run(panel: Panel, script: Sequence[str], turn: Optional[int] = None) -> None:
    """Shows a panel that performs a script, goes to a turn, and then performs keys."""
    with Terminal(panel) as terminal:
        terminal.resize()
        panel.perform_script(script, turn)
        terminal.run()
