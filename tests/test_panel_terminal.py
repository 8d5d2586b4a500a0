"""The whole panel in a terminal, and what talk answers there to a newcomer."""

import os
import re
import shlex
import signal
import sys
import unittest

from tests.cases import stored
from tests.fixtures import DECK, LOADER
from tests.panels import DISPLAYS, OVERWRITTEN, PROGRAM, READS, PanelCase, press
from tests.support import PYTHON, TOP, add_tests, read, run, write
from tests.terminal import IS_HERE, PATIENCE, Terminal

TOOL = [*PYTHON, os.path.join(TOP, "tools", "panel")]
UTF8, ASCII = {"LC_ALL": "C.UTF-8"}, {"LC_ALL": "C"}


@unittest.skipUnless(IS_HERE, "there is no tmux")
class TerminalCase(PanelCase):
    def terminal(self, words, **how):
        """Returns a terminal in which a command runs, to the end of the test at most."""
        terminal = Terminal(words, **how)
        self.addCleanup(terminal.close)
        return terminal

    def started(self, *words, **how):
        """Returns a terminal with a panel that waits for keys."""
        terminal = self.terminal([*TOOL, "--program", PROGRAM, *words], **how)
        self.assert_shows(terminal, "q quit")
        return terminal

    def assert_shows(self, terminal, text):
        self.assertTrue(terminal.shows(text), f"{text!r} is not shown:\n" + "\n".join(terminal.text()))

    def assert_same_screen(self, terminal, lines):
        """Waits until the terminal shows these lines. It is not looked at again: after a suspension all is drawn twice."""
        wanted, seen = [line.rstrip() for line in lines], []
        terminal.wait_until(lambda one: seen.append(one.text()) or seen[-1] == wanted)
        self.assertEqual(wanted, seen[-1])

    def walk(self, terminal, *steps):
        """Types each text, and waits until what is beside it is shown: a text in a row, or a whole screen."""
        for typed, shown in steps:
            terminal.type(typed)
            (self.assert_shows if isinstance(shown, str) else self.assert_same_screen)(terminal, shown)

    def check_end(self, terminal, typed="qq"):
        terminal.type(typed)
        self.assertEqual(0, terminal.status())


class Screens(TerminalCase):
    def test_same_screens(self):
        """What the terminal shows is what the function says, at three sizes, in colours and without."""
        script = self.file(OVERWRITTEN)
        typed = {"g106\rW": "g106<Enter>W", "SsbB": "SsbB", "\t\t\x1bOA": "<Tab><Tab><Up>", ":DUMP W\r": ":DUMP W<Enter>",
                 "gM 0 60\r": "gM 0 60<Enter>"}
        for kind, columns, rows, environment, mark in (
                ("xterm-256color", 80, 24, UTF8, "\u2026"), ("vt100", 80, 24, ASCII, ">"), ("xterm", 120, 40, UTF8, "\u2026"),
                ("xterm", 120, 40, ASCII, ">"), ("xterm", 120, 40, {"LC_ALL": "", "LC_CTYPE": "", "LANG": ""}, ">"),
                ("screen", 200, 60, UTF8, "\u2026")):
            with self.subTest(kind, columns=columns, environment=environment):
                terminal = self.started("--deck", DECK, script, kind=kind, columns=columns, rows=rows, environment=environment)
                panel = self.panel(OVERWRITTEN, "--deck", DECK, size=(columns, rows))
                for text, keys in typed.items():
                    self.walk(terminal, (text, [line.replace("\u2026", mark) for line in press(panel, keys)]))
                if columns == 120:
                    self.assert_shows(terminal, f"7112 6{mark}")
                self.assertEqual(kind != "vt100", terminal.colours() != set())
                self.check_end(terminal)

    def test_source(self):
        """A source, with colours: its present line and what has overwritten it; and steps by lines."""
        words, pairs = ("--deck", DECK, "--source", "0", LOADER), [(0, LOADER)]
        for columns, rows, kind in (80, 24, "xterm-256color"), (160, 50, "xterm"):
            terminal = self.started(*words, self.file("STEP 1300\n"), columns=columns, rows=rows, kind=kind)
            panel, colours = self.panel("STEP 1300\n", "--deck", DECK, size=(columns, rows), sources=pairs), set()
            for text, keys in {"C": "C", "CG405\r": "CG405<Enter>", "PN": "PN", "mi": "mi", "m1G": "m1G"}.items():
                with self.subTest(text, columns=columns):
                    self.walk(terminal, (text, press(panel, keys)))
                colours |= terminal.colours()
            self.assertEqual(set(), {32, 33, 36} - colours)

    def test_pictures(self):
        """Without UTF-8 a braille symbol is a dot."""
        for environment, begin in (UTF8, "\u2846"), (ASCII, "."):
            words = "--device", "console_display@10", self.file(DISPLAYS)
            terminal = self.started(*words, columns=160, rows=50, environment=environment)
            self.walk(terminal, ("200sv", "closes this page"))  # the last line, which is written last
            self.assertEqual(begin, terminal.lines()[2].strip()[:1])
            self.walk(terminal, ("\x1b", "q quit"))

    def test_device(self):
        terminal = self.started("--device", f"paper_tape:{self.file('AB')}@11", self.file(READS))
        self.walk(terminal, ("", "TURN 200"), ("63G", "TURN 63"), ("q", "q again quits"))
        self.check_end(terminal, "q")

    def test_search_of_lines(self):
        """A processor that counts in one line: a search that has no end soon. Ctrl-C stops it."""
        source = self.file("COUNT MACRO\nMORE AOD 20B\n  UJN MORE\n  ENDM\n  ORG 100B\nSTART COUNT\n  END START\n")
        terminal = self.started("--source", "0", source, self.file("STEP 1000\n"))
        self.walk(terminal, ("N", "Ctrl-C stops"), ("\x03", "the search was stopped"))

    def test_resize(self):
        """A terminal that is made larger, too small, and large again."""
        terminal, panel = self.started("--deck", DECK, self.file(OVERWRITTEN)), self.panel(OVERWRITTEN, "--deck", DECK)
        for columns, rows in (120, 40), (79, 24), (20, 5), (100, 30), (80, 24):
            terminal.resize(columns, rows)
            panel.resize(columns, rows)
            with self.subTest(columns=columns, rows=rows):
                self.assert_same_screen(terminal, press(panel))
        os.kill(terminal.pid, signal.SIGTERM)
        self.assertEqual(128 + signal.SIGTERM, terminal.status())

    def test_interrupts(self):
        """Ctrl-C does not end it; a suspension with fg gives the terminal back as it was."""
        terminal = self.terminal(["bash", "--norc", "-i"], folder=TOP, environment={"PS1": "ready$ ", "HISTFILE": ""})
        terminal.shows("ready$")
        words = [sys.executable, "tools/panel", "--program", PROGRAM, "--deck", DECK, self.file(OVERWRITTEN)]
        stepped = press(self.panel(OVERWRITTEN, "--deck", DECK), "s")
        self.walk(terminal, (f"{shlex.join(words)}\r", "q quit"), ("12\x03", "s step"), ("s", stepped), ("\x1a", "ready$"),
                  ("echo $((6 * 7))\r", "42"), ("fg\r", stepped), ("b", "> BACK  "), ("qq", "ready$"),
                  ("echo status $?\r", "status 0"))
        terminal.type("exit\r")
        terminal.status()

    def test_plain(self):
        """LANG=C and NO_COLOR: ASCII alone, and no colours. A hang-up ends it."""
        terminal = self.started("--deck", DECK, self.file(OVERWRITTEN), kind="xterm-256color",
                                environment={**ASCII, "LANG": "C", "NO_COLOR": "1"})
        self.walk(terminal, ("?", "The keys"), ("q:na\xefve\r", "ERR 06 NOT ASCII"))
        self.assertTrue("".join(terminal.text()).isascii())
        self.assertEqual(set(), terminal.colours())
        self.assertTrue(terminal.hang_up(), "it goes on in a terminal that was closed")

    def test_fast_typing(self):
        """Keys that come faster than they are performed are not lost."""
        terminal = self.started()
        self.walk(terminal, ("1000000s" + "b" * 200, "AHEAD 310 "))
        self.check_end(terminal)


class Talk(TerminalCase):
    """The cases of tests/talk.txt."""

    TALK = [*PYTHON, os.path.join(TOP, "tools", "talk"), "--program", PROGRAM]

    def check(self, case):
        """Types lines, each after a prompt, and ends it. The terminal may show an interrupt as ^C."""
        wanted, saved = case.out.decode(), case.files.pop("saved", None)
        for name, data in case.files.items():
            write(self.path(name), data)
        os.symlink(os.path.join(TOP, "tests"), self.path("tests"))
        terminal = self.terminal([*self.TALK, *case.words], kind="dumb", columns=132, rows=40, folder=self.folder)
        for text in [f"{line}\r" for line in re.findall("^[0-7]+> (.+)$", wanted, re.M)] + ["\x04"]:
            self.assertTrue(terminal.wait_until(lambda one: re.fullmatch("[0-7]+>", (one.lines() or [""])[-1])), terminal.lines())
            shown = len(terminal.lines())
            terminal.type(text)
            terminal.wait_until(lambda one: len(one.lines()) > shown, 1 if text == "\x04" else PATIENCE)
        status = terminal.status()
        shown = "".join(f"{line}\n" for line in terminal.lines()).replace("^C", "")
        self.assertEqual((re.sub("\x03", "", wanted), case.status), (shown, status))
        if saved is not None:
            self.assertEqual(saved.decode(), read(self.path("saved")))

    def test_over_a_pipe(self):
        """There help is a line like any other."""
        self.assertEqual("> help\nERR 01 NOT A COMMAND\n", run(*self.TALK, script="help\n").out)


add_tests(Talk, Talk.check, [(case.name, case) for case in stored("talk.txt")])
