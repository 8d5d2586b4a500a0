"""Panels without a terminal, for tests, and the blocks of tests/panel.txt.

A block begins with == and what it shows. Its other lines:
  NAME| TEXT    a line of a file; those before the first block are for all
  $ panel ..    a panel begins, with options of the tool, --size COLUMNSxROWS and <FILE, whose lines it performs
  > LINE        one more line that it performs
  : KEYS        keys that are pressed: characters, and names in angles; then may come turn=N, run=FILE, at=PLACE of the cursor, and
                what they send, as -> STEP, STEP. With a FILE the machine is that of a run of its lines up to this turn
  again: KEYS   the same, of a new panel that begins as the last one
After the beginning and after keys:
  |TEXT         a row of the screen has this text; the next such line is of the row below
  .. or =       ends these; after = is the last row, whole
  ~TEXT         no row has it
  ends          the panel has ended
"""

import argparse
import itertools
import operator
import os
import re

from tests.cases import files_in, marked, part, stored_blocks
from tests.steps import StepCase
from tests.support import Case, program

from pp6600.front.panel.app import Panel
from pp6600.front.panel.logged_session import LoggedSession
from pp6600.language.symbol_options import symbols_from
from pp6600.devices.options import device_of

PROGRAM = program()
LINE = re.compile(r"([a-z.]+\| ?|\$ panel ?|> |: |again: |= |\||~|ends|\.\.)(.*)")
KEYS = re.compile(r"(.*?)(?: turn=([0-7]+))?(?: run=([a-z]+))?(?: at=([A-Z0-7 ]+))?(?: ->(.*))?")
DUMPS = "DUMP PP 0", "DUMP PP 1", "DUMP M 0 0 7777", "DUMP H", "DUMP W", "DUMP CR", "DUMP LP"


def keys_in(text):
    """Returns the keys of a text: names in angles, and characters."""
    return [key[1:-1] if len(key) > 1 else key for key in re.findall(r"<[A-Z][^>]*>|.", text, flags=re.S)]


def press(panel, *keys):
    """Presses keys. Returns the lines of the screen."""
    for key in keys_in("".join(keys)):
        panel.press(key)
    return [line.text for line in panel.screen().lines]


def bottom(panel, *keys):
    """Presses keys, and returns the last line of the screen."""
    return press(panel, *keys)[-1].rstrip()


class PanelCase(Case):
    """A test of panels without a terminal."""

    def panel(self, script="", *options, size=(80, 24), turn=None, symbols=(), sources=(), devices=()):
        """Returns a panel that has performed a script, up to a turn if there is one. Symbols and sources are pairs of a processor
        and a path."""
        names = symbols_from(*([(f"{number:o}", path) for number, path in pairs] for pairs in (symbols, sources)))
        panel = Panel(LoggedSession([PROGRAM, *options], devices), names)
        self.addCleanup(panel.session.close)
        panel.resize(*size)
        panel.perform_script(names.loading(script.splitlines()), turn)
        return panel

    def assert_same(self, wanted, panel, dumps=DUMPS):
        """Fails if two panels have other machines."""
        for dump in dumps:
            self.assertEqual(wanted.session.simulator.ask(dump), panel.session.simulator.ask(dump), dump)


FILES, BLOCKS = stored_blocks("panel.txt")
FILES, BLOCKS = files_in(marked(LINE, FILES), {}), [(title, marked(LINE, lines)) for title, lines in BLOCKS]
OVERWRITTEN, FIRST_PROGRAM, READS, DISPLAYS = map(FILES.get, ("loader", "first", "reads", "displays"))


def lines_up_to(turn, script):
    """Returns the lines of a script up to a turn, with those after it that make no turn."""
    found = []
    for line in script.splitlines():
        turns = int(line.split()[1], 8) if line.startswith("STEP ") else 0
        found += [f"STEP {min(turns, turn):o}"] if min(turns, turn) else [] if turns else [line]
        if turns > turn:
            break
        turn -= turns
    return found


def options():
    """Returns a parser of the options that are not the simulator's."""
    parser = argparse.ArgumentParser()
    parser.add_argument("--size", type=lambda text: tuple(map(int, text.split("x"))), default=(80, 24))
    parser.add_argument("--turn", type=lambda text: int(text, 8))
    for name in "--source", "--symbols":
        parser.add_argument(name, nargs=2, action="append", default=[])
    parser.add_argument("--device", action="append", default=[], type=device_of)
    return parser


class BlockCase(PanelCase, StepCase):
    """Tests of blocks."""

    def begin(self, lines):
        self.addCleanup(os.chdir, os.getcwd())
        os.chdir(self.folder)
        self.place(files_in(lines, FILES), "examples", "tests")

    def steps(self, lines):
        """Returns each panel and its keys, with what is expected after them."""
        lines = [line for line in lines if line[0] == "|" or line[0][-1:] != "|"]
        steps = [at for at, (mark, _) in enumerate(lines) if mark in ("$ panel", ":", "again:")]
        return [(lines[first], lines[first + 1:last]) for first, last in zip(steps, [*steps[1:], len(lines)])]

    def check_step(self, step, expected):
        mark, text = step
        if mark == "$ panel":
            self.begun_by = text.split(), [line for own, line in expected if own == ">"]
        if mark != ":":
            self.shown = self.begun(*self.begun_by)
        panel, before = self.shown, len(self.shown.session.sent)
        keys, turn, run, place, sent = KEYS.fullmatch(text if mark != "$ panel" else "").groups()
        self.compare(press(panel, keys), panel.is_ended, expected)
        self.assertIn(turn and int(turn, 8), (None, panel.session.simulator.turn), "the turn")
        if run:
            self.assert_same(self.panel("\n".join(lines_up_to(int(turn, 8), part(self.folder, run).decode()))), panel)
        self.assertIn(place, (None, panel.view.cursor.short))
        self.assertIn(sent and sent.strip(), (None, ", ".join(panel.session.sent[before:])))

    def begun(self, words, script):
        """Returns the panel of a command."""
        asked, rest = options().parse_known_args([word for word in words if word[0] != "<"])
        lines = ("".join(part(self.folder, word[1:]).decode() for word in words if word[0] == "<")
                 + "".join(f"{line}\n" for line in script))
        pairs = [[(int(number, 8), path) for number, path in some] for some in (asked.symbols, asked.source)]
        return self.panel(lines, *rest, size=asked.size, turn=asked.turn, symbols=pairs[0], sources=pairs[1], devices=asked.device)

    def compare(self, rows, is_ended, expected):
        """Compares a screen with what is expected of it."""
        shown = "\n".join(rows)
        for mark, group in itertools.groupby(expected, lambda line: line[0]):
            texts = [text for _, text in group]
            if mark == "|":
                there = any(all(map(operator.contains, rows[at:], texts)) for at in range(len(rows) - len(texts) + 1))
                self.assertTrue(there, f"{texts} is not there:\n{shown}")
            elif mark == "=":
                self.assertEqual(texts[0], rows[-1].rstrip())
            elif mark == "~":
                self.assertEqual([], [text for text in texts if text in shown])
            elif mark == "ends":
                self.assertTrue(is_ended)
