"""The panel without a terminal: the blocks of tests/panel.txt and of docs/PANEL.md, and what these can't show. Expected values are
those of README.md, docs/TUTORIAL.md, docs/TOOLS.md, docs/PYTHON.md and docs/PANEL.md."""

import os
import re

from tests.fixtures import DECK, LOADER
from tests.panels import BLOCKS, FIRST_PROGRAM, OVERWRITTEN, BlockCase, PanelCase, bottom, press
from tests.support import EXAMPLES, TOP, Case, add_tests, blocks, read, tool

from pp6600 import Console, Failure
from pp6600.engine.plain import places
from pp6600.engine.plain.lines import SYMBOLS
from pp6600.front import keys
from pp6600.front.panel.screen import ScreenContent, layout, screen, small_screen
from pp6600.front.panel.text import CHANGED, CURSOR, HERE, OVERWRITTEN as OVER, REFUSED
from pp6600.front.panel.view import View, memory_top
from pp6600.run.state import state_of

LOADED = "--deck", DECK
PROGRAMS = os.path.join(TOP, "tests", "programs")
# By the tables of docs/MACHINE.md: in which states of its channel each instruction completes, and each block goes on or ends, and
# what it waits for.
COMPLETES = {0o70: ("F", "full"), 0o72: ("E", "empty"), 0o74: ("I", "inactive"), 0o75: ("EFX", "active"), 0o76: ("I", "inactive"),
             0o77: ("I", "inactive")}
BLOCKS_GO_ON = {0o71: ("IF", "full"), 0o73: ("IE", "empty")}


class Blocks(BlockCase):
    """The blocks of tests/panel.txt."""


add_tests(Blocks, Blocks.check, BLOCKS)


def source_panel(case, script="STEP 1300\n", *options, source=LOADER, number=0, **how):
    """Returns a panel with a source, else the loader that overwrites itself."""
    return case.panel(script, *(options or LOADED), sources=[(number, source)], **how)


# ---- what a state looks like

def state_with(numbers=()):
    """Returns the state of a machine of the simulator in Python with some numbers at their places."""
    console = Console(["plain"])
    for place in numbers:
        console.engine.machine.numbers[place] = numbers[place]
    return state_of(console, with_central=True)


def texts(state, before=None, size=(80, 24), **more):
    return [line.text for line in screen(ScreenContent(state, before or state, View(), **more), *size).lines]


class States(Case):
    def test_each_wait(self):
        """docs/TOOLS.md and docs/MACHINE.md: in which states each instruction waits, and for what."""
        cases = [(f"{code:o}", f"{code:o}03" if of_block else "0000", letter, "" if letter in completes else f"03 {name}")
                 for of_block, table in enumerate((COMPLETES, BLOCKS_GO_ON))
                 for code, (completes, name) in table.items() for letter in "IEFX"]
        for code, phase, letter, wanted in cases:
            state = state_with({places.P + 4: 0o100, places.A + 4: 2, places.PHASE + 4: int(phase, 8),
                                places.place_of("M", 4, 0o100): int(f"{code}03", 8), places.STATE + 3: "IEFX".index(letter)})
            with self.subTest(f"{code} on a channel {letter}"):
                self.assertEqual(wanted, state.processors[4].waits_for(state.states()))
        for word, wanted in (0o7214, "14 never"), (0o7014, ""), (0o7514, ""), (0o7777, "77 never"):
            state = state_with({places.place_of("M", 0, 0): word})
            self.assertEqual(wanted, state.processors[0].waits_for(state.states()), f"{word:o}")

    def test_paper(self):
        """The paper has as many lines as there is room for, the last ones."""
        text = "".join(f"LINE {number}\n" for number in range(9))
        symbols = {places.PAPER + at: f"{SYMBOLS}\n".index(symbol) for at, symbol in enumerate(text)}
        lines = texts(state_with({**symbols, places.PAPER_LENGTH: len(text)}), size=(80, 40))
        paper = [line[14:].rstrip() for line in lines if re.match(r"(PAPER.{9}|.{14})\|LINE", line)]
        self.assertEqual([f"|LINE {number}" for number in range(9 - layout(80, 40).paper, 9)], paper)

    def test_idle(self):
        """No star is beside the P of a processor that only passes through words 0000. The slot and the clock say how many
        turns it had. Cell 0100 has another word."""
        for what, turns, moves, wanted in (
                ("a turn", 1, {0: ("0000", "0001")}, ""), ("a round", 10, {0: ("0000", "0001"), 9: ("0000", "0001")}, ""),
                ("two rounds", 20, {0: ("7777", "0001"), 4: ("0000", "7777")}, "4"), ("two cells", 1, {0: ("0000", "0002")}, "0"),
                ("not its turn", 1, {1: ("0000", "0001")}, "1"), ("SET P", 0, {7: ("0000", "0001")}, "7"),
                ("A too", 1, {0: ("0000", "0001 A 000001")}, "0"), ("another word", 10, {3: ("0077", "0100")}, "3"),
                ("past another word", 50, {3: ("0076", "0103")}, "3")):
            states = []
            for at in range(2):
                numbers = {places.SLOT: turns % 10 * at, places.CLOCK: turns // 10 * at}
                for number, ends in moves.items():
                    p, *a = ends[at].split(" A ")
                    numbers.update({places.place_of("M", number, 0o100): 0o2400, places.P + number: int(p, 8),
                                    places.A + number: int(*a, 8) if a else 0})
                states.append(state_with(numbers))
            for state, before in states, states[::-1]:
                with self.subTest(what, slot=state.slot):
                    self.assertEqual(wanted,
                                     "".join(f"{at}" for at, line in enumerate(texts(state, before)[2:12]) if line[8] == "*"))

    def test_messages(self):
        """One that is cut ends with a mark; one that just fits has none."""
        self.check_rows(lambda message: texts(state_with(), message=message)[-1],
                        ("X" * 81, "X" * 79 + "…"), ("X" * 80, "X" * 80), ("X" * 80 + "   ", "X" * 80))

    def test_too_small(self):
        for columns, rows in ((c, r) for c in (1, 2, 10, 79, 80, 200) for r in (1, 2, 23, 24) if c < 80 or r < 24):
            self.assertEqual([columns] * rows, list(map(len, texts(state_with(), size=(columns, rows)))), (columns, rows))
        self.assertIn("80 columns and 24 lines", small_screen(79, 24).lines[0].text)

    def test_windows(self):
        """A window stays where it is while its cursor is in it; round the end of a memory too."""
        self.check_rows(lambda top, address: memory_top(top, address, 5),
                        (0o100, 0o147, 0o100), (0o100, 0o150, 0o110), (0o100, 0o77, 0o70), (0o7770, 0o3, 0o7770))
        top = memory_top(0o100, 0o4000, 5)
        self.assertTrue(top % 8 == 0 and top <= 0o4000 < top + 5 * 8, top)


class Looks(PanelCase):
    """Marks, the cursor, and screens of all sizes."""

    def test_marks(self):
        panel = self.panel(OVERWRITTEN + "BACK 1000000\n", *LOADED)
        self.assertEqual(["ERR 07 TOO FEW KEPT"], panel.screen().lines[22].marked(REFUSED))
        self.assertEqual(0, "".join(press(panel, "g106<Enter>tW")).count("…"), "nothing of a small screen is cut")
        got = panel.screen()
        self.assertEqual((["7512", "*", "0100", "*"], ["7512"], (13, 41)),
                         (got.lines[13].marked(CHANGED), got.lines[13].marked(CURSOR), got.cursor))
        press(panel, "gC 1<Enter>")
        self.assertEqual((14, 60), panel.screen().cursor)
        press(panel, "gM 0 106<Enter>>c<Down>")
        self.assertEqual((2, 0), panel.screen().cursor)

    @staticmethod
    def first_marked(panel, mark):
        """Returns the marked texts of the first line that has some in the memory."""
        return next(filter(None, (line.marked(mark) for line in panel.screen().lines[4:])))

    def test_marks_of_a_source(self):
        panel = source_panel(self, turn=0)
        self.assertEqual([">", "> 6 ", " START    FNC    1,CR        BE…"], self.first_marked(panel, HERE))
        panel = source_panel(self, turn=0o113)
        press(panel, "404G405G")
        self.assertEqual(["was loader.pp:9"], self.first_marked(panel, OVER))
        panel = self.panel("STEP 36\n", sources=[(0, self.file(counter(), "count.pp"))], size=(80, 40))
        press(panel, "g102<Enter>")
        self.assertEqual(["  m is 0104"], [part for line in panel.screen().lines for part in line.marked(OVER)])

    def test_page(self):
        """The parts of screens in docs/PANEL.md, each after its keys; the first one is without a source."""
        for block, panel in zip(blocks("docs/PANEL.md", "panel"), (self.panel(OVERWRITTEN, *LOADED), source_panel(self))):
            wanted, lines = block.text.splitlines(), press(panel, *block.words[1:])
            has_source = panel.view.source is not None
            with self.subTest(block.place):
                width, first = (80, 3) if has_source else (52, 12)  # or beside central memory
                lines = lines[first:first + len(wanted)]
                self.assertEqual(wanted, [line.rstrip() for line in (*(line[:width] for line in lines[:-1]), lines[-1])])

    def check_sizes(self, panel, columns, rows, *parts):
        """Checks that a screen has lines of its width, the cursor in it, and each of some texts once at least."""
        panel.resize(columns, rows)
        got = panel.screen()
        lines, (row, column) = [line.text for line in got.lines], got.cursor
        with self.subTest(columns=columns, rows=rows):
            self.assertEqual([columns] * rows, list(map(len, lines)))
            self.assertTrue(0 <= row < rows and 0 <= column < columns, (row, column))
            self.assertEqual([], [part for part in parts if part not in "\n".join(lines)])

    def test_each_size(self):
        """Each width at some heights, and each height at some widths."""
        panel = self.panel(OVERWRITTEN + "STEP\n" * 20, *LOADED)
        widths, heights = (*range(80, 131), 200, 400), (*range(24, 61), 200)
        for columns, rows in ((c, r) for c in widths for r in heights if c in (80, 81, 119, 120, 121, 131, 400)
                              or r in (24, 25, 37, 60)):
            self.check_sizes(panel, columns, rows, "WAITS FOR", "CENTRAL", "WATCHES", "PAPER", "> STEP", "q quit")

    def test_sizes_of_instructions_and_sources(self):
        """Tabs are expanded, and neither a long line nor a text that is not ASCII breaks a column."""
        panel = self.panel(OVERWRITTEN, *LOADED)
        press(panel, "113Gi")
        for columns in (80, 100, 119, 120, 131, 200):
            for rows in (24, 25, 31, 60):
                self.check_sizes(panel, columns, rows, "73 words are left")
        lines = [" START\tLDN\t1\t\tTABS", "\tUJN\tSTART\t\t\u00c4\u6f22e\u0301\U0001f600 END", "* \x1b[31m\x07",
                 f"\tLDN\t2{' ' * 20}{'LONG ' * 40}"]
        panel = self.panel(sources=[(0, self.file("\n".join(["  ORG 100B", *lines, "  END START", ""]), "t.pp"))])
        self.assertEqual([">0100 1401       >2  START  LDN     1               …",
                          " 0101 0376        3         UJN     START           …",
                          "                  4 * ?[31m?",
                          " 0102 1402        5         LDN     2"],
                         [line[:53].rstrip() for line in press(panel)[9:13]])
        for columns in (80, 81, 119, 120, 131, 139, 160, 300):
            for rows, pressed in ((24, "C"), (25, "C"), (50, "")):
                press(panel, pressed)
                self.check_sizes(panel, columns, rows, "PP 00 LDN 01: A becomes 01")

    def test_a_processor_without_a_source(self):
        """It has cells, as in a panel without a source."""
        panel = self.panel("STEP 3\n", sources=[(3, os.path.join(EXAMPLES, "loop", "loop.pp"))])
        plain = self.panel("".join(f"{line}\n" for line in panel.session.sent))
        self.assertEqual(press(plain, "4)"), press(panel, ")"))


class Keys(PanelCase):
    """One table for the panel and for the page of a film."""

    def test_help(self):
        """The help has each key of the table, in its order, and docs/PANEL.md has the first ones."""
        wanted = [f"{'  '.join(row.shown()):17}{row.panel}" for row in keys.ROWS if row.panel]
        page = read("docs", "PANEL.md").partition("\n## The keys\n")[2].partition("\n## ")[0]
        rows = re.findall(r"^\| (`.*?`) \| (.*) \|$", page, flags=re.M)
        self.assertEqual(wanted[:10], [f"{'  '.join(re.findall('`(.*?)`', names)):17}{text}" for names, text in rows])
        got = [line.rstrip() for line in press(self.panel(size=(80, 60)), "?")]
        first, last = got.index("makes ten turns.") + 1, next(at for at, line in enumerate(got) if line.startswith("A star is"))
        self.assertEqual(wanted, [line for line in got[first:last] if line])

    def test_one_action(self):
        """A key has one action, in the panel and in the page."""
        actions = {}
        for row in keys.ROWS:
            self.assertTrue(row.panel or row.page, row)
            for key, action in row.actions.items():
                self.assertEqual(action, actions.setdefault(key, action), key)


def counter():
    """Returns the source count.pp of docs/TOOLS.md."""
    return next(block.text for block in blocks("docs/TOOLS.md", "compass") if block.words[1] == "count.pp")


class Sessions(PanelCase):
    def of(self, panel):
        """Returns what a search must leave as it is."""
        return list(panel.session.sent), panel.session.simulator.kept, panel.session.state

    def test_no_such_turn(self):
        with self.assertRaisesRegex(Failure, "there is no turn 1301 yet: the last one is 1300"):
            self.panel(OVERWRITTEN, *LOADED, turn=0o1301)

    def test_the_question_who_makes_a_change_changes_nothing(self):
        """The machine, what is kept and what is ahead are as they would be without it."""
        panel, plain = self.panel(OVERWRITTEN, *LOADED), self.panel(OVERWRITTEN + "WATCH M 0 106\nBACK W\n", *LOADED)
        press(panel, "g106<Enter>tW")
        self.assert_same(plain, panel)
        self.assertEqual([["FORWARD 675 SLOT 04"], ["ERR 16 TOO FEW AHEAD"]],
                         [panel.session.simulator.ask(line) for line in ("FORWARD 675", "FORWARD")])
        self.assertEqual(plain.session.sent, panel.session.sent)

    def test_stops(self):
        """Ctrl-C ends a long run, a script and each kind of search, and the session is where it was."""
        panel = self.panel("STEP\n" * 9)
        self.assertEqual((9, True), (panel.session.simulator.kept, panel.session.is_saved()))
        panel.is_stopped = lambda: True
        press(panel, "30000000s")
        self.assertEqual(["STEP", "STEP 1000000"], panel.session.sent[-2:])
        panel = self.panel()
        panel.is_stopped = lambda: True
        panel.perform_script(["STEP"] * 5)
        self.assertEqual((0, True), (panel.session.simulator.kept, "stopped after 0 (decimal) lines" in bottom(panel)))
        source = [(0, self.file(counter(), "count.pp"))]
        for begun, pressed, text in ((self.panel(FIRST_PROGRAM), "uH 13 is X<Enter>", r"^searched to turn [0-7]+; Ctrl-C stops$"),
                                     (self.panel("SET M 0 20 5\nSTEP 1000\n"), "gM 0 20<Enter>c", "^searched back to turn "),
                                     (self.panel("STEP 1000\nBACK 10\n", sources=source), "N",
                                      r"^searched to turn [0-7]+; Ctrl-C stops$")):
            shown, before = [], self.of(begun)
            begun.is_stopped, begun.between_reports = lambda: True, 0
            begun.show = lambda some=shown, one=begun: some.append(one.message)
            with self.subTest(pressed):
                self.assertEqual(("the search was stopped", None), (bottom(begun, pressed), begun.page))
                self.assertRegex(shown[0], text)
                self.assertEqual(before, self.of(begun))


class Lines(PanelCase):
    """Steps by lines of a source."""

    def traced(self, path, turns):
        """Returns after how many turns PP 00 begins a line, by the lines that trace writes."""
        found, line = [], None
        for made in tool("trace", "--source", "0", path, "--processor", "0", script=f"STEP {turns:o}\n").out.splitlines():
            turn, phase, shown = re.match(r"TURN ([0-7]+) .* PHASE ([0-7]{4})(?: WAITS)?(?:  \S.*?:([0-9]+): .*)?", made).groups()
            was, line = line, shown if phase == "0000" else line
            found += [int(turn, 8) - 1] if line not in (None, was) else []
        return found

    def assert_walks(self, panel, pressed, turns):
        """Fails if keys do not go to after these turns."""
        self.assertEqual([f"{turn:o}" for turn in turns], [press(panel, key)[0].split()[1] for key in pressed])

    def test_as_traced(self):
        """Each line forward, over turns that were made and over new ones, and each line back: macros with loops, code that moves
        itself and subroutines."""
        for path, turns in ((f"{PROGRAMS}/mover.pp", 0o4500), (f"{PROGRAMS}/monitor.pp", 0o600),
                            (f"{EXAMPLES}/loop/loop.pp", 0o200)):
            with self.subTest(path):
                starts = self.traced(path, turns)
                panel = self.panel("STEP 300\n", sources=[(0, path)], turn=0)
                self.assert_walks(panel, "N" * (len(starts) - 1), starts[1:])
                self.assert_walks(panel, "P" * (len(starts) - 1), starts[-2::-1])
                self.assert_walks(panel, ["11N", "3N", "10P"], [starts[0o11], starts[0o14], starts[4]])
