"""The devices of the package, each by short runs, and their files and pictures. Expected values are those of docs/PYTHON.md."""

import os
import random
import re

from tests.cases import part, stored_blocks
from tests.support import EXAMPLES, PYTHON, Case, add_tests, program, read, run, write

from pp6600 import Attached, Failure
from pp6600.run.device import Event
from pp6600.devices.options import NAMES, device_of
from pp6600.devices.card_reader import CardReader
from pp6600.devices.console_display import ConsoleDisplay
from pp6600.devices.controller import Controller, ControllerState
from pp6600.devices.converter import ConverterState
from pp6600.devices.line_printer import LinePrinter, Paper
from pp6600.devices.magnetic_tape import MagneticTape
from pp6600.devices.paper_tape import PaperTape
from pp6600.devices.pictures import Mark, Picture, braille, svg
from pp6600.devices.tape_file import read_tape, write_tape
from pp6600.front.film.device_pictures import pictures_of

MARK = ()
STATUSES, LEFTS, BUFFER = 0o1000, 0o1100, 0o2000  # cells
ROOM = 0o100  # words of a record that is read
SHOW = "7710 {} 7410 14{:02o} 7310 2000 6610 * 7510"  # function code, ACN, LDN count, OAM 2000, FJM *, DCN


def records_of(text):
    """Returns records, as 1 2 3, mark, 4."""
    return [tuple(int(word, 8) for word in record.split() if word != "mark") for record in text.split(", ") if record]


def tape_program(*steps):
    """Returns the words that do this with a tape on channel 5, each followed by a status, and lines that set what they write. The
    words read, what IAM left of its count, and the statuses are kept."""
    words, data, writes = [], 0o3000, []
    for number, step in enumerate(steps):
        kind, *given = step.split()
        if kind == "read":
            end = "7505" if given else ""
            words += [f"7705 1400 7405 2000 {given[0] if given else f'{ROOM:o}'} 7105 {BUFFER + ROOM * number:o} {end}"]
            words += [f"5400 {LEFTS + number:o}"]
        elif kind == "write":
            words += [f"7705 1600 7405 14{len(given):02o} 7305 {data:o} 6605 * 7505"]
            writes += given
            data += len(given)
        else:
            words += [f"7705 {kind}"]
        words += [f"7705 1300 7405 7005 7505 5400 {STATUSES + number:o}"]
    return " ".join(words), [f"SET M 0 {0o3000 + at:o} {word}" for at, word in enumerate(writes)]


class DeviceCase(Case):
    def begun(self, device, words, lines=()):
        """Returns a session with a device, whose PP 00 performs these octal words from 0100 on, then stays. A * is the cell before
        it: FJM * jumps to itself."""
        session = Attached([program()], [device])
        self.addCleanup(session.close)
        words = [f"{0o77 + at:o}" if word == "*" else word for at, word in enumerate(words.split())] + ["300"]
        for line in (*(f"SET M 0 {0o100 + at:o} {' '.join(words[at:at + 8])}" for at in range(0, len(words), 8)), "SET P 0 100",
                     *lines):
            self.ask(session, line)
        return session

    def ask(self, session, line):
        answer = session.act(line)
        self.assertFalse(answer[0].startswith("ERR"), (line, answer))
        return answer


class Blocks(DeviceCase):
    """The blocks of tests/devices.txt."""

    def check(self, lines):
        kind, _, records = lines[0][2:].partition(" ")
        self.device, self.answers = self.made(kind, records), []
        steps = [line.split("|") for line in lines if re.search(r" \| ", line)]
        words, sets = tape_program(*(step for step, _ in steps))
        words += " ".join(line[2:] for line in lines if line[:2] == ": ")
        shown = next((line.split()[1:] for line in lines if line.startswith("show ")), None)
        if shown:
            code, *given = shown
            words, sets = SHOW.format(code, len(given)), [f"SET M 0 {0o2000 + at:o} {word}" for at, word in enumerate(given)]
        self.session = self.begun(self.device, words, sets)
        if steps or shown:
            self.ask(self.session, "STEP 20000" if steps else "STEP 1000")
        for number, (step, wanted) in enumerate(steps):
            self.check_step(number, step, wanted)
        for line in lines[1:]:
            if line[0] != ":" and line.split()[0] != "show" and " | " not in line:
                self.check_line(line)
        self.assertEqual([], self.answers)

    @staticmethod
    def made(kind, records):
        """Returns a device."""
        ring = "ring" if records.endswith("ring") else ""
        records, _, busy = records.partition(", busy ")
        return {"card_reader": lambda: CardReader(records_of(records), channel=0o5, busy=busy or 0),
                "line_printer": lambda: LinePrinter(channel=0o5),
                "magnetic_tape": lambda: MagneticTape(records_of(records.removesuffix("ring").strip()), ring),
                "console_display": lambda: ConsoleDisplay(*records.split()),
                "paper_tape": lambda: PaperTape(records.encode(), 0o5)}[kind]()

    def check_step(self, number, step, wanted):
        """Checks the status after a step, and the words that were read and how many of 100 IAM left."""
        status, is_read, words = wanted.strip().partition(":")
        given = [int(word, 8) for word in words.split()]
        with self.subTest(number=number, step=step):
            self.assertEqual([int(status, 8)], self.cells(STATUSES + number, 1))
            if is_read:
                self.assertEqual([ROOM - len(given)], self.cells(LEFTS + number, 1))
                self.assertEqual([*given, 0], self.cells(BUFFER + ROOM * number, len(given) + 1))

    def check_line(self, line):
        """Performs a line of a block, or compares what is there."""
        name, _, text = line.partition(" ")
        if name == ">":
            self.assertEqual([], self.answers)
            self.answers = [answer for answer in self.ask(self.session, text) if answer.split()[0] not in ("OK", "TURNS")]
        elif name == "type":
            try:
                self.session.tell(0, text.encode().decode("unicode_escape"))
            except Failure as failure:
                self.answers = [str(failure)]
        elif name in LOOKS:
            self.assertEqual(text, LOOKS[name](self.session, text), line)
        else:
            self.assertIn(text if name == "!" else line, self.answers.pop(0))

    def cells(self, first, count):
        return [int(word, 8) for word in self.session.cells(0, first, first + count - 1)]


def marks_on(session, screen):
    """Returns the marks of a screen: each with its symbol, size, x and y."""
    marks = session.devices[0].picture(session.state()).screens[screen]
    return ", ".join(f"{mark.symbol or '.'} {mark.size:o} {mark.x:o} {mark.y:o}"
                     for mark in sorted(marks, key=lambda one: (one.symbol == "I", one.y, one.x)))


LOOKS = {
    "printed": lambda session, _: session.devices[0].output(session.state()).replace("\f", "\\f").replace("\n", "\\n"),
    "tape": lambda session, _: ", ".join(" ".join(f"{word:o}" for word in block) or "mark"
                                         for block in session.devices[0].blocks(session.state())),
    "left": lambda session, _: marks_on(session, 0), "right": lambda session, _: marks_on(session, 1),
    "punched": lambda session, _: session.devices[0].output(session.state()).decode(),
    "place": lambda session, _: f"{session.state().place:o}",
    "keys": lambda session, _: session.state().keys, "waits": lambda session, _: f"at {session.registers(0)['P']}",
    "channel": lambda session, text: f"{text.split()[0]} {session.channel(int(text.split()[0], 8))}"[:len(text)]}
add_tests(Blocks, Blocks.check, stored_blocks("devices.txt")[1])


class Tapes(DeviceCase):
    def test_all_goes_back(self):
        """At random turns the tape is what it was when the run first came there."""
        words, lines = tape_program("read", "write 7 70", "12", "read", "write 3", "15", "10", "read", "13", "14")
        session = self.begun(MagneticTape([(1, 2, 3), (4, 5), MARK, (6,)], "ring"), words, lines)
        states, choose = [session.state()], random.Random(1)
        for _ in range(900):
            self.ask(session, "STEP")
            states.append(session.state())
        turn = 900
        for goal in choose.sample(range(901), 40):
            self.ask(session, f"{'BACK' if goal < turn else 'FORWARD'} {abs(goal - turn):o}") if goal != turn else None
            turn = goal
            self.assertEqual(states[goal], session.state(), f"turn {goal}")
        self.assertGreater(len(set(map(repr, states))), 20)


class TapeFiles(Case):
    """A word of 1234 and one of 5670 are 29c and bb8 in hexadecimal."""

    BLOCKS = [(0o1234, 0o5670), (0o7777,), MARK]
    BYTES = bytes.fromhex("03000000 29cbb8 00 03000000  02000000 fff0 02000000  00000000")

    def test_read_and_written(self):
        path = self.path("tape")
        write_tape(path, self.BLOCKS)
        self.assertEqual(self.BYTES, part(self.folder, "tape"))
        self.assertEqual(self.BLOCKS, read_tape(path))

    def test_gaps_and_an_end_before_that_of_the_file(self):
        data = bytes.fromhex("feffffff") + self.BYTES + bytes.fromhex("feffffff ffffffff 12")
        self.assertEqual(self.BLOCKS, read_tape(self.file(data)))
        self.assertEqual([], read_tape(self.file(b"")))

    def test_a_tape_is_saved_into_a_new_file_and_its_own_is_only_read(self):
        first, second = self.file(self.BYTES), self.path("new")
        tape = MagneticTape(first, "ring")
        state, _ = tape.function(tape.start, Event("function", 0o15, 1))
        tape.save(state, second)
        self.assertEqual([[MARK], self.BLOCKS], [read_tape(second), read_tape(first)])
        for path, reason in ((first, "File exists"), ("/no/tape", "No such file or directory")):
            with self.assertRaises(Failure) as caught:
                tape.save(state, path)
            self.assertEqual(f"can't write {path}: {reason}", str(caught.exception))
        self.assertEqual(self.BLOCKS, read_tape(first))


# ---- console display

class FewMarks(ConsoleDisplay):
    most_marks = 8


class Displays(DeviceCase):
    def test_all_symbols(self):
        words = ["6000", "7000", *re.findall("....", "".join(f"{code:02o}" for code in range(0o100)))]
        session = self.begun(ConsoleDisplay(), SHOW.format("7000", len(words)),
                             [f"SET M 0 {0o2000 + at:o} {word}" for at, word in enumerate(words)])
        self.ask(session, "STEP 1000")
        symbols = {mark.x // 8: mark.symbol for mark in session.devices[0].picture(session.state()).screens[0]}
        wanted = dict(enumerate("ABCDEFGHIJKLMNOPQRSTUVWXYZ0123456789+-*/()", 1))
        self.assertEqual({**wanted, 0o54: "=", 0o56: ",", 0o57: "."}, symbols)

    def test_what_is_drawn_again_and_again(self):
        """It is kept once: nothing that is seen is lost."""
        chooser = random.Random(2)
        words = [chooser.choice((0o6000, 0o6010, 0o7000, 0o7020, 0o1411, 0o1455)) for _ in range(2000)]
        pictures = []
        for display in (FewMarks(), ConsoleDisplay()):
            state, _ = display.function(display.start, Event("function", 0o7001, 1))
            for turn, word in enumerate(words):
                state, _ = display.word(state, Event("word", word & (0o7037 if word >= 0o6000 else 0o7777), turn))
                state = state._replace(x=state.x % 32)
            pictures.append((display.picture(state), state.screens[0].length))
        (few, few_kept), (all_of_them, kept) = pictures
        self.assertEqual(few, all_of_them)
        self.assertLess(few_kept, 17)
        self.assertLess(1000, kept)

    def test_the_newest_are_kept(self):
        """Of dots at 0 to 15 and again at 0, the 17th is one more than twice 8."""
        display = FewMarks()
        state, _ = display.function(display.start, Event("function", 0o7010, 1))
        for x in [*range(16), 0]:
            for word in (0o6000 + x, 0o7000):
                state, _ = display.word(state, Event("word", word, 1))
        self.assertEqual({Mark(0, x) for x in (0, *range(9, 16))}, display.picture(state).screens[0])


class Pictures(Case):
    L_AND_DOT = Picture((frozenset((Mark(128, 64, 8, "L"),)), frozenset((Mark(0, 511),))))

    def test_svg(self):
        """L goes down 6, then 4 to the right. A screen is upside down in SVG, and its square is in the middle of a circle of
        744."""
        lines = svg(self.L_AND_DOT).splitlines()
        self.assertEqual('<path stroke-width="1" d="M64 134L64 128L68 128"/>', lines[3])
        self.assertEqual('<path stroke-width="3" d="M511 0h0"/>', lines[7])
        self.assertEqual(['matrix(1 0 0 -1 116 628)', 'matrix(1 0 0 -1 860 628)'], re.findall("matrix[^\"]*", "".join(lines)))
        self.assertEqual(["</g>", "</svg>"], lines[-2:])
        self.assertEqual(10, len(lines))
        dots = frozenset(Mark(y, x) for y in range(5) for x in range(5))
        self.assertEqual([f"M{x} {y}h0" for y in range(5) for x in range(5)], re.findall("M[^\"]*", svg(Picture((dots,)))))

    def test_braille(self):
        """In 64 cells a dot has 4 units. A large L goes down 6 of them, then 4 to the right."""
        screen = frozenset((Mark(0, 0, 32, "L"), Mark(256, 256, 16, "M"), Mark(256, 272, 16, "N"), Mark(511, 511)))
        rows = braille(Picture((screen,)), 64)
        self.assertEqual((32, {64}), (len(rows), set(map(len, rows))))
        self.assertEqual({0: 63 * " " + "\u2808", 15: 32 * " " + "M N", 30: "\u2846", 31: "\u28c7\u28c0\u2840"},
                         {at: row.rstrip() for at, row in enumerate(rows) if row.strip()})

    def test_widths(self):
        self.check_rows(lambda count, width: [len(braille(Picture((frozenset(),) * count), width)[0])],
                        (1, 1, [16]), (1, 31, [16]), (1, 32, [32]), (1, 80, [64]), (2, 80, [65]), (2, 128, [65]), (2, 129, [129]))

    def test_two_printers(self):
        """The pages of both are shown, one below the other in a terminal, beside each other in SVG."""
        papers = [Paper().moved("".join(f"{name} {line}\n" for line in range(8))) for name in ("A", "B")]
        printers = Controller(LinePrinter("4"), LinePrinter("5"))
        picture = printers.picture(ControllerState(tuple(map(ConverterState, papers))))
        pages = [[*(f"{name} {line}" for line in range(8)), ""] for name in "AB"]
        self.assertEqual([*pages[0], "", *pages[1]], braille(picture, 80))
        self.assertEqual([*pages[0][-5:], "", *pages[1][-5:]], picture.last_lines(5))
        self.assertEqual(pages[0][:-1] + pages[1][:-1], re.findall("preserve\">(.*)</text>", svg(picture)))
        self.assertEqual(["7", "973"], sorted({*re.findall('text x="([0-9]+)"', svg(picture))}, key=int))

    def test_devices_that_show_nothing(self):
        for device in (PaperTape(), MagneticTape()):
            self.assertIsNone(device.picture(device.start))
        self.assertEqual({}, pictures_of([program()], [PaperTape()], []))


class Options(Case):
    """The words after --device. tests/sessions/devices.txt has wrong ones."""

    def test_cards(self):
        self.assertEqual(["card_reader", "line_printer"], [name for name in NAMES if name in ("card_reader", "line_printer")])
        path = write(self.path("deck"), "1 2\n* a note\n7777\n")
        self.assertEqual([(1, 2), (0o7777,)], device_of(f"card_reader:{path},6@12").deck)

    def test_names(self):
        tape = write(self.path("tape"), TapeFiles.BYTES)
        for name, words, kind in (("paper_tape", f":{tape}", PaperTape), ("magnetic_tape", f":{tape},ring", MagneticTape),
                                  ("magnetic_tape", ":,ring", MagneticTape), ("console_display", "", ConsoleDisplay),
                                  ("console_display", ":100000", ConsoleDisplay)):
            device = device_of(f"{name}{words}@13")
            self.assertEqual((kind, 0o13), (type(device), device.channel))
        self.assertEqual(0o100000, device.fading)


class Examples(Case):
    """The files that the examples write, if one is named."""

    def written(self, name, script, *words):
        """Returns the bytes of the file that an example writes after these words."""
        folder = os.path.join(EXAMPLES, name)
        done = run(*PYTHON, os.path.join(folder, script), program(), *words, self.path(name), script=read(folder, "stdin"),
                   cwd=folder)
        self.assertEqual((read(folder, "stdout"), "", 0), done)
        return part(self.folder, name)

    def test_picture(self):
        """The picture is that of the end: CDC 6600, PERIPHERAL PROCESSORS, KEY, three small lines, eight names and PP."""
        left, right = 7 + 20 + 3 + 33 + 33 + 13, 8 * 4 + 2
        self.assertEqual(left + right, self.written("console-display", "show.py", "script").count(b"<path"))

    def test_tape(self):
        """The first words of the records of the copy are TH, TH and AN."""
        self.written("magnetic-tape", "copy.py", "tape")
        found = [(len(block), *block[:1]) for block in read_tape(self.path("magnetic-tape"))]
        self.assertEqual([(14, 0o2410), (5, 0o2410), (13, 0o0116), (0,)], found)
