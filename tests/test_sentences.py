"""What a processor is about to do, as a sentence, and cells as instructions. The sentences are those of the tables in
docs/MACHINE.md; what they say of P, A and cells is compared with the simulator."""

import random
import re

from .cases import marked, stored_blocks
from .support import Case, add_tests, program

from pp6600 import Console
from pp6600.run.disassembly import row_at, rows_from
from pp6600.run.turn import NAMES, Processor
from pp6600.run.state import Channel
from pp6600.run.sentences import ROWS, sentence

STATES, CELLS, CHANNELS = "IEFX", 0o10000, 12


def sentence_of(words, p="0100", a="000051", q="0002", phase="0000", states="", cells=None):
    """Returns the sentence of a processor; channel 5 has the state, and 4321 in its register, and so have all others."""
    memory = {0o20: 0o1234, 0o1234: 0o17, **(cells or {})}
    channels = [Channel(f"{number:02o}", states or "E", "4321") for number in range(CHANNELS)] + [Channel("14", "F", "0777")]
    processor = Processor(*(int(number, 8) for number in (p, a, q, phase)), [int(word, 8) for word in words.split()])
    return sentence(processor, lambda address: memory.get(address, 0), channels)


class Sentences(Case):
    def check(self, lines):
        """The rows of tests/sentences.txt. A block transfer has a sentence too if its instruction is no longer there."""
        for state, words, wanted in lines:
            with self.subTest(words, state=state):
                if len(words.split()) == 2:
                    self.assertEqual(wanted, sentence_of(words, states=state))
                else:
                    self.check_block(*words.split(), wanted)

    def check_block(self, code, state, a, q, wanted):
        cells, name = {0: 0o105, 0o104: int(f"{code}05", 8), 0o105: 0o60}, NAMES[int(code, 8)]
        for first_word, m in ((cells[0o104], " 0060"), (0, "")):
            text = sentence_of("0 0", "0106", a, q, f"{code}05", state, {**cells, 0o104: first_word})
            self.assertEqual(f"{name} 05{m}: {wanted}", text)

    def test_block_that_has_lost_its_return(self):
        lost = sentence_of("0 0", "0000", phase="7105", states="I")
        self.assertEqual("IAM 05: channel 05 is inactive: cell 0000 becomes 0000; goes on at 0001", lost)

    def test_each_has_a_sentence(self):
        self.assertEqual({f"{code:02o}" for code in range(0o100)} | {"b61", "b63", "b71", "b73"}, set(ROWS))
        self.assertEqual([], [code for code, choices in ROWS.items() if choices[-1][0]], "the last one has no condition")

    def test_simulator(self):
        """What is said of P, A, cells and waits is so after the turn, with numbers by chance."""
        chance, console = random.Random(6600), Console([program()])
        self.addCleanup(console.end)
        seen = set()
        for code in list(range(0o100)) * 6:
            self.compare(console, chance, code, seen)
        self.assertEqual({"P", "cell", "A", "wait"}, seen)

    def compare(self, console, chance, code, seen):
        """Sets numbers up, and compares the sentence of one turn or two with what it does."""
        def number(digits):
            return f"{chance.randrange(8 ** digits):0{digits}o}"

        d, state = chance.choice((0, 5, 0o14, 0o20, 0o37, 0o40, 0o76, 0o77, chance.randrange(0o100))), chance.choice("IEF")
        lines = [f"SET M 0 {chance.choice(('100', '7777'))} {code:02o}{d:02o} {number(4)}",
                 f"SET A 0 {chance.choice(('0', number(6)))}"]
        lines += [f"SET M 0 {d:o} {chance.choice(('0', '2', number(4)))}"] if d else []
        lines += [f"SET P 0 {lines[0].split()[3]}"] + ([f"SET H {d:o} {state} {number(4)}"] if d < 0o14 else [])
        for line in lines:
            console.demand(line)
        for _ in range(2):
            while console.slot():
                console.demand("STEP")
            self.compare_turn(console, lines, seen)

    def compare_turn(self, console, lines, seen):
        before, memory = console.registers(0), console.cells(0, 0, CELLS - 1)
        channels = [Channel(*line.split()[1:]) for line in console.channels()]
        text = sentence(console.processor(0), lambda address: int(memory[address], 8), channels)
        console.demand("STEP")
        after = console.registers(0)
        with self.subTest(text, lines=lines):
            if found := re.search("(?:jumps to|goes on at) ([0-7]{4}|itself)$", text):
                self.assertEqual(before["P"] if found[1] == "itself" else found[1], after["P"])
                seen.add("P")
            if found := re.search("cell ([0-7]{4}) (?:gets|becomes) ([0-7]{4})", text):
                self.assertEqual(found[2], console.cells(0, int(found[1], 8), int(found[1], 8))[0])
                seen.add("cell")
            if found := re.search("A (?:becomes|gets)(?: cell [0-7]{4},| the clock,)? ([0-7]+)(?: from channel .*)?$", text):
                self.assertEqual(found[1].zfill(6), after["A"])
                seen.add("A")
            is_wait = "waits" in text
            self.assertTrue(not is_wait or {**before, "SLOT": ""} == {**after, "SLOT": ""})
            seen.update({"wait"} if is_wait else ())


def rows_by_heading():
    """Returns the headings of tests/sentences.txt, each with its rows: the state of the channels, the words and the sentence."""
    for heading, lines in stored_blocks("sentences.txt")[1]:
        yield heading, [(heading[0] if heading[1] == ":" else "E", *row) for row in marked(re.compile(r"(.+?) +\| (.*)"), lines)]


add_tests(Sentences, Sentences.check, rows_by_heading())


class Rows(Case):
    MEMORY = {0o100: 0o7712, 0o101: 0o0001, 0o102: 0o7412, 0o103: 0o1477, 0o104: 0o7112, 0o105: 0o0060, 0o106: 0o7512,
              0o107: 0o0100, 0o110: 0o0060}

    def word(self, address):
        return self.MEMORY.get(address % CELLS, 0)

    def test_rows(self):
        """The loader of README.md."""
        rows = rows_from(self.word, 0o100, 6, ())
        self.assertEqual([(0o100, "FNC 12 0001"), (0o102, "ACN 12"), (0o103, "LDN 77"), (0o104, "IAM 12 0060"), (0o106, "DCN 12"),
                          (0o107, "LJM 00 0060")], [(row.address, row.text) for row in rows])
        self.assertEqual("LJM 00", row_at(self.word, 0o107, {0o110}).text, "at P another row begins")
        self.assertEqual("UJN 73 to 0074", row_at(lambda address: 0o0373, 0o100, ()).text)
        self.assertEqual(0, row_at(lambda address: 0o0100, 0o7776, ()).end)
