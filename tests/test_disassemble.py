"""The disassembler: what it writes assembles to the same words, for every memory and any entries. What
it writes of some is in tests/sessions/disassemble.txt.

    PP6600_WINDOWS=SEED:COUNT   tries COUNT windows of memory from seed SEED on, and a whole memory for each 200 of them (decimal)
"""

import os
import random

from .assembler_sources import CELLS, window
from .support import Case, needs_library

from pp6600.convert.disassemble import source_of
from pp6600.engine.assembler import COMPLAINTS, WORDS
from pp6600.language.program import written

setUpModule = needs_library
SEED, COUNT = map(int, os.environ.get("PP6600_WINDOWS", "0:600").split(":"))
WHOLE = 200  # windows for each whole memory


class Law(Case):
    def check(self, cells, entries, labels={}):
        lines = source_of(cells, entries, labels)
        self.assertEqual([], written(lines, COMPLAINTS)[:1])
        got = {int(cell, 8): int(word, 8) for cell, word in (line.split(" ") for line in written(lines, WORDS)) if cell != "P"}
        wrong = [address for address in sorted({*cells, *got}) if cells.get(address) != got.get(address)]
        self.assertEqual([], wrong[:1], "\n".join(lines[:40]))

    def test_labels(self):
        """Labels of a listing are kept, also inside instructions, on subroutines and outside the cells; whatever they are."""
        choose = random.Random(SEED)
        for number in range(COUNT // 4):
            cells = window(choose, choose.choice((3, 8, 20, 60)))
            first = min(cells)
            labels = {(first + choose.randrange(-3, 64)) % CELLS: [
                choose.choice((f"A{number}", "LDN", "L0100", "SUB", "SUBX", "1A", ".X", "TOOLONGAB"))]
                      for _ in range(choose.randrange(6))}
            self.check(cells, [choose.choice(list(cells))], labels)

    def test_windows(self):
        choose = random.Random(SEED)
        for number in range(COUNT):
            cells = window(choose, choose.choice((1, 2, 3, 8, 20, 60)) if number % WHOLE else CELLS)
            entries = [choose.choice(list(cells)) for _ in range(choose.choice((0, 1, 2, 5, 20)))]
            self.check(cells, entries + [choose.randrange(CELLS)] * choose.randrange(2))

    def test_entry_that_is_an_instruction(self):
        """A jump to the entry itself, whose word is its own address less one: the exit before it is no SUBR."""
        self.check(dict(enumerate([0o200, 0o1406, 0o304, 0, 0, 0o100, 0o1405, 0o5000, 0o1405, 0o300], 0o1400)), [0o1400])

    def test_calls_and_jumps(self):
        """Memories that are mostly instructions which lead to one another: subroutines, their exits, jumps into instructions."""
        choose = random.Random(SEED)
        for _ in range(COUNT // 4):
            size = choose.choice((8, 30, 60))
            words = [choose.choice((0o100, 0o200, 0o300 + choose.randrange(0o1000), 0o100 + choose.randrange(size), 0o5000, 0o6405,
                                    0o1405)) for _ in range(size)]
            self.check(dict(enumerate(words, 0o100)), [0o100, 0o100 + choose.randrange(size)])
