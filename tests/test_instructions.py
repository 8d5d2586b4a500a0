"""Tests that every list of the instructions is that of the one table, crates/pp_step/specs/InstructionTable.antt: names, words and
modes.

Lists that are made of one of these are compared where they are made: the card, the film's meanings, the colours of editors."""

import glob
import os
import re
import unittest

from tests.support import PROVED, TOP, Case, names_of_codes, read

from pp6600.engine import library
from pp6600.engine.plain.instructions import CODES as PLAIN
from pp6600.language.notation import MNEMONICS, size_of
from pp6600.run import turn
from pp6600.run.forms import STATES
from pp6600.run.sentences import TEXT

ROW = re.compile(r"^ +(?:∷ )?row code\.(\w+) (\w+) (.*?)-- ([0-7]{2})$", re.M | re.S)
TABLE = read("crates", "pp_step", "specs", "InstructionTable.antt")
ROWS = [(name, mode, int(code, 8)) for name, mode, _, code in ROW.findall(TABLE)]
EFFECTS = [effect for _, _, effect, _ in ROW.findall(TABLE)]
NAMES = [name.rstrip("0123456789").upper() for name, _, _ in ROWS]
WORDS = [2 if mode in ("Memory", "Unindexed") else 1 for _, mode, _ in ROWS]
TWO = {code for code, words in enumerate(WORDS) if words == 2}


def codes_in(text):
    """Returns the codes of a list such as '01, 20 to 23 and 77'."""
    ranges = [part.split(" to ") for part in re.findall(r"[0-7]{2}(?: to [0-7]{2})?", text)]
    return {code for ends in ranges for code in range(int(ends[0], 8), int(ends[-1], 8) + 1)}


class Instructions(Case):
    def test_table(self):
        self.assertEqual(list(range(64)), [code for _, _, code in ROWS])
        self.assertEqual({"NoAddress", "Direct", "Indirect", "Memory", "Unindexed"}, {mode for _, mode, _ in ROWS})

    def test_page(self):
        """docs/MACHINE.md has their names, which have two words, and the codes of each addressing mode."""
        page = " ".join(read("docs", "MACHINE.md").split())
        self.assertEqual(NAMES, names_of_codes())
        self.assertEqual(TWO, codes_in(re.search("The codes ([^.]*) have two words", page)[1]))
        for mode in ("Direct", "Indirect", "Memory"):
            said = re.search(rf"- \*{mode.lower()}\* \((.*?)\):", page)[1]
            self.assertEqual({code for _, one, code in ROWS if one == mode}, codes_in(said), mode)

    def test_meanings(self):
        """A film's page has the words of docs/MACHINE.md for each."""
        table = read("docs", "MACHINE.md").split("| Code | Name | Effect |")[1].split("\n\n")[0]
        wanted = {f"{called.replace(',', '')} | {called}: {re.sub(r' [(]P[0-9, P]+[)]', '', effect)}"
                  for called, effect in re.findall(r"^\| [0-7, ]+ \| ([A-Z, ]+) \| (.*) \|$", table, re.M)}
        found = read("tools", "pp6600", "front", "film", "web", "meanings.txt").splitlines()
        self.assertEqual(set(), wanted - set(found))

    def test_code_of_the_step(self):
        """The comments of the codes in pp_step are true."""
        found = re.findall(r"/// ([0-7]{2}), ([a-z ]+)\. [^\n]*\n(?: +///[^\n]*\n)* +(\w+),",
                           read("crates", "pp_step", "src", "code.rt"))
        self.assertEqual([(f"{code:02o}", re.sub("(?<=o)A", " a", mode).lower(), name) for name, mode, code in ROWS], found)

    def test_tools(self):
        self.assertEqual(list(zip(NAMES, WORDS)), [(name, size_of(code)) for code, name in enumerate(MNEMONICS)])
        for mode, codes in (("Indirect", turn.INDIRECT), ("Memory", turn.INDEXED)):
            self.assertEqual([code for _, one, code in ROWS if one == mode], list(codes))
        for word, codes in (("branch", turn.RELATIVE_JUMPS), ("test", turn.CHANNEL_JUMPS), ("[cC]entral", turn.A_IS_AN_ADDRESS),
                            ("states|issue", turn.CHANNEL_CODES), ("issue", turn.BLOCK_GOES_ON),
                            ("issue_counted", turn.BLOCKS_OF_CENTRAL)):
            self.assertEqual([code for code, effect in enumerate(EFFECTS) if re.search(rf"\b({word})\b", effect)], list(codes),
                             word)

    def test_states(self):
        """The tools have the states of a channel in which an instruction completes, or jumps."""
        states = {"is_in Inactive": "I", "is_in Empty": "E", "is_in Full": "F", "is_active": STATES.replace("I", "")}
        found = re.findall(r"(?<!test )[(](is_in \w+|is_active) i\.d s\.states[)] i .*-- ([0-7]{2})$", TABLE, re.M)
        self.assertEqual(turn.COMPLETES, {int(code, 8): states[state] for state, code in found})
        found = re.findall(r"test [(](not )?[(]?is_(active|full) i\.d s\.states.*-- ([0-7]{2})$", TABLE, re.M)
        states = {"active": "EFX", "full": "FX"}
        self.assertEqual(turn.JUMPS_IN, {int(code, 8): "".join(one for one in STATES if (one in states[state]) != bool(no))
                                         for no, state, code in found})

    def test_second_simulator(self):
        self.assertEqual([(f"{code:02o} {NAMES[code]}", WORDS[code]) for code in range(64)], [one[:2] for one in PLAIN])

    @unittest.skipUnless(PROVED, "dist/libpp6600.so was not built")
    def test_library(self):
        """The library's names and words are those of the table; a form with m has two words."""
        found = [library.instruction(code, PROVED) for code in range(64)]
        self.assertEqual(list(zip(NAMES, WORDS)), [one[:2] for one in found])
        self.assertEqual(TWO, {code for code, (*_, form) in enumerate(found) if form > 2})
        for number, codes in ((2, turn.RELATIVE_JUMPS), (3, turn.CONSTANTS), (4, turn.INDEXED)):
            self.assertEqual(list(codes), [code for code, (*_, form) in enumerate(found) if form == number])

    def test_sentences(self):
        """Each code has a sentence without a condition; 40 to 57 have those of 30 to 37."""
        said = codes_in(" ".join(re.findall("^([0-7]{2}):", TEXT, re.M)))
        self.assertEqual({code for code in range(64) if not 0o40 <= code < 0o60}, said)

    def test_assembler(self):
        """The assembler's crate has their names, and a form with two words for those that have."""
        source = read(*glob.glob(os.path.join(TOP, "crates", "*", "src", "instructions.rt")))
        self.assertEqual(NAMES, re.findall(r'b"([A-Z]{3})"', source))
        forms = dict(re.findall(r"^ +((?:0o[0-7]{2}[ |.=]*)+) => Form::(\w+),$", source, re.M)[::-1])
        two = {code for codes, form in forms.items() if form in ("Constant", "Indexed", "Both")
               for code in codes_in(codes.replace("0o", "").replace("..=", " to "))}
        self.assertEqual(TWO, two)

    def test_kernel(self):
        """The C kernel of the benchmark has a case for each, but for 30 to 57, which it takes apart by their digits."""
        cases = [int(code, 8) for code in re.findall(r"\bcase 0([0-7]{2}):",
                                                     read("bench", "kernel.c").split("switch (word >> 6)")[-1])]
        self.assertEqual(set(range(64)) - set(range(0o30, 0o60)), set(cases) & set(range(64)))

    def test_origins(self):
        """A session has a turn of each code, and asks for the origin of what each of them wrote, but a state of a channel."""
        transcript = read("tests", "sessions", "origin-of-each-code.txt")
        self.assertEqual({f"{code:02o}" for code in range(64)}, set(re.findall(r"^\$ turn [IEF] '(\d\d)", transcript, re.M)))
        self.assertEqual({"PSN", "ACN", "DCN"}, set(NAMES) - set(re.findall(r"\b[A-Z]{3}\b", transcript)))
