"""The assembler: docs/ASSEMBLER.md. The words of instructions come from the tables of docs/MACHINE.md by a second encoder, and all
others are worked by hand; tests/programs has programs, and files of cases. The tool's forms are in tests/sessions/assemble.txt."""

import glob
import itertools
import os
import random
import re

from .assembler_sources import listing, program, sections, sources
from .support import TOP, Case, add_tests, blocks, names_of_codes, needs_library, read, run, tool

from pp6600.language.decks import texts_of
from pp6600.language.symbol_options import Given
from pp6600.language.listing import ListingSymbols
from pp6600.language.program import LOCAL, assembled

setUpModule = needs_library
PROGRAMS = os.path.join(TOP, "tests", "programs")
COLUMN_OF_SOURCE = 22  # of a listing, counted from 0
EDGES_OF_D = (0, 1, 0o37, 0o40, 0o41, 0o76, 0o77)
EDGES_OF_M = (0, 1, 0o77, 0o100, 0o3777, 0o4000, 0o7776, 0o7777)


def codes_with_two_words():
    """Returns the codes of docs/MACHINE.md that have two words."""
    listed = re.search(r"The codes ([0-7, to]+ and [0-7]+)\s+have two words", read("docs", "MACHINE.md").replace("\n", " "))[1]
    ranges = [part.split(" to ") for part in re.split(", | and ", listed)]
    return {code for first, *last in ranges for code in range(int(first, 8), int((last or [first])[0], 8) + 1)}


NAMES, TWO = names_of_codes(), codes_with_two_words()


def wanted(code, d, m):
    """Returns the words of an instruction: code and d, and m if it has two words."""
    return [code << 6 | d, m] if code in TWO else [code << 6 | d]


def spelled(code, d, m, address):
    """Returns the operand of an instruction at an address, octal; None if it has none."""
    if 0o03 <= code <= 0o07:  # forward by d to 37, backward by 77-d from 40 on; 77 is not spelled
        return None if d == 0o77 else f"{(address + (d if d < 0o40 else d - 0o77)) % 0o10000:o}"
    if 0o20 <= code <= 0o23:
        return f"{d << 12 | m:o}"
    if code in (0o01, 0o02) or 0o50 <= code <= 0o57:
        return f"{m:o},{d:o}" if d else f"{m:o}"
    return f"{m:o},{d:o}" if code in TWO else f"{d:o}"


def made(lines):
    """Returns the words of a source from cell 0100 on, by their addresses; its faults are a fault of the test."""
    found = assembled(["          ORG    100B", *lines])
    assert not found.faults, found.complaints
    return {address: cell.word for address, cell in sorted(found.cells.items())}


def digits(words):
    return " ".join(f"{word:04o}" for word in words)


class Encoding(Case):
    def test_all_codes(self):
        """Each code with the edges of d and m."""
        self.assertEqual(23, len(TWO))
        for code in range(0o100):
            if code in (0o24, 0o25):  # that pass, as 00 does, and have no spelling
                continue
            address, lines, words = 0o100, ["          BASE   OCTAL"], []
            for d in EDGES_OF_D:
                for m in EDGES_OF_M if code in TWO else (0,):
                    operand = spelled(code, d, m, address)
                    if operand is not None:
                        lines.append(f"          {NAMES[code]}    {operand}")
                        words += wanted(code, d, m)
                        address += len(wanted(code, d, m))
            with self.subTest(f"{code:02o} {NAMES[code]}"):
                self.assertEqual(dict(enumerate(words, 0o100)), made(lines))


class Words(Case):
    """Statements and their words from cell 0100 on; those of each case are worked by hand."""

    def check(self, cases):
        for lines, wanted in cases:
            with self.subTest(lines):
                self.assertEqual(wanted, [digits(made(lines).values())])

    def test_conditions(self):
        for name, *holds in (("IFEQ", 0, 1, 0), ("IFNE", 1, 0, 1), ("IFGT", 0, 0, 1), ("IFGE", 0, 1, 1), ("IFLT", 1, 0, 0),
                             ("IFLE", 1, 1, 0)):
            for number, one in zip((1, 2, 3), holds):
                lines = [f"  {name} {number},2", "  CON 5", "  ELSE", "  CON 6", "  ENDIF"]
                with self.subTest(name, number=number):
                    self.assertEqual([5 if one else 6], list(made(lines).values()))


class Faults(Case):
    """What is wrong, each once and with its place."""

    @staticmethod
    def faults(lines):
        return list(assembled(lines).complaints) or ["right"]

    def check(self, cases):
        for lines, wanted in cases:
            with self.subTest(lines):
                self.assertEqual(wanted, self.faults(lines))

    def test_nested_lines(self):
        lines = ["  IFEQ 1,1"] * 200 + ["  ENDIF"] * 200
        self.assertEqual(["100:1: lines are nested more than 100 (decimal) deep"], self.faults(lines))

    def test_references_of_micros(self):
        lines = [" M MICRO 1,1,*A*", *['  ABS ' + '"M"' * 10] * 10_000]
        self.assertEqual(["right"], self.faults(lines))
        self.assertEqual(["10002:1: more than 100000 (decimal) references of micros"], self.faults([*lines, '  ABS "M"']))

    def test_no_fault_of_its_own(self):
        """Sources at random give messages or words, never anything else."""
        for lines in sources(300):
            found = assembled(lines)
            places = [tuple(map(int, complaint.split(":")[:2])) for complaint in found.complaints[:found.faults]]
            self.assertEqual(sorted(places), places)
            self.assertTrue(all(1 <= line <= len(lines) and column > 0 for line, column in places))


add_tests(Words, Words.check, sections("words.txt").items())
add_tests(Faults, Faults.check, sections("faults.txt").items())


DECKS = os.path.join(PROGRAMS, "decks")


class Decks(Case):
    """Routines as the systems of the time have them. tests/sessions/decks.txt has what they compute."""

    def test_read_back(self):
        """A listing with blocks and fields of bits is checked, and has the same words."""
        lines = read("tests", "programs", "decks", "scope-style.pp").splitlines()
        texts = texts_of(Given(DECKS), lines)
        found, symbols = assembled(lines, texts), ListingSymbols(listing(lines, texts))
        self.assertEqual({address: cell.word for address, cell in found.cells.items()},
                         {address: word for address, (word, _) in symbols.listing.cells.items()})


class Listings(Case):
    """The listing is read back to the same words and names."""

    def check_read_back(self, lines):
        found = assembled(lines)
        self.assertEqual(0, found.faults, lines)
        printed = listing(lines)
        symbols = ListingSymbols(printed)
        self.assertEqual({address: cell.word for address, cell in found.cells.items()},
                         {address: word for address, (word, _) in symbols.listing.cells.items()}, printed)
        tables = symbols.names.labels, symbols.names.equates
        self.assertEqual({(name, number) for name, (number, _) in found.names.items() if number <= 0o7777},
                         {(name, number) for table in tables for number, names in table.items() for name in names
                          if not LOCAL.fullmatch(name)},
                         "\n".join(printed))

    def test_programs(self):
        for path in sorted([*glob.glob(f"{PROGRAMS}/*.pp"), *glob.glob(f"{TOP}/ex*/**/*.pp", recursive=True)]):
            with self.subTest(path):
                self.check_read_back(read(path).splitlines())

    def test_random_programs(self):
        choose = random.Random(57)
        for _ in range(200):
            self.check_read_back(program(choose))


def is_in_script(path):
    """Returns whether the words of an example are in its script; the others get theirs by --source."""
    return os.path.basename(os.path.dirname(path)) not in ("monitor",)


class Sources(Case):
    """The program of each script as a source beside it."""

    @staticmethod
    def programs(path):
        """Returns the cells that a script sets before its first turn, by their addresses, for each processor that has some."""
        cells = {}
        for line in itertools.takewhile(lambda line: not line.startswith("STEP"), read(path).splitlines()):
            if line.startswith("SET M "):
                number, first, *words = line.split()[2:]
                cells.setdefault(number, {}).update(enumerate((int(word, 8) for word in words), int(first, 8)))
        return cells

    @staticmethod
    def words_of(lines):
        """Returns the words of a panel or of a deck."""
        return [int(word, 8) for line in lines for word in line.partition("*")[0].split()]

    def test_words(self):
        """Each source has the words of a script, a panel or a deck beside it, and each program of a script has a source."""
        processors = {}  # of each source
        for path in filter(is_in_script, sorted(glob.glob(f"{TOP}/ex*/**/*.pp", recursive=True))):
            found, there = assembled(read(path).splitlines()), os.listdir(os.path.dirname(path))
            beside = {name: os.path.join(os.path.dirname(path), name) for name in there}
            cells = {address: cell.word for address, cell in found.cells.items()}
            programs = [one for name in ("script", "stdin") if name in there for one in self.programs(beside[name]).items()]
            processors[path] = {number for number, own in programs if own == cells}
            self.assertEqual(0, found.faults, path)
            self.assertTrue(processors[path] or any(
                self.words_of(read(beside[name]).splitlines()) == [cells.get(address, 0) for address in addresses]
                for name, addresses in (("deck", range(min(cells, default=0), max(cells, default=-1) + 1)),
                                        ("panel", range(1, 0o15)))
                if name in there), path)
        self.assertGreater(len(processors), 20)
        for path in filter(is_in_script, sorted(glob.glob(f"{TOP}/ex*/*/script"))):
            below = [own for name, own in processors.items() if name.startswith(f"{os.path.dirname(path)}/")]
            self.assertLessEqual(set(self.programs(path)), set().union(*below), path)

    def test_solutions(self):
        """A program that is a source solves its exercise, as words do."""
        for name in ("first-program", "sum-of-a-table", "exchange", "list-a-deck"):
            lines = tool("assemble", "--set", "0", os.path.join(TOP, "exercises", name, "solution", f"{name}.pp")).out
            path = self.file(read("exercises", name, "script") + lines, "script")
            with self.subTest(name):
                done = run(os.path.join(TOP, "exercises", "check-exercise"), name, os.path.dirname(path))
                self.assertEqual((f"{name}: solved\n", "", 0), done)

    def test_listings_of_pages(self):
        """A page shows a source with its words beside it."""
        for page in sorted(glob.glob(f"{TOP}/docs/*.md")):
            for block in blocks(os.path.relpath(page, TOP), "listing"):
                lines = block.text.splitlines()
                source = [line[COLUMN_OF_SOURCE:] for line in lines if line[COLUMN_OF_SOURCE:]]
                with self.subTest(block.place):
                    self.assertEqual(lines, listing(["          BASE   OCTAL", *source])[1:])
