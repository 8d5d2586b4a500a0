"""The assembler of the library: its answers to 3,000 (decimal) sources, which are those that an assembler in Python had; its forms,
which are all of one program; and tools where there is no library. Sources are those of the repository, and others made at random.
What has no room, and wrong numbers, tests/library_calls.py tries.

    PP6600_SOURCES=N   makes N at random (decimal)
"""

import os
import unittest
from unittest import mock

from .assembler_sources import FROZEN_SUM, frozen_sums, sources, sum_of
from .support import PROVED, Case, tool

from pp6600.engine.assembler import LINES, NAMES, ROWS, UNITS, WORDS, assembler_here
from pp6600.language import program as program_module
from pp6600.language.notation import LITERAL
from pp6600.language.program import LOCAL, assembled, source_of, written
from pp6600.language.sources import Source, names_of, set_lines

COUNT = int(os.environ.get("PP6600_SOURCES", "300"))


def rows_with_words(program):
    """Returns what the form LINES has: no line has the words of literals."""
    return [" ".join([f"{row.number:o}", *(f"{number:04o}" for number in (row.location, row.origin, *row.words))])
            for row in program.rows if row.words and row.text != LITERAL]


def names_in(program):
    """Returns what the form NAMES has, in the order of the names."""
    names = names_of(program)
    return sorted([*(f"{name} {number:04o}" for number, own in names.labels.items() for name in own),
                   *(f"{name} = {number:o}" for number, own in names.equates.items() for name in own)])


@unittest.skipUnless(PROVED, "there is no library with an assembler")
class Library(Case):
    def test_frozen(self):
        self.assertEqual(FROZEN_SUM, sum_of("\n".join(frozen_sums()).encode()))

    def test_forms(self):
        right = 0
        for number, lines in enumerate(sources(COUNT)):
            program = assembled(lines)
            if not program.faults:
                right += 1
                with self.subTest(number, lines=lines):
                    self.check(lines, program)
        self.assertGreater(right, 20)

    def test_only_what_is_asked(self):
        """Of a source that is shown nothing is made that is not: each form of it is a call."""
        with mock.patch.object(program_module, "form_of", wraps=program_module.form_of) as calls:
            source = Source("source.pp", assembled(["          ORG    100B", " START    LDN    5", "          UJN    START"]))
            source.loading(3)
            self.assertEqual([UNITS], [call.args[1] for call in calls.call_args_list])
            self.assertEqual(("START", "source.pp:2: START    LDN    5"),
                             (source.name(0o100), source.beside(0o100, (0o1405, 0o377))))
            self.assertEqual([UNITS, ROWS, NAMES],
                             sorted((call.args[1] for call in calls.call_args_list), key=[UNITS, ROWS, NAMES].index))
            self.assertNotIn("rows", vars(source.program))

    def check(self, lines, program):
        """Compares the forms of a source that has no fault."""
        words = [f"{address:04o} {cell.word:04o}" for address, cell in sorted(program.cells.items())]
        self.assertEqual([*words, *([] if program.start is None else [f"P {program.start:04o}"])], written(lines, WORDS))
        self.assertEqual(set_lines(program, 5), assembler_here().load_lines(source_of(lines), 5).decode().splitlines())
        self.assertEqual(rows_with_words(program), written(lines, LINES))
        self.assertEqual(names_in(program), sorted(name for name in written(lines, NAMES) if not LOCAL.match(name)))


class Tools(Case):
    def test_no_library(self):
        """Where no library starts, a source, a listing with names and cells to disassemble are refused."""
        source, rows = self.file("  LDN 5\n"), self.file("0100 1405\n")
        listing = self.file("0100 1405           LDN    5\n0101 1406  START    LDN    6\n")
        with mock.patch.dict(os.environ, PP6600_ENGINE="plain"):
            for name, *words in (("assemble", source), ("load", "--listing", "0", listing), ("disassemble", rows),
                                 ("show", "--source", "0", source)):
                with self.subTest(name):
                    done = tool(name, *words)
                    self.assertEqual(("", 2), (done.out, done.status))
                    self.assertRegex(done.err, "this needs the assembler of the proved library, and no library starts here\n$")
