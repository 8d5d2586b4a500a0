"""Printed listings of other assemblers, beside tests/sessions/printed-listings.txt, where each is read by hand.

    PP6600_ERRORS=SEED:COUNT   makes COUNT errors of each kind from seed SEED on (decimal)
"""

import contextlib
import functools
import glob
import os
import random
import re

from .assembler_sources import listing, sections
from .support import TOP, Case, add_tests, needs_library, read

from pp6600.failure import Failure
from pp6600.language.listing import Listing, ListingSymbols
from pp6600.language.program import assembled

setUpModule = needs_library
LISTINGS = [text.splitlines()
            for text in re.findall("<<END\n(.*?)^END$", read("tests", "sessions", "printed-listings.txt"), re.M | re.S)]
SEED, COUNT = map(int, os.environ.get("PP6600_ERRORS", "70:80").split(":"))
WORDS_OF_LINE = 2
PAGE = 20  # lines


def sources():
    """Returns the lines of each source of the repository that can be assembled by itself."""
    paths = sorted([*glob.glob(f"{TOP}/tests/programs/*.pp"), *glob.glob(f"{TOP}/ex*/**/*.pp", recursive=True)])
    return [read(path).splitlines() for path in paths]


def rows_of(source):
    """Yields the address, the words, the number that is named and the text of each line of a listing of a source."""
    for row in assembled(source).rows:
        named = "" if row.value is None or row.is_set or not 0 <= row.value < 0o10000 else f"{row.value:04o}"
        address = f"{row.location:04o}" if row.has_address else named
        words = [f"{word:04o}" for word in row.words]
        yield address, words[:WORDS_OF_LINE], row.text
        for at in range(WORDS_OF_LINE, len(words), WORDS_OF_LINE):
            yield f"{row.location + at:04o}", words[at:at + WORDS_OF_LINE], ""


def numbered(source):
    """With the number of each line before it."""
    return [f"{number:5}   {address:4}  {' '.join(words):9} {text}".rstrip()
            for number, (address, words, text) in enumerate(rows_of(source), 1)]


def paged(source):
    """With a column that moves the printer's paper, addresses without the zeros before them, and heads of pages."""
    found = []
    for number, (address, words, text) in enumerate(rows_of(source)):
        if number % PAGE == 0:
            found.append(f"1          PROGRAM               12 MARCH 1971     PAGE   {number // PAGE + 1}")
        found.append(f"     {address.lstrip('0') or address[-1:]:>4}  {' '.join(words):9}   {text}".rstrip())
    return found


def sequenced(source):
    """With sequence numbers at the right."""
    return [f"{address:4}  {' '.join(words):11}  {text:50} DECK {number:5}"
            for number, (address, words, text) in enumerate(rows_of(source), 1)]


def word_by_word(source):
    """With each word in a line of its own, and no address beside the words that go on."""
    for row in assembled(source).rows:
        words = [f"{word:04o}" for word in row.words]
        yield f" {f'{row.location:04o}' if row.has_address else '':4}  {''.join(words[:1]):4}   {row.text}".rstrip()
        yield from (f"{'':7}{word}" for word in words[1:])


def by_labels(source):
    """With addresses beside labels, and beside the first words after lines without words."""
    is_behind_words = False
    for address, words, text in rows_of(source):
        is_left_out = bool(words) and is_behind_words and text[:2].strip() == ""
        yield f" {'' if is_left_out else address:4}  {' '.join(words):9}   {text}".rstrip()
        is_behind_words = bool(words)


STYLES = (numbered, paged, sequenced, listing, lambda source: list(word_by_word(source)), lambda source: list(by_labels(source)))
ERRORS = {"a digit lost": lambda line, at: f"{line[:at]} {line[at + 1:]}", "a digit deleted": lambda line, at: line[:at]
          + line[at + 1:],
          "a letter": lambda line, at: f"{line[:at]}{'OISBZG'[at % 6]}{line[at + 1:]}",
          "a point": lambda line, at: f"{line[:at]}.{line[at + 1:]}"}


class Listings(Case):
    def test_names_of_addresses(self):
        symbols = ListingSymbols(next(lines for lines in LISTINGS if "LIMIT" in lines[0]))
        self.check_rows(symbols.name, (0o100, "START"), (0o101, "A"), (0o102, "HERE"), (0o103, "HERE+1"), (0o77, "MASK"),
                        (0o76, ""))
        self.check_rows(symbols.address, ("LIMIT", 0o100), ("HERE", 0o102), ("MASK", 0o77), ("NONE", None))

    def test_no_fault_of_its_own(self):
        """Listings with lines changed at random are read or refused, never anything else."""
        choose = random.Random(57)
        for _ in range(400):
            lines = list(choose.choice(LISTINGS))
            for _ in range(choose.randrange(1, 6)):
                at, other = choose.randrange(len(lines)), choose.choice(choose.choice(LISTINGS))
                cut = choose.randrange(len(lines[at]) + 1)
                put = choose.choice(("", ">", " ", "U", "9", "O", "\t", ":", "*", other[cut:], other))
                lines[at] = lines[at][:cut] + put + lines[at][cut + choose.randrange(3):]
            try:
                ListingSymbols(lines).lines()
            except Failure as failure:
                self.assertIn("(decimal)", str(failure))


class Errors(Case):
    """A listing in which one sign was read wrongly is refused, or has the same words."""

    @staticmethod
    def words(lines):
        return {address: word for address, (word, _) in Listing(lines).cells.items()}

    @staticmethod
    @functools.cache
    def good():
        """Returns listings in each style, with their words, which are those of the source."""
        found = []
        for source in sources():
            wanted = {address: cell.word for address, cell in assembled(source).cells.items()}
            found += [(style(source), wanted) for style in STYLES]
        return found

    def test_right(self):
        for lines, wanted in self.good():
            self.assertEqual(wanted, self.words(lines), "\n".join(lines))

    def test_one_error(self):
        good, choose, refused = [lines for lines in self.good() if len(lines[0]) > 5], random.Random(SEED), 0
        for kind, change in ERRORS.items():
            for _ in range(COUNT):
                lines, wanted = choose.choice(good)
                number, at = self.place(lines, choose)
                changed = [*lines[:number], change(lines[number], at), *lines[number + 1:]]
                with self.subTest(kind, line=lines[number], changed=changed[number]):
                    try:
                        self.assertEqual(wanted, self.words(changed))
                    except Failure:
                        refused += 1
        self.assertGreater(refused, COUNT * len(ERRORS) // 2)

    @staticmethod
    def place(lines, choose):
        """Returns a line and the column of a digit of it, mostly one of the columns of numbers."""
        while True:
            number = choose.randrange(len(lines))
            digits = [found.start() for found in re.finditer("[0-9]", lines[number][:choose.choice((24, 24, 24, 90))])]
            if digits:
                return number, choose.choice(digits)

    def test_another_digit(self):
        """Another digit in a word is found if the operand says what it is: here each does but the second word of the SUBR's
        jump."""
        lines = listing(["          BASE   OCTAL", " N        EQU    20", "          ORG    100", " A        LDN    N",
                         "          LDC    123456",
                     "          LDM    B,5", "          UJN    A", " B        CON    1,B", "          DATA   3HABC",
                         "          SHN    -6"])
        for number, line in enumerate(lines):
            for at in (at for at, symbol in enumerate(line[11:20], 11) if symbol in "01234567"):
                changed = f"{line[:at]}{int(line[at]) ^ 1}{line[at + 1:]}"
                with self.subTest(changed):
                    self.assertRaises(Failure, Listing, [*lines[:number], changed, *lines[number + 1:]])

    def check_each_digit(self, source, first, last):
        """Checks that each other digit in some columns of the listing of a source is found, or makes no difference."""
        lines = listing(source)
        wanted = self.words(lines)
        for number, line in enumerate(lines):
            for at in [at for at in range(first, min(last, len(line))) if line[at] in "01234567"]:
                for digit in set("01234567") - {line[at]}:
                    changed = f"{line[:at]}{digit}{line[at + 1:]}"
                    with contextlib.suppress(Failure):
                        self.assertEqual(wanted, self.words([*lines[:number], changed, *lines[number + 1:]]), changed)

    def test_digits_of_literals(self):
        """Another digit in the words of a literal, in its address, or beside a name on a macro's call is found."""
        self.check_each_digit(["          BASE   OCTAL", "          ORG    100", " STORE    MACRO  A,B", "          LDN    A",
                               "          STD    B", "          ENDM", " START    LDN    2", " LAB      STORE  5,20",
                               "          LJM    LAB", "          LDM    =5",
                               "          LDC    =H*ABCD*", "          CON    =7", "          END    START"], 0, 20)

    def check(self, cases):
        """Checks the words of a listing, and what is said of it with each wrong line in its place."""
        (lines, (words, *wrong)), = cases
        self.assertEqual(words, " ".join(f"{word:04o}" for word in self.words(lines).values()))
        for line, said in (one.split(" : ") for one in wrong):
            number = int(said.split()[1])
            with self.subTest(line), self.assertRaisesRegex(Failure, f"^{re.escape(said)}$"):
                self.words([*lines[:number - 1], line, *lines[number:]])

    def test_literal_with_a_blank(self):
        self.check_each_digit(["          BASE   OCTAL", "          ORG    100", " START    LDC    =C*A B*",
                               "          RJM    START", "          LDC    =C*A B*", "          UJN    START"], 0, 20)

    def test_label_of_a_call_without_its_address(self):
        lines = [line if "MOVE   5" not in line else f"{'':11}{line[11:]}" for line in listing([
            "          BASE   OCTAL", "          ORG    100", " MOVE     MACRO  A,B", "          LDN    A", "          STD    B",
            "          ENDM", " MXJ      MOVE   5,20", "          LJM    MXJ", "          RJM    MXJ"])]
        self.assertEqual(6, len(self.words(lines)))
        for wrong in ("0100 0101", "0100 0111", "0101 0100"):
            with self.assertRaises(Failure):
                self.words([line.replace("0100 0100", wrong) for line in lines])


add_tests(Errors, Errors.check, sections("read-wrongly.txt").items())


class Own(Case):
    def test_all_statements(self):
        """The assembler's own listing of BASE *, micros in names and operands, ORG back, other names of directives, blocks and
        literals."""
        lines = ["          IDENT  OWN,100B", "          BASE   DECIMAL", "          ORG    64", " N        MICRO  1,,/5/",
                 " X\"N\"     LDN    \"N\"", "          BASE   OCTAL", "          LDC    =10", "          BASE   *",
                 " HERE     LDC    =10", " ROOM     OPSYN  BSS", " BUF      ROOM   3", " Y        LIT    5,6",
                 "          LDM    Y+1", "          USE    DATA", " D        CON    =C*A B*,HERE", "          USE    *",
                 " A        VFD    3/1", "          VFD    3/2,6/3", " +        VFD    6/4", "          POS    6",
                 "          VFD    3/5", "          QUAL   Q", " L        LDN    1", "          QUAL   *", "          LJM    /Q/L",
                 " S        SUBR", "          UJN    SX", "          LOC    20B", " M        LJM    M", "          LOC    *O",
                 "          ORG    32", "          LDN    1", "          END    HERE"]
        program = assembled(lines)
        self.assertEqual((0, {address: cell.word for address, cell in program.cells.items()}),
                         (program.faults, Errors.words(listing(lines))))

    def test_micro(self):
        """What stands for a micro is not printed, so the words say nothing else."""
        lines = listing(["          BASE   OCTAL", "          ORG    100", " HI       MICRO  1,,/OK/",
                         "          DIS    ,*\"HI\"*", "          CON    2R\"HI\""])
        self.assertEqual([0o1713, 0, 0o1713], list(Errors.words(lines).values()))

    def test_two_programs(self):
        """Of the programs of a source the first is loaded, as by --words."""
        for origin in ("100", "200"):
            lines = listing(["          IDENT  A", "          BASE   OCTAL", "          ORG    100", " START    LDN    1",
                             "          LDC    =5", "          IDENT  B",
                         f"          ORG    {origin}", " BEGIN    LDN    2", "          UJN    BEGIN", "          END    BEGIN"])
            self.assertEqual({0o100: 0o1401, 0o101: 0o2000, 0o102: 0o103, 0o103: 5}, Errors.words(lines))
