"""Conditions by the tools and by the page of a film: the texts of tests/conditions.txt, and in which turns processors wait and a
subroutine returns wrongly. Other seeds: JUDGED_SEEDS="1000 200" compares 200 sessions from seed 1000 on (decimal)."""

import json
import os
import random
import re
import shutil
import unittest

from tests.films import in_node
from tests.support import TOP, Case, needs_library, read

from pp6600.engine.interface import CHANGES, INSIDE, PERFORMS, WAITS, WRITES, Form
from pp6600.failure import Failure
from pp6600.front.film.page import of_symbols, options, tables
from pp6600.language.symbol_options import symbols_from
from pp6600.run.conditions import FORM, GREATEST, Returns, Waits, parsed
from pp6600.run.forms import Place
from pp6600.run.search import Search, TurnFinder, holds
from pp6600.run.searches import search_for
from pp6600.run.session import Session
from pp6600.shell.command_line import arguments

setUpModule = needs_library
SOURCES = {"0": """ COUNT    EQU    20B
 CH       EQU    5
 BIG      EQU    123456B
          ORG    100B
 START    LDN    1
          STD    COUNT
 LOOP     RJM    SUB
          UJN    START
          BSSZ   3
 SUB      SUBR
          UJN    SUBX
          ORG    200B
 BUF      BSSZ   10B
          END    START
""", "3": """ COUNT    EQU    21B
 CH       EQU    6
          ORG    300B
 HERE     BSSZ   10B
 OTHER    UJN    HERE
          END    OTHER
"""}
ROW = re.compile(r"^(?!#)(.*?) ?\| (.*)$", re.M)


def shown(kind, place, first, last):
    """Returns a form as the file has it."""
    if kind == PERFORMS:
        return f"performs {place:o} {first:o}"
    if kind in (CHANGES, WRITES):
        return f"{'changes' if kind == CHANGES else 'writes'} {Place.at(place).text} {first:o}"
    ends = ("top" if number == GREATEST else f"{number:o}" for number in (first, last))
    return " ".join(["in" if kind == INSIDE else "out", Place.at(place).text, *ends])


def shown_by_tools(test):
    if isinstance(test, Waits):
        return f"waits {test.number:o}"
    if isinstance(test, Returns):
        return " ".join([f"returns {test.number:o}", *(f"{entry:o}" for entry in test.entries)])
    (form,) = test.forms
    return shown(*form)


def shown_by_page(kind, *numbers):
    if kind == "returns":
        number, jumps = numbers
        return " ".join([f"returns {number:o}", *(f"{jump + 1:o}" for jump in jumps)])
    place, first, last = map(int, numbers)
    return f"waits {place:o}" if kind == 5 else shown(kind, place, first, last)


class Conditions(Case):
    def setUp(self):
        self.rows = ROW.findall(read("tests", "conditions.txt"))
        self.assertGreater(len(self.rows), 150)
        self.symbols = symbols_from([], [(number, self.file(text.encode())) for number, text in SOURCES.items()])

    def check(self, found):
        """Compares what each text makes with the file."""
        for (text, wanted), one in zip(self.rows, found):
            with self.subTest(text):
                self.assertEqual(wanted, one.replace(FORM, "FORM"))

    def found(self, text):
        """Returns what a text makes by the tools."""
        try:
            alternatives = parsed(text, self.symbols).alternatives
        except Failure as failure:
            return f"! {failure}"
        return " / ".join(" & ".join(map(shown_by_tools, one.tests)) for one in alternatives)

    def test_by_the_tools(self):
        self.check([self.found(text) for text, _ in self.rows])

    @unittest.skipUnless(shutil.which("node"), "there is no node")
    def test_by_the_page(self):
        labels, texts = of_symbols(self.symbols)["labels"], [text for text, _ in self.rows]
        lines = in_node("condition_texts.js", self.file(json.dumps(labels).encode()), self.file(json.dumps(texts).encode()))
        found = [json.loads(line) for line in lines]
        self.check([f"! {one['said']}" if "said" in one else " / ".join(" & ".join(shown_by_page(*test) for test in tests)
                                                                        for tests in one["tests"]) for one in found])


SEEDS = "1 24"  # of the sessions that are judged: the first, and how many
MOST = 8  # turns that are looked for
NAMES = b"AX 200\nA 201\nBX 220\nB 221\nCX 240\nC 241\n"  # subroutines, of each processor
ENTRIES = ("201", "221", "241")
# In one PP 00 calls a subroutine that calls itself, so that the outer call returns wrongly; PP 01 waits, and PP 02 counts.
COUNTED = {"lines": ["SET M 0 100 200 201 300", "SET M 0 200 100 0 3020 404 3720 200 201 100", "SET M 0 210 200", "SET M 0 20 1",
                     "SET M 1 100 7005", "SET M 2 100 1405 3420 3620 100 102", *(f"SET P {n} 100" for n in range(3)), "STEP 400"],
           "conditions": ["PP 0 returns wrongly", "PP 0 returns wrongly and P 0 = 207 and PP 1 waits", "PP 1 waits and M 2 20 = 7",
                          "M 2 20 is written and PP 1 waits", "PP 1 waits and P 2 = 102 or PP 0 returns wrongly"], "most": MOST}
OTHERS = ("A {n} > 7", "M {n} 20 = 5", "M {n} 20 is written", "M {n} 201 != 0", "P {n} inside 200 240", "P {n} changes", "H 5 is F",
          "H 5 changes state", "PP {n} performs 200", "PP {n} not in a block", "PP {n} in a block")


def stored(n, first, words):
    """Returns the lines that store words from a cell on."""
    return [f"SET M {n} {first + at:o} {' '.join(words[at:at + 8])}" for at in range(0, len(words), 8)]


def some(choose, most, kinds):
    """Returns the words of some random instructions, of which the kinds are given."""
    words = choose.choices(kinds, k=choose.randrange(1, most))
    return " ".join(word.format(d=f"{choose.randrange(0o20):02o}", entry=choose.choice(ENTRIES)) for word in words).split()


def judged_lines(choose):
    """Returns the lines of a session in which one processor sends words to another by subroutines, which change return words."""
    lines, jumps = ["SET H 5 E 0"], ("100",) * 8 + ("1403", "200", "3420")  # that may be in the place of the jump back
    for n in range(2):
        moves = (f"7{2 - 2 * n}05",)
        lines += stored(n, 0o100, [*some(choose, 6, (*moves, "0200 {entry}", "0200 {entry}", "14{d}", "3420")), "100", "100"])
        kinds = ("14{d}", "3420", *("0200 {entry}", "5600 {entry}", "5400 {entry}") * 2, "7105 300", "0401", *moves)
        for first in (0o200, 0o220, 0o240):
            lines += stored(n, first, [choose.choice(jumps), "0", *some(choose, 5, kinds), "100", f"{first:o}"])
        lines.append(f"SET P {n} 100")
    for _ in range(choose.randrange(4, 9)):
        lines.append(f"STEP {choose.randrange(1, 0o200):o}")
        lines += choose.choices((["SET A 1 10"], ["SET P 0 100"], ["SET P 1 200"], ["SET H 5 F 3"], ["SET H 5 E 0"],
                                 ["SET M 0 20 5"], ["SET M 1 201 100"], []), (1, 2, 2, 2, 2, 1, 1, 4))[0]
    return lines


def judged_condition(choose):
    """Returns a condition with tests that are more than a turn."""
    def tests():
        more = [choose.choice(OTHERS).format(n=choose.randrange(2)) for _ in range(choose.choice((0, 0, 0, 1, 2)))]
        long = choose.choice((["PP 0 waits"], ["PP 1 waits"], ["PP 0 waits", "PP 1 waits"], ["PP 0 returns wrongly"],
                              ["PP 1 returns wrongly"], ["PP 0 returns wrongly", "PP 1 waits"]))
        return " and ".join(choose.sample(long + more, len(long + more)))
    return " or ".join(tests() for _ in range(choose.choice((1, 1, 1, 2))))


@unittest.skipUnless(shutil.which("node"), "there is no node")
class Judges(Case):
    """In the page a wait that goes on is found in each of its turns; else the two find the same."""

    def test_same_turns(self):
        first, count = map(int, os.environ.get("JUDGED_SEEDS", SEEDS).split())
        names = self.file(NAMES)
        symbols, sessions = symbols_from([(n, names) for n in "01"], []), [COUNTED]
        for seed in range(first, first + count):
            choose = random.Random(seed)
            lines, conditions = judged_lines(choose), [judged_condition(choose) for _ in range(5)]
            sessions.append({"lines": lines, "conditions": conditions, "most": MOST})
        about = {**tables(), **options(arguments("").parse_args([])), **of_symbols(symbols)}
        files = [self.file(json.dumps(data).encode()) for data in (about, sessions)]
        lines = in_node("film_searches.js", os.path.join(TOP, "dist", "pp6600.wasm"), *files)
        seen = 0
        for session, found in zip(sessions, map(json.loads, lines)):
            for text, one in zip(session["conditions"], found):
                with self.subTest(text, lines=session["lines"]):
                    wanted, end = self.wanted(session["lines"], parsed(text, symbols))
                    self.assertEqual([[*wanted, None][:MOST], max((at for at in wanted if at < end), default=None)], one)
                    seen += bool(wanted)
                    self.assertTrue(wanted or session is not COUNTED)
        self.assertGreater(seen, count)

    @staticmethod
    def wanted(lines, condition):
        """Returns after how many actions a condition comes to hold, or waits go on in it; and how many actions there are."""
        with Session() as user:
            for line in lines:
                user.act(line)
            with user.search() as run:
                found = {position + 1 for position, _ in search_for(run, condition).found()}
                for one in (one for one in condition.alternatives if one.waits and not one.returns):
                    waits = list(Search(run, [TurnFinder([[Form(WAITS, n)] for n in one.waits])]).found())
                    found |= {position + 1 for position, _ in waits if run.goto(position + 1) or holds(run, one)}
        return sorted(found), user.position
