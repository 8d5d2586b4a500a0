"""The modules of a film's page, run by Node, beside the simulator in Python and the program on random sessions: the answers, and of
each moment its kind, what it changed, what it wrote and from what; what its searches find; and what its assembler knows of sources,
beside the tools. Other seeds: TRUTH_SEEDS="1000 200" compares 200 sessions from seed 1000 on (decimal)."""

import glob
import json
import os
import random
import re
import shutil
import unittest

from tests.films import in_node
from tests.generator import BUSY, LOOPS, WATCHED, Maker
from tests.support import EXAMPLES, TOP, Case, program, read
from tests.support import run as run_program

from pp6600.engine import origins as of
from pp6600.engine.choose import engine_of
from pp6600.engine.interface import CARD, CLOCK, PHASE, SLOT, STATES, WAITS, A, Form, P, Q
from pp6600.front.film import page
from pp6600.language.sources import Source, set_lines
from pp6600.run.conditions import joined, parsed
from pp6600.run.forms import CELLS, CHANNELS, PROCESSORS, Place
from pp6600.run.forms import STATES as LETTERS
from pp6600.run.names import AllSymbols
from pp6600.run.turn import BLOCKS, Processor, places_of_setting
from pp6600.run.written import writes_of
from pp6600.shell.command_line import arguments

MODULE = os.path.join(TOP, "dist", "pp6600.wasm")
SEEDS = "100 25"  # of the random sessions: the first, and how many
OPTIONS = ("--central", "32", "--panel", f"{EXAMPLES}/dead-start/panel", "--deck", f"{EXAMPLES}/read-a-deck/deck")
# An exchange and what moves P of the central processor, at the end of central memory too; a block past its end; a return address of
# zero.
EXCHANGE = ["SET C 1 12345670123456701234", "SET M 0 100 1400 2600 2700 2077 7776 2600 2700 300", "SET P 0 100", "STEP 200",
            "BACK 20", "FORWARD 3", "SET M 1 7776 1404 3420 6120 0 7105", "SET P 1 7776", "SET A 1 77776", "STEP 200"]
IDLE, WAITING, BUSY_TURN, BLOCK, LINE, JUMP = range(6)  # what a lane shows of a moment, as docs/FILM.md has it, and other moments
MOVED, BY_DEVICE, AT_END = 1, 2, 8
COLUMNS = 80
CONSTANTS = {"RETURN ADDRESS": "the return address", "ZERO": "zero", "ZERO PAST THE LAST WORD": "zero, past the last central word"}


DUMPS = [*(f"DUMP M {n:o} 0 7777" for n in range(PROCESSORS)), *(f"DUMP PP {n:o}" for n in range(PROCESSORS)), "DUMP H"]


def dumped(numbers):
    """Returns the answers to DUMPS, by the numbers of a film."""
    cells = [f"{first % CELLS:04o} " + " ".join(f"{word:04o}" for word in numbers[first:first + 8])
             for first in range(0, PROCESSORS * CELLS, 8)]
    registers = [f"PP {n:02o} P {numbers[P + n]:04o} A {numbers[A + n]:06o} Q {numbers[Q + n]:04o} PHASE {numbers[PHASE + n]:04o} "
                 f"SLOT {numbers[SLOT]:02o}" for n in range(PROCESSORS)]
    channels = [f"H {c:02o} {LETTERS[numbers[Place('S', (c,)).number]]} {numbers[Place('H', (c,)).number]:04o}"
                for c in range(CHANNELS)]
    return [*cells, *registers, *channels, f"H 14 F {numbers[CLOCK]:04o}"]


def lines_of(seed):
    lines = Maker(seed, (BUSY, BUSY, LOOPS, WATCHED)[seed % 4]).script()
    return [line for line in lines if "\r" not in line and "\n" not in line and line.isascii()]


def kind_of(turn, before, after):
    """Returns what a lane shows of a turn. The turn that begins a block transfer is a part of it, and a jump to itself passes."""
    if turn.kind == of.WAITED:
        return WAITING
    if turn.word >> 6 in BLOCKS:
        return BLOCK
    return IDLE if before[:4] == after[:4] or turn.kind == of.PASSED else BUSY_TURN


def written(turn, before, after, punched):
    """Returns what a turn wrote: of each place its number, what kind of write it was, its constant and its sources. The reader was
    at the column that is at this place of the page."""
    of_devices = [[one.place, BY_DEVICE, "", [[punched, 0]] if one.operation == of.PUNCHED else []]
                  for one in turn.others if STATES <= one.place < CLOCK]
    return sorted(of_devices + [
        [write.place.number, MOVED * write.is_moved | AT_END * write.ends_block,
         "".join(CONSTANTS.get(text) or text.replace("CONSTANT", "the constant") for text in write.constants(before)[:1]),
         [[place.number, sum(1 << part for part in parts or ())] for place, parts in write.sources]]
        for write in writes_of(turn, after.p) if write.place.kind not in ("S", "PHASE")])


def made_turn(engine, turns, deck):
    """Makes a turn, after which there are so many. Returns it as a moment of the page, in which the deck begins at this place."""
    def look(place):
        return engine.numbers(place, 1)[0]
    number, punched = look(SLOT), deck + COLUMNS * look(CARD) + look(CARD + 1)
    before = Processor.read(number, look)
    (turn,), records = engine.origins(1)
    after, old = Processor.read(number, look), dict(zip(records.places[::-1], records.numbers[::-1]))  # of a place the first counts
    changed = [[place, str(was), str(look(place))] for place, was in sorted(old.items()) if was != look(place)]
    return [kind_of(turn, before, after), number, before.p, turns, changed, written(turn, before, after, punched)]


def line_written(line):
    """Returns the places that a SET or DEADSTART wrote, as the moments of the page have them."""
    return sorted([place.number, word or 0, "", []] for place, word in places_of_setting(line).items() if place.kind != "PHASE")


@unittest.skipUnless(shutil.which("node"), "there is no node")
class Truth(Case):
    def page_sessions(self, sessions):
        """Yields what the page's scripts make of sessions."""
        about = {**page.tables(), **page.options(arguments("").parse_args(list(OPTIONS))), "labels": {}, "lines": []}
        files = {"about": about,
                 "sessions": [{"lines": lines, "deck": read(OPTIONS[-1]), "panel": read(OPTIONS[-3])} for lines in sessions]}
        paths = [self.file(json.dumps(data)) for data in files.values()]
        return map(json.loads, in_node("film_rows.js", MODULE, *paths))

    def test_random_sessions(self):
        first, count = map(int, os.environ.get("TRUTH_SEEDS", SEEDS).split())
        sessions, turns = [*(lines_of(seed) for seed in range(first, first + count)), EXCHANGE], 0
        for seed, (lines, got) in enumerate(zip(sessions, self.page_sessions(sessions)), first):
            with self.subTest(seed=seed):
                answers, dumps = [line for answer in got["answers"] for line in answer], dumped(got["numbers"])
                self.assertEqual([*answers, *dumps], self.answers([*lines, *DUMPS]))
                turns += self.compare(zip(lines, got["answers"]), iter(got["moments"]), got["deck"])
        self.assertGreater(turns, 100 * count)

    @staticmethod
    def answers(lines):
        """Returns what the program answers to lines."""
        return run_program(program(), *OPTIONS, script="".join(f"{line}\n" for line in lines)).out.splitlines()

    def compare(self, answered, moments, deck):
        """Compares the moments of a session with the simulator in Python. Returns how many turns it has."""
        engine, kept, ahead, turns = engine_of("plain", OPTIONS), [], [], 0  # of each action whether it is a turn
        for line, answer in answered:
            kind, *rest = (answer or ["NOTE"])[0].split()
            count = int(rest[0], 8) if kind in ("TURNS", "BACK", "FORWARD") else 1
            for _ in range(count if kind == "TURNS" else 0):
                kept.append(True)
                *others, writes = next(moments)
                self.assertEqual(made_turn(engine, sum(kept), deck), [*others, sorted(writes)], line)
            if kind in ("BACK", "FORWARD"):
                source, target = (kept, ahead) if kind == "BACK" else (ahead, kept)
                target += [source.pop() for _ in range(count)]
            elif kind in ("OK", "TURNS"):
                kept += [False] * (kind == "OK")
                ahead.clear()
            if kind == "TURNS":
                turns += count
            elif kind in ("OK", "BACK", "FORWARD"):
                engine.answers(f"{line}\n")
                number, _, _, turn, _, writes = next(moments)
                wanted = [LINE, sum(kept), line_written(line)] if kind == "OK" else [JUMP, sum(kept), []]
                self.assertEqual(wanted, [number, turn, sorted(writes)], line)
        self.assertIsNone(next(moments, None))
        return turns


SEARCHED = "500 16"  # of the sessions in which conditions are looked for: the first, and how many
TESTS = ("P {n} = {p}", "A {n} != 0", "A {n} > 7", "Q {n} <= 3", "A {n} < 100", "M {n} 20 >= 1", "P {n} outside 100 117",
         "A {n} inside 1 77", "M {n} 20 changes", "P {n} changes", "M {n} 0 177 is written", "A {n} is written", "C 0 is written",
         "H {c} is F", "H {c} changes state", "PP {n} waits", "PP {n} performs {p}", "PP {n} in a block", "PP {n} not in a block")


def condition_of(choose):
    """Returns a condition, and its forms as the tools read it."""
    test = lambda: choose.choice(TESTS).format(n=choose.randrange(3), p=f"{choose.randrange(0o100, 0o120):o}",
                                               c=choose.choice(("0", "1", "12", "13")))
    lists = [[test() for _ in range(choose.choice((1, 1, 2)))] for _ in range(choose.choice((1, 1, 1, 2)))]
    form = lambda text: Form(WAITS, int(text.split()[1], 8)) if text.endswith("waits") else parsed(text).alternatives[0].forms[0][0]
    return " or ".join(" and ".join(tests) for tests in lists), joined([[form(text) for text in tests] for tests in lists])


@unittest.skipUnless(shutil.which("node"), "there is no node")
class Searches(Case):
    """What the page finds, beside what the simulator in Python does."""

    def test_random_conditions(self):
        first, count = map(int, os.environ.get("SEARCHED_SEEDS", SEARCHED).split())
        sessions, wanted = [], []
        for seed in range(first, first + count):
            choose = random.Random(seed)
            lines = [line for line in lines_of(seed) if re.match(r"(SET|STEP|DEADSTART)\b", line) and self.accepted(line)]
            conditions = [condition_of(choose) for _ in range(8)]
            sessions.append({"lines": lines, "conditions": [text for text, _ in conditions], "most": 1})
            wanted.append([self.found(lines, forms) for _, forms in conditions])
        about = self.file(json.dumps({**page.tables(), **page.options(arguments("").parse_args([])), "labels": {}}))
        found = [json.loads(line) for line in in_node("film_searches.js", MODULE, about, self.file(json.dumps(sessions)))]
        for session, own, others in zip(sessions, wanted, found):
            for text, one, other in zip(session["conditions"], own, others):
                self.assertEqual(one, other, (text, session["lines"]))
        self.assertGreater(sum(one != [[None], None] for own in wanted for one in own), count)

    @staticmethod
    def accepted(line):
        return not engine_of("plain", []).answers(f"{line}\n")[0].startswith("ERR")

    @staticmethod
    def found(lines, forms):
        """Returns after how many actions a condition comes to hold first in a turn, and last in an action before the newest."""
        engine, at, first = engine_of("plain", []), 0, None
        for line in lines:
            kind, count = [*line.split(), "1"][:2]
            count = int(count, 8) if kind == "STEP" else 1
            made, is_found = engine.until(forms, count) if kind == "STEP" and first is None else (0, False)
            if is_found:
                first = at + made
            if kind != "STEP" or made < count:
                engine.answers(f"{line}\n" if kind != "STEP" else f"STEP {count - made:o}\n")
            at += count
        undone = engine.back_until(forms)
        return [[first], at - undone if undone else None]


# ---- the assembler

PLACES = ("examples/*/*.pp", "exercises/**/*.pp", "tests/programs/*.pp", "tests/debug/*.pp")
LEAST = 10  # sources that the module takes


def own_lines(source, rows):
    """Returns the texts of lines but for those that a macro makes."""
    made = {address for row in source.program.rows if row.is_made for address in (row.location, row.origin)}
    return {int(address): row for address, row in rows.items() if int(address) not in made}


def without_literals(source):
    """Returns a source without the words of literals, which are of no line."""
    program = source.program
    program.row_lines, program.literals = [line for line in program.row_lines if not line.endswith("\t*         LITERAL")], {}
    return Source(source.path, program)


@unittest.skipUnless(shutil.which("node"), "there is no node")
class Assembler(Case):
    def test_sources(self):
        """The page knows of a source that it assembles what the tool puts into the page of one that it assembles."""
        paths = sorted(path for place in PLACES for path in glob.glob(os.path.join(TOP, place), recursive=True))
        texts = [text for text in map(read, paths) if "\n," not in text and text.isascii()]
        done = map(json.loads, in_node("film_assembler.js", MODULE, self.file(json.dumps(texts))))
        made = [(path, one) for path, one in zip((path for path in paths if read(path) in texts), done) if not one["faults"]]
        self.assertGreater(len(made), LEAST)
        for path, one in made:
            with self.subTest(path):
                self.check(without_literals(Source.of_file(path)), one)

    def check(self, source, one):
        symbols = AllSymbols({3: source})
        wanted = json.loads(json.dumps(page.of_symbols(symbols)))
        self.assertEqual(list(set_lines(source.program, 3)), one["load"])
        self.assertEqual(wanted["sources"]["3"]["rows"], one["source"]["rows"])
        lines = wanted["sources"]["3"]["lines"]
        self.assertEqual(lines, one["source"]["lines"][:len(lines)])
        labels = wanted["labels"]["3"]
        self.assertEqual(labels["addresses"], one["labels"]["addresses"])
        self.assertEqual(*({cell: name for cell, name in them["names"].items() if int(cell) in source.at_location}
                           for them in (labels, one["labels"])))
        for cell, name in one["labels"]["names"].items():  # the page does not see how long a buffer is
            label, sign, _ = name.partition("+")
            self.assertFalse(sign and int(cell) not in source.at_location and labels["addresses"][label] in source.at_location,
                             name)
        self.assertEqual(sorted(labels["entries"]), sorted(one["labels"]["entries"]))
        self.assertEqual(own_lines(source, labels["texts"]), own_lines(source, one["labels"]["texts"]))

    def test_products(self):
        """A product that has 63 bits, and one that has more, which the module makes of halves."""
        texts = [f"          BASE   DECIMAL\n          CON    {factor}*{factor}/9007199254740992\n          END\n"
                 for factor in (3037000499, 3037000500)]
        fits, does_not = map(json.loads, in_node("film_assembler.js", MODULE, self.file(json.dumps(texts))))
        self.assertEqual((fits["faults"], fits["load"]), (0, ["SET M 3 0 1777"]))  # the quotient is 1023 and a part
        self.assertEqual(does_not["faults"], 1)
