"""Both engines are the same session of the machine, the simulator in Python and the library: what they answer and reject, and in
random sessions the turns that searches with random conditions find, forward and back. Random calls are in tests/library_calls.py.

    PP6600_SEARCHES=SEED:COUNT   makes COUNT sessions from seed SEED on (decimal)
"""

import os
import random
import unittest

from tests.generator import ALL, LOOPS, WATCHED, Maker
from tests.support import PROVED, Case

from pp6600.engine import interface as flat
from pp6600.engine.choose import engine_of
from pp6600.engine.interface import CHANGES, INSIDE, OUTSIDE, PERFORMS, WAITS, WRITES, Form, Rejection
from pp6600.failure import Failure
from pp6600.run.conditions import joined
from pp6600.run.forms import Place

ENGINES = ["plain", *([PROVED] if PROVED else [])]
NUMBERED = [*range(0, 0o200), *range(flat.A, flat.STATES + 24)]  # the places that are compared
SEED, COUNT = map(int, os.environ.get("PP6600_SEARCHES", "0:80").split(":"))
CELLS = [4096 * number + address for number in range(10) for address in range(0o200)]
REGISTERS = [*range(flat.A, flat.STATES + 24), flat.CLOCK]  # which change more often than cells
PLACES = [*REGISTERS, *CELLS[::7], flat.SLOT, flat.CENTRAL, flat.CENTRAL + 1]
MOST, SEARCHES, SAMPLES = 150, 5, 4  # turns of a search; searches of a condition; looks at a run for numbers that it has


def columns_of(engine, most):
    """Makes turns. Returns what their processors were about to do, and whether the last one changed a watched number."""
    columns, is_watched = engine.columns(most)
    return [list(column) for column in columns], is_watched


def numbers_of(engine):
    return {place: engine.numbers(place, 1)[0] for place in NUMBERED}


def turns_made(engine, most):
    """Makes turns. Returns how many, whether the last one changed a watched number, and the numbers before them, which their
    records give: what turns overwrote is put back from the last turn to the first."""
    records = engine.records(most)
    numbers = numbers_of(engine)
    for place, number in reversed(list(zip(records.places, records.numbers))):
        if place in numbers:
            numbers[place] = number
    return len(records.counts), records.is_watched, sum(records.counts) == len(records.places), numbers


class Calls(Case):
    def test_places(self):
        """A number that a line sets is at the place that its words name."""
        for name in ENGINES:
            engine = engine_of(name, [])
            for line, kind, numbers, wanted in (
                    ("SET M 3 17 1234", "M", (3, 0o17), 0o1234), ("SET A 11 777776", "A", (9,), 0o777776),
                    ("SET P 2 105", "P", (2,), 0o105),
                    ("SET Q 5 7", "Q", (5,), 7), ("SET C 1000 17", "C", (0o1000,), 0o17), ("SET H 13 F 55", "H", (0o13,), 0o55)):
                with self.subTest(line, engine=name):
                    self.assertEqual(["OK"], engine.answers(f"{line}\n"))
                    self.assertEqual(wanted, engine.numbers(Place(kind, numbers).number, 1)[0])
            self.assertEqual(2, engine.numbers(Place("S", (0o13,)).number, 1)[0])
            engine.close()

    def test_records_lead_back(self):
        """Turns end at a change of a watched number, and what they overwrote leads back."""
        for name in ENGINES:
            engine = engine_of(name, ["--history", "30"])
            engine.answers("SET M 0 100 3420 376\nSET P 0 100\nSET A 0 7\nWATCH M 0 20\n")
            with self.subTest(engine=name):
                for wanted in ((1, True), (100, False)):
                    before = numbers_of(engine)
                    self.assertEqual((*wanted, True, before), turns_made(engine, 100))
                engine.back(7)
                self.assertEqual((23, 7, 30), engine.counts()[:3])
            engine.close()

    def test_rejections(self):
        """Options and files that are wrong have the line and the status of the program."""
        for name in ENGINES:
            for words, text in ((["--history", "0"], "BAD ARGUMENTS"), (["--reader", "13"], "SAME CHANNEL"),
                                (["--deck", "/none"], "CANNOT OPEN DECK"),
                                (["--deck", self.file("8\n")], "DECK LINE 1 NOT OCTAL"),
                                (["--panel", self.file("1\n", "p")], "PANEL PANEL COUNT"),
                                (["--panel", self.file("", "none")], "PANEL PANEL COUNT"), (["--central"], "BAD ARGUMENTS"),
                                (["--history", "5", "--history=5"], "BAD ARGUMENTS"), (["--central=33"], "BAD ARGUMENTS"),
                                (["--history=010001"], "BAD ARGUMENTS"), (["--none", "5"], "BAD ARGUMENTS"),
                                (["--reader", "014"], "BAD CHANNEL"),
                                (["--printer=8", "--deck", "/none"], "BAD CHANNEL")):
                with self.subTest(words, engine=name), self.assertRaises(Rejection) as caught:
                    engine_of(name, words)
                self.assertEqual((f"pp6600: {text}", 2), (caught.exception.text, caught.exception.status))
            with self.subTest("help", engine=name), self.assertRaisesRegex(Rejection, "usage: ") as caught:
                engine_of(name, ["--help"])
            self.assertEqual(0, caught.exception.status)
        for name in ("/none.so", "/bin/true", self.file("", "empty.so")):
            self.assertRaises(Failure, engine_of, name, [])


def number_test(choose, samples):
    """Returns the test of a number, mostly of one that is there at some time of a run."""
    place = choose.choice(choose.choice((REGISTERS, PLACES)))
    number = choose.choice(samples)(place) if choose.random() < 0.8 else choose.randrange(0o10000)
    ends = sorted((number, choose.choice((number, number + 1, number + 1, 0, choose.randrange(0o1000000)))))
    return Form(choose.choice((INSIDE, OUTSIDE)), place, *ends)


def test_of(choose, samples):
    kind = choose.choice((INSIDE, INSIDE, CHANGES, WRITES, PERFORMS, PERFORMS, WAITS))
    number = choose.randrange(10)
    if kind == INSIDE:
        return number_test(choose, samples)
    if kind == PERFORMS:
        return Form(PERFORMS, number, choose.choice(samples)(flat.P + number))
    return Form(WAITS, number) if kind == WAITS else Form(kind, choose.choice(PLACES), choose.choice((1, 1, 2, 20)))


def condition_of(choose, samples):
    return joined([test_of(choose, samples) for _ in range(choose.choice((1, 1, 2, 3)))]
                  for _ in range(choose.choice((1, 1, 2, 4))))


def samples_of(text):
    """Returns functions that have the numbers of a run at some times."""
    found = []
    for turns in range(1, SAMPLES + 1):
        engine = engine_of("plain", [])
        engine.answers(text)
        engine.numbers_after(40 * turns, [flat.SLOT])
        found.append(lambda place, engine=engine: engine.numbers(place, 1)[0])
    return found


@unittest.skipUnless(PROVED, "there is no library of the proved program for this machine")
class Searches(Case):
    def test_alike(self):
        found = 0
        for seed in range(SEED, SEED + COUNT):
            text = "".join(f"{line}\n" for line in Maker(seed, (ALL, LOOPS, WATCHED)[seed % 3]).script())
            choose = random.Random(seed)
            condition = condition_of(choose, samples_of(text))
            engines = [engine_of(name, []) for name in ENGINES]
            self.same(engines, *(engine.answers(text) for engine in engines))
            with self.subTest(seed=seed, condition=condition):
                found += self.searched(engines, condition)
            for engine in engines:
                engine.close()
        self.assertGreater(found, COUNT)

    def searched(self, engines, condition):
        """Searches on, and then back. Returns how often the condition was found."""
        found = 0
        for _ in range(SEARCHES):
            results = [engine.until(condition, MOST) for engine in engines]
            self.same(engines, *results)
            found += results[0][1]
            self.same(engines, *(engine.numbers_after(20, PLACES[:3]) for engine in engines))
            self.same(engines, *(columns_of(engine, 20) for engine in engines))
            self.same(engines, *(turns_made(engine, 20) for engine in engines))
        undone = 1
        while undone:
            results = [engine.back_until(condition) for engine in engines]
            self.same(engines, *results)
            undone = results[0]
            found += bool(undone)
        return found

    def same(self, engines, plain, proved):
        self.assertEqual(plain, proved)
        self.assertEqual(*([engine.numbers(place, 1)[0] for place in PLACES] for engine in engines))
        self.assertEqual(*(engine.counts() for engine in engines))

    def test_refused(self):
        """A condition that is none changes nothing."""
        engine = engine_of(PROVED, [])
        engine.answers("SET M 0 100 3410 376\nSET P 0 100\nSTEP 30\n")
        before = engine.counts(), engine.numbers(flat.P, 10)
        for condition in ([Form(INSIDE, 1 << 30)], [Form(7)], [Form(CHANGES, flat.CENTRAL, 1 << 40)], [Form(PERFORMS, 10, 0o100)],
                          [Form(PERFORMS, 0, 0o10000)], [Form(WAITS, 10)], [Form(INSIDE, flat.P)] * 9):
            with self.subTest(condition):
                self.assertRaises(Failure, engine.until, condition, 10)
                self.assertRaises(Failure, engine.back_until, condition)
                self.assertEqual(before, (engine.counts(), engine.numbers(flat.P, 10)))
        engine.close()
