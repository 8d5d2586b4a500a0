"""Where numbers come from, as the engines answer it: each number is the one that its origin makes, the answer of the simulator in
Python is that of the library, and what is read is needed; and as tools/origin follows it, beside the last writes of places turn by
turn. Whole answers of the tool are in tests/sessions.

    PP6600_ORIGINS=SEED:COUNT   compares COUNT random sessions from seed SEED on, the tool by one in ten; the default is 0:150
"""

import collections
import os
import random
import re
from typing import NamedTuple, Optional, Tuple

from tests.generator import Maker
from tests.support import Case, names_of_codes, program, tool, write

from pp6600.engine import origins as of
from pp6600.engine.choose import engine_of, library_named
from pp6600.engine import interface as flat
from pp6600.engine.interface import Rejection
from pp6600.engine.plain import places
from pp6600.engine.plain_origins import next_turn
from pp6600.engine.plain_engine import PlainEngine, flat_place
from pp6600.run.forms import Place
from pp6600.run.written import writes_of

SEED, COUNT = map(int, os.environ.get("PP6600_ORIGINS", "0:150").split(":"))
TURNS = 60  # of a session, after its lines
NO_NUMBER = None


# ---- what operations and fields mean, from docs/MACHINE.md

def add(a, b):
    return a + b if a + b < 0o777777 else a + b - 0o777777


def subtract(a, b):
    return a - b if a >= b else a + 0o777777 - b


def shifted(a, d):
    for _ in range(d if d < 0o40 else 0):
        a = (a << 1 | a >> 17) & 0o777777
    return a if d < 0o40 else a >> 0o77 - d


def indexed(m, x):
    return m + x if m + x <= 0o7777 else m + x - 0o7777


def relative(p, d):
    return (p + d if d < 0o40 else p - (0o77 - d)) % 0o10000


def operand(numbers):
    return numbers[0] if len(numbers) == 1 else numbers[0] << 12 | numbers[1]


FIELDS = [lambda n: n, lambda n: n & 0o7777, *[lambda n, part=part: n >> 12 * (4 - part) & 0o7777
                                               for part in range(5)], lambda n: n >> 18 << 18,
          lambda n: n >> 36 & 0o777777, lambda n: n >> 6, lambda n: n & 0o77, lambda n: n, lambda n: n & 0o77, lambda n: n]
MADE = [operand, lambda ns: sum(n << 12 * (4 - at) for at, n in enumerate(ns)), lambda ns: add(ns[0], operand(ns[1:])),
        lambda ns: subtract(ns[0], operand(ns[1:])), lambda ns: ns[0] ^ operand(ns[1:]), lambda ns: ns[0] & operand(ns[1:]),
        lambda ns: ns[0] & ~ns[1], lambda ns: shifted(*ns), lambda ns: 0o777777 - ns[0], lambda ns: add(ns[0], 1),
        lambda ns: subtract(ns[0], 1), lambda ns: add(*ns) & 0o7777, lambda ns: add(ns[0], 1) & 0o7777,
        lambda ns: subtract(ns[0], 1) & 0o7777, *[lambda ns, more=more: (ns[0] + more) & 0o7777 for more in (1, 2, 5)],
        lambda ns: relative(*ns), lambda ns: indexed(*ns), lambda ns: (indexed(*ns) + 1) & 0o7777,
        lambda ns: (ns[0] + 1) & 0o777777, lambda ns: ns[0] - 1, lambda ns: ns[0] + 1, lambda ns: ns[0] + 2,
        lambda ns: (ns[0] + 1) % 10, NO_NUMBER, *[lambda ns, constant=constant: constant for constant in (0, 0, 1, 2, 3, 0o100)]]


def number_of(origin, number_at, deck=()):
    """Returns the number that an origin makes; `number_at` is a function of a place."""
    numbers = [FIELDS[field](number_at(place)) for place, field in origin.reads]
    if origin.operation != of.PUNCHED:
        return MADE[origin.operation](numbers)
    card, column = numbers
    return deck[card][column] if column < len(deck[card]) else 0


class SessionCase(Case):
    def session(self, seed):
        """Returns the words of a session, and its lines."""
        session = Maker(seed).session()
        for name, data in session.all_files().items():
            write(self.path(name), data)
        words = [self.path(word) if word in session.files else word for word in session.words if word != "script"]
        return words, [line.removesuffix(b"\r").decode("latin-1") for line in session.lines]


class Explained(SessionCase):
    """Sessions on both engines."""

    def engines(self, words):
        """Returns both engines with these options, or that in Python alone if there is no library for this machine; none if they
        are refused."""
        path = library_named(program())
        try:
            return [PlainEngine(words), *([engine_of(path, words)] if path else [])]
        except Rejection:
            return []

    def check_turn(self, engines, seed):
        """Makes a turn on both: the same answers, and each number is the one that its origin makes."""
        plain = engines[0]
        coming = [alike(engine.next_origins()) for engine in engines]
        self.assertEqual(coming[:1] * len(engines), coming, seed)
        before = [number_of(origin, lambda place: plain.numbers(place, 1)[0]) for origin in plain.next_origins().own]
        turns = [engine.origins(1)[0][0] for engine in engines]
        self.assertEqual([alike(turns[0])] * len(engines), [alike(turn) for turn in turns], seed)
        later = {origin.place for origin in turns[0].others}
        for origin, number in zip(turns[0].own, before):
            if origin.place not in later:
                self.assertEqual(number, plain.numbers(origin.place, 1)[0], (seed, origin))
        for origin in turns[0].others:
            if not origin.reads:
                self.assertEqual(number_of(origin, None), plain.numbers(origin.place, 1)[0], (seed, origin))

    def test_random_sessions(self):
        for seed in range(SEED, SEED + COUNT):
            words, lines = self.session(seed)
            engines = self.engines(words)
            for engine in engines:
                for line in lines:
                    engine.answers(line + "\n")
            for _ in range(TURNS if engines else 0):
                self.check_turn(engines, seed)
            for engine in engines:
                engine.close()


def alike(turn):
    """Returns a turn with the origins of each part in the order of their places, and the control places in order."""
    return turn._replace(own=sorted(turn.own), others=sorted(turn.others), control=sorted(turn.control))


# ---- the tool

LINE = re.compile(r' *(M [0-7]+ [0-7]+|\w+ [0-7]+) (?:([0-7]+)|"."|LINE END|\.\.)(?: TURN ([0-7]+))? (.*?)(?:, NOW [0-7]+)?$')
TIMES = re.compile(r" ([0-7]+) TIMES SINCE TURN ([0-7]+)")
CODE_NAMES = names_of_codes()


class LastWrite(NamedTuple):
    """The last write of a place: in which turn (None at the start), how the tool's line goes on after that, and the writes that it
    has its number from, each with the parts of the word that it read, or None for all."""

    place: Place
    turn: Optional[str] = None
    cause: str = "START"
    number: Optional[int] = 0  # None if another one came there in the same turn
    sources: Tuple = ()
    is_joined: bool = False  # of parts
    is_word: bool = False  # a word that was moved

    def wanted(self, parts):
        """Yields its sources, each with the parts that are wanted of it, if these parts of its own word are."""
        for at, (source, own) in enumerate(self.sources):
            if self.is_joined or parts is None or not self.is_word:
                of_source = () if self.is_joined and parts is not None and at not in parts else own
            else:
                of_source = tuple(part for part in parts if own is None or part in own)
            if of_source != ():
                yield source, of_source

    def all(self):
        """Returns it and all writes behind it."""
        found, todo, seen = [], [(self, None)], set()
        while todo:
            one, parts = todo.pop()
            if (id(one), parts) not in seen:
                seen.add((id(one), parts))
                found.append(one)
                todo += one.wanted(parts)
        return found


class Noted:
    """A session in Python, with the last write of each place."""

    def __init__(self, words):
        self.engine, self.ahead_of_it = PlainEngine(words), PlainEngine(words)
        self.writes, self.kept, self.ahead = {}, [], []  # of each action whether it is a turn, and the writes before it and by it

    def perform(self, number, line):
        """Performs the line with a number."""
        kind, *rest = (self.ahead_of_it.answers(f"{line}\n") or ["NOTE"])[0].split()
        for _ in range(int(rest[0], 8) if kind in ("TURNS", "BACK", "FORWARD") else kind == "OK"):
            if kind in ("BACK", "FORWARD"):
                source, target, which = (self.kept, self.ahead, 1) if kind == "BACK" else (self.ahead, self.kept, 2)
                target.append(source.pop())
                self.writes.update(target[-1][which])
                getattr(self.engine, kind.lower())(1)
            else:
                made = self.turn() if kind == "TURNS" else self.setting(number, line)
                self.kept.append((kind == "TURNS", {place: self.last(place) for place in made}, made))
                self.writes.update(made)
                self.ahead.clear()

    def last(self, place):
        return self.writes.setdefault(place, LastWrite(Place.at(place)))

    def number(self, place):
        return self.engine.numbers(place, 1)[0]

    def now(self, is_turn=True):
        return f"{sum(one for one, *_ in self.kept) + is_turn:o}"

    def setting(self, number, line):
        """Performs a line that is an action. Returns what it wrote."""
        self.engine.answers(f"{line}\n")
        word = line.upper().split()[0]
        cause = "DEADSTART" if word == "DEADSTART" else f"SET LINE {number} WORD"
        made = map(flat_place, self.engine.machine.history[-1] if "WATCH" not in word else ())
        return {place: LastWrite(Place.at(place), self.now(False), cause, self.number(place)) for place in made}

    def turn(self):
        """Makes a turn. Returns what it wrote. That P goes on is no write."""
        card, column, machine = self.number(flat.CARD), self.number(flat.CARD + 1), self.engine.machine
        (turn,), _ = self.engine.origins(1)
        (code, d), made, now = divmod(turn.word, 0o100), {}, self.now()
        where = "" if turn.kind == of.IN_BLOCK else f"AT {turn.address:04o} {CODE_NAMES[code]} {d:02o}"
        later = {origin.place for origin in turn.others}
        for one in writes_of(turn, self.number(flat.P + turn.processor)):
            place, sources = one.origin.place, tuple((self.last(source.number), parts) for source, parts in one.sources)
            number = None if place in later else self.number(place)
            made[place] = LastWrite(one.place, now, f"PP {turn.processor:02o} {where}", number, sources, one.is_joined,
                                    one.is_moved and one.place.kind in ("C", "XP"))
        devices = {flat.REGISTERS + machine.reader: "CR STATUS", flat.REGISTERS + machine.printer: "LP", flat.CLOCK: "CLOCK"}
        paper = {**self.writes, **made}.get(flat.REGISTERS + machine.printer)
        for place, operation, _ in turn.others:
            is_paper = flat.PAPER <= place < flat.SLOT
            cause = "LP" if is_paper else devices.get(place, "")
            cause = f"CR CARD {card:04o} COLUMN {column:03o}" if operation == of.PUNCHED else cause
            made[place] = LastWrite(Place.at(place), now, cause, self.number(place), ((paper, None),) if is_paper else ())
        return made


class Followed(SessionCase):
    """All that tools/origin finds behind a number is what was written, and all that is behind it is found."""

    def check(self, seed):
        words, lines = self.session(seed)
        try:
            noted = Noted(words)
        except Rejection:
            return
        for number, line in enumerate(lines, 1):
            noted.perform(number, line)
        for place in self.chosen(noted, random.Random(seed)):
            with self.subTest(seed=seed, place=place.text):
                got = tool("origin", "--all", *words, *place.text.split(), self.path("script"))
                self.compare(got.out.splitlines(), noted.last(place.number))

    @staticmethod
    def chosen(noted, choose):
        """Returns places, mostly some that were written in turns, and of each kind alike."""
        of_turns, others = {}, [Place("M", (3, 0o7000)), Place("Q", (5,))]
        for one in noted.writes.values():
            kind, length = one.place.kind, noted.number(flat.PAPER_LENGTH)
            if kind in ("M", "A", "P", "Q", "C", "H", "XP") or kind == "LP" and one.place.numbers[0] < length:
                (others if one.cause.startswith("SET") else of_turns.setdefault(kind, [])).append(one.place)
        some = [choose.choice(of_turns[choose.choice(list(of_turns))]) for _ in range(5 if of_turns else 0)]
        return some + choose.sample(others, 1)

    def compare(self, lines, last):
        """Checks that each line is a write behind the last one, and that each of these has a line, or that a line sums it up."""
        writes, told, summed = {}, set(), []
        for one in last.all():
            writes.setdefault((one.place.text, one.turn), []).append(one)
        for line in lines:
            place, number, turn, rest = LINE.fullmatch(line).groups()
            self.assertIn((place, turn), writes, line)
            some = [one for one in writes[place, turn] if number is None or one.number in (None, int(number, 8))]
            self.assertTrue(any(rest == "AS ABOVE" or rest.startswith(one.cause) for one in some), line)
            told.add((place, turn))
            if times := TIMES.search(rest):
                summed.append((place, range(int(times[2], 8), int(turn, 8))))
        self.assertEqual([], [(place, turn) for place, turn in writes.keys() - told if turn is None or not any(
            place == one and int(turn, 8) in turns for one, turns in summed)])

    def test_random_sessions(self):
        for seed in range(SEED, SEED + max(COUNT // 9, 1)):
            self.check(seed)


# ---- what is read is needed

CODES = [*((code, False) for code in range(0o100)), *((code, True) for code in (0o61, 0o63, 0o71, 0o73))]
TRIES = 400  # of each code
CHANNELS_TRIED = (0o00, 0o05, 0o13, 0o14, 0o15, 0o77)
# Rows in which no change of a place that is named can be seen. LJM: the operand's address goes to P and names no cell, so the cells
# that it comes from are read, but decide nothing.
UNSEEN = {"01": {("control", "M", 0)}}


class Needed(Case):
    """For each code, in a block and outside, machines in which one number alone is changed."""

    def setUp(self):
        super().setUp()
        self.engine = PlainEngine([])
        self.machine = self.engine.machine

    def begin(self, code, in_block, choose):
        """Puts processor 0 before an instruction, with other numbers by chance."""
        numbers, machine = self.machine.numbers, self.machine
        p, d = choose.randrange(0o10000), choose.choice([choose.randrange(0o100), *CHANNELS_TRIED])
        for at in (p, p + 1, p + 2, p + 3, p + 4, d, d + 1, d + 2, d + 3, d + 4, 0):
            numbers[places.M + at % 0o10000] = choose.choice([0, 1, 0o7777, choose.randrange(0o10000)])
        word = code << 6 | d
        numbers[places.M + p] = choose.randrange(0o10000) if in_block else word
        numbers[places.P], numbers[places.PHASE], numbers[places.SLOT] = p, word if in_block else 0, 0
        numbers[places.A] = choose.choice(
            [0, 1, 0o377777, 0o400000, 0o777777, choose.randrange(0o1000000), choose.randrange(0o400000)])
        numbers[places.Q] = choose.choice([0, 1, choose.randrange(0o10000)])
        for channel in range(places.CHANNELS):
            numbers[places.STATE + channel], numbers[places.H + channel] = choose.randrange(4), choose.randrange(0o10000)
        numbers[places.CLOCK] = choose.randrange(0o10000)
        for at in range(places.FRAME_WORDS):
            numbers[places.FRAME + at] = choose.randrange(1 << 60) if at else choose.randrange(1 << 42) << 18
            address = (numbers[places.A] + at) % 0o1000000
            if address < machine.central:
                numbers[places.C + address] = choose.randrange(1 << 60)
        turn = next_turn(machine)
        for origin in turn.own:
            for place, _ in origin.reads:
                if places.M <= place < places.P and place != places.M + p and not in_block and choose.random() < .5:
                    numbers[place] = choose.choice([0, 1, 0o7777, choose.randrange(0o10000)])
        return next_turn(machine)

    def others(self, place, field, choose):
        """Yields other numbers for a place that differ in a field."""
        now = self.machine.numbers[place]
        most = {places.A: 0o777777, places.SLOT: 9}.get(place, 3 if places.STATE <= place < places.STATE + places.CHANNELS else
                                                       (1 << 60) - 1 if place >= places.FRAME and place != places.SLOT else 0o7777)
        if place == places.PHASE:
            yield from [one for one in (0, 0o6100, 0o6377, 0o7105, 0o7305) if one != now]
            return
        for _ in range(6):
            other = choose.randrange(most + 1)
            if field in (of.D, of.LOWER_SIX):
                other = now & ~0o77 | other & 0o77
            if FIELDS[field](other) != FIELDS[field](now):
                yield other
        if now < most:
            yield now + 1

    def changed(self, place, other, look):
        """Returns what a function finds while a place has another number."""
        numbers = self.machine.numbers
        now, numbers[place] = numbers[place], other
        found = look()
        numbers[place] = now
        return found

    def after(self, turn):
        """Returns the number of each place that the processor writes, as its origins make it."""
        return {origin.place: number_of(origin, self.machine.numbers.__getitem__) for origin in turn.own}

    def test_each_row(self):
        unseen = collections.defaultdict(set)
        for code, in_block in CODES:
            choose, seen, asked = random.Random(code), set(), set()
            for _ in range(TRIES):
                turn = self.begin(code, in_block, choose)
                made = self.after(turn)
                for origin in turn.own:
                    for at, (place, field) in enumerate(origin.reads):
                        key = self.kind(origin.place), origin.operation, at
                        asked.add(key)
                        if key not in seen and any(
                            self.changed(place, other, lambda: self.after(next_turn(self.machine))).get(origin.place)
                                                   not in (None, made[origin.place])
                            for other in self.others(place, field, choose)):
                            seen.add(key)
                for place in turn.control:
                    key = "control", self.kind(place), 0 if place != places.M + self.machine.numbers[places.P] else 1
                    asked.add(key)
                    if key not in seen and any(self.changed(place, other, lambda: next_turn(self.machine)._replace(control=())) !=
                                               turn._replace(control=()) for other in self.others(place, of.WHOLE, choose)):
                        seen.add(key)
            if asked - seen:
                unseen[f"{code:02o}{' in a block' * in_block}"] = asked - seen
        self.assertEqual(UNSEEN, dict(unseen))

    @staticmethod
    def kind(place):
        """Returns what a place is."""
        kinds = {places.M: "M", places.P: "P", places.H: "H", places.A: "A", places.Q: "Q", places.PHASE: "PHASE",
                 places.STATE: "S", places.FRAME: "XP", places.SLOT: "SLOT", places.C: "C"}
        return kinds[max(first for first in kinds if first <= place)]
