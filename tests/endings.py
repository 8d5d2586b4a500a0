"""Random sessions that end anywhere, and what a user does then. A session ends with no line at all, a setting, a watch, a dead
start, a line that is refused, at the beginning after a BACK, half way, with actions ahead, or with a history that is full. It
follows from its seed."""

import os
import random
from typing import NamedTuple

from tests.generator import BUSY, LOOPS, WATCHED, Maker
from tests.support import lasting_room, program, write

from pp6600.devices.options import device_of
from pp6600.language.symbol_options import symbols_from
from pp6600.run.attached import Attached
from pp6600.run.session import Session

SOURCE = """          BASE   OCTAL
          ORG    100
 COUNT    EQU    20
 CH       EQU    11
 PUT      MACRO  P1
          LDN    P1
          STD    COUNT
          ENDM
 START    PUT    3
 LOOP     RJM    OUTER
          SOD    COUNT
          NJN    LOOP
          RJM    READ
          LJM    START
 OUTER    SUBR
          RJM    INNER
          LDN    4
          CRM    TABLE,COUNT
          UJN    OUTERX
 INNER    SUBR
          AOD    21
          UJN    INNERX
 READ     SUBR
          FNC    1,CH
          ACN    CH
          LDN    3
          IAM    TABLE,CH
          DCN    CH
          UJN    READX
 TABLE    BSSZ   10
          END    START
"""
ROOM = lasting_room()
CALLS = write(os.path.join(ROOM, "calls.pp"), SOURCE)
LONGER = write(os.path.join(ROOM, "longer.pp"),
               SOURCE.replace("          AOD    21\n", "          AOD    21\n          AOD    22\n"))
TAPE = write(os.path.join(ROOM, "tape"), b"\x01\x02\x03\x04\x05\x06")
DEVICES = (f"paper_tape:{TAPE}@11", "console_display@10")
NAMES = ("START", "LOOP+1", "OUTER", "INNERX", "TABLE", "COUNT")
# What a script ends with, but for BACK and FORWARD, which need to know how far.
ENDS = ([], ["SET A 0 5"], ["SET M 0 101 1400"], ["SET H 5 F 3"], ["WATCH M 0 20"], ["WATCH A 0", "UNWATCH A 0"], ["DEADSTART"],
        ["HELLO"], ["BACK W"], ["STEP"], ["STEP 13"], ["* A NOTE", ""], ["DUMP H"], ["back 1000"])


class Ended(NamedTuple):
    """A session: the lines of its script, the simulator's options, and whether PP 00 has a source and there are devices."""
    lines: list
    words: list
    has_source: bool
    has_devices: bool

    @property
    def options(self):
        """The options of a tool."""
        devices = [word for one in DEVICES for word in ("--device", one)]
        return [*self.words, *["--source", "0", CALLS] * self.has_source, *devices * self.has_devices]

    @property
    def script(self):
        return "".join(f"{line}\n" for line in self.lines)

    def loaded(self):
        """Returns its lines after those that load the source."""
        return symbols_from([], [("0", CALLS)] * self.has_source).loading(self.lines)

    def begun(self):
        """Returns a session of the tools that has performed the script."""
        words = [program(), *self.words]
        run = Attached(words, list(map(device_of, DEVICES))) if self.has_devices else Session(words)
        for line in self.loaded():
            run.act(line)
        return run


def body(chance, seed, has_source):
    """Returns the lines of a script before its end; none now and then."""
    if chance.random() < .15:
        return []
    if not has_source:
        lines = Maker(seed, chance.choice((LOOPS, WATCHED, BUSY))).script()
        return lines[:chance.randrange(len(lines) + 1)]
    lines = [f"STEP {chance.choice((1, 0o12, 0o60, 0o300)):o}" for _ in range(chance.randrange(1, 4))]
    settings = "SET M 0 21 7", "SET A 0 1", "WATCH M 0 21", "SET P 0 100", "SET H 11 E 0"
    lines.insert(chance.randrange(len(lines) + 1), chance.choice(settings))
    return lines


def ended(seed):
    """Returns a session that ends somewhere."""
    chance = random.Random(seed)
    has_source, has_devices = seed % 2 == 1, seed % 4 == 3
    words = ["--history", "3"] if chance.random() < .2 else []
    found = Ended(body(chance, seed, has_source), words, has_source, has_devices)
    with found.begun() as run:
        far = run.kept or 1
    moves = ([f"BACK {far:o}"], [f"BACK {far // 2 + 1:o}"], [f"BACK {far:o}", f"FORWARD {far // 3 + 1:o}"],
             [f"BACK {far:o}", f"FORWARD {far:o}"])
    return found._replace(lines=[*found.lines, *chance.choice((*ENDS, *2 * moves))])


# ---- hands

class Hand:
    """What a user types, at random."""

    def __init__(self, seed, session):
        self.chance, self.session = random.Random(~seed), session
        self.one = self.chance.choice

    def some(self, *words):
        """Returns words or none."""
        return list(words) if self.chance.random() < .4 else []

    def octal(self, most):
        return f"{self.one((0, 1, self.chance.randrange(most + 1), most)):o}"

    def processor(self):
        return self.one(("0", "0", "1", "11"))

    def cell(self):
        return self.one((*NAMES, "105") if self.session.has_source else ("20", "105", "0", "7777"))

    def place(self):
        number = self.processor()
        cell, channel = self.cell() if number == "0" else "20", self.one(("5", "11", "14"))
        return self.one((f"M {number} {cell}", f"A {number}", f"P {number}", f"Q {number}", f"H {channel}", "C 100"))

    def plain_test(self):
        """Returns a test that a search action by action judges too."""
        number, most, channel, state = self.processor(), self.one(("3", "20", "105")), self.one(("1", "5", "11")), self.one("EFI")
        return self.one((f"P {number} = {most}", f"A {number} < {most}", f"A {number} != 0", "M 0 20 changes", "M 0 20 27 changes",
                         "M 0 20 > 1", f"H {channel} is {state}", "H 1 changes state", f"PP {number} in a block",
                         f"P {number} changes",
                         f"PP {number} not in a block", f"P {number} outside 100 107", f"P {number} inside 100 107"))

    def test(self):
        number = self.processor()
        tests = [self.plain_test(), f"PP {number} waits", f"{self.place()} is written", f"PP {number} performs 105",
                 "M 0 20 is written"]
        return self.one(tests + ["PP 0 performs LOOP", "PP 0 returns wrongly", "M 0 START TABLE changes"] * self.session.has_source)

    def condition(self):
        return self.one((self.test(), self.plain_test(), f"{self.test()} and {self.plain_test()}",
                         f"{self.test()} or {self.test()}"))

    def line(self):
        """Returns a line of the console."""
        return self.one(("STEP", "STEP 7", "BACK", "BACK 3", "FORWARD", "BACK W", "SET A 0 3", "SET M 0 20 1 2 3", "WATCH M 0 20",
                         "NO", "", "UNWATCH M 0 20", "DEADSTART", "DUMP PP 0", "DUMP M 0 100 107", "* NOTE", "STEP 0",
                         "SET P 0 100", "SET H 5 F 1", f"DUMP {self.place()}"))
