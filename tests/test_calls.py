"""The calls that have not returned, and the returns to a wrong address, in random runs with block transfers over the cells of
subroutines, against a stack of the test's own; cases by hand are in tests/sessions/sources.txt.

    PP6600_CALLS=SEED:COUNT   makes COUNT runs from seed SEED on (decimal)
"""

import os
import random

from .support import Case, needs_library, program, run

from pp6600.language.calls import calls
from pp6600.language.program import assembled
from pp6600.language.sources import Source
from pp6600.run.conditions import Condition, Returns
from pp6600.run.searches import search_for
from pp6600.run.session import Session
from pp6600.shell.script import performed

setUpModule = needs_library
SEED, COUNT = map(int, os.environ.get("PP6600_CALLS", "70:130").split(":"))
LJM, RJM, CELLS = 0o01, 0o02, 0o10000
WAITING = range(0o70, 0o100)  # codes that may wait
LAST = 0o377  # cell that a program may have
TURNS = 60  # of PP 00


def source_lines(choose):
    """Returns a program whose subroutines call those after them, and read blocks of central words over each other and over cell
    0000."""
    names = [f"S{number}" for number in range(choose.randrange(2, 6))]
    lines = ["          BASE   OCTAL", "          ORG    100", " START    LDN    3", "          STD    20"]
    for number, name in enumerate(["START", *names]):
        after = names[number:]
        if name != "START":
            lines += [f" {name:8} SUBR"] if number % 2 else ["          LJM    **", f" {name:8} EQU    *-1"]
        for _ in range(choose.randrange(1, 4)):
            kind = choose.choice(("call", "call", "block", "store", "pass"))
            if kind == "call" and after:
                lines.append(f"          RJM    {choose.choice(after)}")
            elif kind == "block":
                where = choose.choice((*names, "7775", "0"))
                lines += [f"          LDN    {choose.randrange(16):o}",
                          f"          CRM    {where if where.isdigit() else f'{where}-{choose.randrange(1, 5)}'},20"]
            elif kind == "store":
                lines += [f"          LDN    {choose.randrange(64):o}",
                          f"          STM    {choose.choice(names)}-{choose.randrange(2)}"]
            else:
                lines.append("          PSN")
        lines.append("          UJN    *" if name == "START" else f"          UJN    {name}{'X' if number % 2 else '-1'}")
    return [*lines, "          END    START"]


def turns_of(lines):
    """Returns the turns of PP 00: before each, and after the last one, P, the phase and the cells."""
    step = f"STEP 12\nDUMP PP 0\nDUMP M 0 0 {LAST:o}\n"
    answers = run(program(), script="".join(f"{line}\n" for line in lines) + step.replace("STEP 12\n", "")
                  + step * TURNS).out.splitlines()
    found, at = [], next(at for at, line in enumerate(answers) if line.startswith("PP 00"))
    while at < len(answers):
        words = answers[at].split()
        cells = [int(word, 8) for line in answers[at + 1:at + 1 + (LAST + 1) // 8] for word in line.split()[1:]]
        found.append((int(words[3], 8), int(words[9], 8), cells))
        at += 2 + (LAST + 1) // 8
    return found


class OwnStack:
    """The stack of calls of PP 00 after each of its turns, one by one: each is the entry with the address of the RJM; and the turns
    that returned wrongly."""

    def __init__(self, turns, jumps):
        self.jumps, self.after, self.wrong, self.astray = jumps, [()], [], []
        for number, ((p, phase, cells), (after, *_)) in enumerate(zip(turns, turns[1:])):
            calls = list(self.after[-1])
            if not phase and p < LAST:
                self.take(calls, number, p, cells, after)
            self.after.append(tuple(calls))

    def take(self, calls, number, p, cells, after):
        """Takes an instruction at P, after which P is another one."""
        code, index = cells[p] >> 6, cells[p] & 0o77
        if code == LJM and p in self.jumps:
            found = [at for at, (entry, *_) in enumerate(calls) if entry == p + 1]
            if found:
                if calls[found[-1]][2] != after:
                    self.wrong.append(number)
                del calls[found[-1]:]
        elif p in self.jumps and not (code in WAITING and after == p):
            self.other(calls, number, p, after)
        if code == RJM:
            entry = cells[p + 1] + (cells[index] if index else 0)
            entry -= (CELLS - 1) * (entry >= CELLS)
            if entry - 1 in self.jumps:
                calls.append((entry, p, (p + 2) % CELLS, number))

    def other(self, calls, number, p, after):
        """Takes another instruction in the place of a jump back: for a call it is a wrong return, once."""
        found = [call for call in calls if call[0] == p + 1]
        if found and found[-1] not in self.astray:
            self.astray.append(found[-1])
            if found[-1][2] != after:
                self.wrong.append(number)


class Calls(Case):
    def test_random_runs(self):
        choose, deep, in_block, wrong = random.Random(SEED), 0, 0, 0
        for _ in range(COUNT):
            lines = source_lines(choose)
            source = Source("random.pp", assembled(lines))
            central = [f"SET C {at:o} {choose.choice(('0', f'{choose.randrange(1 << 60):020o}'))}" for at in range(0o20)]
            script = [*source.loading(0), *central]
            turns = turns_of(script)
            own = OwnStack(turns, source.entries())
            replay = Session([program()], performed([program()], [*script, f"STEP {10 * TURNS:o}"])[0].tape, is_search=True)
            for count in {*choose.sample(range(1, TURNS), 4)}:
                position = replay.tape.end - 10 * (TURNS - count)
                wanted = [(entry - 1, address) for entry, address, *_ in reversed(own.after[count])]
                with self.subTest("\n".join([*lines, *central]), count=count):
                    self.assertEqual(wanted, [(call.jump, call.address) for call in calls(replay, 0, source, position)])
                deep, in_block = deep + (len(wanted) > 1), in_block + bool(wanted and turns[count][1])
            with self.subTest("\n".join([*lines, *central])):
                search = search_for(replay, Condition([[Returns(0, tuple(source.entries().values()))]]))
                found = [(turn - 1) // 10 for _, turn in search.found()]
                self.assertEqual(own.wrong, found)
            wrong += bool(found)
            replay.close()
        self.assertGreater(min(deep, in_block, wrong), COUNT // 60)
