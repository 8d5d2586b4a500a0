"""What the tools find in runs, against a look at the machine after each action: turns at which something comes to be so, changes,
traces, states and differences.

    PP6600_SEEK=SEED:COUNT   tries COUNT random sessions from seed SEED on; the default is 0:4
"""

import os
import random
import re

from tests.generator import LOOPS, Maker
from tests.oracle import Timeline
from tests.support import Case, add_tests, program, tool

FIRST, COUNT = map(int, os.environ.get("PP6600_SEEK", "0:4").split(":"))
CELLS = 0o347  # of the cells from 0 on, which programs of LOOPS use
PARTS = ("P {n} = {p}", "P {n} outside 100 {p}", "P {n} != {p}", "A {n} > 5", "Q {n} changes", "M {n} 20 = 1", "M {n} {p} changes",
         "M {n} 0 27 changes", "H 1 is {s}", "H 2 is {s}", "H 1 > 3", "H 14 = {a}", "H 14 changes", "PP {n} waits",
         "PP {n} in a block", "PP {n} not in a block", "H 1 changes", "H 1 changes state", "H 0 changes state",
         "A {n} inside 1 {p}", "P {n} < {p}")


def turns_in(out):
    """Returns the numbers of the turns that lines begin with."""
    return [int(line.split()[1], 8) for line in out.splitlines() if line.startswith("TURN")]


class Seek(Case):
    """Random sessions of programs that loop."""

    def check(self, find):
        """Checks what is found in each session, by its choice, the numbers of its processors and its lines."""
        for seed in range(FIRST, FIRST + COUNT):
            maker = Maker(seed, LOOPS)
            with self.subTest(seed=seed):
                find(self, random.Random(seed), maker.processors, maker.script())

    def timeline(self, numbers, lines):
        return Timeline([program()], lines, [(number, 0, CELLS) for number in numbers])

    def until(self, choose, numbers, lines):
        """The turns at which a condition comes to hold, all, and the first or the last from a turn on."""
        timeline, text = self.timeline(numbers, lines), "".join(f"{line}\n" for line in lines)
        for _ in range(2):
            parts = [choose.choice(PARTS).format(n=f"{choose.choice(numbers):o}", a=f"{choose.randrange(9):o}",
                                                 s=choose.choice("IEF"), p=f"{0o100 + choose.randrange(8):o}")
                     for _ in range(choose.choice((1, 1, 2)))]
            condition = " and ".join(parts)
            wanted, first = timeline.until(condition), choose.randrange(0o100)
            later = [turn for turn in wanted if turn > first]
            for words, found in ((["--all"], wanted), (["--from", f"{first + 1:o}"], later[:1]),
                                 (["--last", "--count", "2"], wanted[-2:]),
                                 (["--last", "--count", "1", "--from", f"{first + 1:o}"], later[-1:])):
                with self.subTest(condition, words=words):
                    self.assertEqual(found, turns_in(tool("until", condition, *words, script=text).out))

    def changes(self, choose, numbers, lines):
        """Every change of a place, by an action too that is no turn, with the numbers before and after it."""
        timeline = self.timeline(numbers, lines)
        number = choose.choice(numbers)
        for place in (f"M {number:o} 20", f"A {number:o}", "H 14"):
            found = [state.numbers[place] for state in timeline.states]
            wanted = [f"TURN {timeline.turns(at):o} WAS {found[at - 1]} NOW {found[at]}"
                      for at in range(1, len(found)) if found[at - 1] != found[at]]
            got = tool("changes", *place.split(), script="\n".join([*lines, ""])).out.splitlines()
            with self.subTest(place):
                self.assertEqual(wanted or ["NO CHANGE"], [re.sub("^(TURN [0-7]+) .* (WAS .*)$", r"\1 \2", line) for line in got])

    def states(self, choose, numbers, lines):
        """The state after a turn, and the trace of the turns around it."""
        timeline, text = self.timeline(numbers, lines), "".join(f"{line}\n" for line in lines)
        turns = [at for at in range(len(timeline.actions)) if timeline.is_turn(at)]
        for at in choose.sample(turns, 2) if len(turns) > 1 else ():
            turn = timeline.turns(at + 1)
            after = next((later for later in turns if later > at), len(timeline.actions))  # with the settings before the next turn
            shown = tool("state", "--turn", f"{turn:o}", script=text).out.splitlines()
            state = timeline.states[after]
            wanted = [f"{'>' if number == state.slot else ' '}PP {number:02o} P {p} A {a} Q {q} PHASE {phase}"
                      for number, (p, a, q, phase) in enumerate(map(state.registers, range(10)))]
            self.assertEqual(wanted, [line[:40] for line in shown[:10]])
            before = timeline.states[at]
            number = before.slot
            p, a, q, phase = before.registers(number)
            line = tool("trace", "--from", f"{turn:o}", "--to", f"{turn:o}", script=text).out
            self.assertRegex(line, rf"^TURN {turn:o} PP {number:02o} P {p} .* A {a} Q {q} PHASE {phase}")
            self.assertEqual(timeline.waits[at + 1][number], " WAITS" in line)

    def compare(self, choose, numbers, lines):
        """The first turn after which a number differs that did not differ before the first one."""
        others = list(lines)
        number = choose.choice(numbers)
        others.insert(choose.randrange(len(lines) - 1), f"SET M {number:o} {0o100 + choose.randrange(8):o} 1477")
        known, wanted = None, []
        timelines = [self.timeline(numbers, some) for some in (lines, others)]
        ends = [{line.turns(at): state.numbers for at, state in enumerate(line.states)} for line in timelines]
        for turn in range(min(map(len, ends))):
            differ = {place for place, digits in ends[0][turn].items() if digits != ends[1][turn][place]}
            if known is not None and differ - known:
                wanted = [f"AFTER TURN {turn:o}"]
                break
            known = differ if known is None else known
        done = tool("compare", *(self.file("".join(f"{line}\n" for line in some)) for some in (lines, others)))
        self.assertEqual(wanted, [line for line in done.out.splitlines() if line.startswith("AFTER")], done)


add_tests(Seek, Seek.check, ((find.__name__, find) for find in (Seek.until, Seek.changes, Seek.states, Seek.compare)))
