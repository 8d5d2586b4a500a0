"""Measures sessions with devices, for docs/SPEED.md. Prints a table in Markdown.

    bench/devices [--rounds N]

Times are those of the processor, of this program and its simulator. The median of N rounds (5, if none is given) is printed.
"""

import argparse
import os
import resource
import statistics

from pp6600 import Attached, CentralDevice, store
from pp6600.devices.paper_tape import PaperTape

TOP = os.path.dirname(os.path.dirname(os.path.dirname(os.path.abspath(__file__))))
BYTES = 1 << 16  # on the tape, more than are read
MOST = 1 << 17  # turns of a line
# FNC of the code, ACN, and a loop: LDC of 3000 words and a block; or IAN alone.
INPUT = "7711 1 7411 2000 3000 7111 1000 373"
OUTPUT = "7711 2 7411 2000 3000 7311 1000 373"
BY_WORDS = "7711 1 7411 7011 376"
BUSY = "3650 1400 6250 5000 305 3420 371"  # AOD, LDN, CWD, LDM, STD, UJN
WRITES = "3650 2000 100 6250 373"  # AOD, LDC 100, CWD, UJN: word 100 changes each four turns of the processor


class Answers(CentralDevice):
    """Watches eight words, and answers each change of the first by one of the last."""

    words, start = range(0o100, 0o110), 0

    def changed(self, state, event):
        return state + 1, store(0o107, event.new)


def script(program, processors):
    """Returns the settings that start a program in so many processors."""
    return [line for number in range(processors) for line in (f"SET M {number:o} 100 {program}", f"SET P {number:o} 100")]


def changes(session):
    """Returns how many changes were answered."""
    return session.state()


def words_moved(session):
    """Returns how many words the tape station of a session has read or punched."""
    tape = session.state()
    return tape.place + tape.punched.length


def tape():
    return PaperTape(bytes(BYTES))


# What is measured: its name, the program, in how many processors, the turns, what is counted, turns if None, and the devices.
RUNS = (("words of block input", INPUT, 1, 1 << 17, words_moved, tape),
        ("words of block output", OUTPUT, 1, 1 << 17, words_moved, tape),
        ("words of a loop with IAN", BY_WORDS, 1, 1 << 17, words_moved, tape),
        ("changes of a central word, each answered", WRITES, 1, 1 << 18, changes, Answers),
        ("turns, no device, ten busy processors", BUSY, 10, 1 << 22, None),
        ("turns, an idle device, ten busy processors", BUSY, 10, 1 << 20, None, tape),
        ("turns, an idle device of central memory, ten busy processors", BUSY, 10, 1 << 22, None, Answers),
        ("turns, both idle, ten busy processors", BUSY, 10, 1 << 20, None, Answers, tape),
        ("turns, an idle device, one busy processor", BUSY, 1, 1 << 22, None, tape))


def used():
    """Returns the processor time of this program and of the simulators that have ended."""
    usages = [resource.getrusage(who) for who in (resource.RUSAGE_SELF, resource.RUSAGE_CHILDREN)]
    return sum(usage.ru_utime + usage.ru_stime for usage in usages)


def rate(program, processors, turns, moved, *devices):
    """Returns how many words or turns a session makes in a second, from its start to its end."""
    before = used()
    session = Attached([os.path.join(TOP, "dist", "pp6600")], [device() for device in devices])
    for line in script(program, processors):
        session.act(line)
    for _ in range(turns // MOST):
        session.act(f"STEP {MOST:o}")
    count = moved(session) if moved else turns
    session.close()
    return count / (used() - before)


def main():
    asked = argparse.ArgumentParser(description=__doc__.split("\n", maxsplit=1)[0])
    asked.add_argument("--rounds", type=int, default=5)
    rounds = asked.parse_args().rounds
    print("| What | A second |\n|---|---|")
    for name, *run in RUNS:
        print(f"| {name} | {statistics.median(rate(*run) for _ in range(rounds)):,.0f} |", flush=True)
