"""Measures the simulator, as a program and as a library, beside a small C kernel and prints one table in Markdown; README.md tells
how to read it.

First both must come to the same machine. Then they run by turns on one processor, and only their own time on it counts.
Each rate is set against the kernel's just before and after it. Of all rounds the half in which the kernel ran fastest
counts, for other work on the machine slows the two unequally; the table has its medians.
"""

import argparse
import os
import platform
import shutil
import subprocess
import sys
import tempfile
import time
from collections import namedtuple
from statistics import median

from pp6600.engine import library

HERE = os.path.dirname(os.path.dirname(os.path.abspath(__file__)))
TOP = os.path.dirname(HERE)
WEB = os.path.join(TOP, "tools", "pp6600", "front", "film", "web")
PROCESSOR = max(os.sched_getaffinity(0))
KEPT = 10000
TURNS = 1 << 18  # the most that one STEP takes
STEP, BACK, FORWARD = f"STEP {TURNS:o}", f"BACK {KEPT:o}", f"FORWARD {KEPT:o}"
RECORDED, LOOKED_AT, IN_ROWS = f"turns {TURNS:o}", f"looks {TURNS:o}", f"rows {TURNS:o}"  # lines of bench/library.c alone
TURNS_OF = {STEP: TURNS, RECORDED: TURNS, LOOKED_AT: TURNS, IN_ROWS: TURNS}  # of other lines KEPT
ANSWERS = {STEP: "TURNS", "BACK W": "ERR 10", "DUMP PP 0": "PP"}  # how they begin, where not as the line does
QUIET = ("M 0 7700", "M 1 7701", "M 2 7702", "M 3 7703", "M 4 7704", "C 7700", "H 12", "H 13")

# Each loop is in all ten processors, from cell 0100 on.
PROGRAMS = {
    "count": "1601 0376",  # ADN 1, UJN
    "loop4": "1405 1601 3450 0374",  # LDN 5, ADN 1, STD 50, UJN
    "clear": "1400 5450 0200 3650 2300 7000 0571 3450 0367",  # STM over cells 0200 to 7177, again and again
    "waits": "7100 0200",  # IAM of a channel that stays empty
    "crm": "2000 2000 6150 0200 0373",  # LDC 2000, CRM of 0700 words, UJN
    "exn": "2600 0376",  # EXN, UJN
    "mixed": "1405 3460 3060 3161 1003 1277 5450 0200 3650 1277 3450 5550 0300 0562 0361",
}

# Actions, dumps, steps both ways, a note, an empty line and refused lines.
LINES = """\
* a note
SET M 0 200 1405 1601 3450 0374
SET P 0 200
STEP 1
DUMP PP 0
SET A 3 123456
STEP
BACK 1
DUMP M 0 100 107
FORWARD
set q 4 17

SET M 12 0 1
SET C 1000 12345670123456701234
BACK
STEPP
DUMP M 1 7770 7777
SET P 5 108
STEP 1
BACK 2
"""


def setting(name):
    """The SET lines of a program."""
    lines = []
    for n in range(10):
        words = PROGRAMS[name].split()
        if name == "waits":
            words[0] = f"{0o7100 + n:o}"
            lines += [f"SET A {n:o} 10000", f"SET H {n:o} E"]
        if name == "crm":
            lines.append(f"SET M {n:o} 50 700")
        if name == "exn":
            lines.append(f"SET A {n:o} {0o2000 + 0o20 * n:o}")
        lines += [f"SET M {n:o} {0o100 + i:o} {' '.join(words[i:i + 8])}" for i in range(0, len(words), 8)]
        lines.append(f"SET P {n:o} 100")
    if name in ("crm", "exn"):
        lines += [f"SET C {a:o} {0x123456789ABCDE * a % (1 << 60):o}" for a in range(0o2000, 0o2700)]
    return lines


def start(*words, **pipes):
    """All that is measured runs on the same processor, so that neighbours slow it alike."""
    process = subprocess.Popen(words, **pipes)
    os.sched_setaffinity(process.pid, [PROCESSOR])
    return process


class Machine:
    """A simulator or a kernel at the other end of a pipe. Each line is timed apart, so that a start costs nothing."""

    def __init__(self, program, name, *words, watches=()):
        self.process = start(program, *words, stdin=subprocess.PIPE, stdout=subprocess.PIPE, text=True)
        self.clock = ~self.process.pid << 3 | 2  # as clock_getcpuclockid(3) has it: its processor time
        for line in setting(name) + [f"WATCH {place}" for place in watches]:
            self.say(line, "OK")

    def say(self, line, answer=None):
        self.process.stdin.write(line + "\n")
        self.process.stdin.flush()
        told = self.process.stdout.readline()
        if not told.startswith(answer or ANSWERS.get(line, line)):
            sys.exit(f"bench/run: {line} was answered {told!r}")

    def time(self, line):
        """The nanoseconds of processor time that the line takes more than one that does next to nothing. On a busy host the clock
        may tell of none; one is taken for that, and the medians pass over it."""
        marks = [time.clock_gettime_ns(self.clock)]
        for said in ("DUMP PP 0", line):
            self.say(said)
            marks.append(time.clock_gettime_ns(self.clock))
        return max(1, marks[2] - 2 * marks[1] + marks[0])

    def memory(self):
        """The bytes of its own that are resident; the peak that the system tells is less exact."""
        with open(f"/proc/{self.process.pid}/smaps_rollup", encoding="ascii") as lines:
            return next(int(line.split()[1]) * 1024 for line in lines if line.startswith("Anonymous:"))

    def dumps(self):
        asked = [f"PP {n:o}" for n in range(10)] + [f"M {n:o} 0 7777" for n in range(10)] + ["H", "XP", "C 0 3777", "W"]
        self.process.stdin.write("".join(f"DUMP {what}\n" for what in asked))
        self.process.stdin.flush()
        return list(iter(lambda: self.process.stdout.readline().rstrip("\n"), "W NONE"))


def check(name, kernel, *others):
    """Compares the machines after so many turns, and after 10,000 more, back again, forward again and back again."""
    kernel.say(STEP)
    right = kernel.dumps()
    for machine in others:
        machine.say(STEP)
        if machine.dumps() != right:
            sys.exit(f"bench/run: {name}: the machines differ")
        machine.say(f"STEP {KEPT:o}", "TURNS")
        for line in (BACK, FORWARD, BACK):
            machine.say(line)
        if machine.dumps() != right:
            sys.exit(f"bench/run: {name}: the machines differ after steps back")


def script_time(program, folder, times, pipe):
    """The nanoseconds of processor time that a script of so many rounds of LINES takes."""
    script = os.path.join(folder, "script")
    with open(script, "w", encoding="ascii") as file:
        file.write(LINES * times)
    process = start(program, script, stdout=subprocess.PIPE if pipe else subprocess.DEVNULL)
    while pipe and os.read(process.stdout.fileno(), 1 << 16):
        pass
    _, process.returncode, used = os.wait4(process.pid, 0)
    return (used.ru_utime + used.ru_stime) * 1e9


class Table:
    def __init__(self):
        self.rows = {}

    def note(self, row, name, turn, value, ratio=None):
        """`turn` tells how fast the kernel was just then."""
        self.rows.setdefault(row, {}).setdefault(name, []).append((turn, value, ratio))

    def print(self):
        print(f"| | {' | '.join(PROGRAMS)} |", "|---" * (len(PROGRAMS) + 1) + "|", sep="\n")
        for row, cells in self.rows.items():
            told = dict.fromkeys(PROGRAMS, "")
            for name, notes in cells.items():
                _, values, ratios = zip(*sorted(notes)[:(len(notes) + 1) // 2])
                value = median(values)
                told[name] = f"{value:,.0f}" if value >= 100 else f"{value:#.3g}"
                told[name] += f" ({median(ratios):.2g})" if ratios[0] is not None else ""
            print(f"| {row} | {' | '.join(told.values())} |")


Rate = namedtuple("Rate", "turn, value, ratio")  # a turn of the kernel; millions a second; as a part of the kernel's


def measure(table, program, folder, name, kernel, records, counted, plain, watching, others, lines):
    """One round of one program. The others have a row, a machine and a line of turns each, and are set beside STEP. The lines have
    a row and a function that performs one line."""

    def beside(take):
        """What is taken while the kernel runs before and after, and the nanoseconds of a turn of the kernel."""
        before = kernel.time(STEP)
        taken = take()
        turn = (before + kernel.time(STEP)) / 2 / TURNS
        table.note("C kernel", name, turn, 1000 / turn)
        return taken, turn

    def rates(machine, times, *lines):
        """The rate of each line; said more than once, by turns, the first time only warms up."""
        taken, turn = beside(lambda: [[machine.time(line) for line in lines] for _ in range(times)])
        each = [median(of) / TURNS_OF.get(line, KEPT) for line, of in zip(lines, zip(*(taken[1:] or taken)))]
        return [Rate(turn, 1000 / one, turn / one) for one in each]

    table.note("C kernel with records", name, *rates(records, 1, STEP)[0])
    table.note("C kernel with records, counted loop", name, *rates(counted, 1, STEP)[0])
    table.note("C kernel, back", name, *rates(records, 6, BACK, FORWARD)[0])
    step, (back, forward) = rates(plain, 1, STEP)[0], rates(plain, 6, BACK, FORWARD)
    slow, search = rates(watching, 1, STEP)[0], rates(watching, 4, "BACK W")[0]
    table.note("`STEP`", name, *step)
    table.note("`BACK`", name, *back)
    table.note("`FORWARD`", name, *forward)
    table.note("`STEP`, 8 watches", name, slow.turn, slow.value, slow.ratio / step.ratio)
    table.note("`BACK 23420`, ms", name, back.turn, KEPT / 1000 / back.value)
    table.note("`BACK W`, ms", name, search.turn, KEPT / 1000 / search.value, search.ratio)
    for row, machine, line in others:
        rate = rates(machine, 2, line)[0]
        table.note(row, name, rate.turn, rate.value, rate.ratio / step.ratio)
    if name == "loop4":
        for row, pipe in (("Lines to /dev/null", False), ("Lines to a pipe", True)):
            (short, long), turn = beside(lambda: [script_time(program, folder, times, pipe) for times in (500, 5500)])
            line = (long - short) / 5000 / LINES.count("\n")
            table.note(row, name, turn, 1000 / line, turn / line)
        for row, one_line in lines:
            (many, none), turn = beside(lambda: (clock_of(one_line, 4000), clock_of(one_line, 0)))
            table.note(row, name, turn, 4000 / (many - none) / 1e6)


def clock_of(call, times):
    """The seconds of the clock that so many calls take."""
    began = time.perf_counter()
    for _ in range(times):
        call()
    return time.perf_counter() - began


def bytes_kept(program, name):
    used = []
    for history in (1, KEPT):
        plain = Machine(program, name, "--history", str(history))
        plain.say(f"STEP {KEPT:o}", "TURNS")
        used.append(plain.memory())
    return used[1] - used[0]


def made_on(rounds, load):
    told = subprocess.run(["lscpu"], capture_output=True, text=True, env={**os.environ, "LC_ALL": "C"}).stdout
    about = dict(map(str.strip, line.split(":", 1)) for line in told.splitlines() if ":" in line)
    gcc = subprocess.run(["gcc", "-dumpfullversion"], capture_output=True, text=True).stdout.strip()
    return ", ".join((
        f"Made on {time.strftime('%Y-%m-%d')} in {rounds} rounds: {about.get('CPU(s)')} cores", about.get("Model name"),
        about.get("Hypervisor vendor", "no hypervisor"), platform.freedesktop_os_release()["PRETTY_NAME"], f"gcc {gcc}",
        f"load {load:.1f} when it began."))


def chosen():
    """Returns the program that ./pp6600 runs; share/which-build says what hinders it."""
    done = subprocess.run([os.path.join(TOP, "share", "which-build")], stdout=subprocess.PIPE, text=True)
    if done.returncode:
        sys.exit(2)
    return os.path.join(TOP, done.stdout.splitlines()[0].partition(" ")[2])


class Libraries:
    """The library, and its module for WebAssembly."""

    def __init__(self, artefacts, folder):
        self.shared, self.module = (os.path.join(artefacts, name) for name in ("libpp6600.so", "pp6600.wasm"))
        self.program, linked = os.path.join(folder, "library"), os.path.join(folder, "libpp6600.so.1")
        os.symlink(self.shared, linked)
        subprocess.run(["gcc", "-O2", "-I", os.path.join(TOP, "crates", "pp_library"), "-o", self.program,
                        os.path.join(HERE, "library.c"), linked, f"-Wl,-rpath,{folder}"], check=True)

    def machines(self, name):
        """Returns a row, a machine and a line of turns of each kind."""
        found = [(row, Machine(self.program, name), line) for row, line in (
            ("`STEP`, library", STEP), ("Turns with records, library", RECORDED), ("Turns in columns, library", IN_ROWS),
            ("Looks at two places, library", LOOKED_AT))]
        if shutil.which("node"):
            words = [os.path.join(HERE, "library.js"), os.path.join(WEB, "engine", "library.mjs"), self.module]
            found.append(("`STEP`, module in Node", Machine("node", name, *words), STEP))
        return found

    def line(self):
        """Returns a function that performs one line by a call from Python."""
        session = library.LibrarySession(path=self.shared)
        return lambda: session.answer(b"STEP\n")


def main():
    asked = argparse.ArgumentParser(description="Measures the simulator beside a C kernel.")
    asked.add_argument("--rounds", type=int, default=15)
    asked.add_argument("--program", help="another build of the simulator")
    asked.add_argument("--artefacts", default=os.path.join(TOP, "dist"), help="a folder with another build of the library")
    asked = asked.parse_args()
    load = os.getloadavg()[0]
    program = asked.program or chosen()
    os.sched_setaffinity(0, os.sched_getaffinity(0) - {PROCESSOR} or [PROCESSOR])
    table = Table()
    with tempfile.TemporaryDirectory() as folder:
        for built, words in (("kernel", ()), ("records", ("-DUNDO",)), ("counted", ("-DUNDO", "-DCOUNTED"))):
            source, built = os.path.join(HERE, "kernel.c"), os.path.join(folder, built)
            subprocess.run(["gcc", "-O2", *words, "-o", built, source], check=True)
        libraries, machines = Libraries(os.path.abspath(asked.artefacts), folder), {}
        for name in PROGRAMS:
            kernel, records, counted = (Machine(os.path.join(folder, built), name) for built in ("kernel", "records", "counted"))
            plain, watching = Machine(program, name), Machine(program, name, watches=QUIET)
            others = libraries.machines(name)
            check(name, kernel, records, counted, plain, *(machine for _, machine, _ in others))
            lines = [("Lines, one at a time by a pipe", lambda plain=plain: plain.say("STEP", "TURNS")),
                     ("Lines, one a call of the library", libraries.line())]
            machines[name] = kernel, records, counted, plain, watching, others, lines
        for number in range(asked.rounds):
            print(f"round {number + 1} of {asked.rounds}", file=sys.stderr)
            for name in PROGRAMS:
                measure(table, program, folder, name, *machines[name])
        for name in PROGRAMS:
            table.note("Bytes for 10,000 turns", name, 0, bytes_kept(program, name))
    print(made_on(asked.rounds, load), end="\n\n")
    table.print()
