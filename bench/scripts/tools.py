"""Measures how long the tools take, for docs/SPEED.md, and prints a table in Markdown.

    bench/tools [--part N] [--beside CLONE]

Each run has 1/N of the turns of the table (10, if none is given). Times are those of the processor, of the tool and its simulators;
with --beside also those of the tools of another clone, as of an older version, in turn.
"""

import argparse
import os
import resource
import statistics
import subprocess
import tempfile
import time

from tests.browser import Browser, found
from tests.panels import PanelCase, press

TOP = os.path.dirname(os.path.dirname(os.path.dirname(os.path.abspath(__file__))))
# AOD 50, LDN 0, CWD of the cells from 0050 on to central word 0, LDM 0305, STD 20, UJN, in all processors.
LOOP = "3650 1400 6250 5000 305 3420 371"
LINES = 5_000, 20_000, 95_000  # of a source
RUNS = (("changes C 0", 20_000_000), ("changes M 0 1000", 20_000_000), ("trace --processor 3", 4_000_000),
        ("trace --channel 5 --last 1", 20_000_000), ("until P 0 = 305", 20_000_000), ("until M 0 1000 1777 changes", 20_000_000),
        ("until H 5 is F", 20_000_000), ("origin H 0", 2_000_000), ("origin M 0 305", 20_000_000), ("waits", 20_000_000),
        ("compare", 2_000_000), *((f"state --source 0 source-{lines}", 10_000) for lines in LINES),
        ("film -o film.html --title run", 100_000))


def script(path, turns, more=""):
    """Writes a script of so many turns, in a file."""
    steps = ["STEP 1000000"] * (turns >> 18) + [f"STEP {turns % (1 << 18) or 1:o}"]
    begin = "".join(f"SET M {n:o} 100 {LOOP}\nSET P {n:o} 100\n" for n in range(10))
    with open(path, "w", encoding="ascii") as file:
        file.write(f"SET M 0 305 7\n{begin}{more}" + "\n".join(steps) + "\n")


def source(path, lines):
    """Writes a source of so many lines, most of them notes and names; 2,000 (decimal) at most make a word."""
    numbers = range(lines // 4)
    own = [f" L{at:<7} LDN    {at % 64:o}" if at < 2_000 else f" N{at:<7} EQU    {at % 4096:o}" for at in numbers]
    with open(path, "w", encoding="ascii") as file:
        file.write("          BASE   OCTAL\n          ORG    1000\n")
        file.writelines(f"{line}\n*         A NOTE, AS MOST LINES OF A SYSTEM'S SOURCES ARE\n\n*\n" for line in own)
        file.write("          UJN    *\n          END\n")


def seconds(top, words, folder):
    """Returns the processor time of a command and of what it has started."""
    before = resource.getrusage(resource.RUSAGE_CHILDREN)
    subprocess.run([os.path.join(top, "tools", words[0]), *words[1:]], cwd=folder, stdout=subprocess.DEVNULL, check=False)
    after = resource.getrusage(resource.RUSAGE_CHILDREN)
    return after.ru_utime + after.ru_stime - before.ru_utime - before.ru_stime


def panel():
    """Returns how many milliseconds the panel takes for a key."""
    case, times = PanelCase(), []
    shown = case.panel()
    for _ in range(32):
        began = time.monotonic()
        press(shown, "s")
        times.append(1000 * (time.monotonic() - began))
    case.doCleanups()
    return statistics.median(times)


def moves(path):
    """Returns how many milliseconds five moves through a film take in a browser."""
    browser = Browser(found())
    browser.open(path)
    took = browser.evaluate(
        "(async () => { const { moves, store } = page, start = performance.now(); for (const at of [0.9, 0.1, 0.5, 1, 0]) "
                            "{ moves.moveTo(Math.floor(at * store.state.film.last)); await null; } return performance.now() - "
                            "start; })()")
    browser.end()
    return took


def main():
    asked = argparse.ArgumentParser(description=__doc__.split("\n", maxsplit=1)[0])
    asked.add_argument("--part", type=int, default=10, help="1/N of the turns")
    asked.add_argument("--beside", metavar="CLONE", help="another clone")
    given = asked.parse_args()
    part, tops = given.part, [TOP, *([given.beside] if given.beside else [])]
    print(f"| Run | Turns | Seconds |{' Beside |' * (len(tops) - 1)}\n|---|---|---|{'---|' * (len(tops) - 1)}")
    with tempfile.TemporaryDirectory() as folder:
        for lines in LINES:
            source(os.path.join(folder, f"source-{lines}"), lines)
        for words, turns in RUNS:
            turns //= part
            names = ["script", "other"] if words == "compare" else ["script"]
            for name in names:
                script(os.path.join(folder, name), turns, "SET M 0 306 1\n" if name == "other" else "")
            # so that the film is this clone's
            took = [f" {seconds(top, [*words.split(), *names], folder):.2f} |" for top in reversed(tops)]
            print(f"| `{words}` | {turns:,} |{''.join(reversed(took))}", flush=True)
        path = os.path.join(folder, "film.html")
        print(f"\nThe film has {os.path.getsize(path):,} bytes.")
        if found():
            print(f"Five moves through it take {moves(path):.0f} ms.")
    print(f"The panel takes {panel():.1f} ms for a key, as the median of 32.")
