"""Says what the proofs and mutants of the gate take: bench/gate [NAME ..]

Runs rt ci --anew and tests/mutants.py --anew, of these crates (and rt ci of those below them) if some are named. It prints the
processor seconds of each crate's proof, tests and mutants, by looking five times a second at what the prover does. Its status is 0
if all passed.
"""
import collections
import contextlib
import os
import re
import subprocess
import sys
import time
from pathlib import Path

TOP = Path(__file__).resolve().parents[2]
PARTS = ("proof", "tests", "mutants")
ROOMS = re.compile(r"/(rt-edit|pp6600-mutants)")  # where mutants are tried


def read(path):
    return Path(path).read_text(encoding="utf-8", errors="replace")


def work_of(pid):
    """Returns the crate and the part of the gate that a process works for, or None."""
    words, room = read(f"/proc/{pid}/cmdline").split("\0"), os.readlink(f"/proc/{pid}/cwd")
    if not words[0].endswith("/rattle") or "--crate-name" not in words:
        return None
    return words[words.index("--crate-name") + 1], "mutants" if ROOMS.search(room) else "tests" if "--test" in words else "proof"


def watch(command):
    """Runs a command. Returns its status, and the processor seconds of each crate's parts in it."""
    works, spent = {}, {}
    run = subprocess.Popen(command, cwd=TOP, stdout=sys.stderr, start_new_session=True)
    while run.poll() is None:
        for pid in filter(str.isdigit, os.listdir("/proc")):
            with contextlib.suppress(OSError, ValueError):
                numbers = read(f"/proc/{pid}/stat").rpartition(")")[2].split()
                process = pid, numbers[19]  # and when it began, since the system gives a number again
                works[process] = works.get(process) or (work_of(pid) if int(numbers[3]) == run.pid else None)
                spent[process] = (int(numbers[11]) + int(numbers[12])) / os.sysconf("SC_CLK_TCK")
        time.sleep(0.2)
    sums = collections.Counter()
    for process, work in filter(lambda row: row[1], works.items()):
        sums[work] += spent[process]
    return run.returncode, sums


def main():
    names = sys.argv[1:]
    runs = [watch(["rt", "ci", *names, "--anew"]), watch([sys.executable, "tests/mutants.py", "--anew", *names])]
    sums = runs[0][1] + runs[1][1]
    crates = {crate: [sums[crate, part] for part in PARTS] for crate, _ in sums}
    print("| Crate | Proof | Tests | Mutants |\n|---|---|---|---|")
    for crate in sorted(crates, key=lambda crate: -sum(crates[crate])):
        print(f"| {crate} |", " | ".join(f"{seconds:.0f}" for seconds in crates[crate]), "|")
    parts = ", ".join(f"{part} {sum(row[at] for row in crates.values()) / 60:.0f}" for at, part in enumerate(PARTS))
    print(f"\nIn all {sum(os.times()[2:4]) / 60:.0f} minutes of processor time: {parts}")
    return max(status for status, _ in runs)
