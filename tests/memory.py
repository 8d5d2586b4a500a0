#!/usr/bin/env python3
"""Refuses each request for memory of the program test_memory in turn, and checks what it prints.

The toolchain builds the program once, unproved, and refuses the request with the same number in every case. First the
program makes a request for each byte of its standard input. So the length of the input decides which of the later
requests is refused: in case k it is the k-th. Once its scripts have run, the program makes one request itself. If the
scripts make none, each case up to that request has one constructor whose request is refused, and the program prints
its fault. In each later case everything is as usual.
"""

import sys

if not getattr(sys.flags, "safe_path", False):
    del sys.path[0]  # nothing beside this file is taken for a module of Python's own
import os
import re
import subprocess
import tempfile

# More than the requests of a whole run.
CASES = 450

REFUSALS = {"Memory12::new": "NoMemory", "Central::new": "NoMemory", "Printer::new": "NoMemory", "load_deck": "NoMemory",
            "words": "AllocError", "read_arguments": "NoMemory", "the room for sessions": "AllocError", "Rig::new": "NoMemory",
            "Session::new": "Unmade"}
LAST = "the request after all scripts"


def run_all(program):
    """Returns what the program prints in each case, and its exit status (None: it did not end by itself)."""
    with tempfile.TemporaryDirectory() as folder:
        for case in range(1, CASES + 1):
            with open(os.path.join(folder, f"{case}"), "w", encoding="ascii") as file:
                file.write("." * (CASES - case))
        # One step: the interpreter, which is slow, gives up at once, and only the compiled program runs.
        words = ["rt", "try", "--fail-alloc", f"{CASES}", "--steps", "1", "--cases", folder]
        done = subprocess.run(words, cwd=program, capture_output=True, encoding="utf-8", stdin=subprocess.DEVNULL)
    parts = re.split(r"^== (\d+)\n", done.stdout, flags=re.M)
    texts = {int(name): text.splitlines() for name, text in zip(parts[1::2], parts[2::2])}
    ended = re.findall(r"^case=(\d+) run=ended status=(\d+) ", done.stderr, flags=re.M)
    statuses = {int(name): int(status) for name, status in ended}
    if not texts:
        print(done.stderr, end="")
    return texts, statuses


def first_other(printed, wanted):
    """Returns the place of the first line that is not the wanted one, or of the first that is missing."""
    both = zip(printed, wanted)
    return next((at for at, (line, other) in enumerate(both) if line != other), min(len(printed), len(wanted)))


def refused_at(usual, place):
    """Returns what the program must print, and its exit status, if the call of this line of the usual text is refused."""
    call, _, answer = usual[place].rpartition(" ")
    if call == LAST:
        return usual[:place] + [f"{LAST} refused"], 1
    if answer != "made":
        return usual, 0
    printed = usual[:place] + [f"{call} {REFUSALS[call]}"]
    # The program makes the session again from the machine that was returned. Any other refusal ends it.
    return (printed + usual[place:], 0) if call == "Session::new" else (printed, 1)


def main():
    top = os.path.dirname(os.path.dirname(os.path.abspath(__file__)))
    program = os.path.join(top, "crates", "test_memory")
    with open(os.path.join(program, "stdout"), encoding="ascii") as file:
        usual = file.read().splitlines()
    last = usual.index(f"{LAST} granted")
    texts, statuses = run_all(program)
    results = []
    refused = []
    for case in range(1, CASES + 1):
        printed, status = texts.get(case, []), statuses.get(case)
        place = min(first_other(printed, usual), last)
        wanted, wanted_status = (usual, 0) if printed == usual else refused_at(usual, place)
        fault = None
        if printed != wanted:
            at = first_other(printed, wanted)
            fault = f"at line {at + 1}, wanted {wanted[at : at + 1]}, got {printed[at : at + 1]}"
        elif status != wanted_status:
            fault = f"status: wanted {wanted_status}, got {status}"
        elif printed == usual:
            fault = None if refused[-1:] == [last] else "no line reports the refused request"
        elif refused and (place < refused[-1] or refused[-1] == last):
            fault = f"line {place + 1} reports the refused request, after line {refused[-1] + 1} did"
        else:
            refused.append(place)
        results.append((f"request {case}", fault))
    for place, line in enumerate(usual):
        if place == last or line.endswith(" made"):
            results.append((f"line {place + 1}, {line}", None if place in refused else "was never refused"))
    failed = 0
    for name, fault in results:
        if fault is not None:
            failed += 1
            print(f"FAILED {name}: {fault}")
    print(f"{len(results) - failed} passed, {failed} failed")
    return 1 if failed else 0


sys.exit(main())
