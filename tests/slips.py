"""Plants slips in the definitions, one at a time, and says which worked row or session finds each.

    python3 -m tests.slips [NAME ..]

tests/slips.txt has the slips. A slip is found if a worked row no longer holds, if an example of docs/examples.txt has another
value, or if a session no longer has the outcome that the program has. The sessions are those of docs/chosen.txt, of tests/cases.txt
and random ones. It takes some minutes. That all are found says that docs/evaluate reads these definitions. It does not say how
likely any slip is found: some sessions were chosen for these.
"""

import concurrent.futures
import gc
import itertools
import os
import re
import sys
import threading
from typing import NamedTuple

from tests.cases import Stored, stored
from tests.generator import Maker
from tests.support import TOP, program, read
from tests.ways import outcome

sys.path.insert(0, os.path.join(TOP, "docs"))
from evaluating.asking import Definitions, definitions_of  # noqa: E402
from evaluating.checking import faults_of_cases, faults_of_rows  # noqa: E402
from evaluating.examples import FILE, chosen, faults_of  # noqa: E402

RANDOM = 300  # random sessions, of which those with few turns are performed
MOST_TURNS = 400
STACK = 1 << 29  # bytes, for definitions that call themselves for each byte of a file


class Slip(NamedTuple):
    """A definition, a part of its text, and what is written there instead."""
    name: str
    old: str
    new: str

    def plant(self, found):
        """Writes it into the definitions."""
        definition = found.named(self.name)
        definition.text = definition.text.replace(self.old, self.new)


def slips():
    """Returns the slips of tests/slips.txt."""
    return [Slip(*found) for found in re.findall(r"^(\S+): (.+?) => (.+)$", read("tests", "slips.txt"), re.M)]


def deep(task):
    """Returns what a task returns that may call itself very often, and whose values have no circles."""
    limit, size, collects = sys.getrecursionlimit(), threading.stack_size(STACK), gc.isenabled()
    sys.setrecursionlimit(10 ** 8)
    gc.disable()
    try:
        with concurrent.futures.ThreadPoolExecutor(1) as pool:
            return pool.submit(task).result()
    finally:
        if collects:
            gc.enable()
        threading.stack_size(size)
        sys.setrecursionlimit(limit)


def random_cases(most_turns):
    """Yields random sessions with so many turns at most, as cases."""
    for number in itertools.count():
        session = Maker(number).session()
        counts = re.findall(rb"^\s*(?:STEP|BACK|FORWARD)[ \t]*([0-7]*)", b"\n".join(session.lines), re.M | re.I)
        is_short = sum(int(count or b"1", 8) for count in counts) <= most_turns
        if is_short and not session.output_fails and session.standard_input == "script":
            yield session.stored(f"PP6600_RANDOM={number}:1")


def with_outcome(case):
    """Returns a case with the outcome that the program has."""
    out, err, status = outcome(case, program())
    return case._replace(out=out, err=err, status=status)


def sessions():
    """Returns the sessions with the outcomes that the program has, the shortest kind first."""
    sources = [source for source in chosen(read("docs", "chosen.txt")) if not source.text]
    found = [Stored(f"session {number} of docs/chosen.txt", one.words, one.script, one.files)
             for number, one in enumerate(sources, 1)]
    found += [case for case in stored() if not case.how and case.name != "ten-thousand-kept"]
    return list(map(with_outcome, [*found, *itertools.islice(random_cases(MOST_TURNS), RANDOM)]))


def faults(slip, cases):
    """Yields what finds a slip: a worked row, an example, or a case that has another outcome."""
    found = Definitions(TOP)
    slip.plant(found)
    yield from faults_of_rows(TOP, found)
    yield from faults_of(TOP, read(FILE), slip.plant)
    yield from faults_of_cases(found, cases)


def finds(slip, cases):
    """Returns what finds a slip first, or nothing."""
    return deep(lambda: next(faults(slip, cases), ""))


def main(names):
    """Tries the slips, or those of the definitions named, and returns how many were not found."""
    gc.disable()
    cases, missed = sessions(), 0
    assert not (wrong := deep(lambda: list(faults_of_cases(definitions_of(TOP), cases)))), wrong
    for slip in slips():
        if not names or slip.name.split(":")[1] in names:
            found = finds(slip, cases)
            missed += not found
            print(f"{slip.name}: {found or 'NOT FOUND'}", flush=True)
    print(f"{missed} not found")
    return 1 if missed else 0


if __name__ == "__main__":
    sys.exit(main(sys.argv[1:]))
