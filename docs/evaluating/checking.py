"""Checks the definitions as they are now: the examples of docs/examples.txt, the worked rows, and the cases of tests/cases.txt and
of examples/.

The examples were recorded from these definitions. The worked rows, which the prover proves, and the cases, whose answers are those
of the pages, say what the definitions should be. What can't be computed is passed over, and counted.
"""

import os
import tempfile
from typing import Any, Iterable, Iterator, List, Optional

from book.names import Unresolved
from evaluating.asking import CUT, Definitions, definitions_of, performed
from evaluating.examples import FILE, faults_of, load, worked
from evaluating.lists import Stuck
from tests.cases import Stored, named

NOT_COMPUTED = ("a statement about each or some x", CUT)
NO_SENSE = (Stuck, Unresolved, TypeError, KeyError, IndexError, AttributeError)  # what definitions that are wrong may come to


def faults_of_rows(top: str, definitions: Definitions, passed_over: Optional[List[str]] = None) -> Iterator[str]:
    """Yields what is wrong with the worked rows. Notes those that it passes over."""
    for name, text, scope in worked(top, definitions):
        try:
            if definitions.value(text, scope) is not True:
                yield f"worked row {name} does not hold"
        except NO_SENSE as what:
            if str(what) not in NOT_COMPUTED:
                yield f"worked row {name}: can't compute {what}"
            elif passed_over is not None:
                passed_over.append(name)


def outcome(definitions: Definitions, case: Stored) -> Any:
    """Returns what a case writes to standard output and to standard error, and its status, by the definitions."""
    here = os.getcwd()
    with tempfile.TemporaryDirectory() as folder:
        os.chdir(folder)
        try:
            for name, data in case.files.items():
                with open(name, "wb") as file:
                    file.write(data)
            return performed(definitions, case.words, lambda: case.script)
        finally:
            os.chdir(here)


def faults_of_cases(definitions: Definitions, cases: Iterable[Stored], passed_over: Optional[List[str]] = None) -> Iterator[str]:
    """Yields the cases that only run the program, and have another outcome. Notes those that it passes over."""
    for case in cases:
        is_computed = not case.how
        try:
            if is_computed and outcome(definitions, case) != (case.out, case.err, case.status):
                yield f"the case {case.name} has another outcome"
        except NO_SENSE as what:
            is_computed = False
            if str(what) not in NOT_COMPUTED:
                yield f"the case {case.name}: can't compute {what}"
        if not is_computed and passed_over is not None:
            passed_over.append(case.name)


def check(top: str) -> int:
    """Checks all of this, prints what is wrong, what was computed and what was passed over, and returns 1 if something is wrong."""
    with open(os.path.join(top, FILE), encoding="utf-8") as file:
        text = file.read()
    examples = [f"{FILE}: {fault}" for fault in faults_of(top, text)]
    definitions, cases, rows_over, cases_over = definitions_of(top), [case for _, case in named()], [], []
    others = [*faults_of_rows(top, definitions, rows_over), *faults_of_cases(definitions, cases, cases_over)]
    advice = ["if the definitions are right, run docs/evaluate --record"] * bool(examples and not others)
    count, rows = sum(bool(one.text) for own in load(text).values() for one in own), sum(1 for _ in worked(top, definitions))
    said = [f"computed: {count} examples, {rows - len(rows_over)} of {rows} worked rows, {len(cases) - len(cases_over)} of "
            f"{len(cases)} cases",
            f"passed over: rows about each or some x: {', '.join(rows_over)}; cases with a device that fails, or run in another "
            f"way: "
            f"{', '.join(cases_over)}"]
    print("".join(f"{line}\n" for line in [*examples, *others, *advice, *said]), end="")
    return 1 if examples or others else 0
