#!/usr/bin/env python3
"""Judges why each mutant is refused, by what rt ci or rt must-fail printed: tests/refusals.py [FILE [CRATE ..]]

It reads FILE, or standard input (-), and wants a line for each mutant, crates/CRATE/must-fail/NAME.edit, of every crate or of
these. A mutant counts as refused if the first error that rt shows is a goal of the code, or an answer of a proof that no longer
follows. These fail: a mutant that is not refused, not tried, or cannot be applied or read; one that only met a limit of the prover;
one for which a proof only names what is gone; and one that only renames. Such a refusal says nothing of the contract. rt prints the
line of a refusal that it kept from an earlier run again, so each run judges all. The last line is 'N passed, M failed'.
"""

import sys

if not getattr(sys.flags, "safe_path", False):
    del sys.path[0]  # nothing beside this file is taken for a module of Python's own
import glob
import os
import re

TOP = os.path.dirname(os.path.dirname(os.path.abspath(__file__)))
LINE = re.compile(r"^(?:rt: )?must-fail (\w+/\S+)\.edit: (.*)", re.M)
REFUSED = re.compile(r"refused, as it must be: \S")  # what makes a refusal say less stands in parentheses before the colon
LOST_NAME = re.compile(r"proofs/.*(?:has no field|is not in scope|has no `|was not admitted)")
WORD = re.compile(r"\w+|[^\w\s]")
DECLARED = r"\b(?:let|mut|for|fn|const|ensures|requires|invariant) {0}\b|\b{0}\s*:(?!:)"


def read(path):
    with open(path, encoding="utf-8", errors="replace") as file:
        return file.read()


def only_renames(path):
    """Whether an edit does no more than declare names that its files did not have, in place of others."""
    text, names, source, old = read(path), set(), [], []
    for key, value in re.findall(r"^(file|old|new): ?(.*)", text, re.M):
        words = WORD.findall(read(os.path.join(os.path.dirname(path), "..", value)) if key == "file" else value)
        source, old = words if key == "file" else source, words if key == "old" else old
        names |= {word for before, word in zip(old, words) if word != before} if key == "new" else set()
        if key == "new" and (len(old) != len(words) or names & set(source)):
            return False
    return bool(names) and all(re.search(DECLARED.format(re.escape(word)), text) for word in names)


def main():
    source, crates = sys.argv[1] if sys.argv[1:] else "-", sys.argv[2:] or ["*"]
    said = dict(LINE.findall(sys.stdin.read() if source == "-" else read(source)))
    paths = sorted(path for crate in crates for path in glob.glob(os.path.join(TOP, "crates", crate, "must-fail", "*.edit")))
    failed = 0
    for path in paths:
        mutant = "/".join(path[:-len(".edit")].split(os.sep)[-3::2])
        line = "it only renames" if only_renames(path) else said.get(mutant, "rt has no line for it")
        if not REFUSED.match(line) or LOST_NAME.search(line):
            failed += 1
            print(f"failed: {mutant}: {line[:300]}")
    print(f"{len(paths) - failed} passed, {failed} failed")
    return 1 if failed or not paths else 0


if __name__ == "__main__":
    sys.exit(main())
