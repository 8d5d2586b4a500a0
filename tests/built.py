"""The artefacts of dist/, or of the folder that PP6600_ARTEFACTS names, and the sessions of test_scripts."""

import os
import re

from tests.cases import Stored
from tests.support import TOP, read

FOLDER = os.path.abspath(os.environ.get("PP6600_ARTEFACTS") or os.path.join(TOP, "dist"))
# A session of test_scripts, and what its machine has.
ROW = re.compile(r'(?:With::(\w+),\s*)?"\\\n((?:> .*\n)(?:.*\n)*?)"')
WITH = {"Nothing": [], "Card": ["--deck", "deck"], "Panel": ["--panel", "panel"], "LittleMemory": ["--central", "32"]}
FILES = {"deck": b"1 2 3\n", "panel": b"1405 3420 300 0 0 0 0 0 0 0 0 0\n"}


def artefact(name):
    """Returns the path of an artefact."""
    path = os.path.join(FOLDER, name)
    if not os.path.isfile(path):
        raise AssertionError(f"{path} is not there: ./prove --renew makes it")
    return path


def rows():
    """Yields the sessions of test_scripts."""
    folder = os.path.join(TOP, "crates", "test_scripts", "src", "scripts")
    for name in sorted(os.listdir(folder)):
        for number, (machine, text) in enumerate(ROW.findall(read(folder, name))):
            script = "".join(line[2:] + "\n" for line in text.splitlines() if line.startswith("> "))
            yield Stored(f"{name}, session {number + 1}", WITH[machine or "Nothing"], script.encode("ascii"), FILES)
