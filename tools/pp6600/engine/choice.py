"""Which program is run: a proved one for this machine, or the simulator in Python where none starts."""

from __future__ import annotations

import functools
import os
import platform
import sys
from typing import List, Sequence, Tuple

from ..failure import Failure

PACKAGE = os.path.dirname(os.path.dirname(os.path.realpath(__file__)))  # which may be found by a link
ABOVE = os.path.dirname(os.path.dirname(PACKAGE))  # the checkout, or where the tools are installed
# A package of pip has the program and VERSION in itself.
HOME = PACKAGE if os.path.exists(os.path.join(PACKAGE, "VERSION")) else ABOVE
IN_PYTHON = (sys.executable, os.path.join(PACKAGE, "engine", "plain", "__main__.py"))
# The proved programs for a machine, the best first. The second one for x86-64 needs no C library.
NAMES = {"x86_64": ("pp6600", "pp6600-static"), "aarch64": ("pp6600-aarch64",), "windows": ("pp6600.exe",)}
# The library beside the programs, and what compilers link in its place.
LIBRARIES = {"x86_64": ("libpp6600.so", "libpp6600.a"), "aarch64": ("libpp6600-aarch64.so", "libpp6600-aarch64.a"),
             "windows": ("pp6600.dll", "libpp6600.dll.a")}
MACHINES = {("Linux", "x86_64"): "x86_64", ("Linux", "aarch64"): "aarch64", ("Windows", "AMD64"): "windows",
            ("Windows", "ARM64"): "windows"}
MACHINE_HERE = MACHINES.get((platform.system(), platform.machine()), "")  # of another machine it is empty
NAMES_HERE = NAMES.get(MACHINE_HERE, ())
LIBRARY_HERE = LIBRARIES[MACHINE_HERE][0] if MACHINE_HERE else ""
THIS_IS = "this is pp6600-python, which is not proved"
NOT_PROVED = f"the proved program does not start here; {THIS_IS}"


def version() -> str:
    """Returns the version of what is here."""
    try:
        with open(os.path.join(HOME, "VERSION"), encoding="ascii") as file:
            return file.readline().strip()
    except (OSError, ValueError) as error:
        raise Failure(f"can't read the file VERSION in {HOME}") from error


@functools.lru_cache(maxsize=None)
def words_to_run(program: str) -> Tuple[str, ...]:
    """Returns the words that run a simulator. For the launcher of a checkout or of a class it is the program that the launcher
    would choose. If no program of one of these, of an installation or of a package starts, it is the one in Python, and standard
    error says so."""
    if os.path.dirname(program) == "":
        return (program,)
    whole = os.path.realpath(program)
    top, name = os.path.split(whole)
    if name == "pp6600" and os.path.exists(os.path.join(top, "crates.txt")):
        return first_that_starts(of_checkout(top))
    return first_that_starts(handed_out(HOME)) if whole == os.path.realpath(os.path.join(HOME, "pp6600")) else (program,)


def of_checkout(top: str) -> List[str]:
    """Returns the programs of a checkout for this machine, the best first."""
    return verified(top, NAMES_HERE)


def verified(top: str, names: Sequence[str], *options: str) -> List[str]:
    """Returns those of the programs of a checkout that have the checksums of their stamps, the best first. The options are those of
    share/which-build. On Windows no shell compares them: there it is those that are in dist."""
    if platform.system() == "Windows":
        return [path for path in (os.path.join(top, "dist", name) for name in names) if os.path.isfile(path)]
    if not names:
        return []
    words = ["/bin/sh", os.path.join(top, "share", "which-build"), *options, *names]
    import subprocess  # the tools run no program
    done = subprocess.run(words, stdin=subprocess.DEVNULL, capture_output=True, check=False)
    if done.returncode:
        raise Failure(os.fsdecode(done.stderr).strip().rpartition("\n")[2].replace("pp6600: ", "", 1) or f"{words[1]} failed")
    return [os.path.join(top, line.partition(" ")[2]) for line in os.fsdecode(done.stdout).splitlines()]


def handed_out(top: str) -> List[str]:
    """Returns the programs for this machine of a class, whose folder has them in dist; or else of an installation or a package."""
    folder = os.path.join(top, "dist") if os.path.isdir(os.path.join(top, "dist")) else top
    return [path for path in (os.path.join(folder, name) for name in NAMES_HERE) if os.path.isfile(path)]


def first_that_starts(programs: List[str]) -> Tuple[str, ...]:
    """Returns the first of the programs that starts, or else the words that run the one in Python."""
    for program in programs:
        if starts(program):
            return (program,)
    if sys.stderr is not None:
        modeless = next((program for program in programs if not os.access(program, os.X_OK)), None)
        said = NOT_PROVED if modeless is None else f"{modeless} has lost its mode: chmod +x gives it back; {THIS_IS}"
        print(f"pp6600: {said}", file=sys.stderr, flush=True)
    return IN_PYTHON


def starts(program: str) -> bool:
    """Returns whether a program of this machine starts."""
    import subprocess
    try:
        done = subprocess.run(["pp6600", "--help"], executable=program, stdin=subprocess.DEVNULL, capture_output=True, check=False)
    except OSError:
        return False
    return done.returncode == 0
