"""What the tests share: the program under test, the pages, and ways to run things."""

import atexit
import functools
import io
import os
import platform
import re
import shlex
import shutil
import signal
import subprocess
import sys
import tempfile
import time
import unittest
from typing import NamedTuple

from tests.cases import EXAMPLES, TOP

TOOLS = sorted(entry.name for entry in os.scandir(os.path.join(TOP, "tools")) if entry.is_file() and "." not in entry.name)
PATIENCE = 600  # seconds for a command
PYTHON = (sys.executable, "-S")  # without what is installed beside the standard library: it starts sooner

sys.dont_write_bytecode = True
os.environ.pop("PYTHONDONTWRITEBYTECODE", None)  # a tool that has been compiled starts sooner
# A tool runs on the Python of the tests; one that a version manager has put on the path before it starts later.
os.environ["PATH"] = f"{os.path.dirname(sys.executable)}{os.pathsep}{os.environ['PATH']}"
# The library of the proved program, or nothing: then the tools run on the simulator in Python.
ON_AARCH64 = platform.machine() == "aarch64"
LIBRARY = os.environ.get("PP6600_ENGINE") or os.path.join(TOP, "dist", f"libpp6600{'-aarch64' * ON_AARCH64}.so")
PROVED = LIBRARY if os.path.exists(LIBRARY) else ""
if not PROVED:
    os.environ.setdefault("PP6600_ENGINE", "plain")
TOOLS_FOLDER = os.path.join(TOP, "tools")
with open(os.path.join(TOOLS_FOLDER, "pp6600", "own.py"), encoding="ascii") as own:
    exec(own.read())
find_first(pp6600=TOOLS_FOLDER)  # so that tests can import the tools' package


def needs_library():
    """Skips a module where there is no library, which has the assembler."""
    if not PROVED:
        raise unittest.SkipTest("there is no library with an assembler")


@functools.lru_cache(maxsize=None)
def program():
    """Returns the path of the program under test: $PP6600, or else the one that ./pp6600 runs."""
    named = os.environ.get("PP6600")
    if named:
        return os.path.abspath(named)
    names = ["pp6600-aarch64"] if ON_AARCH64 else []
    done = subprocess.run([os.path.join(TOP, "share", "which-build"), *names], stdout=subprocess.PIPE, text=True, check=False)
    if done.returncode:
        raise RuntimeError("there is no program to test; the line above says why")
    return os.path.join(TOP, done.stdout.splitlines()[0].partition(" ")[2])


class Done(NamedTuple):
    """What a command has written, and its exit status."""
    out: str
    err: str
    status: int


def run(*words, script="", env=None, encoding="utf-8", **how):
    """Runs a command at the top of the repository, with the program under test as the simulator of all tools."""
    environment = {**os.environ, "PP6600": program(), **(env or {})}
    environment.pop("PYTHONUNBUFFERED", None)  # users have none, and what is said comes after what was written all the same
    how = {"cwd": TOP, "timeout": PATIENCE, **how}
    done = subprocess.run(words, input=script.encode("latin-1"), env=environment, capture_output=True, check=False, **how)
    return Done(done.stdout.decode(encoding, "replace"), done.stderr.decode("utf-8", "replace"), done.returncode)


def tool(name, *words, script="", **how):
    """Runs a tool on a script: in this process, or in one of its own if it is said how."""
    return (run(*PYTHON, os.path.join(TOP, "tools", name), *words, script=script, **how) if how
            else tool_here(name, *words, script=script))


@functools.lru_cache(maxsize=None)
def pack_once():
    """Lets the parts that all films have be packed once, which takes longest of making one."""
    from pp6600.front.film import page
    page.packed, page.joined_with_shared = (functools.lru_cache(maxsize=32)(one) for one in (page.packed, page.joined_with_shared))


def tool_here(name, *words, **how):
    """Runs a tool in this process."""
    from pp6600 import __main__ as tools
    from pp6600.shell import ending
    if name == "film":
        pack_once()
    return called(lambda: ending.run(lambda: tools.main_of(name)()), name, *words, **how)


def called(task, *words, script="", folder=TOP, is_one=False):
    """Calls what a program does with these words, in this process, with streams of its own; the two that are written may be one."""
    streams, before, here, path = (sys.stdin, sys.stdout, sys.stderr), sys.argv, os.getcwd(), [*sys.path]
    handler, named, status = signal.getsignal(signal.SIGINT), os.environ.get("PP6600"), None
    made = [io.TextIOWrapper(io.BytesIO(data), encoding="utf-8", write_through=True)
            for data in (script.encode("latin-1"), b"", b"")]
    made[2] = made[1 if is_one else 2]
    sys.argv, os.environ["PP6600"] = list(words), program()
    os.chdir(folder)
    try:
        sys.stdin, sys.stdout, sys.stderr = made
        task()
    except SystemExit as end:
        status = end.code
    finally:
        sys.stdin, sys.stdout, sys.stderr = streams
        sys.argv, sys.path[:] = before, path
        os.chdir(here)
        signal.signal(signal.SIGINT, handler)
        os.environ.pop("PP6600") if named is None else os.environ.update(PP6600=named)
    return Done(*(stream.buffer.getvalue().decode("utf-8", "replace") for stream in made[1:]), status or 0)


def read(*names):
    """Returns the text of a file, by its path from the top of the repository."""
    with open(os.path.join(TOP, *names), encoding="utf-8") as file:
        return file.read()


def write(path, data="", mode=0o644):
    """Writes a file of text or bytes, and the folders that it needs. Returns its path."""
    os.makedirs(os.path.dirname(path), exist_ok=True)
    with open(path, "wb") as file:
        file.write(data if isinstance(data, bytes) else data.encode("utf-8", "surrogateescape"))
    os.chmod(path, mode)
    return path


def writer(path):
    """Returns the end of a named pipe to write to, once somebody has opened it to read."""
    for _ in range(10 * PATIENCE):
        try:
            return os.open(path, os.O_WRONLY | os.O_NONBLOCK)
        except OSError:
            time.sleep(0.1)
    raise TimeoutError(f"{path} is not opened")


def lasting_room():
    """Returns a new folder, which is removed when all tests have ended."""
    folder = tempfile.mkdtemp(prefix="pp6600-test-")
    atexit.register(shutil.rmtree, folder)
    return folder


def kept_room(name):
    """Returns a folder of this user that stays, for what is not done again on this machine until it changes."""
    folder = os.path.join(os.environ.get("XDG_CACHE_HOME") or os.path.expanduser("~/.cache"), name)
    os.makedirs(folder, exist_ok=True)
    return folder


@functools.lru_cache(maxsize=None)
def quick_path():
    """Returns a path of commands on which python3 starts sooner: without what is installed beside the standard library."""
    folder = lasting_room()
    write(os.path.join(folder, "python3"), f'#!/bin/sh\nexec {shlex.quote(sys.executable)} -S "$@"\n', 0o755)
    return f"{folder}{os.pathsep}{os.environ['PATH']}"


class Block(NamedTuple):
    """A block of a page between two lines of three grave accents."""
    place: str  # the page and the line of its first line, for messages
    words: list  # what the first line says after the accents, as ["session", "--deck", "deck"]
    text: str


def blocks(page, kind):
    """Returns the blocks of this kind of a page, as docs/TOOLS.md, in their order."""
    text = read(*page.split("/"))
    found = []
    for block in re.finditer(r"^```([^\n]*)\n(.*?)^```", text, flags=re.M | re.S):
        words = block[1].split()
        if words[:1] == [kind]:
            found.append(Block(f"{page}, line {text.count(chr(10), 0, block.start()) + 1}", words, block[2]))
    return found


def names_of_codes():
    """Returns the name of each code in the table of docs/MACHINE.md."""
    names = {}
    row = re.compile(r"^\| ([0-7]{2}(?:, [0-7]{2})*) \| ([A-Z]{3}(?:, [A-Z]{3})*) \|", re.M)
    for codes, called in row.findall(read("docs", "MACHINE.md")):
        codes, called = codes.split(", "), called.split(", ")
        names.update(zip(codes, called * len(codes) if len(called) == 1 else called))
    return [names[f"{code:02o}"] for code in range(64)]


class Case(unittest.TestCase):
    """A test case with folders of its own where it wants some."""

    maxDiff = 4000

    def room(self):
        """Returns a new folder, which is removed when the test has ended."""
        folder = tempfile.TemporaryDirectory(prefix="pp6600-test-")
        self.addCleanup(folder.cleanup)
        return folder.name

    @functools.cached_property
    def folder(self):
        """The folder of the test."""
        return self.room()

    def path(self, *names):
        """Returns a path in the folder of the test."""
        return os.path.join(self.folder, *names)

    def file(self, data, name="file"):
        """Returns the path of a file in a new folder."""
        return write(os.path.join(self.room(), name), data)

    def check_rows(self, function, *rows):
        """Checks what a function returns: the last part of each row is what is wanted, and the others are what it is given."""
        for *given, wanted in rows:
            with self.subTest(given):
                self.assertEqual(wanted, function(*given))


def add_tests(case, check, named):
    """Gives a class of tests one for each pair of a name and an argument: test_NAME calls check(self, argument)."""
    for name, argument in named:
        setattr(case, "test_" + re.sub(r"\W+", "_", name), lambda self, it=argument: check(self, it))
