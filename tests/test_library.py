"""The library libpp6600.so: the examples in C, random calls, and wrong rooms, counts and places. That it answers as the program
does, tests/test_artefacts.py tries; wrong options are in tests/test_engine.py."""

import concurrent.futures
import ctypes
import functools
import json
import os
import re
import shutil
import subprocess
import sys
import unittest
import unittest.mock

from tests import library_calls, wrong_calls
from tests.built import artefact
from tests.generator import BUSY, Maker
from tests.support import PATIENCE, PROVED, TOP, Case, blocks, program, read, run

import pp6600
from pp6600.engine import library
from pp6600.engine.library import LibrarySession
from pp6600.failure import Failure

CRATE = os.path.join(TOP, "crates", "pp_library")
PLACES = 106592 + 32768  # of a machine with the smallest central memory
SEQUENCES = 50
STACKS = 48 << 10, 144 << 10, 16 << 10  # bytes of the assembler's calls, of a search and of another, as the header says
# Opens sessions with little memory until there is none, and compares the others before and after.
LITTLE_MEMORY = """
import resource
from pp6600.engine import library
used = int(open("/proc/self/statm").read().split()[0]) * resource.getpagesize()
library.load()
of_python = bytearray(4 << 20)  # what the lines below the loop may need
resource.setrlimit(resource.RLIMIT_AS, (used + (24 << 20),) * 2)
sessions, numbers = [], lambda session: session.numbers(40960, 100) + session.numbers(0, 100)
library.ANSWER_ROOM = 4096  # so that memory does not run out in Python
try:
    while len(sessions) < 100:
        sessions.append(library.LibrarySession(history=200, central=32768))
        sessions[-1].answer(b"SET A 0 %o\\nSTEP 20\\n" % len(sessions))
except library.Refused as refused:
    del of_python
    before = list(map(numbers, sessions))
    sessions.pop(0).close()
    sessions.append(library.LibrarySession(history=200, central=32768))
    print(refused, len(sessions) > 2, list(map(numbers, sessions))[:-1] == before[1:])
"""


def in_python(*words):
    """Runs Python with the library and the package of the tools."""
    return run(sys.executable, *words, env={"PYTHONPATH": os.path.join(TOP, "tools"), "PP6600_LIBRARY": os.path.abspath(PROVED)})


@unittest.skipUnless(PROVED, "dist/libpp6600.so was not built")
class LibraryCase(Case):
    """A case with sessions of the library."""

    def open(self, **options):
        session = LibrarySession(path=PROVED, **options)
        self.addCleanup(session.close)
        return session


class Machines(LibraryCase):
    def test_threads(self):
        """Sessions in threads of their own come to what they come to one after another."""
        def numbers_after(seed):
            session = self.open(history=500, central=32768)
            session.answer("\n".join(Maker(seed, BUSY).script()).encode())
            session.looks(20000, [40960])
            return session.numbers(0, PLACES)

        with concurrent.futures.ThreadPoolExecutor(4) as pool:
            self.assertEqual(list(map(numbers_after, range(12))), list(pool.map(numbers_after, range(12))))

    def test_a_dead_start_performed_again(self):
        """It overwrites as many places as an action may."""
        session = self.open(central=32768, panel=b"1405 3420 300 0 0 0 0 0 0 0 0 0\n")
        session.answer(b"STEP 10\nDEADSTART\nSTEP 1\nBACK 2\n")
        before = session.numbers(0, PLACES)
        (start,) = session.again(1)
        self.assertEqual((start.processor, len(start.olds)), (10, library.MOST_OLDS))
        self.assertEqual(start.olds, [(place, before[place]) for place, _ in start.olds])
        self.assertEqual(session.again(1)[0].processor, 0)


class WrongHands(LibraryCase):
    """Wrong options, rooms, counts and places get a status, and change nothing."""

    def test_a_line_without_room_is_not_performed(self):
        session = self.open()
        session.answer(b"WATCH C 5\n")
        before = session.counts()
        for room in (0, 1, 38, 93):
            self.assertEqual(self.one_call(session, b"STEP\n", room), (library.ROOM, 0, 0))
            self.assertEqual(session.counts(), before)
        self.assertEqual(self.one_call(session, b"STEP\n", 94), (library.DONE, 5, len("TURNS 1 SLOT 01\n")))
        exact = len(session.answer(b"DUMP PP 0\n").text)
        self.assertEqual(self.one_call(session, b"DUMP PP 0\n", exact - 1), (library.ROOM, 0, 0))
        self.assertEqual(self.one_call(session, b"DUMP PP 0\n", exact), (library.DONE, 10, exact))

    def one_call(self, session, typed, room):
        """Returns the status of a call of answer, the bytes that it took, and those that it wrote."""
        into = ctypes.create_string_buffer(max(room, 1))
        found = [ctypes.c_size_t(), ctypes.c_size_t(), ctypes.c_uint32(), ctypes.c_uint32()]
        status = session.calls["answer"](typed, ctypes.c_size_t(len(typed)), into, ctypes.c_size_t(room), *map(ctypes.byref, found))
        return status, found[0].value, found[1].value

    def test_places_and_counts_out_of_range(self):
        session = self.open(central=32768)
        self.assertEqual(session.numbers(PLACES - 1, 1), [0])
        for first, count in ((PLACES, 1), (PLACES - 1, 2), (2 ** 32 - 1, 1), (0, PLACES + 1)):
            with self.assertRaisesRegex(Failure, "does not have the places"):
                session.numbers(first, count)
        for places in ([], [0] * 17, [PLACES], [0, 2 ** 32 - 1]):
            with self.assertRaisesRegex(Failure, "1 to 16 places"):
                session.looks(1, places)
        self.assertEqual(session.counts().kept, 0)
        self.assertFalse(session.back(1))
        self.assertFalse(session.forward(1))
        self.assertIsNone(session.again(1))
        self.assertEqual(session.turns(0), ([], False))

    def test_wrong_arguments(self):
        found, count = wrong_calls.faults(PROVED)
        self.assertEqual([], found)
        self.assertGreater(count, 600)

    def test_more_than_there_is_memory_for(self):
        session = self.open(central=32768)
        session.answer(b"STEP 20\nBACK 10\n")
        before = session.counts(), session.numbers(0, PLACES)
        with self.assertRaisesRegex(Failure, "no memory"):
            session.turns(2 ** 32 - 1)
        self.assertEqual((session.counts(), session.numbers(0, PLACES)), before)

    def test_a_list_of_places_that_is_changed(self):
        """The session looks at what is in the list now."""
        session, places = self.open(), [40960]
        session.perform(b"SET A 0 5\nSET A 1 6\n")
        self.assertEqual(([[5]], False), session.looks(1, places))
        places[0] = 40961
        self.assertEqual([[6]], session.looks(1, places)[0])
        places.append(40960)
        self.assertEqual([[6, 5]], session.looks(1, places)[0])

    def test_a_line_that_is_too_long(self):
        """The call takes none of it, each time; the classes say so."""
        session = self.open(central=32768)
        line = b"STEP\n" + b" " * 268435457
        answers = session.answer(line)
        self.assertEqual((5, 1), (answers.taken, answers.lines))
        with self.assertRaisesRegex(Failure, "a line is too long"):
            session.answer(line[5:])
        self.assertEqual(1, session.counts().kept)

    def test_no_memory_for_an_answer(self):
        """What is performed before it is returned."""
        session = self.open(central=32768)
        with unittest.mock.patch.object(library.ctypes, "create_string_buffer", side_effect=MemoryError):
            answers = session.answer(b"STEP\nDUMP C 0 77777\nSTEP\n")
            self.assertEqual((b"TURNS 1 SLOT 01\n", 1, 5), (answers.text, answers.lines, answers.taken))
            with self.assertRaisesRegex(Failure, "no memory for the answer"):
                session.answer(b"DUMP C 0 77777\n")
        self.assertEqual(1, session.counts().kept)

    def test_little_memory(self):
        """When memory runs out, the other sessions are as they were, and one that is closed makes room for another."""
        self.assertEqual(("pp6600: NO MEMORY True True\n", "", 0), in_python("-c", LITTLE_MEMORY))

    def test_a_closed_session(self):
        session = self.open()
        session.close()
        session.close()
        for call in (session.counts, lambda: session.answer(b"STEP\n"), lambda: session.turns(1), lambda: session.numbers(0, 1)):
            with self.assertRaisesRegex(Failure, "the session is closed"):
                call()

    def test_a_missing_library(self):
        with self.assertRaisesRegex(Failure, "the library of the simulator can't be loaded"):
            LibrarySession(path=self.path("none.so"))
        with self.assertRaisesRegex(Failure, "the library of the simulator can't be loaded"):
            LibrarySession(path=self.file("not a library"))


class Recorder:
    """A session that keeps the conditions that it is asked for."""

    def __init__(self, found):
        self.found = found

    def until(self, condition, _):
        self.found.append(list(map(tuple, condition)))


def trace(seed):
    """Returns the seed of a sequence, and its calls with what they came to."""
    return seed, library_calls.trace_of(seed)


@functools.lru_cache(maxsize=None)
def traces():
    """Returns all sequences."""
    with concurrent.futures.ProcessPoolExecutor() as pool:
        return list(pool.map(trace, range(SEQUENCES), chunksize=10))


class RandomCalls(LibraryCase):
    """Random sequences of calls, on two sessions side by side, with guards round each buffer."""

    def test_sequences(self):
        self.assertGreater(min(len(calls) for _, calls in traces()), 30)

    def test_sequences_in_node(self):
        """The module for browsers and Node does in each call what the library does."""
        node = shutil.which("node") or shutil.which("nodejs") or self.skipTest("node is missing")
        path = self.file("".join(f"{json.dumps(one)}\n" for one in traces()))
        done = run(node, os.path.join(TOP, "tests", "artefacts", "calls.js"), artefact("pp6600.wasm"), path)
        self.assertGreater(int(done.out), 30 * SEQUENCES, done.err)

    def test_slips_are_seen(self):
        for name in library_calls.SLIPS:
            with self.subTest(name), self.assertRaises(AssertionError):
                for seed in range(40):
                    library_calls.trace_of(seed, library_calls.slipping(name))


class Header(LibraryCase):
    """What the header says of the library."""

    def test_version(self):
        numbers = re.findall(r"^#define PP6600_VERSION_(?:MAJOR|MINOR|PATCH) (\d+)$", read("crates", "pp_library", "pp6600.h"),
                             re.M)
        self.assertEqual((read("VERSION").strip(), tuple(map(int, numbers))), (".".join(numbers), library.version(PROVED)))

    def test_statuses(self):
        numbers = re.findall(r"^    PP6600_(\w+) = (\d+),?(?: +/\*|$)",
                             read("crates", "pp_library", "pp6600.h").split("enum {")[1], re.M)
        self.assertEqual([(str(number), name) for number, name in enumerate(
            ("DONE", "ROOM", "WATCHED", "CLOSED", "OPEN", "NO_MEMORY", "REFUSED", "LIMIT", "NOT_FOUND"))],
            [(number, name) for name, number in numbers[:9]])
        self.assertEqual("no memory", library.text_of_status(library.NO_MEMORY, PROVED))
        self.assertEqual("not found", library.text_of_status(library.NOT_FOUND, PROVED))


@unittest.skipUnless(PROVED and shutil.which("gcc"), "dist/libpp6600.so was not built, or there is no gcc")
class InC(LibraryCase):
    """The examples in C, and the session of the page."""

    def compiled(self, source):
        """Returns the path of a program of this source, which loads the library by the name that is asked for."""
        target, shared = self.path(os.path.basename(source) + ".out"), self.path("libpp6600.so.1")
        if not os.path.exists(shared):
            os.symlink(os.path.abspath(PROVED), shared)
        subprocess.run(["gcc", "-std=gnu11", "-O1", "-g", "-Wall", "-Wextra", "-Wconversion", "-Werror", "-I", CRATE, source,
                        shared, "-o", target, f"-Wl,-rpath,{os.path.dirname(shared)}"], check=True, timeout=PATIENCE)
        return target

    def test_examples_run_and_leak_nothing(self):
        folder = os.path.join(TOP, "docs", "library")
        for name in ("assembler", "searches", "session", "statuses"):
            target = self.compiled(os.path.join(folder, f"{name}.c"))
            self.assertEqual((read("docs", "library", f"{name}.txt"), "", 0), run(target))
            if shutil.which("valgrind"):
                checked = run("valgrind", "--error-exitcode=9", "--leak-check=full", target)
                self.assertEqual(0, checked.status, checked.err)

    def test_the_stack(self):
        shown = run(self.compiled(os.path.join(TOP, "tests", "artefacts", "stack.c"))).out
        self.assertEqual(len(STACKS), len(shown.split()))
        for used, most in zip(map(int, shown.split()), STACKS):
            self.assertTrue(0 < used <= most, shown)

    def test_short_examples(self):
        """An example for each of three questions, of at most 30 lines; that in JavaScript is tried where the package for Node
        is."""
        folder = os.path.join(TOP, "docs", "library")
        for name in ("last-writer.c", "hottest.py", "channel-log.mjs"):
            self.assertLessEqual(read("docs", "library", name).count("\n"), 30)
        self.assertEqual(read("docs", "library", "last-writer.txt"), run(self.compiled(os.path.join(folder, "last-writer.c"))).out)
        self.assertEqual((read("docs", "library", "hottest.txt"), "", 0), in_python(os.path.join(folder, "hottest.py")))

    def test_searches_of_the_page(self):
        """Each row of the table is one condition, in C as in Python."""
        kinds = {name: number for number, name in enumerate(("INSIDE", "OUTSIDE", "CHANGES", "WRITES", "PERFORMS", "WAITS", "OR"))}
        places = {"STATES": 41000, "A": 40960}
        rows = re.findall(r"^\| until .*?\| (`\{.*\}`) \| `(.*)` \|$", read("docs", "LIBRARY.md"), re.M)
        for in_c, in_python in rows:
            numbers = re.sub(r"PP6600_(\w+)", lambda one: str({**kinds, **places}[one[1]]), in_c.replace("`", ""))
            forms = eval(re.sub(r"\b0([0-7]+)", r"0o\1", numbers).replace("{", "(").replace("}", ")") + ",")
            found = []
            eval(in_python, {**{name: getattr(pp6600, name) for name in pp6600.__all__}, "session": Recorder(found)})
            self.assertEqual([list(map(tuple, forms))], found)
        self.assertEqual(3, len(rows))

    def test_the_sessions_of_the_page(self):
        (in_c,), (python,) = blocks("docs/LIBRARY.md", "c"), blocks("docs/LIBRARY.md", "python")
        answers = run(program(), script="SET M 0 100 3410 0376\nSET P 0 100\nSTEP 50\nDUMP PP 0\n").out
        self.assertEqual((answers, 0), run(self.compiled(self.file(in_c.text, "page.c")))[::2])
        shown = in_python("-c", python.text)
        self.assertEqual(("", 0), shown[1:])
        self.assertIn("TURNS 50 SLOT 00", shown.out)
