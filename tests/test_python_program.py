"""pp6600-python is the proved program's double: the cases of tests/cases.txt and of examples/, and the sessions of the pages, in
this process; and as a program of its own, with odd files and streams of the system. tests/test_random.py compares random sessions.
"""

import contextlib
import itertools
import os
import signal
import subprocess

from tests.cases import named
from tests.fixtures import sessions
from tests.support import PATIENCE, TOP, Case, add_tests, program, read, write, writer
from tests.ways import CaseTests, performed

from pp6600.engine.plain import program as plain
from pp6600.engine.plain.machine import Machine

PYTHON_PROGRAM = os.path.join(TOP, "pp6600-python")


class Cases(CaseTests):
    """What the pages demand of the program."""

    def performed(self, _):
        """A case is run in this process, in the folder of the test; one that does not run in the plain way is run as a program."""
        case = self.case
        if case.how:
            return performed(case, self.folder, PYTHON_PROGRAM)
        self.addCleanup(os.chdir, os.getcwd())
        os.chdir(self.folder)
        self.place(case.files)
        answers = []
        status, fault = plain.run(case.words, write(self.path("its input"), case.script), answers.append)
        return "".join(answers).encode("latin-1"), fault.encode("latin-1"), status


# tests/test_random.py has the limit of lines.
add_tests(Cases, Cases.check, [(name, case) for name, case in named() if len(case.script) < 1000000])
add_tests(Cases, Cases.check, [(session.name, session) for session in sessions()])


@contextlib.contextmanager
def closing(*numbers):
    """Yields the first of some files, and closes them all."""
    try:
        yield numbers[0]
    finally:
        list(map(os.close, numbers))


def pipe(data=b"", blocking=True, lasts=True):
    """The end to read of a pipe with some bytes, whose other end may be closed; a read may not wait."""
    reader, end = os.pipe()
    os.write(end, data)
    os.set_blocking(reader, blocking)
    if not lasts:
        os.close(end)
    return closing(reader, *[end] * lasts)


def full_pipe():
    """The end to write of a pipe without room, at which a write does not wait."""
    reader, end = os.pipe()
    os.set_blocking(end, False)
    with contextlib.suppress(BlockingIOError):
        while True:
            os.write(end, b"*" * 4096)
    return closing(end, reader)


def broken_pipe():
    """The end to write of a pipe that nobody reads."""
    reader, end = os.pipe()
    os.close(reader)
    return closing(end)


def opened(path, flags):
    return closing(os.open(path, flags))


SOURCES = {
    "a pipe that ends": lambda: pipe(b"STEP\nGO\nDUMP PP 0", lasts=False), "an empty pipe that ends": lambda: pipe(lasts=False),
    "no data now": lambda: pipe(blocking=False), "data, and none now": lambda: pipe(b"STEP\nGO\nSTE", blocking=False),
    "a folder": lambda: opened("/", os.O_RDONLY), "a file to write": lambda: opened("/dev/null", os.O_WRONLY), "closed": None}
SINKS = {
    "a file to read": lambda: opened("/dev/null", os.O_RDONLY), "a full device": lambda: opened("/dev/full", os.O_WRONLY),
    "no room now": full_pipe, "nobody reads": broken_pipe, "closed": None, "read": lambda: contextlib.nullcontext(subprocess.PIPE)}
OF_FAULTS = (["--help"], ["/"], ["--deck", "/", "/dev/null"], ["--panel", "/dev/full"], ["script"])


class Compared(Case):
    """What the program does, byte for byte."""

    def outcome(self, simulator, words, standard_input, output=subprocess.PIPE):
        with open(standard_input, "rb") as given:
            done = subprocess.run([simulator, *words], stdin=given, stdout=output, stderr=subprocess.PIPE, timeout=PATIENCE,
                                  check=False)
        return done.stdout, done.stderr, done.returncode

    def compare(self, name, words, standard_input, output=subprocess.PIPE):
        wanted, got = (self.outcome(simulator, words, standard_input, output) for simulator in (program(), PYTHON_PROGRAM))
        self.assertEqual(wanted, got, name)

    def setUp(self):
        self.addCleanup(os.chdir, os.getcwd())
        os.chdir(self.room())

    def test_words(self):
        """Words of the command line that random sessions have seldom."""
        write(os.path.abspath("script"), b"SET A 0 1\nDUMP PP 0\n")
        for words in (["--", "script"], ["--", "--help"], ["--", "--"], ["--deck", "--", "script"], ["--deck=", "script"],
                      ["--help", b"\xff"], ["-help"], ["-hx"], ["-h="], ["-xh"], ["--help="], ["--history", "-h"],
                      [b"\xff", "--help"], ["script", "--", "script"], ["--history", "0" * 5000 + "7", "script"],
                      ["--history", "9" * 5000], ["--deck", "/dev/zero", "script"], ["--panel", "/dev/zero", "script"], ["-"],
                      ["--history", "7\n", "script"], ["-\n"], ["--deck", "-\n"], ["--\n", "script"]):
            with self.subTest(words):
                self.compare(str(words)[:80], words, "script")

    def fault(self, simulator, source, sink, words):
        """Runs a simulator with what is odd at its standard input and output; None is nothing there."""
        closed = [number for number, stream in enumerate((source, sink)) if stream is None]
        with contextlib.ExitStack() as stack:
            streams = [stack.enter_context(stream()) if stream else subprocess.DEVNULL for stream in (source, sink)]
            done = subprocess.run([simulator, *words], stdin=streams[0], stdout=streams[1], stderr=subprocess.PIPE,
                                  timeout=PATIENCE,
                                  preexec_fn=lambda: list(map(os.close, closed)), check=False)
        return done.stdout, done.stderr, done.returncode

    def test_faults(self):
        """Streams that fail, at their first byte or later."""
        write(os.path.join(os.getcwd(), "script"), b"STEP\n" * 3)
        cases = [*itertools.product(SOURCES, SINKS, [[]]),
                 *(("a folder", sink, words) for sink in ("read", "a full device") for words in OF_FAULTS)]
        for source, sink, words in cases:
            with self.subTest(source=source, sink=sink, words=words):
                wanted, got = (self.fault(simulator, SOURCES[source], SINKS[sink], words)
                               for simulator in (program(), PYTHON_PROGRAM))
                self.assertEqual(wanted, got)
        self.assertGreaterEqual(len(cases), 50)

    def test_line_limit(self):
        """It ends at the first byte after the last line, and does not wait for that line's end."""
        reader, end = os.pipe()
        with subprocess.Popen([PYTHON_PROGRAM], stdin=reader, stdout=subprocess.PIPE, stderr=subprocess.PIPE) as process:
            os.close(reader)
            with open(end, "wb") as file:
                file.write(b"\n" * 1000000 + b"S")
                file.flush()
                self.assertEqual(3, process.wait(PATIENCE))
            self.assertEqual((b"", b"pp6600: LINE LIMIT\n"), (process.stdout.read(), process.stderr.read()))

    def test_byte_limit(self):
        """A long line leaves three bytes of the 268,435,456: a line that they end is performed, and one that they do not end is
        not."""
        size = (1 << 28) - 4
        path = self.file(b"*" * size + b"\n")
        for rest, answers, status in ((b"XYZ", b"ERR 01 NOT A COMMAND\n", 1), (b"X\nYZ", b"ERR 01 NOT A COMMAND\n", 3),
                                      (b"WXYZ", b"", 3)):
            with self.subTest(rest), open(path, "r+b") as file:
                file.seek(size + 1)
                file.write(rest)
                file.flush()
                file.seek(0)
                done = subprocess.run([program()], stdin=file, capture_output=True, timeout=PATIENCE, check=False)
                file.truncate(size + 1)
                wanted = b"ERR 05 LINE TOO LONG\n" + answers, b"pp6600: LINE LIMIT\n" * (status == 3), status
                self.assertEqual(wanted, (done.stdout, done.stderr, done.returncode))

    def test_lines_without_end(self):
        """A byte too many, and a line of a million bytes."""
        for size in (255, 256, 4095, 4096, 65535, 65536, 1000000):
            write(os.path.abspath("script"), b"*" * size + b"\r\nSTEP\n" + b"*" * size + b"\r")
            with self.subTest(size):
                self.compare(size, [], "script")


class Said(Case):
    def test_interrupted_while_it_starts(self):
        """It ends without a word, here before its package is there."""
        own = write(self.path("pp6600-python"), read("pp6600-python"), 0o755)
        os.mkfifo(self.path("fifo"))
        write(self.path("tools", "pp6600", "own.py"), read("tools", "pp6600", "own.py"))
        write(self.path("tools", "pp6600", "__init__.py"), f"open({self.path('fifo')!r}).read()\n")
        with subprocess.Popen([own], stdin=subprocess.DEVNULL, stderr=subprocess.PIPE,
                              preexec_fn=lambda: signal.signal(signal.SIGINT, signal.SIG_DFL)) as process:
            end = writer(self.path("fifo"))
            process.send_signal(signal.SIGINT)
            self.assertEqual((b"", -signal.SIGINT), (process.stderr.read(), process.wait(PATIENCE)))
            os.close(end)

    def test_no_memory(self):
        """For the machine, or later."""
        def without_memory(*_):
            raise MemoryError
        with open("/dev/null") as script:
            self.assertEqual((2, "pp6600: NO MEMORY\n"), plain.run([], script.fileno(), print, without_memory))
        self.assertEqual((2, "pp6600: NO MEMORY\n"), plain.run([self.file(b"STEP\n")], 0, without_memory))

    def test_undo_records_are_small(self):
        """A turn's record has the numbers that it overwrote and no others: of a pass the P of its processor and the slot."""
        machine = Machine()
        machine.turn()
        self.assertEqual(2, len(machine.history[-1]))
