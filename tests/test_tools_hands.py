"""The tools in bad hands: whatever is done to one, it writes one line to standard error and ends with status 2."""

import os
import signal
import subprocess

from tests.fixtures import GIVEN, WITH_SIMULATOR, WITHOUT
from tests.support import PATIENCE, PYTHON, TOP, Case, program, run, tool, writer

STEP = "STEP\n"
# More words, with which no tool does anything, and what the message says.
WORDS = ((["--nonsense"], "--help shows what may be given"),
         (["A", "B", "C"], "not also B C|not also C|unrecognized arguments|takes one file"),
         (["no-such-file"], "can't read no-such-file"), (["/"], "can't read /: Is a directory"))
# The same of tools with a simulator.
OPTIONS = ((["--panel", "/dev/null"], "status 2: pp6600: PANEL"), (["--deck", "a", "--deck", "b"], "--deck is given twice"),
           (["--program", "/"], "/ is not the simulator"), (["--program", "/bin/cat"], "is not the simulator"),
           (["--program", "/none"], "/none is not the simulator"),
           (["--program", "/none.so"], "/none.so is not the library of the simulator"))


class Hands(Case):
    def setUp(self):
        self.environment = {**os.environ, "PP6600": program()}

    def check(self, name, words, text, status=2, script=None):
        """Checks that a tool says one line with one of some texts, and its status."""
        got = tool(name, *words, script=GIVEN.get(name, STEP) if script is None else script)
        with self.subTest(name, words=words):
            self.assert_one_line(name, text, got.err)
            self.assertEqual(status, got.status)

    def assert_one_line(self, name, text, said):
        """What was written to standard error is one line of the tool with one of these texts."""
        self.assertTrue(said.count("\n") == 1 and said.startswith(f"{name}: "), said)
        self.assertTrue(any(part in said for part in text.split("|")), f"{text!r} is not in {said!r}")

    def test_words(self):
        for name, words in {**WITH_SIMULATOR, **WITHOUT}.items():
            for more, text in (*WORDS, *(OPTIONS if name in WITH_SIMULATOR else ())):
                self.check(name, [*words, *more], text if name != "words" else f"{text}|is no octal number to 7777")

    def test_full_output(self):
        os.symlink("/dev/full", self.path("full"))
        for name, words in {**WITH_SIMULATOR, **WITHOUT}.items():
            words = ["-o", self.path("full")] if name == "film" else words
            done = run("bash", "-c", '"$0" "$@" >/dev/full', *PYTHON, os.path.join(TOP, "tools", name), *words,
                       script=GIVEN.get(name, STEP))
            with self.subTest(name):
                self.assert_one_line(name, "can't write to standard output: No space left on device|full: No space left on device",
                                     done.err)
                self.assertEqual(2, done.status)

    def test_strange_bytes(self):
        """Bytes that are no text."""
        refused = "one line was refused: line 1 (decimal), ERR 06 NOT ASCII: * \\xff"
        for name, words in {**WITH_SIMULATOR, **WITHOUT}.items():
            text, status = ("is not text in UTF-8", 2) if name in WITHOUT else (refused, 1)
            if GIVEN.get(name) != "":  # which reads nothing
                self.check(name, words, text, status, "* \xff \xc3\xa9\n")

    def test_interrupt(self):
        """An interrupt ends a tool that waits for a writer of its deck, without a word."""
        deck = os.path.join(self.room(), "fifo")
        os.mkfifo(deck)
        tool = subprocess.Popen([*PYTHON, os.path.join(TOP, "tools", "state"), "--deck", deck], stdin=subprocess.DEVNULL,
                                env=self.environment, stderr=subprocess.PIPE,
                                preexec_fn=lambda: signal.signal(signal.SIGINT, signal.SIG_DFL))  # ignored in the background
        self.addCleanup(tool.kill)
        end = writer(deck)
        tool.send_signal(signal.SIGINT)
        self.assertEqual(b"", tool.communicate(timeout=PATIENCE)[1])
        os.close(end)
        self.assertEqual(-signal.SIGINT, tool.returncode)
