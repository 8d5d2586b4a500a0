"""What ./pp6600 adds at a terminal, in the repository of tests/launched. tests/sessions/launcher.txt and
launcher-elsewhere.txt have what it does elsewhere, the choice of the build that it runs, ./prove and ./check."""

import os
import platform
import shutil
import subprocess
import unittest

from tests.support import TOP, Case, program, run
from tests.terminal import IS_HERE, Terminal

GREETING = ("pp6600 7.8.9: SET STEP BACK FORWARD WATCH UNWATCH DEADSTART DUMP\n"
            "All numbers are octal. Card: docs/CARD.md. Ctrl-D ends.\n"
            "This program was proved elsewhere; ./prove proves it here.\n")
NO_RLWRAP = unittest.skipUnless(shutil.which("rlwrap"), "there is no rlwrap here")


@unittest.skipUnless(IS_HERE and platform.machine() == "x86_64", "there is no tmux, or this is no x86_64")
class AtTerminal(Case):
    def setUp(self):
        self.assertEqual(("", "", 0), run(os.path.join(TOP, "tests", "launched"), program(), cwd=self.folder))

    def at_terminal(self, *typed, words=(), path=(), home=True, folder=None):
        """Types each text when the one before it in its pair is shown. Returns what is shown in all, and the exit status."""
        names = [f"PATH={':'.join([self.path('plain'), *path])}", "TERM=xterm", *([f"HOME={self.folder}"] if home else [])]
        terminal = Terminal(["/usr/bin/env", "-i", *names, self.path("repository", "pp6600"), *words], 132, folder=folder
                            or self.folder)
        self.addCleanup(terminal.close)
        for awaited, text in typed:
            terminal.shows(awaited)
            terminal.type(text)
        status = terminal.status()
        return "".join(f"{line}\n" for line in terminal.lines()), status

    def test_the_greeting_and_an_answer(self):
        shown, status = self.at_terminal(("it here.", "STEP 12\r"), ("TURNS 12 SLOT 00", "\x04"))
        self.assertEqual((1, 0), (shown.count(GREETING), status), shown)
        self.assertNotIn("> ", shown)
        self.assertLessEqual(max(map(len, shown.splitlines())), 80)

    def test_folder_whose_name_is_no_text(self):
        """The proved program runs in a folder whose name is not UTF-8."""
        folder = os.fsencode(self.path("odd")) + b"\xff"
        os.rename(self.path("repository"), folder)
        odd = subprocess.run([b"\xff", "--help"], executable=program(), capture_output=True, check=False)
        if odd.returncode:
            self.skipTest("this build of the program looks at its name")
        done = subprocess.run([os.path.join(folder, b"pp6600")], input=b"STEP 12\n", capture_output=True, check=False)
        self.assertEqual((b"TURNS 12 SLOT 00\n", b""), (done.stdout, done.stderr))

    def test_words_that_are_not_accepted(self):
        self.assertEqual(("pp6600: CANNOT OPEN DECK\n", 2), self.at_terminal(words=["--deck", "none"]))

    @NO_RLWRAP
    def test_line_editing(self):
        shown, status = self.at_terminal(("> ", "DEAD\t"), ("> DEADSTART", "\r"), ("ERR 14 NO PANEL", "\x04"),
                                         path=["/usr/bin", "/bin"])
        self.assertEqual((True, 1), ("ERR 14 NO PANEL" in shown, status), shown)
        self.assertTrue(os.path.exists(self.path(".pp6600_history")))

    @NO_RLWRAP
    def test_line_editing_without_a_home_folder(self):
        empty = self.room()
        shown, _ = self.at_terminal(("> ", "STEP 12\r"), ("TURNS 12", "\x04"), path=["/usr/bin", "/bin"], home=False, folder=empty)
        self.assertEqual((True, False, []), ("TURNS 12" in shown, "warning" in shown, os.listdir(empty)))
