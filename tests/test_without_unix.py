"""Tests the tools as on Windows, where pipes can't be waited for and only Python runs: by tests/without_unix.py, which takes away
all else. They write what they write elsewhere. Windows itself is not tried. tests/sessions/without-unix.txt has the simulator, the
exercises and what is said."""

import os

from tests.debug_client import Client
from tests.fixtures import GIVEN, WITH_SIMULATOR, WITHOUT
from tests.support import PYTHON, TOOLS, TOP, Case, Done, run, tool

WITHOUT_UNIX = (*PYTHON, os.path.join(TOP, "tests", "without_unix.py"))
SCRIPT, DECK = (f"examples/overwritten-loader/{name}" for name in ("script", "deck"))
LOADER = ["--deck", DECK, SCRIPT]
WITH_ASSEMBLER = ("assemble", "disassemble", "symbols")  # which only the library has
NO_LIBRARY = "pp6600: there is no library of the proved program for this machine; this is pp6600-python, which is not proved\n"


def outcome(words, **how):
    """Returns what a command does as on Windows."""
    return run(*WITHOUT_UNIX, *words, env={"PP6600": "", "PP6600_ENGINE": ""}, **how)


class Tools(Case):
    def test_each_is_here(self):
        self.assertEqual(sorted([*WITH_SIMULATOR, *WITHOUT, "debug-adapter", "panel"]), TOOLS)

    def test_with_simulator(self):
        for name, words in WITH_SIMULATOR.items():
            with self.subTest(name):
                words = [*words, *LOADER]
                wanted, got = tool(name, *words), outcome([f"tools/{name}", *words])
                self.assertEqual((wanted.out, NO_LIBRARY + wanted.err, wanted.status), got)
                self.assertNotEqual(2, got.status, got.err)

    def test_without_simulator(self):
        for name, words in WITHOUT.items():
            with self.subTest(name):
                refused = Done("", f"{name}: this needs the assembler of the proved library, and no library starts here\n", 2)
                wanted = refused if name in WITH_ASSEMBLER else tool(name, *words, script=GIVEN[name])
                self.assertEqual(wanted, outcome([f"tools/{name}", *words], script=GIVEN[name]))

    def test_debug_adapter(self):
        client = Client(environment={"PP6600": "", "PP6600_ENGINE": ""}, before=WITHOUT_UNIX[-1:])
        self.addCleanup(client.end)
        client.launch(script=SCRIPT, deck=DECK)
        listing = client.listing()
        self.assertTrue(os.path.exists(listing))
        self.assertEqual((0, NO_LIBRARY), client.end())
        self.assertFalse(os.path.exists(listing))
