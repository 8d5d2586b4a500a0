"""Tests what dist/ has for Windows under Wine, beside the program: pp6600.exe, pp6600.dll and pp6600.cmd. Windows itself is not
tried. Wine takes long to start, so all share one Windows, and no command has a limit of its own: that of a module, of processor
time, ends one that hangs."""

import atexit
import functools
import os
import shutil
import subprocess

from tests import test_artefacts as artefacts
from tests.support import TOP, lasting_room, run

OF_WINE = {"WINEDEBUG": "-all", "WINEDLLOVERRIDES": "mscoree,mshtml="}  # it says nothing, and starts no more than it must


@functools.lru_cache(maxsize=None)
def environment(wine):
    """Returns the environment for Wine: a Windows of its own, which ends with the tests."""
    folder = lasting_room()
    found = {**os.environ, **OF_WINE, "WINEPREFIX": os.path.join(folder, "windows"), "HOME": folder}
    server = shutil.which("wineserver")
    for word in ("-w", "-k") if server else ():  # what is registered last is done first
        atexit.register(subprocess.run, [server, word], env=found, check=False)
    subprocess.run([wine, "cmd", "/c", "ver"], env=found, stdin=subprocess.DEVNULL, stdout=subprocess.DEVNULL,
                   stderr=subprocess.DEVNULL, check=True)
    return found


class Windows(artefacts.Artefacts):
    def setUp(self):
        self.wine = self.tool("wine64", "wine")
        self.environment = environment(self.wine)

    def test_program(self):
        """But for words that name a file of Unix."""
        artefacts.Programs.check(self, "pp6600.exe", self.wine,
                                 leaves_out=lambda session: any("/dev/" in word for word in session.words),
                                 env=self.environment, timeout=None)

    def test_program_in_other_ways(self):
        words = [f"{name}={self.environment[name]}" for name in (*OF_WINE, "WINEPREFIX", "HOME")]
        artefacts.Programs.check_ways(self, "env", *words, self.wine, artefacts.artefact("pp6600.exe"))

    def test_library(self):
        compiler = self.tool("x86_64-w64-mingw32-gcc")
        shutil.copy(artefacts.artefact("pp6600.dll"), self.folder)
        client = artefacts.client_in_c(self.folder, compiler, "libpp6600.dll.a", "libpp6600.dll.a")
        answers = artefacts.answers_of(self.folder, self.wine, client, env=self.environment, timeout=None)
        artefacts.Library.check(self, "pp6600.dll", answers)

    def command(self, *words, script=""):
        """Runs pp6600.cmd, from another folder."""
        path = f"Z:{os.path.join(TOP, 'pp6600.cmd')}".replace("/", "\\")
        done = run(self.wine, "cmd", "/c", path, *words, script=script, cwd=self.folder, env=self.environment, timeout=None)
        return done.out.replace("\r", ""), done.err.replace("\r", "").splitlines()[-1:], done.status

    def test_command(self):
        artefacts.artefact("pp6600.exe")
        self.assertEqual(("TURNS 12 SLOT 00\nERR 01 NOT A COMMAND\n", [], 1), self.command(script="STEP 12\nGO\n"))
        self.assertEqual(("", ["pp6600: BAD ARGUMENTS"], 2), self.command("--history", "0"))
