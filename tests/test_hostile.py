"""Nothing of the folder that one works in is run: beside each program that Python runs, and where it is started, is a hostile
module with each name that Python's own library has; none of them is performed. The examples in Python are ordinary scripts, and are
not among these."""

import os
import shutil
import sys
import sysconfig

from tests.fixtures import GIVEN, WITH_SIMULATOR
from tests.support import TOP, Case, add_tests, lasting_room, program, read, run, write

SCRIPT = write(os.path.join(lasting_room(), "script"), "STEP\n")
SOLUTION = os.path.join(TOP, "exercises", "exchange", "solution")
# The programs of a checkout by their folder, each with words for which it has something to do, or shows its help. The tools are
# copies of one launcher, as tests/test_core.py says: here are those that import most.
IN_FOLDERS = {
    "": {"pp6600-python": [SCRIPT]},
    "tools": {**{name: [*WITH_SIMULATOR[name], SCRIPT] for name in ("film", "origin", "talk")},
              "assemble": [], "debug-adapter": [], "panel": ["--help"]},
    "tools/pp6600/engine/plain": {"__main__.py": [SCRIPT]},
    "exercises": {"check-exercise": ["exchange", SOLUTION], "grade": [os.path.dirname(SOLUTION)], "hand-out": ["--help"],
                  "new": ["--help"]},
    "share": {"colours": ["--check"], "deb": ["--help"], "install": ["--help"], "manual": ["--print"], "npm": ["--help"],
              "release": ["--help"], "vsix": ["made"], "wheel": ["--help"]},
    "docs": {"card.py": ["--check"], "definitions.py": ["--help"], "evaluate": ["--help"], "proofs.py": ["--help"]},
    "docs/drawings": {"draw.py": ["--help"], "panel.py": ["--help"]},
    "bench": {"devices": ["--help"], "run": ["--help"], "tools": ["--help"]},
    "targets": {"build": ["--list"]},
    "tests": {"__main__.py": ["nothing"], "refusals.py": []}}
NOT_COPIED = shutil.ignore_patterns(".git", "crates", "films", "out", "work", "__pycache__", "libpp6600-aarch64.so",
                                    "pp6600-aarch64", "definitions.html")
OWN = ("checking", "class_page", "tutorials", "pp6600", "tables", "packaging", "wheels", "scripts", "sitecustomize",
       "usercustomize")


def library_names():
    """Returns the names of the modules of Python's own library."""
    folders = {sysconfig.get_path("stdlib"), sysconfig.get_path("platstdlib")}
    folders |= {os.path.join(folder, "lib-dynload") for folder in folders}
    files = [name for folder in folders if os.path.isdir(folder) for name in os.listdir(folder)]
    found = {name.split(".")[0] for name in files} | set(sys.builtin_module_names)
    return sorted(name for name in found if name.isidentifier() and name != "__pycache__")


class Hostile(Case):
    """What is said to be performed is in the file `performed`."""

    @classmethod
    def setUpClass(cls):
        super().setUpClass()
        cls.top = os.path.join(lasting_room(), "a checkout")
        shutil.copytree(TOP, cls.top, symlinks=True, ignore=NOT_COPIED)
        os.makedirs(os.path.join(cls.top, "crates"))
        shutil.copy(os.path.join(TOP, "pp6600-python"), cls.top)
        cls.performed = os.path.join(cls.top, "performed")
        cls.names = library_names()
        for folder in IN_FOLDERS:
            cls.infest(os.path.join(cls.top, folder), [*cls.names, *OWN])

    @classmethod
    def infest(cls, folder, names):
        """Puts a module with each of these names into a folder, unless one is there."""
        hostile = write(f"{cls.performed}.py", f"open({cls.performed!r}, 'a').write(__file__ + '\\n')\n")
        os.makedirs(folder, exist_ok=True)
        for name in names:
            path = os.path.join(folder, f"{name}.py")
            if not os.path.lexists(path) and not os.path.isdir(path[:-len(".py")]):
                os.link(hostile, path)

    def tried(self, path, words, folder, script=""):
        """Runs a program in a folder. No hostile module may be performed. Returns what it did."""
        done = run(sys.executable, path, *words, script=script, cwd=folder, env={"PYTHONPATH": ""})
        found = self.performed_ones()
        self.assertEqual([], found, f"{path} performs what is beside it")
        self.assertNotIn("Traceback", done.err)
        return done

    def performed_ones(self):
        if not os.path.exists(self.performed):
            return []
        found = read(self.performed).splitlines()
        os.remove(self.performed)
        return sorted(set(found))

    def check(self, folder):
        """Runs the programs of a folder where they are."""
        whole = os.path.join(self.top, folder)
        for name, words in IN_FOLDERS[folder].items():
            with self.subTest(name):
                self.tried(os.path.join(whole, name), words, whole, GIVEN.get(name, ""))

    def test_they_would_be_performed(self):
        """A script without care performs them."""
        path = write(os.path.join(self.top, "careless"), "import signal, json\n")
        run(sys.executable, path, cwd=self.top)
        self.assertTrue(self.performed_ones())

    def test_class_and_installation(self):
        """The same in the folder of a class, where students' files are, and where it is installed."""
        made, prefix = os.path.join(self.top, "class"), os.path.join(self.top, "prefix")
        self.assertEqual(0, self.tried(os.path.join(self.top, "exercises", "hand-out"), ["--program", program(), made],
                                       self.top).status)
        self.infest(made, [*self.names, *OWN])
        done = self.tried(os.path.join(made, "check-exercise"), ["exchange", SOLUTION], made)
        self.assertEqual(("exchange: solved\n", 0), (done.out, done.status))
        done = self.tried(os.path.join(self.top, "share", "install"), ["--program", program(), prefix], self.top)
        self.assertEqual(0, done.status, done.err)
        for part in ("bin", "libexec/pp6600", "libexec/pp6600/tools", "share/pp6600/exercises"):
            self.infest(os.path.join(prefix, part), self.names)
        for name, words in (("bin/pp6600-show", [SCRIPT]), ("bin/pp6600-python", [SCRIPT]), ("libexec/pp6600/install", ["--help"]),
                            ("share/pp6600/exercises/check-exercise", ["exchange", SOLUTION])):
            with self.subTest(name):
                self.assertEqual(0, self.tried(os.path.join(prefix, name), words,
                                               os.path.dirname(os.path.join(prefix, name))).status)


add_tests(Hostile, Hostile.check, [(folder or "top", folder) for folder in IN_FOLDERS])
