"""Tests how the tools' package is built: its types, its launchers, and that each room of tools/pp6600 imports the rooms below it
alone, as docs/ARCHITECTURE.md says."""

import ast
import glob
import os
import re
import runpy
import shutil
import unittest

from tests.support import TOP, Case, kept_room, read, run

from pp6600.__main__ import MODULES
from pp6600.shell import completions
from pp6600.shell.options import OPTIONS

TOOLS = os.path.join(TOP, "tools")
FOR_PYTHON_2 = ("share/launcher", "tools/pp6600/own.py", "tools/pp6600/__init__.py", "exercises/check-exercise", "exercises/grade",
                "exercises/hand-out", "exercises/new", "pp6600-python", "tests/__init__.py")
COMMANDS = [os.path.basename(path)[:-len(".py")]
            for path in glob.glob(os.path.join(TOOLS, "pp6600", "front", "commands", "[!_]*.py"))]
USES = runpy.run_path(os.path.join(TOP, "docs", "drawings", "uses.py"))
imported_by, room_of, IMPORTS = USES["imported_by"], USES["room_of"], USES["imports"]()


class Package(Case):
    @unittest.skipUnless(shutil.which("mypy"), "mypy is not installed")
    def test_types(self):
        """mypy --strict accepts the tools, as pyproject.toml has it; and of a user's script but one line, by docs/PYTHON.md."""
        script = """from typing import Dict, List
from pp6600 import Attached, Console, Device, Failure, Place, Session, changes, full, instruction, last_write, place, until
with Console(options=["--history", "5"]) as console:
    answer: List[str] = console.ask("STEP")
    registers: Dict[str, str] = console.registers(0)
    digits: str = console.number(Place("A", (0,)))
    status: int = console.end()
session: Attached = Attached(devices=[Device()])
reply = full(5)
with Session(history=5) as own:
    turns: int = until(own, changes(place("M", 0, 0o10)), most=10)[0]
    wrote = last_write(own, place("A", 0))
    name: str = instruction(0o14)[0]
console.registers("0")
"""
        examples = glob.glob(os.path.join(TOP, "docs", "library", "*.py"))
        words = "mypy", "--cache-dir", kept_room("pp6600-mypy"), "tools/pp6600"
        done = run(*words, *examples, self.file(script.encode(), "script.py"))
        found = [line.partition("script.py:")[2] or line for line in done.out.splitlines()
                 if not line.startswith("Found 1 error in 1 file ")]
        self.assertEqual(['14: error: Argument 1 to "registers" of "Console" has incompatible type "str"; expected "int"  '
                          '[arg-type]'], found)

    @unittest.skipUnless(shutil.which("ruff"), "ruff is not installed")
    def test_style(self):
        done = run("ruff", "check", "--no-cache", "tools/pp6600/run")
        self.assertEqual(0, done.status, done.out)

    def test_launchers(self):
        """Each tool is a copy of the launcher, is a script of the package, and has a module. What makes and what measures is a copy too,
        and no link: the kit's gate takes none."""
        names = [name for name in os.listdir(TOOLS) if "." not in name and os.path.isfile(os.path.join(TOOLS, name))]
        for name in names:
            self.assertEqual(read("share", "launcher"), read(TOOLS, name), name)
        for path in glob.glob(os.path.join(TOP, "*", "scripts", "[!_]*.py")):
            folder, name = os.path.split(path)
            command = os.path.join(os.path.dirname(folder), name[:-len(".py")])
            self.assertEqual((read("share", "launcher"), False), (read(command), os.path.islink(command)), name)
        scripts = re.findall(r'^pp6600-(\S+) = "pp6600_commands:launch"$', read("pyproject.toml"), re.M)
        self.assertEqual(sorted([*names, "python"]), sorted(scripts))
        self.assertEqual(sorted(names), sorted(MODULES))

    def test_python_2(self):
        """Python 2 can read what may be run by it, which then says what is needed."""
        later = (ast.JoinedStr, ast.NamedExpr, ast.AnnAssign, ast.Nonlocal)
        for path in FOR_PYTHON_2:
            nodes = list(ast.walk(ast.parse(read(path))))
            unpacked = [one for node in nodes if isinstance(node, (ast.List, ast.Tuple, ast.Set)) for one in node.elts
                        if isinstance(one, ast.Starred)]
            with self.subTest(path):
                self.assertEqual([], [node.lineno for node in nodes if isinstance(node, later)] + [one.lineno for one in unpacked])

    def test_options(self):
        """The table of the simulator's options has those of docs/CONSOLE.md, and the completions of shells have each value of its
        own."""
        self.assertEqual(set(OPTIONS), set(re.findall(r"`--(\w+) [A-Z]`", read("docs", "CONSOLE.md"))))
        for shell in completions.ROWS:
            text = completions.filled(shell, read("share", f"completion.{shell}"))
            for name, option in OPTIONS.items():
                self.assertRegex(text, f"{name}\\b.*{' '.join(option.values)}" if option.values else "pp6600")
            self.assertNotIn("the values of options", text)

    def test_imports(self):
        """No command is imported by another module."""
        for path in glob.glob(os.path.join(TOOLS, "pp6600", "**", "*.py"), recursive=True):
            text, below = read(path), os.path.relpath(path, os.path.join(TOOLS, "pp6600"))
            with self.subTest(below):
                self.assertEqual([], re.findall(r"^from \.*commands\S* import .*", text, re.M))
                if below.startswith("front/commands"):
                    self.assertEqual([], [name for name in re.findall(r"^from \.(\w+) import", text, re.M) if name in COMMANDS])


def upward(found, order):
    """Returns the imports that go from a room to one above it, or to one that is not in the table."""
    return sorted((user, used) for user, used in found
                  if not {room_of(user), room_of(used)} <= set(order) or order.index(room_of(used)) < order.index(room_of(user)))


class Rooms(Case):
    def test_imports_go_down(self):
        """If an import goes up, move what it needs down."""
        self.assertEqual([], upward(IMPORTS, USES["order_of_rooms"]()))

    def test_every_room_is_in_the_table(self):
        folders = [entry.name for entry in os.scandir(USES["PACKAGE"]) if entry.is_dir() and entry.name[0] != "_"]
        self.assertEqual(sorted(folders), sorted(USES["order_of_rooms"]()))

    def test_engine_needs_no_room(self):
        self.assertEqual([], [pair for pair in IMPORTS if room_of(pair[0]) == "engine"])

    def test_second_simulator_stands_alone(self):
        """What checks the tools, engine/plain, imports nothing of them."""
        modules = {USES["module_at"](path): path for path in glob.glob(os.path.join(USES["PACKAGE"], "engine", "plain", "*.py"))}
        found = {used for module, path in modules.items() for used in imported_by(module, read(path), modules)}
        self.assertEqual([], [used for used in found if used not in modules])

    def test_every_way_to_import_is_seen(self):
        text = ("from ..a.b import c\nfrom ..a import d\nfrom .. import a\nfrom pp6600.a.b import c\ndef f():\n    from ..a import "
                "e\n"
                "import os\nimport pp6600.a.f\n")
        modules = {"a.__init__", "a.b", "a.d", "a.e"}
        self.assertEqual(["a.__init__", "a.b", "a.b", "a.d", "a.e", "a.f"], sorted(imported_by("x.y", text, modules)))
        self.assertEqual([("a.b", "x.y")], upward({("a.b", "x.y"), ("x.y", "a.b")}, ["x", "a"]))
