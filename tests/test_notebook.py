"""Tests the package from Python: the public calls. tests/test_core.py has their types, tests/sessions/notebook.txt what a notebook
shows, and bad hands."""

import re
import resource

from tests.support import Case, program, read

import pp6600
from pp6600 import Attached, Console, Failure


class Public(Case):
    def test_page(self):
        page = read("docs", "PYTHON.md")
        self.assertEqual([], [name for name in pp6600.__all__ if not re.search(rf"`{name}[`(]", page)])
        calls = re.findall(r"`(\w+)\(", "".join(re.findall(r"^\| (`.*?) \|", page, flags=re.M)))
        classes = (Console, pp6600.Attached, pp6600.CentralDevice, pp6600)
        self.assertEqual([], [name for name in calls if name.startswith("_") or not any(hasattr(one, name) for one in classes)])
        self.assertGreater(len(calls), 10)


class Dropped(Case):
    def test_memory(self):
        """A block ends its session; sessions that nobody refers to any more give their memory back."""
        for make in (Console, Attached):
            with make([program()]) as session:
                session.ask("STEP")
            with self.assertRaisesRegex(Failure, "^the simulator has ended$"):
                session.ask("STEP")
            before = resource.getrusage(resource.RUSAGE_SELF).ru_maxrss
            for _ in range(200):
                make([program()])
            self.assertLess(resource.getrusage(resource.RUSAGE_SELF).ru_maxrss - before, 100000)
