"""Plants an index of one too many or too few in a module of the tools, one at a time, and says whether tests/test_endings.py sees
it.

    python3 -m tests.planted [MODULE ..]

tests/planted.txt has the module of each, a part of its text, and what is there instead. It takes a minute. The status is 1 if one
is not seen.
"""

import importlib.machinery
import importlib.util
import os
import re
import subprocess
import sys
import unittest

from tests.support import TOP, read

PACKAGE = "pp6600"


class Loader(importlib.machinery.SourceFileLoader):
    """Loads a module with another text, and stores no compiled code of it."""

    def __init__(self, name, path, old, new):
        super().__init__(name, path)
        self.old, self.new = old.encode(), new.encode()

    def path_stats(self, path):
        raise OSError

    def get_data(self, path):
        text = super().get_data(path)
        assert text.count(self.old) == 1, f"{path} has {self.old.decode()!r} {text.count(self.old)} times"
        return text.replace(self.old, self.new)


class Finder:
    """Finds one module of the tools, in which a fault is planted."""

    def __init__(self, module, old, new):
        self.name = f"{PACKAGE}.{module[:-len('.py')].replace('/', '.')}"
        self.path, self.old, self.new = os.path.join(TOP, "tools", PACKAGE, module), old, new

    def find_spec(self, name, _path=None, _target=None):
        if name != self.name:
            return None
        return importlib.util.spec_from_loader(name, Loader(name, self.path, self.old, self.new))


def planted():
    """Returns the module of each fault, the text there, and what is planted."""
    return re.findall(r"^(\S+): (.+?) => (.+)$", read("tests", "planted.txt"), re.M)


def is_seen(number):
    """Returns whether the tests see a fault, in this process."""
    sys.meta_path.insert(0, Finder(*planted()[number]))
    tests = unittest.defaultTestLoader.loadTestsFromName("tests.test_endings")
    with open(os.devnull, "w", encoding="utf-8") as nowhere:
        return not unittest.TextTestRunner(nowhere, failfast=True).run(tests).wasSuccessful()


def main(names):
    missed = 0
    for number, (module, _, new) in enumerate(planted()):
        if not names or module in names:
            seen = subprocess.run([sys.executable, "-m", "tests.planted", "--here", str(number)], cwd=TOP,
                                  check=False).returncode == 0
            missed += not seen
            print(f"{module}: {new}: {'seen' if seen else 'NOT SEEN'}", flush=True)
    print(f"{missed} not seen")
    return int(missed > 0)


if __name__ == "__main__":
    sys.exit(int(not is_seen(int(sys.argv[2]))) if sys.argv[1:2] == ["--here"] else main(sys.argv[1:]))
