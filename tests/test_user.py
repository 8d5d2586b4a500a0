"""Tests that the tests pass for a user who is not root, in a folder whose name has a blank: some modules are run so, where this
user is root."""

import os
import shutil
import subprocess
import unittest

from tests.support import PATIENCE, TOP, Case, program

MODULES = ("header", "launcher", "tools_hands")
NOT_COPIED = shutil.ignore_patterns(".git", "out", "__pycache__", "films")
OTHER, ITS_PYTHON = "nobody", "/usr/bin/python3"  # that of the tests may be in root's own folder


def is_for_all():
    """Returns whether the system has a Python for all its users that is not too old."""
    asked = [ITS_PYTHON, "-c", "import sys; sys.exit(sys.version_info < (3, 9))"]
    return os.path.exists(ITS_PYTHON) and subprocess.run(asked, check=False).returncode == 0


@unittest.skipUnless(hasattr(os, "geteuid") and os.geteuid() == 0, "the user is not root")
class User(Case):
    @unittest.skipUnless(is_for_all(), f"there is no {ITS_PYTHON}, or it is too old")
    def test_another_user(self):
        os.chmod(self.folder, 0o755)
        clone = self.path("a clone")
        shutil.copytree(TOP, clone, symlinks=True, ignore=NOT_COPIED)
        tested = shutil.copy(program(), os.path.join(clone, "dist", "pp6600"))
        subprocess.run(["chown", "-R", OTHER, clone], check=True)
        done = subprocess.run([ITS_PYTHON, "tests/__main__.py", *MODULES], cwd=clone, user=OTHER, group="nogroup", extra_groups=[],
                              timeout=PATIENCE,
                              env={"PATH": os.defpath, "PP6600": tested}, capture_output=True, text=True, check=False)
        self.assertEqual(0, done.returncode, done.stdout + done.stderr)
        self.assertRegex(done.stdout, "\n[1-9][0-9]* passed, 0 failed\n$")
