"""Tests the installation and the archive of a release, without the repository and the Rattle kit: the transcripts of
tests/installation; and that another Python makes the same bytes."""

import glob
import os
import subprocess
import sys

from tests.support import TOP, Case, add_tests, write
from tests.transcripts import TranscriptCase, transcripts

from pp6600.shell import installation
from pp6600.shell.manifest import File, SymbolicLink, files_below

# Prints checksums of what is packed: the package for pip without a program, which has all pages, a film, and data in gzip's form.
MADE = """import sys
if sys.version_info < (3, 9):
    sys.exit()
sys.path.append(sys.argv[1])
import hashlib
import wheels
from pp6600.front.film.page import page
from pp6600.shell.archives import gzipped
print(*sys.version_info[:2], *(hashlib.sha256(data).hexdigest() for data in (
    wheels.wheel(wheels.ANY, {}, wheels.pages())[1], page("a film", bytes(65536), {}).encode(),
    *(gzipped(bytes(size)) for size in (0, 65535, 65536)))))
"""


class Installation(TranscriptCase):
    """Without the commands that one needs it is skipped."""


FIRST = {f"bin/pp6600-{name}": File(b"first") for name in ("a", "b")}
FIRST["share/doc/pp6600"] = SymbolicLink("../pp6600")
SECOND = {**FIRST, "bin/pp6600-a": File(b"second"), "share/doc/pp6600/page": File(b"a page"), "libexec/pp6600/c": File(b"c")}
del SECOND["bin/pp6600-b"], SECOND["share/doc/pp6600"]
CHANGES = ("mkdir", "replace", "symlink", "chmod", "remove")


class Killed(Case):
    """An installation that is killed before any change of the file system that it makes."""

    def killed(self, manifest, prefix, left):
        """Installs in a process that ends before it makes so many changes. Returns whether it was killed."""
        process = os.fork()
        if process == 0:
            for name in CHANGES:
                setattr(os, name, self.counted(getattr(os, name), left))
            installation.install(manifest, prefix)
            os._exit(0)
        return os.waitpid(process, 0)[1] != 0

    def counted(self, change, left):
        """Returns a change of the file system that ends this process if none is left."""
        def counting(*words, **how):
            if not left:
                os._exit(9)
            left.pop()
            return change(*words, **how)
        return counting

    def check(self, before, manifest):
        """What is left is taken away, and made good by another installation, with nothing unfinished."""
        for count in range(1000):
            for again in (False, True):
                prefix = os.path.join(self.room(), "prefix")
                os.makedirs(os.path.join(prefix, "bin"))
                write(os.path.join(prefix, "bin", "own"))
                if before:
                    installation.install(before, prefix)
                was_killed = self.killed(manifest, prefix, [None] * count)
                if again:
                    installation.install(SECOND, prefix)
                    self.assertEqual({*SECOND, installation.LIST, "bin/own"}, set(files_below(prefix)), count)
                    self.assertEqual(SECOND, {path: entry for path, entry in files_below(prefix).items() if path in SECOND})
                elif installation.is_installed(prefix):
                    installation.take_away(prefix)
                if not again:
                    self.assertEqual({"bin/own"}, set(files_below(prefix)), count)
            if not was_killed:
                return self.assertGreater(count, 10)

    def test_first(self):
        self.check(None, FIRST)

    def test_update(self):
        self.check(FIRST, SECOND)


def made_by(python):
    """Returns the version of a Python and the checksums of what it makes; nothing if it is too old, or none."""
    try:
        done = subprocess.run([python, "-c", MADE, os.path.join(TOP, "share")], capture_output=True, text=True, check=False,
                              env={**os.environ, "PYTHONDONTWRITEBYTECODE": "1"})
    except OSError:
        return None
    numbers, sums = done.stdout.split()[:2], done.stdout.split()[2:]
    return (tuple(map(int, numbers)), sums) if sums else None


class Bytes(Case):
    def test_another_python(self):
        """The oldest and the newest Python here make what this one makes."""
        paths = sorted(glob.glob("/usr/bin/python3.*[0-9]") + glob.glob("/usr/local/bin/python3.*[0-9]") +
                       glob.glob(os.path.expanduser("~/.pyenv/versions/3.*/bin/python3")))
        version, wanted = made_by(sys.executable)
        others = sorted(filter(None, map(version_of, paths)))
        chosen = {found: path for found, path in others[:1] + others[-1:] if found != version}
        if not chosen:
            self.skipTest("there is no other Python from 3.9 on here")
        for found, path in chosen.items():
            self.assertEqual((found, wanted), made_by(path))


def version_of(python):
    """Returns the version of a Python from 3.9 on, and its path."""
    done = subprocess.run([python, "-c", "import sys; print(*sys.version_info[:2])"], capture_output=True, text=True, check=False)
    version = tuple(map(int, done.stdout.split()))
    return (version, python) if version >= (3, 9) else None


add_tests(Installation, Installation.check, transcripts("installation"))
