"""Runs every session and every shell command that a page shows, the transcripts of tests/sessions, and every exercise with its
solution.

A block of a page that begins with `session` has typed lines after > and their answers; the words after `session` are the program's,
and `continued` goes on with the session before. A block `shell` has commands after $ and what they write, and so have the blocks
`tools`, which go on in one folder; a block `python NAME` or `compass NAME` is the file NAME for all commands of the page.

A transcript, tests/sessions/NAME.txt, has such commands too; tests/transcripts.py says how it is written.

An exercise is a folder: script (the lines to begin with), check (the lines that follow the finished script), expected (the last
lines that the program must then write), args, and solution, a folder with the files that replace those of the same name.
"""

import glob
import os

from tests.fixtures import PAGES, sessions
from tests.support import TOP, Case, add_tests, blocks, program, read, run
from tests.transcripts import TranscriptCase, commands_in, transcripts
from tests.ways import CaseTests

from pp6600 import Console

EXERCISES = [path for path in sorted(glob.glob(os.path.join(TOP, "exercises", "*")))
             if os.path.isdir(os.path.join(path, "solution"))]


def shell_blocks():
    """Returns the place of each block of commands, and a list of the commands, what they write, and the page's files."""
    found = []
    for page in PAGES:
        files = {block.words[1]: block.text for kind in ("python", "compass") for block in blocks(page, kind)
                 if len(block.words) == 2}
        for some in filter(None, [*([block] for block in blocks(page, "shell")), blocks(page, "tools")]):
            found.append((some[0].place, (commands_in("".join(block.text for block in some)), files)))
    return found


class Sessions(CaseTests):
    """The sessions of the pages."""

    def check_step(self, name, wanted):
        super().check_step(name, wanted)
        words = [self.path(word) if word in self.case.files else word for word in self.case.words]
        with Console([program(), *words]) as console:
            asked = [f"{line}\n" for answer in console.ask_each(self.case.script.decode().split("\n")[:-1]) for line in answer]
        self.assertEqual(self.case.out.decode(), "".join(asked), "the tools know each answer")


class Commands(TranscriptCase):
    """The shell commands of the pages, which a reader types at the top of the repository. What they write there git does not
    see."""

    def begin(self, block):
        _, files = block
        self.there = os.listdir(self.shell.folder)
        self.place(files)
        self.addCleanup(self.check_ignored)

    def steps(self, block):
        return block[0]

    def performed(self, command):
        return self.shell.perform(command)

    def check_ignored(self):
        """Fails if there is a file that git would see."""
        ignored = [pattern.strip("/") for pattern in read(".gitignore").splitlines()]
        self.assertEqual([], [name for name in os.listdir(self.folder) if name not in (*self.there, *ignored)])


class Transcripts(TranscriptCase):
    """The transcripts of tests/sessions."""


class Exercises(Case):
    """An exercise is not solved before its solution, and its solution solves it; docs/EXERCISES.md shows how to try it."""

    def check(self, case):
        name = os.path.basename(case)
        words = [os.path.join(TOP, "exercises", "check-exercise"), name]
        self.assertEqual(1, run(*words, case).status, "it is solved before its solution")
        done = run(*words, os.path.join(case, "solution"))
        self.assertEqual(0, done.status, done.out)
        files = os.listdir(case)
        given = read(case, "args").splitlines() if "args" in files else []
        arguments = "".join(f" {name}/{word}" if word in files else f" {word}" for word in given)
        self.assertIn(f"    tools/talk{arguments} {name}/script", read("docs", "EXERCISES.md").splitlines())


add_tests(Sessions, Sessions.check, [(session.name, session) for session in sessions()])
add_tests(Commands, Commands.check, shell_blocks())
add_tests(Transcripts, Transcripts.check, transcripts("sessions"))
add_tests(Exercises, Exercises.check, [(os.path.basename(path), path) for path in EXERCISES])
