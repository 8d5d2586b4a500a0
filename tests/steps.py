"""The one runner of what files and pages have as steps, each with what it shows: cases of programs (tests/ways.py), commands of a
shell (tests/transcripts.py), keys of the panel (tests/panels.py), what is done in a film's page (tests/film_blocks.py), and
requests to the debug adapter (tests/debug_dialogue.py). Each of these five has the performer of its steps."""

import os

from tests.support import TOP, Case, write


class StepCase(Case):
    """Tests of blocks, each a list of steps in a folder of its own."""

    def check(self, block):
        """Performs the steps of a block."""
        self.begin(block)
        for step, wanted in self.steps(block):
            with self.subTest(step):
                self.check_step(step, wanted)

    def begin(self, block):
        """Prepares what the steps need."""

    def steps(self, block):
        """Returns the steps of a block, each with what is wanted of it: the block itself, if it is no other."""
        return block

    def check_step(self, step, wanted):
        """Performs a step, and compares what it shows."""
        self.assertEqual(wanted, self.performed(step))

    def performed(self, step):
        """Performs a step. Returns what it shows."""
        raise NotImplementedError

    def place(self, files, *parts):
        """Puts files into the folder of the test, and links to these parts of the repository."""
        for name in parts:
            os.symlink(os.path.join(TOP, name), self.path(name))
        for name, data in files.items():
            write(self.path(name), data)
