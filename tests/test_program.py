"""Runs the program on every case of tests/cases.txt and of examples/. tests/sessions/system.txt has where it meets the system."""

import os
import re
import shutil
import subprocess

from tests.cases import examples, named, part
from tests.generator import Maker
from tests.support import PATIENCE, Case, add_tests, program, read, write
from tests.ways import CaseTests

# The loops over many turns, and the functions of a turn that stand in them, and so have no name of their own in the program.
LOOPS = (b"pp_history::repeatable::repeat_all", b"pp_history::repeatable::repeat_to_mark",
         b"pp_history::step::undo_all", b"pp_history::step::perform_all")
OF_A_TURN = (b"pp_rig::rig::RigReversible::perform", b"pp_rig::rig::Rig::perform_turn", b"pp_rig::rig::Rig::turn_short",
             b"pp_rig::rig::Rig::finish_turn", b"pp_rig::rig::Rig::undo_turn", b"pp_step::stepping::step_short",
             b"pp_step::effect::effect")


class Cases(CaseTests):
    """The cases of tests/cases.txt and of examples/."""


add_tests(Cases, Cases.check, named())


class Listed(Case):
    """examples/README.md shows the command of each example."""

    def check(self, case):
        folder = f"examples/{case.name}"
        words = ["./pp6600"] + [f"{folder}/{word}" if word in case.files else word for word in case.words]
        if case.how[:1] == ["by"]:
            words = [f"{folder}/{case.how[1]}", *words]
        if case.script:
            words.append(f"<{folder}/stdin")
        self.assertIn(f"    {' '.join(words)}", read("examples", "README.md").splitlines())


add_tests(Listed, Listed.check, [(case.name, case) for case in examples() if case.out])  # that of a monitor is of tools


class Compiled(Case):
    def test_the_compiler_has_put_a_turn_into_the_loops(self):
        """It drops inline(always) from a function that would grow very large, and says nothing; then STEP is 1.5 times as slow."""
        names = part("/", program())
        self.assertEqual([], [name for name in LOOPS if b"\0" + name + b"::" not in names])
        self.assertEqual([], [name for name in OF_A_TURN if b"\0" + name + b"\0" in names])


class Reads(Case):
    """The calls of the system by which the program reads standard input: the proofs count the program's own calls, not the
    system's."""

    PIECE = 4096  # bytes that a read asks for

    def reads(self, script):
        """Returns what each read of standard input asked for and returned, while this script is performed."""
        room = self.room()
        given, log = os.path.join(room, "script"), os.path.join(room, "log")
        write(given, script)
        with open(given, "rb") as typed:
            words = ["strace", "-e", "trace=read,readv,preadv", "-o", log, program()]
            done = subprocess.run(words, stdin=typed, capture_output=True, timeout=PATIENCE, check=False)
        if b"ptrace" in done.stderr:
            self.skipTest("strace may not trace here")
        return re.findall(r"^read\w*\(0, .*, ([0-9]+)\) += (-?[0-9]+)$", read(log), re.M)

    def test_one_call_for_each_piece(self):
        """A script of n bytes is read in pieces, and then its end, with no call besides these."""
        if not shutil.which("strace"):
            self.skipTest("there is no strace")
        scripts = [b"", b"STEP\n", b"* note\n" * 1000, *(b"\n".join(Maker(f"reads {seed}").session().lines) for seed in range(17))]
        for script in scripts:
            with self.subTest(script[:40]):
                lengths = [len(script[at:at + self.PIECE]) for at in range(0, len(script), self.PIECE)]
                self.assertEqual([(str(self.PIECE), str(length)) for length in [*lengths, 0]], self.reads(script))
