"""What tests/mutants.py counts as refused, with the kit: five mutants of a copy of pp_arith, of which two count. What has passed on
this machine is kept, as mutants are, and not tried again until something that is read changes."""

import hashlib
import os
import shutil
import sys
import unittest
from pathlib import Path

from tests.support import TOP, Case, kept_room, run, write

MUTANTS = {"sum_is_plain": ("accumulator", "add18", [("if sum < 0o777777 { sum } else", "if sum <= 0o777777 { sum } else")]),
           "caller_is_refused": ("writing", "octal", [("ensures value { result ≡ max digits (octal_length 22 value) }",
                                                       "ensures value { digits ≤ result }")]),
           "terms_change_places": ("accumulator", "add18", [("let sum = a + b;", "let sum = b + a;")]),
           "name_is_unknown": ("accumulator", "add18", [("let sum = a + b;", "let sum = a + c;")]),
           "name_is_lost": ("reading", "read_octal", [("for byte in word {", "for octet in word {"),
                                                      ("(*byte - b'0')", "(*octet - b'0')")])}
JUDGES = "tests/mutants.py", "tests/refusals.py"
PARTS = [f"crates/pp_arith/{part}" for part in ("src", "specs", "proofs")]


def key():
    """Returns where it is kept that all this has passed."""
    paths = [*JUDGES, os.path.relpath(__file__, TOP),
             *sorted(os.path.relpath(path, TOP) for part in PARTS for path in Path(TOP, part).rglob("*.*"))]
    read = [part for path in paths for part in (path.encode(), Path(TOP, path).read_bytes())]
    return Path(kept_room("pp6600-mutants"), hashlib.sha256(b"\0".join([run("rt", "version").out.encode(), *read])).hexdigest())


@unittest.skipUnless(shutil.which("rt"), "there is no Rattle kit here")
class Mutants(Case):
    def test_what_is_refused(self):
        kept = key()
        if kept.exists():
            return
        for part in PARTS:
            shutil.copytree(os.path.join(TOP, part), self.path(part))
        for name in JUDGES:
            write(self.path(name), Path(TOP, name).read_bytes())
        write(self.path("crates.txt"), "pp_arith: arrayvec\n")
        write(self.path("HANDLES"), "Handles allowed: none.\n")
        for name, (module, call, pairs) in MUTANTS.items():
            write(self.path("crates", "pp_arith", "mutants", f"{name}.edit"),
                  f"# promise: Octal\n# call: pp_arith::{call}\nfile: src/{module}.rt\n"
                  + "".join(f"old: {old}\nnew: {new}\n" for old, new in pairs))
        done = run(sys.executable, JUDGES[0], cwd=self.folder, env={"XDG_CACHE_HOME": self.folder}, timeout=None)
        lines = done.out.splitlines()
        self.assertEqual(1, done.status)
        self.assertIn("pp_arith: 2 refused: 1 in one check, 1 alone, 0 kept", lines)
        self.assertEqual([f"failed: crates/pp_arith/mutants/{name}.edit" for name in sorted(MUTANTS)[1:]
                          if name != "sum_is_plain"], lines[-4:-1])
        self.assertEqual("2 passed, 3 failed", lines[-1])
        kept.touch()
