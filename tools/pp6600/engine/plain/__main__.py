"""Runs the simulator in Python: by python3 -m pp6600.engine.plain, or by the path of this file."""

import sys

if not __package__ and not getattr(sys.flags, "safe_path", False):
    del sys.path[0]  # nothing beside this file is taken for a module of Python's own

import os  # noqa: E402

if not __package__:
    PACKAGE = os.path.dirname(os.path.dirname(os.path.dirname(os.path.realpath(__file__))))
    with open(os.path.join(PACKAGE, "own.py"), encoding="ascii") as own:
        exec(own.read())
    find_first(pp6600=os.path.dirname(PACKAGE))  # type: ignore[name-defined]  # noqa: F821

from pp6600.engine.plain.program import main  # noqa: E402

main()
