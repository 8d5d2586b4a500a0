"""The commands that pip installs. A clone has no module of this name where Python looks, so none is taken for an older clone's."""

import os
import sys

FOLDER = os.path.dirname(os.path.abspath(__file__))
with open(os.path.join(FOLDER, "pp6600", "own.py"), encoding="ascii") as own:
    exec(own.read())
find_first(pp6600=FOLDER)  # noqa: F821


def launch():
    """Runs the simulator or the tool by whose name the program was called."""
    name = os.path.basename(sys.argv[0])
    if name == "pp6600":
        from pp6600.engine.launcher import main
    elif name == "pp6600-python":
        from pp6600.engine.plain.program import main
    else:
        from pp6600.__main__ import launch as main
    main()
