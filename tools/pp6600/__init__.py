"""The simulator from Python. With the folder tools on Python's path:

    from pp6600 import Console

    console = Console(options=["--deck", "deck"])
    console.ask("STEP 100")    # the lines of the answer: ["TURNS 100 SLOT 04"]
    console.registers(0)       # {"P": "0100", "A": "000000", "Q": "0000", "PHASE": "0000", "SLOT": "04"}, octal digits
    console.cells(0, 0o100, 0o103)
    console.end()              # the exit status

What can't be done raises Failure, with a message in plain words. docs/PYTHON.md has all calls.
"""

import os
import sys

# Any Python can read this file and the tools: an older one gets a line that says what is needed.
if sys.version_info < (3, 9):
    sys.stderr.write("{}: Python 3.9 or later is needed, and this is Python {}.{}\n".format(
        os.path.basename(sys.argv[0]), sys.version_info[0], sys.version_info[1]))
    sys.exit(2)

from typing import TYPE_CHECKING, Any

from .failure import Failure
from .run.forms import Place
from .run.console import Console

if TYPE_CHECKING:
    from .engine.library import LibrarySession as Session
    from .engine.library import instruction, text_of_status, version
    from .run.attached import Attached
    from .run.central_device import CentralDevice, store, wake
    from .run.device import EMPTY, INACTIVE, NOTHING, Device, full
    from .run.library_terms import (CHANGES, INSIDE, OR, OUTSIDE, PERFORMS, WAITS, WRITES, Form, changes, inside, last_write,
                                    outside, performs, place, until, waits, writes)
    __version__ = ""

__all__ = ["CHANGES", "EMPTY", "INACTIVE", "INSIDE", "NOTHING", "OR", "OUTSIDE", "PERFORMS", "WAITS", "WRITES", "Attached",
           "CentralDevice", "Console", "Device", "Failure", "Form", "Place", "Session", "changes", "full", "inside", "instruction",
           "last_write", "outside", "performs", "place", "store", "text_of_status", "until", "version", "waits", "wake", "writes"]


def __getattr__(name):  # type: (str) -> Any
    """Returns what most tools do not need: the version, the calls of the library, and what a session with devices needs."""
    if name == "__version__":
        from .engine import choice
        return choice.version()
    if name not in __all__:
        raise AttributeError("module {} has no attribute {}".format(__name__, name))
    import importlib
    wanted = "LibrarySession" if name == "Session" else name
    for module in (".run.device", ".run.central_device", ".run.attached", ".run.library_terms", ".engine.library"):
        found = vars(importlib.import_module(module, __name__))
        if wanted in found:
            break
    return found[wanted]
