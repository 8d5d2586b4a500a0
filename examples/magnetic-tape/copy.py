#!/usr/bin/env python3
"""A session with two magnetic tapes: one on channel 5, that is read, and a new one on channel 6.

    examples/magnetic-tape/copy.py ./pp6600 TAPE [NEW-TAPE] <SCRIPT

Beside the lines of the console, a line TAPES shows how many words each block before and after the heads has, 0 for a file mark. At
the end the new tape is written into a file, if one is named.
"""

import os
import sys

sys.path.append(os.path.join(os.path.dirname(os.path.realpath(__file__)), "..", "..", "tools"))  # or the variable PYTHONPATH
from pp6600 import Attached
from pp6600.devices.magnetic_tape import MagneticTape

tapes = [MagneticTape(sys.argv[2], channel=0o5), MagneticTape(ring="ring", channel=0o6)]
session = Attached(sys.argv[1:2], tapes)


def shown(state):
    """Returns the words in each block of a tape, and its head."""
    sizes = [f"{len(block):o}" for block in MagneticTape.blocks(state)]
    return " ".join([*sizes[:state.behind.length], "|", *sizes[state.behind.length:]])


for line in sys.stdin.read().splitlines():
    answer = [shown(session.state(number)) for number in range(2)] if line == "TAPES" else session.act(line)
    print(f"> {line}", *answer, sep="\n")
for path in sys.argv[3:]:
    tapes[1].save(session.state(1), path)
sys.exit(session.end())
