#!/usr/bin/env python3
"""A paper tape reader on channel 11, a device of one's own.

    examples/own-device/tape.py ./pp6600 TAPE <SCRIPT
    tools/talk --device examples/own-device/tape.py:TapeReader:TAPE@11 SCRIPT

Function code 0001 starts it: the channel becomes inactive. Then each byte of TAPE is put on the channel when that is empty, and
at the end of the tape the channel becomes inactive. The script may go back and forward: the tape goes with it.
"""

import os
import sys
from typing import NamedTuple

sys.path.append(os.path.join(os.path.dirname(os.path.realpath(__file__)), "..", "..", "tools"))  # or the variable PYTHONPATH
from pp6600 import INACTIVE, NOTHING, Attached, Device, full

START = 1


class State(NamedTuple):
    is_reading: bool = False
    place: int = 0  # of the next byte on the tape


class TapeReader(Device):
    channel, start = 0o11, State()

    def __init__(self, path):
        with open(path, "rb") as file:
            self.tape = file.read()

    def function(self, state, event):
        return (state._replace(is_reading=True), INACTIVE) if event.word == START else (state, NOTHING)

    def activated(self, state, event):
        if not state.is_reading:
            return state, NOTHING
        if state.place == len(self.tape):
            return state._replace(is_reading=False), INACTIVE
        return state._replace(place=state.place + 1), full(self.tape[state.place])

    taken = activated


if __name__ == "__main__":  # not if a tool reads this file
    session = Attached(sys.argv[1:2], [TapeReader(sys.argv[2])])
    for line in sys.stdin.read().splitlines():
        print(*[f"> {line}", *session.act(line)], sep="\n")
    sys.exit(session.end())
