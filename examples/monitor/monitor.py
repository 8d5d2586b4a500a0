"""A small monitor, as a device of central memory: it answers the requests in the output registers of the processors.

    tools/talk --device examples/monitor/monitor.py:Monitor:100@C --source 2 examples/monitor/asks.pp \\
        --source 3 examples/monitor/asks.pp examples/monitor/script

[memory] is from memory of NOS and SCOPE, and unchecked; [invented] is made up here. Numbers are octal.
"""

from typing import NamedTuple

from pp6600 import CentralDevice, Failure, store

# a processor has an input register, an output register, a message buffer of six [memory]
AREA, PROCESSORS, CHANNELS = 0o10, 0o12, 0o14
RESERVE, DROP, TIME, END = 1, 2, 3, 4  # the functions; that there are such is [memory], the numbers are [invented]
DELAY = 0o300  # turns until the monitor answers [invented]


class State(NamedTuple):
    owners: tuple = (None,) * CHANNELS  # of each channel the processor that has it
    waiting: tuple = ()  # pairs of a processor and the channel that it asks for, the oldest first


class Monitor(CentralDevice):
    start = State()

    def __init__(self, first="100", delay=f"{DELAY:o}"):
        self.first, self.delay = int(first, 8), int(delay, 8)  # the words of PP 00
        self.words = [self.first + AREA * number + 1 for number in range(PROCESSORS)]  # the output registers

    def changed(self, state, event):
        """Handles a request: the first byte is a function, the other four are parameters. When it is done the monitor clears it
        [memory]."""
        number, function = (event.address - self.first) // AREA, event.new >> 0o60
        channel = event.new >> 0o44 & 0o7777
        if function in (RESERVE, DROP) and channel >= CHANNELS:
            raise Failure(f"PP {number:02o} asks for channel {channel:o}")
        if function == RESERVE:
            return self.granted(state._replace(waiting=(*state.waiting, (number, channel))))
        if function == DROP and state.owners[channel] == number:
            owners = (*state.owners[:channel], None, *state.owners[channel + 1:])
            state, grants = self.granted(state._replace(owners=owners))
            return state, [self.done(number, "DROP"), *grants]
        if function == TIME:  # into the first word of the message buffer [invented: the real time is a word of low core]
            return state, [store(event.address + 1, event.turn, self.delay).remarked("TIME"), self.done(number, "TIME")]
        if function == END:  # the name of the program leaves the input register, so the processor is idle [memory]
            return state, [store(event.address - 1, 0, self.delay).remarked("END"), self.done(number, "END")]
        return state, ()  # another function hangs the processor [memory]

    def granted(self, state):
        """Gives each free channel to the processor that has waited for it longest [invented]. Returns the state and the stores."""
        owners, waiting, stores = list(state.owners), [], []
        for number, channel in state.waiting:
            if owners[channel] is None:
                owners[channel] = number
                stores.append(self.done(number, f"CHANNEL {channel:o}"))
            else:
                waiting.append((number, channel))
        return State(tuple(owners), tuple(waiting)), stores

    def done(self, number, remark):
        return store(self.first + AREA * number + 1, 0, self.delay).remarked(remark)
