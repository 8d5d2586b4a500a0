"""A device that counts function codes, and fails at code 2."""

from pp6600 import INACTIVE, Device


class Counts(Device):
    start = 0

    def function(self, state, event):
        return state + 1, INACTIVE if event.word < 2 else 5
