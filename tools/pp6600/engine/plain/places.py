"""The places of the machine: each is an index into the list of its numbers."""

from __future__ import annotations

CELLS, PROCESSORS, CHANNELS, CLOCK_CHANNEL = 0o10000, 10, 0o14, 0o14
FIELD = 0o100  # the channels that an instruction can name
FRAME_WORDS, PAPER_SYMBOLS, CENTRAL_ADDRESSES = 16, 65536, 0o1000000
# The states of a channel. An instruction that names the clock, or no channel at all, finds the last two.
INACTIVE, EMPTY, FULL, FUNCTION, IS_CLOCK, NO_CHANNEL = range(6)

# Numbers of twelve bits come first.
M = 0  # of processor n, cell a: M + n * CELLS + a
P = M + PROCESSORS * CELLS
H = P + PROCESSORS  # the registers of the channels, the clock among them
CLOCK = H + CLOCK_CHANNEL
WIDER = H + FIELD
A = WIDER
Q = A + PROCESSORS
PHASE = Q + PROCESSORS
STATE = PHASE + PROCESSORS
FRAME = STATE + FIELD
SLOT = FRAME + FRAME_WORDS
WATCHES = SLOT + 1
CARD, CARD_COLUMN, READER_MODE = range(WATCHES + 1, WATCHES + 4)
PAPER_LENGTH, PAPER_COLUMN, PRINTER_MODE = range(READER_MODE + 1, READER_MODE + 4)
PAPER = PRINTER_MODE + 1
C = PAPER + PAPER_SYMBOLS  # what is beyond the central size stays zero
ALL = C + CENTRAL_ADDRESSES

OF_KIND = {"M": M, "A": A, "P": P, "Q": Q, "C": C, "H": H}  # as they are typed


def place_of(kind: str, which: int, cell: int = 0) -> int:
    """Returns a place by its kind and numbers, as they are typed on the console."""
    return OF_KIND[kind] + (which * CELLS + cell if kind == "M" else which)
