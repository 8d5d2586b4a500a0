"""Where each number that a turn wrote comes from, as the engines say it: an operation, and the places that it reads, each with a
field. pp6600.h has the operations and the fields in words; their order here is that of the library."""

from __future__ import annotations

from array import array
from typing import Iterator, NamedTuple, Sequence, Tuple

OPERATIONS = ("MOVED", "JOINED", "SUM", "DIFFERENCE", "LOGICAL DIFFERENCE", "LOGICAL PRODUCT", "CLEARED", "SHIFTED", "COMPLEMENT",
              "ONE MORE", "ONE LESS", "LOW SUM", "LOW ONE MORE", "LOW ONE LESS", "AFTER 1", "AFTER 2", "AFTER 5", "RELATIVE",
              "INDEXED", "AFTER INDEXED", "CENTRAL AFTER", "COUNT DOWN", "COUNT UP", "COUNT UP 2", "NEXT SLOT", "PUNCHED",
              "NO WORD", "ZERO", "ONE", "TWO", "THREE", "LINE END")
(MOVED, JOINED, SUM, DIFFERENCE, LOGICAL_DIFFERENCE, LOGICAL_PRODUCT, CLEARED, SHIFTED, COMPLEMENT, ONE_MORE, ONE_LESS, LOW_SUM,
 LOW_ONE_MORE, LOW_ONE_LESS, AFTER1, AFTER2, AFTER5, RELATIVE, INDEXED, AFTER_INDEXED, CENTRAL_AFTER, COUNT_DOWN, COUNT_UP,
 COUNT_UP2, NEXT_SLOT, PUNCHED, NO_WORD, ZERO, ONE, TWO, THREE, LINE_END) = range(len(OPERATIONS))
FIELDS = ("WHOLE", "LOW", "FIRST", "SECOND", "THIRD", "FOURTH", "FIFTH", "WITHOUT B0", "PROGRAM ADDRESS", "UPPER SIX", "LOWER SIX",
          "WORD", "D", "M")
(WHOLE, LOW, FIRST, SECOND, THIRD, FOURTH, FIFTH, WITHOUT_B0, PROGRAM_ADDRESS, UPPER_SIX, LOWER_SIX, WORD, D,
 M) = range(len(FIELDS))
ACTED, WAITED, PASSED, IN_BLOCK = range(4)  # what a turn is
NOTHING = 0xFFFF_FFFF_FFFF_FFFF  # the place that a constant reads
LINK_BYTES = 24


class Reading(NamedTuple):
    """A place that is read, by its number in the flat order, and the field of it."""

    place: int
    field: int = WHOLE


class Origin(NamedTuple):
    """Where the new number of a place comes from."""

    place: int
    operation: int
    reads: Tuple[Reading, ...] = ()


class Origins(NamedTuple):
    """A turn: its processor, the address and the word of its instruction, what it is, and where each number that it wrote comes
    from: first those of its processor, then those of the reader, the printer, the clock and the slot. If a place is there twice,
    the last one counts."""

    processor: int
    address: int
    word: int
    kind: int
    own: Sequence[Origin]
    others: Sequence[Origin] = ()
    control: Sequence[int] = ()  # of a turn that is next, the places whose numbers decide what its processor reads and writes


def origins_of(links: bytes) -> Iterator[Origin]:
    """Yields the origins in links of the library, one after the other."""
    numbers, reads = array("Q", links), []
    for place, source, packed in zip(numbers[::3], numbers[1::3], numbers[2::3]):
        if source != NOTHING:
            reads.append(Reading(source, packed >> 8 & 0xFF))
        if not packed >> 16 & 0xFFFF:
            yield Origin(place, packed & 0xFF, tuple(reads))
            reads = []
