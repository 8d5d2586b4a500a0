"""The breakpoints that an editor has set."""

from __future__ import annotations

from itertools import chain
from typing import TYPE_CHECKING, Any, Dict, FrozenSet, List, NamedTuple, Optional, Tuple

from ...failure import Failure
from ...run.conditions import first_place, number_of
from ...run.forms import CELLS, PROCESSORS, Place
from .terms import Terms

if TYPE_CHECKING:
    from .own import SourceFile

LINE_ID, INSTRUCTION_ID, DATA_ID, SOURCE_ID = 1 << 16, 1 << 17, 1 << 18, 1 << 19  # of breakpoints; the lower bits say which one
LINE, INSTRUCTION, DATA = "breakpoint", "instruction breakpoint", "data breakpoint"  # why a run stops


class ProcessorCell(NamedTuple):
    """A cell of a processor. References to it count bytes, two a cell, and have the processor above."""

    number: int
    address: int

    @property
    def reference(self) -> str:
        return f"0x{self.number << 16 | self.address * 2:06x}"

    @classmethod
    def of(cls, reference: str, offset: int = 0) -> ProcessorCell:
        """Returns the cell of a reference and a distance in bytes."""
        try:
            at = int(reference, 0) + offset
        except (TypeError, ValueError):
            raise Failure(f"{reference} is no reference to a cell") from None
        number, byte = at >> 16, at & 0xFFFF
        if byte % 2 or not 0 <= number < PROCESSORS or byte >= 2 * CELLS:
            raise Failure(f"{reference} with {offset} is no reference to a cell")
        return cls(number, byte // 2)

    @property
    def bits(self) -> int:
        return CELLS * self.number + self.address


def checked(place: Place) -> Place:
    """Returns a place, if there is one of these numbers."""
    if not place.exists:
        raise Failure(f"{place.short} is out of range")
    return place


def places_of(text: str, symbols: Any, own: Optional[int] = None) -> List[Place]:
    """Returns the places of a text: one, or a range of cells as M 0 100 103. The own processor may be left out."""
    place, rest = first_place(text.split(), symbols, own=own)
    if not rest:
        return [checked(place)]
    number, first = checked(place).numbers if place.kind == "M" else (0, CELLS)
    last = number_of(rest[0], place, symbols) if len(rest) == 1 else -1
    if not first <= last < CELLS:
        raise Failure(f"{text} is no range of cells")
    return [Place("M", (number, at)) for at in range(first, last + 1)]


class Point(NamedTuple):
    """A breakpoint: cells, or places of a data breakpoint, and its terms. A cell of a source has the numbers of the lines that it
    must be of."""

    number: int  # its identifier
    reason: str
    cells: Dict[ProcessorCell, Optional[FrozenSet[int]]] = {}
    places: Tuple[Place, ...] = ()
    terms: Terms = Terms()
    file: Optional[SourceFile] = None  # the source, and the line there
    line: int = 0

    @property
    def key(self) -> Tuple[Any, ...]:
        """What its hits depend on."""
        return tuple(sorted((cell, lines and tuple(sorted(lines)))
                            for cell, lines in self.cells.items())), self.places, self.terms.text


class Breakpoints:
    """All that are set, by a key: the processor of a listing, the path of a source, or the reason of those on addresses and
    places."""

    def __init__(self) -> None:
        self.of: Dict[Any, List[Point]] = {}

    @property
    def all(self) -> List[Point]:
        """All, those on lines first."""
        return sorted(chain.from_iterable(self.of.values()), key=lambda point: point.reason != LINE)

    @property
    def in_a_step(self) -> List[Point]:
        """Those that count in a step: data breakpoints, and log points, which end nothing."""
        return [point for point in self.all if point.places or point.terms.log]

    def places(self) -> List[Place]:
        """Returns the places of all data breakpoints, each once."""
        return list(dict.fromkeys(place for point in self.all for place in point.places))
