"""What the calls of the library take, in the terms of docs/LIBRARY.md: places, and the tests of a condition."""

from __future__ import annotations

from typing import TYPE_CHECKING, Optional, Tuple

from ..engine.arguments import OutOfRange, text_of, whole
from ..engine.interface import CHANGES, FIRST, INSIDE, OR, OUTSIDE, PERFORMS, WAITS, WRITES, Form
from ..engine.origins import Origins
from .forms import ALL_KINDS, MOST_WATCHES, Place

if TYPE_CHECKING:
    from ..engine.library import LibrarySession

__all__ = ["CHANGES", "INSIDE", "OR", "OUTSIDE", "PERFORMS", "WAITS", "WRITES", "Form", "changes", "inside", "last_write",
           "outside", "performs", "place", "until", "waits", "writes"]
# How many places there are of each kind, by each of its numbers, in the largest machine.
SIZES = {**{kind: of.sizes for kind, of in ALL_KINDS.items()}, "C": (131072,), "SLOT": (), "W": (MOST_WATCHES,)}
LONGEST = 1000000  # turns that `until` performs if it is not told otherwise


def place(kind: str, *numbers: int) -> int:
    """Returns the number of a place, as of M 0 100 by `place("M", 0, 0o100)`. The kinds are those of the console, and those of
    FIRST in pp6600.engine.interface. Raises OutOfRange if no machine has the place."""
    sizes = SIZES.get(text_of("kind", kind).upper())
    if sizes is None:
        raise OutOfRange(f"kind: {kind} is none of {', '.join(FIRST)}")
    chosen = tuple(whole("a number of a place", number) for number in numbers)
    found = Place(kind.upper(), chosen)
    if len(chosen) != len(sizes) or not all(0 <= number < size for number, size in zip(chosen, sizes)):
        raise OutOfRange(f"there is no place {found.short}")
    return found.number


def inside(place: int, first: int, last: int) -> Form:
    """Returns the test that the number at a place is one from first to last."""
    return Form(INSIDE, place, first, last)


def outside(place: int, first: int, last: int) -> Form:
    """Returns the test that the number at a place is none from first to last."""
    return Form(OUTSIDE, place, first, last)


def changes(place: int, count: int = 1) -> Form:
    """Returns the test that one of so many places gets another number."""
    return Form(CHANGES, place, count)


def writes(place: int, count: int = 1) -> Form:
    """Returns the test that one of so many places is written, also with the same number."""
    return Form(WRITES, place, count)


def performs(processor: int, address: int) -> Form:
    """Returns the test that a processor is about to perform the instruction at an address."""
    return Form(PERFORMS, processor, address)


def waits(processor: int) -> Form:
    """Returns the test that a processor waits."""
    return Form(WAITS, processor)


def until(session: LibrarySession, *condition: Form, most: int = LONGEST) -> Tuple[int, bool]:
    """Performs turns of a session, up to the first in which a condition comes to hold. Its tests are joined by and; `Form(OR)`
    begins another alternative. Returns how many turns there were, and whether it does in the last one."""
    return session.until(condition, most)


def last_write(session: LibrarySession, place: int, count: int = 1) -> Optional[Tuple[int, Origins]]:
    """Returns the newest action of a session that can be undone and wrote one of so many places: how many actions are newer, and
    where its numbers come from. Returns None if there is none."""
    return session.last_write(place, count)
