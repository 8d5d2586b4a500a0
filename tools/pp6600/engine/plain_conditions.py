"""In which turns a condition comes to hold: the small answer of the simulator in plain Python, read straight from the definition.
The tests compare it with the proved one."""

from __future__ import annotations

from typing import Callable, Iterable, List, NamedTuple, Sequence

from . import interface as flat
from .interface import CHANGES, INSIDE, OR, OUTSIDE, PERFORMS, WAITS, WRITES, Form

Number = Callable[[int], int]  # the number at a place


class Done(NamedTuple):
    """An action: the numbers before and after it, and the places that it wrote."""

    old: Number
    new: Number
    written: Sequence[int]


def alternatives_of(condition: Iterable[Form]) -> List[List[Form]]:
    """Returns the alternatives of a condition, each with its tests."""
    found: List[List[Form]] = [[]]
    for form in condition:
        if form.kind == OR:
            found.append([])
        else:
            found[-1].append(form)
    return found


def is_met(form: Form, number: Number) -> bool:
    """Returns whether a test holds of a machine as it is. One of an action does not."""
    kind, place, first, last = form
    if kind in (INSIDE, OUTSIDE):
        return (first <= number(place) <= last) == (kind == INSIDE)
    return kind == PERFORMS and number(flat.P + place) == first and not number(flat.PHASE + place)


def holds(form: Form, done: Done) -> bool:
    """Returns whether a test holds of an action."""
    kind, place, count, _ = form
    if kind == CHANGES:
        return any(place <= at < place + count and done.old(at) != done.new(at) for at in done.written)
    if kind == WRITES:
        return any(place <= at < place + count for at in done.written)
    if kind == WAITS:
        return flat.SLOT in done.written and done.old(flat.SLOT) == place and flat.P + place not in done.written
    return is_met(form, done.new)


def comes_to_hold(alternatives: Iterable[Sequence[Form]], done: Done) -> bool:
    """Returns whether one of some alternatives comes to hold in an action."""
    return any(all(holds(form, done) for form in tests) and not all(is_met(form, done.old) for form in tests)
               for tests in alternatives)
