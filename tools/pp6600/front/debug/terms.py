"""On what terms a breakpoint ends a run: a condition, a count of hits, or never, because a log point only writes.

A hit is each time that a processor comes to the breakpoint, or that the place of a data breakpoint changes, and the condition
holds. Hits are counted from the beginning of the run, wherever the search for them began. So a hit has the same number forward and
back."""

from __future__ import annotations

import operator
import re
from array import array
from bisect import bisect_right
from itertools import chain
from typing import Any, Callable, Dict, Iterable, List, Mapping, NamedTuple, Optional, Sequence

from ...failure import Failure
from ...run.conditions import Column, Condition, first_place, parsed
from ...run.forms import Place, octal
from ...run.session import Session
from ...run.tape import Position

SIGNS: Dict[str, Callable[[int, int], Any]] = {
    "=": operator.eq, "==": operator.eq, ">": operator.gt, ">=": operator.ge, "<": operator.lt, "<=": operator.le,
    "%": lambda count, number: count % number == 0}
COUNT = re.compile(r"\s*(==?|>=?|<=?|%)?\s*([0-9]+)\s*")
EXPRESSION = re.compile(r"\{([^{}]*)\}")


def hits_of(text: str) -> Callable[[int], bool]:
    """Returns a function that says of a hit, by its number, whether it counts."""
    found = COUNT.fullmatch(text)
    if not found:
        raise Failure(f"{text} is no count of hits: it is a number, or one of = > >= < <= % and a number")
    sign, number = found[1] or "=", octal(found[2])
    if not number and sign == "%":
        raise Failure("no number is a multiple of 0")
    return lambda count: bool(SIGNS[sign](count, number))


class Log:
    """The text of a log point. What is in braces is a place, as in a condition; without a number it is the processor's own."""

    def __init__(self, text: str, numbers: Iterable[int], symbols: Any) -> None:
        """The numbers are those of the processors that may come there."""
        self.text = text
        expressions = EXPRESSION.findall(text)
        self.places = {number: [place_of(one, number, symbols) for one in expressions] for number in numbers}

    def said(self, number: int, position: int, scout: Session) -> str:
        """Returns the text at a processor, with the values of its places at a position."""
        scout.goto(Position(position))
        left = (Column(place).shown(scout)[0][1] for place in self.places[number])
        return EXPRESSION.sub(lambda _: next(left), self.text)


class Terms(NamedTuple):
    """The terms of a breakpoint. It has a condition for each processor that may come there, of which this is the own one; of a data
    breakpoint it is that of none."""

    conditions: Mapping[Optional[int], Condition] = {}
    hits: Optional[Callable[[int], bool]] = None  # whether one counts, by its number
    log: Optional[Log] = None
    text: str = ""  # of the condition

    @classmethod
    def of(cls, asked: Mapping[str, Any], numbers: Sequence[int], symbols: Any) -> Terms:
        """Returns the terms that an editor has asked for, of a breakpoint that some processors may come to."""
        condition, hits, log = (str(asked.get(name) or "").strip() for name in ("condition", "hitCondition", "logMessage"))
        own: Sequence[Optional[int]] = () if not condition else numbers or (None,)
        conditions = {number: parsed(condition, symbols, number) for number in own}
        if any(one.remembers for one in conditions.values()):
            raise Failure("returns wrongly is about a whole run, so it is for until, and for no breakpoint")
        return cls(conditions, hits_of(hits) if hits else None, Log(log, numbers, symbols) if log else None, condition)

    def condition(self, number: int) -> Optional[Condition]:
        """Returns the condition where a processor has come to the breakpoint; None if there is none."""
        return self.conditions.get(number) or self.conditions.get(None)

    def places(self) -> List[Place]:
        """Returns all places that they are about."""
        logged = self.log.places.values() if self.log else ()
        return [*(column.place for one in self.conditions.values() for column in one.columns), *chain.from_iterable(logged)]


def place_of(text: str, number: int, symbols: Any) -> Place:
    """Returns the place that an expression names. A processor that is left out is this one, so A is its A, and M 106 or a label its
    cell."""
    place, rest = first_place(text.split(), symbols, own=number)
    if rest or not place.exists:
        raise Failure(f"{{{text}}} is no place")
    return place


class Tally:
    """The positions of the hits of a breakpoint up to one."""

    def __init__(self) -> None:
        self.known = -1  # the last position up to which they are all there
        self.positions: Any = array("q")

    def add(self, position: int) -> None:
        if not self.positions or position > self.positions[-1]:
            self.positions.append(position)

    def number(self, position: int) -> int:
        """Returns how many hits there are up to a position."""
        return bisect_right(self.positions, position)

    def cut(self, position: int) -> None:
        """Forgets what is after a position."""
        del self.positions[self.number(position):]
        self.known = min(self.known, position)
