"""What actions overwrote: the numbers before them, and what they changed."""

from __future__ import annotations

from typing import Dict, Tuple

from ..engine.interface import Records
from .session import Session


class Numbers(Dict[int, int]):
    """The numbers at places, each read when it is first asked for."""

    def __init__(self, run: Session) -> None:
        super().__init__()
        self.run = run

    def __missing__(self, place: int) -> int:
        self[place], = self.run.engine.numbers(place, 1)
        return self[place]


def overwritten(records: Records) -> Dict[int, int]:
    """Returns the numbers that actions overwrote, by their places: of a place that is there twice the first one."""
    return dict(zip(reversed(records.places), reversed(records.numbers)))


def next_turn(run: Session) -> Tuple[Dict[int, int], Numbers]:
    """Makes the next turn of the tape. Returns what it overwrote, and the numbers after it."""
    was = overwritten(run.engine.records(1))
    run.performed(1)
    return was, Numbers(run)


def next_changes(run: Session, count: int = 1) -> Dict[int, int]:
    """Returns the present numbers at the places where they are others after the next actions, so many, which the engine has undone.
    They are performed again, and undone."""
    was, now = overwritten(run.engine.records(count, "again")), Numbers(run)
    found = {place: number for place, number in was.items() if number != now[place]}
    run.engine.back(count)
    return found
