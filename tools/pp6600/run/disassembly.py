"""Cells as instructions."""

from typing import Callable, Container, List, NamedTuple, Optional, Tuple

from .forms import CELLS
from .turn import NAMES, RELATIVE_JUMPS, TWO_WORDS, target_of

Word = Callable[[int], int]  # the number in a cell, by its address

FROM_BEFORE = 8  # more cells before a window, so that its rows begin where the instructions do
HIGH = 20  # rows of a window from which on the present one stands in its middle
LEAST_ABOVE = 2  # rows in a window above the one that it must show, if it has room


class Row(NamedTuple):
    """An instruction: its address and its one or two words."""

    address: int
    words: Tuple[int, ...]

    @property
    def end(self) -> int:
        """The address after it."""
        return (self.address + len(self.words)) % CELLS

    def has(self, address: int) -> bool:
        return (address - self.address) % CELLS < len(self.words)

    @property
    def text(self) -> str:
        """The name and d, with the second word; with the address to which a relative jump leads."""
        code, d = divmod(self.words[0], 0o100)
        target = [f"to {target_of(self.address, d):04o}"] if code in RELATIVE_JUMPS else []
        return " ".join([f"{NAMES[code]} {d:02o}", *(f"{word:04o}" for word in self.words[1:]), *target])


def row_at(word: Word, address: int, heads: Container[int]) -> Row:
    """Returns the row that begins at an address. At a head another row begins, so that no second word is taken from there."""
    address, second = address % CELLS, (address + 1) % CELLS
    has_two = word(address) >> 6 in TWO_WORDS and second not in heads
    return Row(address, (word(address), word(second)) if has_two else (word(address),))


def rows_from(word: Word, address: int, count: int, heads: Container[int]) -> List[Row]:
    """Returns so many rows from an address on. The function `word` returns the number in a cell."""
    found: List[Row] = []
    while len(found) < count:
        found.append(row_at(word, found[-1].end if found else address, heads))
    return found


def rows_around(word: Word, address: int, before: int, after: int, heads: Container[int]) -> List[Row]:
    """Returns the rows around that which has an address: so many before it, and so many after it."""
    rows = rows_from(word, address - 2 * before - FROM_BEFORE, 2 * before + FROM_BEFORE + after + 1, heads)
    at = next(number for number, row in enumerate(rows) if row.has(address))
    return rows[at - before:at + after + 1]


def rows_above(at: Optional[int], count: int, top: int, is_centred: bool = False) -> Optional[int]:
    """Returns how many rows a window of so many moves to have above the one that it must show; None if it stays. That one is at
    `at` now, or not in the window; nothing is above address 0. In a high window it may have to be in the middle third."""
    if is_centred and count >= HIGH:
        return None if at is not None and (count // 3 <= at < count - count // 3 or top == 0 and at < count // 3) else count // 2
    if at is None:
        return count // 3
    least = min(LEAST_ABOVE, count // 3)
    return None if at >= least or top == 0 else least


def moved(word: Word, address: int, steps: int, heads: Container[int]) -> int:
    """Returns the address of the row that comes so many rows after that which has an address, or before it."""
    return rows_around(word, address, max(-steps, 0), max(steps, 0), heads)[-1 if steps > 0 else 0].address
