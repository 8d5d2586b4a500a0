"""A 405 card reader behind a 6681 converter. docs/PYTHON.md has its codes, all from memory."""

from __future__ import annotations

import re
from typing import Iterable, NamedTuple, Sequence, Tuple, Union

from ..failure import Failure
from ..run.device import INACTIVE, Reply, full
from ..shell.text_files import read_lines
from .converter import Converter, ConverterState

COLUMNS = 80
PLAIN = (0o1, 0o2, 0o4, 0o5)  # binary, coded, the gate, clear: no word is translated
READY, EMPTY_TRAY, END_OF_FILE = 0o1, 0o40, 0o100  # of the status word


class Cards(NamedTuple):
    """The next card, and the next column of the card that is read."""

    card: int = 0
    column: int = COLUMNS


class CardReader(Converter):
    """A card reader with a deck."""

    def __init__(self, deck: Union[str, Iterable[Sequence[int]]] = (), equipment: str = "4", channel: int = 0o12,
                 busy: Union[int, str] = 0) -> None:
        """The deck is its cards, each of up to 80 words, or the name of a file as for the option --deck. The reader is busy for so
        many turns after a function, and before each card."""
        super().__init__(equipment_of(equipment), channel, busy)
        self.deck = deck_of(deck) if isinstance(deck, str) else [tuple(card) for card in deck]
        self.start = ConverterState(Cards())

    def performed(self, inner: Cards, code: int) -> Tuple[Cards, bool]:
        return inner, code in PLAIN

    def status(self, inner: Cards) -> int:
        if inner.card < len(self.deck):
            return READY
        return EMPTY_TRAY | (END_OF_FILE if self.deck else 0)

    def begun(self, inner: Cards) -> Cards:
        """Feeds the next card."""
        return Cards(inner.card + 1, 0) if inner.card < len(self.deck) else inner

    def given(self, inner: Cards) -> Tuple[Cards, Reply]:
        if inner.column >= COLUMNS:
            return inner, INACTIVE
        card, column = self.deck[inner.card - 1], inner.column + 1
        reply = full(card[inner.column] if inner.column < len(card) else 0)
        return inner._replace(column=column), reply.remarked(f"CARD {inner.card:o} COLUMN {column:o}")


def equipment_of(text: str) -> int:
    """Returns the number of an equipment."""
    if text not in ("4", "5", "6", "7"):
        raise Failure(f"an equipment has a number from 4 to 7, and not {text}")
    return int(text)


def deck_of(path: str) -> "list[Tuple[int, ...]]":
    """Returns the cards of a file, which has octal words, a card a line."""
    cards = []
    for number, line in enumerate(read_lines(path) if path else [], 1):
        words = line.partition("*")[0].split()
        if not all(re.fullmatch("[0-7]{1,4}", word) for word in words) or len(words) > COLUMNS:
            raise Failure(f"{path}, line {number} (decimal) is no card of up to 80 (decimal) octal words")
        cards += [tuple(int(word, 8) for word in words)] if words else []
    return cards
