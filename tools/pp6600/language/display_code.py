"""Display code: 64 symbols, two in a word. docs/MACHINE.md has the table."""

from typing import List, Sequence

from ..failure import Failure

SYMBOLS = ":ABCDEFGHIJKLMNOPQRSTUVWXYZ0123456789+-*/()$= ,.#[]%\"_!&'?<>@\\^;"
BLANK = " "


def code_of(symbol: str) -> str:
    """Returns the two digits of a symbol; a small letter has those of its capital."""
    capital = symbol.upper() if symbol.isascii() else symbol
    if capital not in SYMBOLS:
        raise Failure(f"display code has no {ascii(symbol) if not symbol.isprintable() else repr(symbol)}")
    return f"{SYMBOLS.index(capital):02o}"


def words_of(text: str) -> List[str]:
    """Returns the words of a text, each with four octal digits. An odd text ends in a blank."""
    codes = [code_of(symbol) for symbol in text + BLANK * (len(text) % 2)]
    return [first + second for first, second in zip(codes[::2], codes[1::2])]


def text_of(words: Sequence[int]) -> str:
    """Returns the text of words."""
    return "".join(SYMBOLS[word >> 6] + SYMBOLS[word & 0o77] for word in words)
