"""The source that the library writes of cells, with the labels of a listing in place of its own."""

import re
from itertools import takewhile
from typing import Dict, Iterator, List, Mapping, NamedTuple, Sequence, Set

from ..run.turn import CONSTANTS, INDEXED, RELATIVE_JUMPS, TWO_WORDS
from .display_code import text_of
from .notation import CODES, SYMBOL, size_of, statement_of

WORDS_OF_LINE = 4  # of a CON
ZEROS = 4  # that are a BSSZ
LONGEST = 8  # symbols of a name
OWN = re.compile("[LSD]([0-7]{4})(X?)(?:[+]([0-7]+))?")
DATA = ("CON", "BSSZ")
EXIT = "X"  # at the end of the name of a subroutine's exit


class Piece(NamedTuple):
    """A line of the source: the address and the number of its cells, and its fields."""

    address: int
    size: int
    label: str
    operation: str
    operand: str


def pieces_of(lines: Sequence[str]) -> Iterator[Piece]:
    """Yields the lines of a source that the library has written."""
    address = 0
    for line in lines:
        label, operation, operand = statement_of(line)
        operand = operand.split(" ")[0]
        address = int(operand, 8) if operation == "ORG" else address
        size = size_of(CODES[operation]) if operation in CODES else int(operand, 8) if operation == "BSSZ" else \
            {"CON": operand.count(",") + 1, "SUBR": 2}.get(operation, 0)
        yield Piece(address, size, label, operation, operand)
        address += size


def usable(labels: Mapping[int, Sequence[str]]) -> Dict[int, str]:
    """Returns the first label of each address that can be a symbol, is no other address's, and is none of those that the library
    makes."""
    found: Dict[int, str] = {}
    for address, names in sorted(labels.items()):
        name = next((name.upper() for name in names if SYMBOL.fullmatch(name.upper()) and len(name) <= LONGEST
                     and not OWN.fullmatch(name.upper()) and name.upper() not in found.values()), None)
        if name:
            found[address] = name
    return found


class Labelled:
    """Puts labels into a source of cells."""

    def __init__(self, cells: Mapping[int, int], labels: Mapping[int, Sequence[str]], lines: Sequence[str]) -> None:
        self.cells, self.named, self.pieces = cells, usable(labels), list(pieces_of(lines))
        self.exits: Set[int] = {before.address if piece.operation == "EQU" else piece.address  # of subroutines
                                for before, piece in zip(self.pieces, self.pieces[1:]) if piece.operation in ("EQU", "SUBR")}

    def lines(self) -> Iterator[str]:
        """Yields the lines of the source."""
        at = 0
        while at < len(self.pieces):
            piece = self.pieces[at]
            data = list(takewhile(lambda one: one.operation in DATA, self.pieces[at:]))
            if data:
                yield from self.data(data)
            else:
                yield from self.line(piece)
            at += len(data) or 1

    def line(self, piece: Piece) -> Iterator[str]:
        """Yields the line of a piece that is no data, and of the names that are within it."""
        address, operand = piece.address, OWN.sub(self.own, self.with_name(piece))
        label = OWN.sub(self.own, piece.label) or (self.named.get(address, "") if piece.size else "")
        yield statement(label, piece.operation, operand)
        if piece.operation == "BASE":
            yield from (statement(name, "EQU", f"{cell:o}") for cell, name in sorted(self.named.items()) if cell not in self.cells)
        after = address + piece.size
        yield from (statement(self.named[cell], "EQU", f"*-{after - cell:o}")
                    for cell in range(address + 1, after) if cell in self.named and address not in self.exits)

    def entry(self, address: int) -> str:
        """Returns the name of the subroutine whose entry is here."""
        name = self.named.get(address, "")
        is_free = name + EXIT not in self.named.values() or self.named.get(address - 1) == name + EXIT
        return name if 0 < len(name) < LONGEST and is_free else f"S{address:04o}"

    def own(self, token: "re.Match[str]") -> str:
        """Returns what a label that the library made is called."""
        address = int(token[1], 8)
        if token[2] or address - 1 in self.exits and not token[3]:
            return self.entry(address) + token[2]
        label, behind = self.named.get(address, token[0].partition("+")[0]), int(token[3] or "0", 8)
        return self.named.get(address + behind, f"{label}+{behind:o}") if behind else label

    def with_name(self, piece: Piece) -> str:
        """Returns the operand of an instruction that names a cell outside with the label of this."""
        code, (first, comma, d) = CODES.get(piece.operation, 0), piece.operand.partition(",")
        is_base = first == "0" and code in INDEXED and comma  # the cell is in d alone
        is_cell = code in RELATIVE_JUMPS or code in TWO_WORDS and code not in CONSTANTS and not is_base
        return self.named.get(int(first, 8), first) + comma + d if is_cell and first.isdigit() else piece.operand

    # ---- data

    def data(self, pieces: Sequence[Piece]) -> Iterator[str]:
        """Yields the lines of data that follow one another. From one with a name within it on the lines are made anew."""
        first, end = pieces[0].address, pieces[-1].address + pieces[-1].size
        labels = {piece.address: OWN.sub(self.own, piece.label) for piece in pieces if piece.label}
        labels.update({cell: name for cell, name in self.named.items() if first <= cell < end and cell not in labels})
        starts = {piece.address: piece.size for piece in pieces}
        at, is_new = first, False
        while at < end:
            size = starts.get(at, 0)
            is_new = is_new or any(cell in labels for cell in range(at + 1, at + size))
            size = self.size_from(at, end, labels) if is_new else size
            yield data_line(labels.get(at, ""), [self.cells[cell] for cell in range(at, at + size)])
            at += size

    def size_from(self, first: int, end: int, labels: Mapping[int, str]) -> int:
        """Returns how many words are in a line of data: all zeros, or as many words as there are before those."""
        last = min([end, *(cell for cell in labels if cell > first)])
        zeros = self.zeros(first, last)
        others = (size for size in range(1, WORDS_OF_LINE) if first + size == last or self.zeros(first + size, last) >= ZEROS)
        return zeros if zeros >= ZEROS else next(others, WORDS_OF_LINE)

    def zeros(self, first: int, last: int) -> int:
        """Returns how many zeros of some cells follow one another from the first one on."""
        return next((cell for cell in range(first, last) if self.cells[cell]), last) - first


def statement(label: str, operation: str, operand: str = "") -> str:
    return f" {label:8} {operation:6} {operand}".rstrip()


def data_line(label: str, words: List[int]) -> str:
    """Returns a line of data, with its symbols as comment."""
    if len(words) >= ZEROS and not any(words):
        return statement(label, "BSSZ", f"{len(words):o}")
    return f"{statement(label, 'CON', ','.join(f'{word:o}' for word in words)):38} {text_of(words)}".rstrip()
