"""The lines of a printed listing as statements, each judged by itself: its words and addresses are numbers, or there is a doubt."""

import re
from typing import Iterator, Optional, Sequence, Tuple

from ..run.names import octal_number
from .flat_source import LITERALS, NAMING, TURNING, FlatSource, Known, Piece, Statement, Words
from .notation import CODES, LITERAL, MICROS, SUBR, size_of, statement_of
from .printed import ADDRESS, SHORT, WITH_WORDS, WORD, Parts, Token, few, is_note, is_operation

MICRO = re.compile(f'"({"|".join(MICROS)})"', re.I)  # whose text only COMPASS knew
DUPLICATED = re.compile(r"\bDUPLICATED? LINES?\b", re.I)
DEFINES = ("MACRO", "MACROE", "OPDEF")
MOVING = (*TURNING, "BSS", "BSSZ")
UNNUMBERED = ("BASE", "QUAL", "COL", "MICRO", "DECMIC", "OCTMIC")  # what counts, and has no number in any listing
WITH_ZEROS = re.compile(">?0[0-7]{3}[bB]?")  # an address of four digits, before which zeros are printed
START = "??S"  # a name that no source has: of the operand of END


class Reader:
    """Takes the lines of a listing as statements of a flat source."""

    def __init__(self, source: FlatSource, all_parts: Sequence[Parts], has_gaps: bool) -> None:
        """Between the rows of a dump there may be gaps."""
        self.source, self.has_gaps = source, has_gaps
        # operations whose lines have numbers
        self.numbered = {parts.operation for parts in all_parts if parts.address or parts.words}
        self.has_zeros = any(parts.address and parts.words and WITH_ZEROS.fullmatch(parts.address.text) for parts in all_parts)
        coded = [parts for parts in all_parts if parts.words]
        self.leaves_out = not few(sum(parts.address is None for parts in coded), len(coded))  # addresses
        self.depth = 0  # of macros that are being defined
        self.has_ended = self.is_over = self.has_literals = False
        self.is_free = True  # where the next statement with an address is: nothing says it
        self.is_located = False  # some line says where it is
        for self.number, parts in enumerate(all_parts, 1):
            if not is_note(parts.line):
                self.take(parts)

    def doubt(self, token: Optional[Token], text: str) -> None:
        self.source.doubt(self.number, token, text)

    def take(self, parts: Parts) -> None:
        """Takes a line: as what it is, or not at all."""
        name, is_coded = parts.operation, self.is_coded(parts)
        self.depth = 0 if is_coded else max(0, self.depth + (name in DEFINES) - (name == "ENDM"))
        self.is_over = self.is_over or name == "IDENT" and any(one.words for one in self.source.statements)
        if self.is_over or self.has_ended and not (parts.words and parts.address and not parts.statement):
            return
        if DUPLICATED.search(parts.line):
            self.is_free = True
            self.doubt(None, "lines are left out here, and their words are not printed")
        elif is_coded and name not in NAMING and (name not in MOVING or name == "BSSZ" and parts.words):
            self.coded(parts)
        elif name == "END":
            self.has_ended = self.is_free = True
            self.add(parts._replace(label=""), f" {START} EQU {parts.expression or 0}")
        elif name in NAMING or name in MOVING or name == "LIT":
            self.without_words(parts)
        elif name in UNNUMBERED and not self.depth:
            self.add(parts, parts.source)
        elif parts.label and not self.depth and (not is_operation(name) or name == SUBR):
            self.call(parts)

    def is_coded(self, parts: Parts) -> bool:
        """Returns whether a line has words, or had some before it was read wrongly."""
        is_placed = parts.address is not None and parts.address.has_digit
        if parts.operation in WITH_WORDS and parts.operation not in ("BSSZ", "LIT", SUBR):
            return is_placed or any(token.has_digit for token in parts.words)
        has_address = parts.address is not None and parts.address.address is not None
        return (is_placed or self.leaves_out or self.lacks_word()) and any(
            has_address or WORD.fullmatch(token.text) for token in parts.words)

    def lacks_word(self) -> bool:
        """Returns whether the last line has not yet the words of its instruction, which may be in a line without an address."""
        last = self.source.statements[-1:]
        return any(len(one.words) < size_of(CODES[one.name]) for one in last if one.name in CODES and one.is_told)

    def add(self, parts: Parts, text: str, places: Tuple[Optional[int], Optional[int]] = (None, None), words: Words = (),
            value: Optional[int] = None) -> Statement:
        """Adds a statement of this line."""
        one = Statement(Piece(self.number, parts, *places, tuple(words)), text, value)
        is_placed = places != (None, None) or one.name in TURNING
        if is_placed or words:
            one.is_free, self.is_free, self.is_located = self.is_free, False, self.is_located or is_placed
        self.source.add(one)
        return one

    # -- lines with words

    def coded(self, parts: Parts) -> None:
        """Takes a line with words."""
        if parts.flag:
            self.doubt(parts.flag, f"the line has the error flag {parts.flag.text}")
        if not parts.address and not (self.leaves_out and self.is_located) and not self.lacks_word():
            self.doubt(parts.words[0], "words without an address")
        if self.is_again(parts):
            self.source.statements[-1].again = self.number
            return
        words, places = tuple(self.word(token) for token in parts.words), self.places(parts)
        last, is_literal = self.source.statements[-1] if self.source.statements else None, parts.text.strip() == LITERAL
        if is_literal and not self.has_literals:
            self.has_literals = True
            self.add(parts._replace(operation="", label=""), f"  USE {LITERALS}")
            self.is_free = True
        elif last and self.goes_on(last, parts):
            last.text += f"\n  VFD {statement_of(self.source.with_names(parts.source)).operand}" if parts.operation else ""
            last.pieces.append(Piece(self.number, parts, *places, words, len(last.words)))
            self.source.add(last)
            return
        is_told = parts.operation in WITH_WORDS and not is_literal
        one = self.add(parts, self.source.with_names(parts.source) if is_told else "", places, words)
        if not is_told or MICRO.search(parts.text):
            one.refuse()
        if self.has_gaps and not parts.text and last and not last.is_told and None not in (places[0], last.first.address):
            one.before = (places[0] or 0) - (last.first.address or 0) - len(last.words)
        self.is_free = None in words  # of what follows from a doubt nothing is said

    def is_again(self, parts: Parts) -> bool:
        """Returns whether a line with an address, words and a source line is the same as the one before."""
        last = self.source.statements[-1].pieces if self.source.statements else []
        is_same = len(last) == 1 and last[0].parts.line.split() == parts.line.split()
        return is_same and parts.address is not None and bool(parts.words and parts.operation)

    def goes_on(self, last: Statement, parts: Parts) -> bool:
        """Returns whether a line is of the same statement as the one before: words alone, or a VFD that may go on in a word."""
        if not last.is_told or parts.label:
            return False
        if parts.operation:
            return last.name == parts.operation == "VFD" and not parts.statement.startswith(" +")
        return bool(last.words) and (last.name not in CODES or self.lacks_word())

    def word(self, token: Token) -> Optional[int]:
        if WORD.fullmatch(token.text):
            return int(token.text[:4], 8)
        few = SHORT.fullmatch(token.text)
        self.doubt(token, f"{token.text} has fewer than four digits" if few else f"{token.text} is no word of four octal digits")
        return None

    # -- addresses

    def places(self, parts: Parts) -> Tuple[Optional[int], Optional[int]]:
        """Returns the address that is printed in a line, and that to which it is loaded; None if none is printed."""
        load = self.address(parts.load) if parts.load else None
        return None if parts.load is parts.address else self.address(parts.address), load

    def address(self, token: Optional[Token]) -> Optional[int]:
        found = ADDRESS.fullmatch(token.text) if token else None
        if token and not found:
            self.doubt(token, f"{token.text} is no address")
        elif token and found and self.has_zeros and len(found[2]) < 4:
            self.doubt(token, f"the address {token.text} has fewer than four digits")
        return int(found[2], 8) if found else None

    # -- lines without words

    def without_words(self, parts: Parts) -> None:
        """Takes a line that names a number or moves the counters, if it was assembled: it has a number, or no such line has one."""
        name, numbers = parts.operation, list(self.values_of(parts))
        if parts.flag and numbers:
            self.doubt(parts.flag, f"the line has the error flag {parts.flag.text}")
        if not (parts.address or parts.words) and (self.depth or name in self.numbered):
            return
        if name == "LIT" and numbers:
            self.source.known[self.source.literal(f"={parts.expression}")] = Known(numbers[0], self.number, 1)
            self.add(parts, f" {parts.label} EQU {numbers[0]:o}B" if parts.label else "", value=numbers[0])
        elif name in NAMING:
            self.add(parts, parts.source, value=numbers[-1] if numbers else None)
        elif name != "LIT":
            self.add(parts, parts.source, self.places(parts), value=numbers[1] if parts.words and len(numbers) > 1 else None)
            self.is_free = name == "USE" and sum(one.text.split() == ["USE", parts.expression]
                                                 for one in self.source.statements) == 1

    def values_of(self, parts: Parts) -> Iterator[int]:
        """Yields the numbers of a line without words."""
        for token in dict.fromkeys(filter(None, (parts.address, parts.load, *parts.words))):
            number = octal_number(token.text.lstrip(">"))
            if number is None:
                self.doubt(token, f"{token.text} is no octal number")
            else:
                yield number

    def call(self, parts: Parts) -> None:
        """Takes the label of a macro's call, or of a line that is a label alone."""
        is_placed = parts.address is not None and parts.address.address is not None and not parts.words
        if is_placed or parts.operation != SUBR:
            self.add(parts, f" {parts.label} BSS 0", self.places(parts) if is_placed else (None, None)).is_call = not is_placed
