"""The printed lines of a listing as the statements of one source, which the library's assembler assembles in one call.

The source is flat: the call of a macro is its label, and the lines that it made are printed after it. What was not assembled is
left out."""

import re
from typing import Dict, List, NamedTuple, Optional, Sequence, Set, Tuple

from ..engine.assembler import COMPLAINTS, ROWS, assembler_here
from ..run.names import EQUATES
from ..shell.text_files import lines_of
from .notation import CODES, parts_of as operands_of, statement_of
from .printed import Parts, Token
from .program import OF_ANOTHER_PROGRAM, ListingRow, row_of

OVER = ("is filled by line", "this goes past cell 7777")  # what is said of the words that are printed
NAMING, TURNING = (*EQUATES, "SET", "MAX", "MIN", "MICCNT"), ("ORG", "LOC", "USE")
OF_BITS = ("VFD", "POS")
BETWEEN = re.compile(r"[\s+\-*/,^()=\"]+")  # names
LITERALS = "??L"  # a block that no source has
NOWHERE, NO_PARTS = ListingRow(0, "", 0, 0), Parts("", None, None, None, [], "", 0, False)
Words = Sequence[Optional[int]]  # None: one that is unreadable


class Message(NamedTuple):
    """What is wrong in a text: the line and the column, counted from 1, and what it is."""

    line: int
    column: int
    text: str


class Piece(NamedTuple):
    """A printed line of a statement: its addresses, None if it has none, and its words, before which the statement has so many."""

    number: int
    parts: Parts
    address: Optional[int] = None
    load: Optional[int] = None
    words: Words = ()
    at: int = 0


class Known(NamedTuple):
    """The number of a name that the listing does not define: the first line that says it, and how many lines do."""

    number: int
    line: int = 0
    uses: int = 0


class Statement:
    """A statement of the flat source: the lines that it is printed in, and its text for the assembler."""

    def __init__(self, piece: Piece, text: str, value: Optional[int] = None) -> None:
        """The value is the number that is printed for its name."""
        self.pieces, self.text, self.value = [piece], text, value
        self.label, self.name = piece.parts.label, statement_of(text).operation
        self.is_told = True  # by the source line what the words are
        self.is_free = False  # nothing says where it is
        self.is_call = False  # of a macro, whose label is where the next words are unless other lines say more
        self.again = 0  # the line that is the same once more, as at the turn of a page
        self.before = 0  # cells that are left before it, since the printed addresses say so
        self.literals: List[str] = []  # the names of those that come with it
        self.row, self.end = NOWHERE, 0  # what the assembler makes of it, and the location behind it

    @property
    def first(self) -> Piece:
        return self.pieces[0]

    @property
    def words(self) -> List[Optional[int]]:
        return [word for piece in self.pieces for word in piece.words]

    @property
    def said(self) -> str:
        """Its operation and its operand."""
        return f"{self.first.parts.operation} {self.first.parts.expression}".strip()

    @property
    def has_place(self) -> bool:
        return self.row is not NOWHERE and self.name not in NAMING and (self.first.address, self.first.load) != (None, None)

    @property
    def shift(self) -> int:
        """How far its printed address is from where the assembler has it."""
        address, load = self.first.address, self.first.load
        if not self.has_place or self.name in TURNING or self.name in OF_BITS and not self.words:
            return 0
        return (load - self.row.origin if load is not None else 0 if address == self.row.origin
                else (address or 0) - self.row.location)

    @property
    def token(self) -> Token:
        """Where what is said of it is: its first word, or its address."""
        parts = self.first.parts
        return next((token for token in (*parts.words, parts.load, parts.address) if token), Token("", parts.column, 0))

    def refuse(self) -> None:
        """Makes it what is printed alone, for the assembler does not take the source line; without its label at the second time."""
        was, label, words = self.text, f" {self.label} " if self.label and self.is_told else "   ", self.words
        if words or self.name in CODES:
            self.text = (f"{label}BSS {len(words)}" if None in words or not words
                         else f"{label}CON {','.join(f'{word:o}B' for word in words)}")
        elif self.name in ("ORG", "LOC") and self.first.address is not None:
            self.text = f"{label}{self.name} {self.first.address:o}B"
        elif self.name in NAMING and self.value is not None:
            self.text = f"{label}EQU {self.value:o}B"
        else:
            self.text = f"{label}BSS 0" if self.has_place else ""
        self.text, self.is_told = "" if self.text == was else self.text, False


class FlatSource:
    """The statements of a listing, what the assembler makes of them, and what is in doubt."""

    def __init__(self, base: str) -> None:
        """The base is that of numbers before the first BASE."""
        self.base = base
        self.statements: List[Statement] = []
        self.doubts: List[Message] = []
        self.known: Dict[str, Known] = {}  # names that the listing does not define, and those that stand for literals
        self.open: Set[str] = set()  # names of which nothing is known
        self.literals: Dict[str, str] = {}  # their texts, by the names that stand for them
        self.made: Dict[str, Tuple[int, ...]] = {}  # their words
        self.group: Dict[str, str] = {}  # the names of those since the last BASE, by their texts
        self.placed = 0  # how many of the literals have a statement behind which they are assembled
        self._users: Dict[str, List[Statement]] = {}

    def doubt(self, number: int, token: Optional[Token], text: str) -> None:
        """Adds a doubt about a line, at a token of it."""
        self.doubts.append(Message(number, token.start + 1 if token else 1, text))

    def literal(self, text: str) -> str:
        """Returns the name that stands for a literal: its address need not be where this assembler would have put it."""
        name = self.group.setdefault(text, f"??{len(self.literals)}")
        self.literals.setdefault(name, text)
        return name

    def add(self, one: Statement) -> None:
        """Adds a statement, or what has come to the last one, with the literals that are new."""
        self.group = {} if one.name == "BASE" else self.group
        self.statements += [one] if self.statements[-1:] != [one] else []
        one.literals += [*self.literals][self.placed:]
        self.placed = len(self.literals)

    def with_names(self, text: str) -> str:
        """Returns the text of a statement, with a name for each literal of its operand."""
        label, name, operand = statement_of(text)
        parts = [part.rpartition("/") if name == "VFD" else ("", "", part) for part in operands_of(operand)]
        named = ["".join((*size, self.literal(own) if own.startswith("=") and not OF_ANOTHER_PROGRAM.fullmatch(own) else own))
                 for *size, own in parts]
        return f" {label:2} {name} {','.join(named)}" if "=" in operand else text

    def users(self) -> Dict[str, List[Statement]]:
        """Returns the statements that may have each name."""
        if not self._users:
            for one in self.statements:
                for name in dict.fromkeys(BETWEEN.split(one.text.upper())):
                    self._users.setdefault(name, []).append(one)
        return self._users

    def assemble(self) -> List[Tuple[Statement, str]]:
        """Has the source assembled. Returns the faults, each with its statement."""
        lines = [f"  BASE {self.base}", f"  USE {LITERALS}", "  USE *",
                 *(f" {name} EQU {one.number:o}B" for name, one in self.known.items())]
        owners: Dict[int, Statement] = {}
        literals: Dict[int, str] = {}
        waiting: List[str] = []  # literals, which must not end a word of VFD
        for one in [*self.statements, Statement(Piece(0, NO_PARTS), "")]:
            for name in waiting if one.name not in (*OF_BITS, *NAMING) else []:
                literals[len(lines) + 2] = name
                lines += [f"  USE {LITERALS}", f"  DATA {self.literals[name][1:]}", "  USE *"]
            waiting = [*(waiting if one.name in (*OF_BITS, *NAMING) else []), *one.literals]
            lines += [f"  BSS {one.before:o}B"] if one.before else []
            first = len(lines)
            # a note behind a BSS has the place where that ends
            lines += [*one.text.split("\n"), *(["*"] if one.name == "BSS" else [])]
            owners.update(dict.fromkeys(range(first + 1, len(lines) + 1), one))
        source = "\n".join([*lines, ""]).encode("utf-8")
        rows, faults = assembler_here().text(source, ROWS)
        others = self.fill(owners, rows.decode("utf-8"))
        self.made = {name: others.get(number, ()) for number, name in literals.items()}
        complaints = lines_of(assembler_here().text(source, COMPLAINTS)[0].decode("utf-8"))[:faults] if faults else []
        return [(owners[int(line)], text.strip()) for line, _, text in (complaint.split(":", 2) for complaint in complaints)
                if int(line) in owners and not any(over in text for over in OVER)]

    def fill(self, owners: Dict[int, Statement], rows: str) -> Dict[int, Tuple[int, ...]]:
        """Gives the statements what the assembler has made of their lines. Returns the words of other lines."""
        others: Dict[int, Tuple[int, ...]] = {}
        for one in self.statements:
            one.row = NOWHERE
        for row in map(row_of, lines_of(rows)):
            owner = owners.get(row.number)
            if owner:
                owner.row = row if owner.row is NOWHERE else owner.row._replace(words=owner.row.words + row.words)
                owner.end = row.location
            else:
                others[row.number] = others.get(row.number, ()) + row.words
        return others
