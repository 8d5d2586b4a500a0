"""The parts of the lines of a printed listing: error flag, address, words and source line. The columns of these are found from the
addresses that go on where the words of the line before end; if there are none, the first number of a line is its address."""

import functools
import re
from itertools import takewhile
from typing import Dict, Iterable, Iterator, List, NamedTuple, Optional, Sequence, Tuple

from ..failure import Failure
from .notation import (BLOCKS, CODES, DIRECTIVES, FIRST_OF_COMMENTS, INSIDE, LONG_FORMS, MAKERS, OF_LINES, REFUSED, SUBR, TAB,
                       size_of, statement_of)
from .notation import parts_of as operands_of

WORD = re.compile("[0-7]{4}[bB]?")
SHORT = re.compile("[0-7]{1,4}[bB]?")  # what is a word where zeros before it are left out
# a > marks where words are loaded that are assembled for another place
ADDRESS = re.compile("(>?)(?:00(?=[0-7]{4}))?([0-7]{1,4})[bB]?")
# before each address with words, or first
NUMBERS = re.compile(r"\s*(?:{0}|(?:\S+\s+){{1,2}}{0}\s+{0})(?!\S)".format(">?(?:00)?[0-7]{1,4}[bB]?"))
ALMOST = re.compile(r"(?=(?:\D*\d){2})\S{3,5}|\d\S{0,5}")  # a number that was read wrongly, as 14O5 or 14.5
SPECK = re.compile(r"[^\sA-Za-z0-9*]")
FLAG = re.compile("[A-Z]{1,3}")
NAME = re.compile(r"[^\W\d_][^\s,+\-*/^\"()_]*:?|[.#%@&!?<>\[\];\\'][^\s,+\-*/^\"()_]*:?")
MOST_BEFORE = 2  # numbers before an address: a carriage control and a line number
FIRST_OF_OPERATIONS = 2  # the first column of a source line in which an operation may begin
USUAL = 6  # the first column of an operation behind a label, if it is one that is not known
MOST_OTHERS = 8  # one line of so many may have its fields in other columns
OPERATIONS = frozenset((*CODES, *DIRECTIVES, *BLOCKS, *INSIDE, *OF_LINES, *REFUSED, SUBR))
WITH_WORDS = frozenset((*CODES, *MAKERS, *LONG_FORMS, SUBR, "LIT"))


class Token(NamedTuple):
    """A word of a line and the columns where it begins and ends, counted from 0."""

    text: str
    start: int
    end: int

    @property
    def address(self) -> Optional[int]:
        """Its number, if it is an address; else None."""
        found = ADDRESS.fullmatch(self.text)
        return int(found[2], 8) if found else None

    @property
    def is_load(self) -> bool:
        return self.text.startswith(">")

    @property
    def has_digit(self) -> bool:
        return any(map(str.isdigit, self.text))

    @property
    def end_of_digits(self) -> int:
        return self.start + len(self.text.rstrip("bB"))


class Columns(NamedTuple):
    """The columns, counted from 0, at which addresses, words and source lines begin; and where the digits of addresses end, if all
    end in one column."""

    address: int
    words: int
    text: int
    end: Optional[int] = None

    @classmethod
    def parse(cls, text: str) -> "Columns":
        """Returns the columns of an option A,W,T, decimal and counted from 1."""
        parts = text.split(",")
        if len(parts) != 3 or not all(re.fullmatch("[1-9][0-9]{0,3}", part) for part in parts):
            raise Failure(f"{text} is not three columns, as 1,7,24 (decimal)")
        columns = cls(*(int(part) - 1 for part in parts))
        if not columns.address < columns.words < columns.text:
            raise Failure(f"of the columns {text} one is not after the one before")
        return columns

    @property
    def shown(self) -> str:
        return f"{self.address + 1},{self.words + 1},{self.text + 1}"


class Run(NamedTuple):
    """What a line is if its address is this token: its first cell and the one after its words, these, and what follows them."""

    token: Token
    first: int
    after: int
    words: List[Token]
    text: Optional[Token]


class Parts(NamedTuple):
    """The parts of a line: all of it; the error flag; the address, and that to which the words are loaded; what is in the place of
    the words; the source line, the column at which it begins, and whether that is the column of source lines; and the fields of the
    source line: the operand has the comment after it, and the statement is the line without its label, in the columns of
    sources."""

    line: str
    flag: Optional[Token]
    address: Optional[Token]
    load: Optional[Token]
    words: List[Token]
    text: str
    column: int
    is_aligned: bool
    label: str = ""
    operation: str = ""
    operand: str = ""
    statement: str = ""

    @property
    def source(self) -> str:
        """The source line in the columns of sources."""
        label, rest = f" {self.label}" if self.label else "", self.statement
        return f"{label}{rest[len(label):]}" if not rest[:len(label) + 1].strip() else f"{label} {rest.lstrip()}"

    @property
    def shown(self) -> str:
        """The source line in its own columns, if it begins where all do."""
        return (self.text if self.is_aligned else f" {self.label:8} {self.operation:6} {self.operand}").rstrip()

    @property
    def expression(self) -> str:
        """The operand without its comment."""
        return ",".join(operands_of(statement_of(self.source).operand))

    @property
    def starts(self) -> List[int]:
        """The columns of the words of the source line, counted from its own first one, if it begins where all do."""
        return [found.start() for found in re.finditer(r"\S+", self.text)] if self.is_aligned else []


@functools.lru_cache(maxsize=1 << 13)
def tokens_of(line: str) -> List[Token]:
    return [Token(found[0], found.start(), found.end()) for found in re.finditer(r"\S+", line)]


def is_operation(word: str) -> bool:
    return word.upper() in OPERATIONS


def is_flag(text: str) -> bool:
    return FLAG.fullmatch(text) is not None and not is_operation(text)


def is_note(line: str) -> bool:
    return line.lstrip().startswith("*")


# -- which columns

def run_from(tokens: Sequence[Token], at: int) -> Optional[Run]:
    """Returns what a line is if its address is the token there; None if that is no address."""
    if at >= len(tokens) or tokens[at].address is None or at and tokens[at].is_load and tokens[at - 1].address is not None:
        return None
    load = at + any(token.is_load and token.address is not None for token in tokens[at + 1:at + 2])
    words, first = list(takewhile(lambda token: SHORT.fullmatch(token.text), tokens[load + 1:])), tokens[load].address or 0
    return Run(tokens[at], first, first + len(words), words, next(iter(tokens[load + 1 + len(words):]), None))


def first_runs(lines: Iterable[List[Token]]) -> List[Run]:
    """Returns the lines that begin with an address."""
    return [run for tokens in lines if (run := run_from(tokens, 0))]


def with_words(runs: Iterable[Run]) -> List[Run]:
    return [run for run in runs if run.words]


def continuity(runs: Iterable[Run]) -> int:
    """Returns how many lines with words begin where those of the line before end."""
    coded = with_words(runs)
    return sum(one.after == other.first for one, other in zip(coded, coded[1:]))


def order(runs: Sequence[Run]) -> Tuple[int, float, int]:
    """Returns how well the addresses of lines go on: how many do, and, of as many, which part; and how many lines have whole
    words."""
    whole = sum(all(WORD.fullmatch(word.text) for word in run.words) for run in with_words(runs))
    return continuity(runs), continuity(runs) / max(len(with_words(runs)), 1), whole


def guessed(texts: Iterable[str]) -> List[Optional[Columns]]:
    """Returns the columns of a listing, None if its lines have none in common; and others that it has if it leaves addresses
    out."""
    lines = [tokens_of(text) for text in texts]
    plain = first_runs(lines)
    every = [run for tokens in lines for at in range(MOST_BEFORE + 1) if (run := run_from(tokens, at))]
    ends = sorted({run.token.end_of_digits for run in with_words(every)})
    found = [([run for run in every if run.token.end_of_digits == end], end) for end in ends]
    runs, end = max(found, key=lambda pair: order(pair[0]), default=([], 0))
    first = columns_of(runs, end) if order(runs) > order(plain) or are_aligned(plain, end) else None
    others = [columns for columns in (columns_of(runs, end) for runs, end in found[:MOST_BEFORE]) if columns and columns != first]
    return [first, *others]


def few(others: int, all_: int) -> bool:
    """Returns whether so few lines are otherwise that the rest decide: one, or one of eight."""
    return others <= max(1, all_ // MOST_OTHERS)


def are_aligned(plain: Sequence[Run], end: int) -> bool:
    """Returns whether the addresses that lines begin with end in a column: those of lines with words, if several have some."""
    several = with_words(plain) if len(with_words(plain)) > 1 else plain
    others = sum(run.token.end_of_digits != end for run in several)
    return others < len(several) and few(others, len(several))


def first_of(columns: Sequence[int]) -> int:
    """Returns the first column; the next one if a single line begins in the first, as one that has lost a sign before it."""
    first = min(columns)
    return first + 1 if columns.count(first) == 1 and first + 1 in columns else first


def columns_of(runs: Sequence[Run], end: int) -> Optional[Columns]:
    """Returns the columns of lines whose addresses end in one; None if the source lines of some begin where others have words."""
    coded = with_words(runs)
    last_word = max((word.start for run in coded for word in run.words), default=0)
    early = sum(run.text is not None and run.text.start <= last_word for run in coded)
    if not coded or early and not few(early, len(coded)):
        return None
    texts = [run.text.start for run in runs if run.text and run.text.start > last_word]
    return Columns(first_of([run.token.start for run in coded]), first_of([run.words[0].start for run in coded]),
                   first_of(texts) if texts else last_word + TAB, end)


# -- the parts of a line

def all_parts(lines: Sequence[str], columns: Optional[Columns]) -> List[Parts]:
    """Returns the parts of each line. Without columns the first number of a line is a word, if many lines leave their addresses
    out."""
    found = list(with_synonyms(with_fields(parts_of(line, columns)) for line in lines))
    words_alone = [parts._replace(address=None, words=[parts.address, *parts.words])
                   if not columns and parts.address and not parts.flag and len(parts.words) + 1 == count_of_words(parts) else parts
                   for parts in found]
    others = sum(one is not other for one, other in zip(found, words_alone))
    return found if few(others, sum(bool(parts.words) for parts in words_alone)) else words_alone


def with_synonyms(every: Iterable[Parts]) -> Iterator[Parts]:
    """Yields the parts of lines, with the names of operations for those that OPSYN gives them."""
    names: Dict[str, str] = {}
    for parts in every:
        if parts.operation in names:
            own = names[parts.operation]
            at = parts.statement.upper().find(parts.operation)
            parts = parts._replace(operation=own,
                                   statement=f"{parts.statement[:at]}{own}{parts.statement[at + len(parts.operation):]}")
        elif parts.operation == "OPSYN" and is_operation(parts.expression):
            names[parts.label.upper()] = parts.expression
        yield parts


def count_of_words(parts: Parts) -> int:
    """Returns how many words a line must have: as its instruction has, or its CON; one if it has words alone. 0 if that is not
    known."""
    operands = len(operands_of(parts.expression)) if parts.operation == "CON" else not parts.statement.strip()
    return size_of(CODES[parts.operation]) if parts.operation in CODES else operands


def parts_of(line: str, columns: Optional[Columns]) -> Parts:
    tokens = tokens_of(line)
    at = place_of_address(tokens, columns)
    flag = next((token for token in tokens[:at] if is_flag(token.text)), None)
    if tokens[at + 1:] and is_flag(tokens[at].text) and tokens[at + 1].address is not None:
        flag, at = tokens[at], at + 1
    address = tokens[at] if at < len(tokens) and is_in_columns(tokens[at], columns) else None
    after = at + (address is not None)
    load = address if address and address.is_load else None
    if address and not load and tokens[after:] and tokens[after].is_load:
        load, after = tokens[after], after + 1
    words = words_of(tokens[after:], columns)
    rest = tokens[after + len(words):]
    start = columns.text if columns else len(line)
    start = max([min([start, *(token.start for token in rest[:1])]), *(word.end for word in words)])
    is_before = columns is not None and start == columns.text - 1
    is_aligned = columns is not None and start in (columns.text - 1, columns.text)
    return Parts(line, flag, address, load, words, line[start:], start + is_before, is_aligned)


def place_of_address(tokens: Sequence[Token], columns: Optional[Columns]) -> int:
    """Returns which token may be the address: the first one, or the first one that is in the columns of addresses."""
    if not columns:
        return 0
    end = columns.address if columns.end is None else columns.end
    return next((at for at, token in enumerate(tokens) if token.end > columns.address and token.end >= end - 1), len(tokens))


def is_in_columns(token: Token, columns: Optional[Columns]) -> bool:
    """Returns whether a token is in the place of an address; without columns each that is almost a number is."""
    if columns:
        return token.has_digit and token.start < (columns.words - 1 if columns.end is None else columns.end)
    return token.is_load or token.address is not None or ALMOST.fullmatch(token.text) is not None


def words_of(tokens: Sequence[Token], columns: Optional[Columns]) -> List[Token]:
    """Returns the first tokens that are numbers, or were: those before the column of source lines, or else up to a label or an
    operation. One that lost a digit moves the source line to the left."""
    texts = [*(token.text for token in tokens), "", ""]
    others = (at for at, token in enumerate(tokens) if columns and token.start >= columns.text - (not token.text[0].isdigit())
              or not is_almost_word(token.text, texts[at + 1], texts[at + 2], columns is not None))
    return list(tokens[:next(others, len(tokens))])


def is_almost_word(text: str, after: str, second: str, has_columns: bool) -> bool:
    """Returns whether a token is a number, or was one. Without columns one that begins with a letter is a label, unless such a one
    follows."""
    if SPECK.fullmatch(text):
        return after[:1].isdigit()
    is_label = not has_columns and not text[0].isdigit() and not (is_operation(second) and not is_operation(after))
    return ALMOST.fullmatch(text) is not None and not is_label


# -- the fields of a source line

def with_fields(parts: Parts) -> Parts:
    """Returns the parts of a line with the fields of its source line. A + or - in place of a label is in the statement."""
    if not parts.text.strip() or parts.starts and parts.starts[0] >= FIRST_OF_COMMENTS:
        return parts
    sign = parts.text.lstrip()[:2].strip() if parts.text.lstrip()[:2] in ("+ ", "- ") else ""
    label = sign or label_of(parts.text.split(), parts)
    _, _, rest = parts.text.lstrip().partition(label) if label else ("", "", parts.text)
    operation, *operand = rest.lstrip(":").split(None, 1) or [""]
    blanks = max(len(parts.text) - len(rest.lstrip(" :")), FIRST_OF_OPERATIONS)  # before the operation
    statement = f"{'':{blanks}}{rest.lstrip(' :')}" if parts.is_aligned else f"          {operation:6} {''.join(operand)}"
    return parts._replace(label="" if sign else label, operation=operation.upper(), operand="".join(operand),
                          statement=f" {sign}{statement[2:]}" if sign else statement)


def label_of(words: Sequence[str], parts: Parts) -> str:
    """Returns the label that a source line begins with: it is before an operation, or else is none, has a colon, is alone beside
    words, or is before a comment; in a line whose source line begins where all do, it begins in the first columns, and what follows
    does not."""
    if not words or not NAME.fullmatch(words[0]):
        return ""
    label, after, (start, second) = words[0], next(iter(words[1:]), ""), [*parts.starts, 0, USUAL][:2]
    is_before_operation = is_operation(after)
    if start >= FIRST_OF_OPERATIONS:  # in which a label begins only if no operation does
        is_alone = not after and bool(parts.words)
        if start >= USUAL or is_operation(label) or not (is_before_operation or is_alone):
            return ""
    is_alone = not after and bool(parts.words or parts.starts)
    is_before_comment = after != "" and not after[0].isalnum()
    is_before_macro = parts.is_aligned and second >= USUAL
    is_likely = is_alone or is_before_comment or is_before_macro or label.endswith(":")
    return label.rstrip(":") if is_before_operation or is_likely and not is_operation(label) else ""
