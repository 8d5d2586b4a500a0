"""The flat source of a listing, changed until the assembler takes it and has it where the printed addresses say: names that the
listing does not define get the numbers of the words beside them, and what the assembler does not take is as it is printed."""

import re
from collections import Counter
from typing import Callable, Iterator, Optional, Tuple

from ..failure import Failure
from ..run.forms import CELLS
from ..run.turn import RELATIVE_JUMPS
from .flat_source import NAMING, NOWHERE, TURNING, FlatSource, Known, Statement
from .notation import CODES, SYMBOL, statement_of
from .program import fields_in

UNDEFINED = re.compile(r"(\S+) is not defined")
MOST_TIMES, MOST_LINES = 40, 400000  # how often a source is assembled, if it has so few lines that these are not more
MOST_STATEMENTS = 40000  # of a listing
D = 0o77
Said = Iterator[Tuple[int, int]]  # how many bits a field has, and the number that it says for a name


def settle(source: FlatSource) -> None:
    """Changes the statements of a source until nothing is left to change. Fails if there are more than 40,000 (decimal)."""
    if len(source.statements) > MOST_STATEMENTS:
        raise Failure(f"the listing has more than {MOST_STATEMENTS} (decimal) lines with statements")
    for _ in range(min(MOST_TIMES, MOST_LINES // max(len(source.statements), 1) + 2)):
        faults = source.assemble()
        undefined = [found[1] for found in (UNDEFINED.match(text) for _, text in faults) if found and SYMBOL.fullmatch(found[1])]
        names = [name for name in dict.fromkeys(undefined) if name not in source.known and name not in source.open]
        if names:
            source.known.update(dict.fromkeys(names, Known(0)))
            source.assemble()
            for name in names:
                find(source, name)
        elif faults:
            for one, text in faults:
                answer(source, one, text)
        elif not (begin_words(source) or move(source) or place_calls(source) or take_values(source)):
            return


def answer(source: FlatSource, one: Statement, text: str) -> None:
    """Changes a statement that the assembler does not take. Of a label that is there twice nothing is known, but for that of a
    call."""
    if "is defined twice" not in text:
        if one.name in (*TURNING, "BSS"):
            after = source.statements.index(one) + 1
            source.statements[min(after, len(source.statements) - 1)].is_free = True
        one.refuse()
        return
    others = [other for other in source.statements if other.label.upper() == one.label.upper()]
    calls = [other for other in others if other.is_call][:1]
    source.open |= set() if calls else {one.label.upper()}
    for other in calls or others:
        _, name, operand = statement_of(other.text)
        other.text, other.label = "" if other.is_call else f"  {name} {operand}", ""


# -- names

def find(source: FlatSource, name: str) -> None:
    """Finds the number of a name: the most frequent one that the widest fields say. If none does, what has the name is as it is
    printed."""
    found = sorted(numbers_of(source, name, 0), key=lambda one: (-one[0], one[2].first.number))
    del source.known[name]
    if found:
        number, _ = Counter(number for bits, number, _ in found if bits == found[0][0]).most_common(1)[0]
        source.known[name] = Known(number, min(one.first.number for _, other, one in found if other == number), len(found))
    else:
        source.open.add(name)


def numbers_of(source: FlatSource, name: str, value: int) -> Iterator[Tuple[int, int, Statement]]:
    """Yields the numbers that the printed words say for a name, which has had this value: each with the size of its field, and its
    statement."""
    for one in source.users().get(name, ()):
        if one.is_told and one.row is not NOWHERE:
            said = said_by(one, re.compile(rf"{re.escape(name)}(?=$|[-+])").match, value)
            yield from ((bits, number, one) for bits, number in said)


def said_by(one: Statement, begins: Callable[[str], object], value: int) -> Said:
    """Yields what a statement says for a name, with which its operands begin."""
    words, code, row = [word or 0 for word in one.words], CODES.get(one.name), one.row
    operand = statement_of(one.text).operand.split(" ")[0]
    if one.name in NAMING and one.value is not None and row.value is not None and begins(operand):
        yield 1, value + one.value - row.value
    if None in one.words or len(words) != len(row.words) and code not in RELATIVE_JUMPS:
        return
    if code in RELATIVE_JUMPS and words and SYMBOL.fullmatch(operand) and begins(operand):
        place, d = row.location if one.first.address is None else one.first.address, words[0] & D
        yield 12, (place + (d if d < 0o40 else d - D)) % CELLS
    elif code not in RELATIVE_JUMPS:
        for (printed, bits, text), (made, _, _) in zip(fields_in(one.text, words), fields_in(one.text, row.words)):
            full = (1 << bits) - 1
            if begins(text):
                yield bits, (value + printed - (made - full if made > full // 2 > value else made)) % (full + 1)


# -- addresses and words

def begin_words(source: FlatSource) -> bool:
    """Lets each VFD of a run begin a word, as with other assemblers, if not as many words are printed as are made. Returns whether
    one does."""
    for one in source.statements:
        if "\n " in one.text and len(one.words) != len(one.row.words):
            has_words = [bool(piece.words) for piece in one.pieces if piece.parts.operation == "VFD"]
            lines = one.text.split("\n")
            one.text = "\n".join([lines[0], *(f"{'+' if has else '-'}{line[1:]}" for has, line in zip(has_words[1:], lines[1:]))])
            return True
    return False


def move(source: FlatSource) -> bool:
    """Moves the first statement from which on the printed addresses are elsewhere. If the next address is right, this one is read
    wrongly. Returns whether there is one."""
    for at, one in enumerate(source.statements):
        if one.shift:
            after = after_place(source, at)
            is_alone = not one.is_free if not after or after.name in TURNING else not after.shift
            if not is_alone:
                if not one.is_free:
                    say_place(source, one)
                one.before, one.is_free = one.before + one.shift, True
                return True
    return False


def after_place(source: FlatSource, at: int) -> Optional[Statement]:
    """Returns the first statement behind one, by its number, that has an address or moves the counters."""
    others = (source.statements[number] for number in range(at + 1, len(source.statements)))
    return next((other for other in others if other.name in TURNING or other.has_place), None)


def say_place(source: FlatSource, one: Statement) -> None:
    piece, to = one.first, f"{one.row.origin:04o} comes after the line before"
    source.doubt(piece.number, piece.parts.load or piece.parts.address, f"the address goes back: {to}" if one.shift < 0 else
                 f"a gap: {to}, and no BSS, ORG, LOC or USE says more")


def place_calls(source: FlatSource) -> bool:
    """Takes the label of a macro's call to be where several lines say that it is, if they agree. Returns whether there is such a
    one."""
    for one in source.statements:
        if one.is_call and one.text and one.row is not NOWHERE:
            name = one.label.upper()
            found = list(numbers_of(source, name, one.row.location))
            if len(found) > 1 and {number for _, number, _ in found} == {found[0][1]} != {one.row.location}:
                one.text, source.known[name] = "", Known(found[0][1], found[0][2].first.number, len(found))
                return True
    return False


def take_values(source: FlatSource) -> bool:
    """Takes a name to have the number that its line has, if its operand says another. Returns whether there is such a one."""
    for one in source.statements:
        value, printed, parts = one.row.value, one.value, one.first.parts
        if (one.name in NAMING and one.is_told and printed is not None and value is not None
            and (value - printed) % CELLS > (value < 0)):
            source.doubt(one.first.number, one.token,
                         f"{one.label} is {value:o}, as {parts.expression} says, and the line has {printed:o}")
            one.refuse()
            return True
    return False
