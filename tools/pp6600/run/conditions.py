"""Conditions on the machine, as P 0 = 105 and PP 3 waits: how they are read, and the tests that the engines judge.

A condition is alternatives joined by *or*, each of tests joined by *and*. A test is one form of the engines, or several of which
one must hold, as a channel changes if its state or its register does. Two kinds of tests are more than a turn: a processor waits if
its latest turn was a wait, so `PP 1 waits and PP 2 waits` can hold; and a subroutine returns wrongly only after it was called."""

from __future__ import annotations

import re
from itertools import product
from typing import Any, Callable, Iterable, List, NamedTuple, Optional, Sequence, Tuple, Union

from ..engine import interface as flat
from ..engine.interface import CHANGES, INSIDE, MOST_TESTS, OR, OUTSIDE, PERFORMS, WRITES, Form
from ..failure import Failure
from .forms import CLOCK, KINDS, PROCESSORS, REGISTERS, STATES, Place, octal
from .names import AllSymbols
from .session import Session

FORM = ("a condition is PLACE = 105 (also != < > <= >=), PLACE outside 100 117, PLACE inside 100 117, PLACE changes or is written, "
        "M 0 100 117 changes or is written, H 12 is F, H 12 changes state, PP 3 performs 105, PP 3 waits, PP 3 in a block, "
        "PP 3 not in a block or PP 3 returns wrongly; conditions are joined by and, and these by or")
GREATEST = (1 << 64) - 1
# Of each comparison the kind of its form, and the ends of the range for a number, or for two: None is the number.
COMPARISONS = {"=": (INSIDE, None, None), "!=": (OUTSIDE, None, None), "<=": (INSIDE, 0, None), ">=": (INSIDE, None, GREATEST),
               "<": (OUTSIDE, None, GREATEST), ">": (OUTSIDE, 0, None), "inside": (INSIDE, None, None),
               "outside": (OUTSIDE, None, None)}
OF_A_PROCESSOR = ("M", "A", "P", "Q")
NAMED = ("M", "C", "H")  # kinds of which a place may have a name for its last number
STATE_OF_CLOCK = "F"
Numbers = List[Tuple[str, str]]  # names, with digits


class Column(NamedTuple):
    """Numbers of the machine that are shown together: a place, or some cells from it on."""

    place: Place
    size: int = 1

    def shown(self, run: Session) -> Numbers:
        """Returns what is shown of them as they are: names and digits, and of a channel the state too."""
        first = self.place.number
        found = [(Place.at(place).text, f"{number:0{self.place.digits}o}")
                 for place, number in enumerate(run.engine.numbers(first, self.size), first)]
        if self.place.kind == "H" and self.place.numbers[0] < CLOCK:
            (state,) = run.engine.numbers(flat.STATES + self.place.numbers[0], 1)
            found = [(name, f"{STATES[state]} {digits}") for name, digits in found]
        return found


class Test(NamedTuple):
    """A test: forms of which one must hold, and the numbers that are shown."""

    forms: Tuple[Form, ...]
    column: Optional[Column] = None


class Waits(NamedTuple):
    """Whether the latest turn of a processor was a wait. A setting is no turn."""

    number: int


class Returns(NamedTuple):
    """Whether a subroutine of a processor returns to another address than its RJM stored. The entries are the cells of return
    addresses."""

    number: int
    entries: Tuple[int, ...]

    @property
    def column(self) -> Column:
        return column_at("P", self.number)


AnyTest = Union[Test, Waits, Returns]
Make = Callable[[Any, List[str], Any], AnyTest]  # of a place or a processor and the words of a form, with the symbols


class Alternative:
    """Tests that must hold together."""

    def __init__(self, tests: Sequence[AnyTest]) -> None:
        self.tests = tests
        self.waits = [test.number for test in tests if isinstance(test, Waits)]  # the processors that must wait
        self.returns = [test for test in tests if isinstance(test, Returns)]
        others = [test.forms for test in tests if isinstance(test, Test)]
        # the alternatives of the others, for the engines
        self.forms = [list(forms) for forms in product(*others)] if others else []


class Condition:
    """Alternatives, of which one must come to hold."""

    def __init__(self, alternatives: Iterable[Sequence[AnyTest]]) -> None:
        self.alternatives = list(map(Alternative, alternatives))
        columns = [test.column for one in self.alternatives for test in one.tests if not isinstance(test, Waits) and test.column]
        self.columns = list(dict.fromkeys(columns))  # those that are shown

    @property
    def remembers(self) -> bool:
        """Whether what came before matters, so that a search begins with the first turn."""
        return any(one.returns for one in self.alternatives)


def joined(alternatives: Iterable[Sequence[Form]]) -> Tuple[Form, ...]:
    """Returns the forms of some alternatives, as the engines have a condition."""
    found: List[Form] = []
    for forms in alternatives:
        found += [Form(OR), *forms] if found else forms
    return tuple(found)


# ---- the tests

def is_number(column: Column, first: int, last: int, kind: int = INSIDE, place: Optional[int] = None) -> Test:
    """Returns the test of a number, the first one of a column, or that at another place."""
    return Test((Form(kind, column.place.number if place is None else place, first, last),), column)


def changes(column: Column, with_state: bool = False, with_number: bool = True) -> Test:
    """Returns the test whether numbers have changed. Of a channel it is its state, its number, or both."""
    state = [Form(CHANGES, flat.STATES + column.place.numbers[0], 1)] if with_state else []
    return Test((*state, *([Form(CHANGES, column.place.number, column.size)] if with_number else [])), column)


def is_written(place: int, count: int = 1) -> Form:
    return Form(WRITES, place, count)


def written(column: Column) -> Test:
    """Returns the test whether one of some places is written."""
    return Test((is_written(column.place.number, column.size),), column)


# ---- what is typed

def parsed(text: str, symbols: Any = AllSymbols(), own: Optional[int] = None) -> Condition:
    """Returns the condition of a text. An address may be a label of its processor, which may be left out if it is the own one."""
    condition, rest = first_of(text.split(), symbols, own)
    if rest:
        raise located(Failure(f"{' '.join(rest)} is too much: {FORM}"), text.split(), rest)
    return condition


def located(failure: Failure, words: Sequence[str], rest: Sequence[str]) -> Failure:
    """Returns what is wrong with the words of a condition, of which these are left, with the column (decimal) of the word that it
    begins with, or else of the first one left."""
    wrong = str(failure).split()[0]
    at = len(words) - len(rest) + (rest.index(wrong) if wrong in rest and str(failure) != FORM else 0)
    return Failure(f"{failure}, at column {len(' '.join([*words[:at], '']) if at else '') + 1}")


def first_of(words: List[str], symbols: Any = AllSymbols(), own: Optional[int] = None) -> Tuple[Condition, List[str]]:
    """Returns the condition that the words begin with, and the words after it."""
    alternatives: List[List[AnyTest]] = []
    given, words = words, ["or", *words]
    while words and words[0].lower() in ("or", "and"):
        if words[0].lower() == "or":
            alternatives.append([])
        try:
            if len(alternatives[-1]) == MOST_TESTS:
                raise Failure(f"at most {MOST_TESTS:o} tests are joined by and")
            test, words = first_test(words[1:], symbols, own)
        except Failure as failure:
            raise located(failure, given, words[1:]) from None
        alternatives[-1].append(test)
    return Condition(alternatives), words


def in_full(words: List[str], symbols: Any, own: Optional[int]) -> List[str]:
    """Returns the words that begin with a place, with what may be left out: the own processor, and M and the processor before a
    label."""
    kind = words[0].upper() if words else ""
    if kind not in KINDS:
        cell = symbols.cell(words[0], own) if words else None
        if cell is None and words and symbols.near(own, words[0]):
            raise symbols.not_known(own, words[0])
        return words if cell is None else ["M", *(f"{number:o}" for number in cell), *words[1:]]
    if own is None or kind not in OF_A_PROCESSOR:
        return words
    given = [bool(re.fullmatch("[0-7]+", word)) or symbols.address(own, word) is not None for word in words[1:3]]
    is_left_out = given[:1] == [True] and given[1:] != [True] if kind == "M" else given[:1] != [True]
    return [kind, f"{own:o}", *words[1:]] if is_left_out else words


def first_place(words: List[str], symbols: Any, also: Sequence[str] = (), own: Optional[int] = None) -> Tuple[Place, List[str]]:
    """Returns the place that the words begin with, and the words after it. A label may be in the place of an address, and a name in
    that of a channel. Places of the kinds `also` are allowed too. The own processor may be left out, and before a label M too."""
    words = words if words[:1] and words[0].upper() in also else in_full(words, symbols, own)
    kind, at = words[0].upper() if words else "", 1
    number = processor = None
    if kind == "M" and len(words) > 2 and re.fullmatch("[0-7]+", words[1]):
        processor, at = int(words[1], 8), 2
        number = symbols.address(processor, words[2])
    elif kind in ("C", "H") and len(words) > 1 and not re.fullmatch("[0-7]+", words[1]):
        number = symbols.number(words[1])
    if number is None and kind in NAMED and at < len(words) and not re.fullmatch("[0-7]+", words[at]):
        raise symbols.not_known(processor, words[at])
    words = words if number is None else [*words[:at], f"{number:o}", *words[at + 1:]]
    return Place.first_of(words, also)


def first_test(words: List[str], symbols: Any, own: Optional[int] = None) -> Tuple[AnyTest, List[str]]:
    """Returns the test that the words begin with, and the words after it."""
    if words[:1] and words[0].upper() == "PP":
        return processor_test(words, symbols)
    if not words:
        raise Failure(FORM)
    place, rest = first_place(words, symbols, own=own)
    return made([(form, make) for kinds, form, make in OF_A_PLACE if not kinds or place.kind == kinds], place, rest, symbols)


def made(forms: Iterable[Tuple[str, Make]], of: Any, words: List[str], symbols: Any) -> Tuple[AnyTest, List[str]]:
    """Returns the test of the first form that the words begin with, of a place or a processor, and the words after it."""
    for form, make in forms:
        size = len(form.split())
        if len(words) >= size and all(one in ("*", word.lower()) for one, word in zip(form.split(), words)):
            return make(of, words[:size], symbols), words[size:]
    raise Failure(FORM)


def processor_test(words: List[str], symbols: Any) -> Tuple[AnyTest, List[str]]:
    """Returns the test of a processor, and the words after it."""
    if len(words) < 3:
        raise Failure(FORM)
    number, rest = octal(words[1]), words[2:]
    if number >= PROCESSORS:
        raise Failure(f"{words[1]} is no processor: it is 0 to {PROCESSORS - 1:o}")
    kind = rest[rest[0].lower() == "not":][:1]
    if kind and kind[0].upper() in REGISTERS:
        meant = " ".join((kind[0].upper(), f"{number:o}", *("=" if word.lower() == "is" else word for word in words[3:5])))
        raise Failure(f"PP {number:o} comes before performs, waits, in a block and returns wrongly; for a register write {meant}")
    return made(OF_A_PROCESSOR_ALONE, number, rest, symbols)


def cells(place: Place, words: Sequence[str], symbols: Any) -> Column:
    """Returns the cells from a place to the address that words begin with."""
    last = number_of(words[0], place, symbols)
    if last < place.numbers[1]:
        raise Failure(f"{words[0]} is before the first cell of {place.short}")
    return column_of(place)._replace(size=last - place.numbers[1] + 1)


def comparison(place: Place, words: Sequence[str], symbols: Any) -> Test:
    """Returns the test of a number, whose words are a comparison with one or two."""
    numbers, (of, *ends) = [number_up_to(text, place, symbols) for text in words[1:]], COMPARISONS[words[0].lower()]
    column, (first, last) = column_of(place), (number if end is None else end
                                               for number, end in zip((numbers[0], numbers[-1]), ends))
    if first > last:
        raise Failure(f"{first:o} is over {last:o}")
    return Test((Form(of, place.number, first, last),), column)


def returns(number: int, _: Sequence[str], symbols: Any) -> Returns:
    """Returns the test whether a subroutine of a processor returns wrongly."""
    entries = symbols.of[number].entries() if number in symbols.of else {}
    if not entries:
        raise Failure(f"PP {number:o} returns wrongly needs labels of a subroutine: NAMEX, and NAME at the cell after it")
    return Returns(number, tuple(entries.values()))


def state_test(place: Place, words: Sequence[str], _: Any) -> Test:
    """Returns the test of the state of a channel."""
    letter = words[1].upper() if len(words) > 1 else ""
    if len(letter) != 1 or letter not in STATES:
        raise Failure(f"a channel is {', '.join(STATES[:-1])} or {STATES[-1]}")
    wanted = STATES.index(letter)
    if place.numbers[0] == CLOCK:  # whose state is always F
        return is_number(Column(place), 0, GREATEST) if letter == STATE_OF_CLOCK else never(place)
    return is_number(column_of(place), wanted, wanted, INSIDE, flat.STATES + place.numbers[0])


def never(place: Place) -> Test:
    """Returns a test that never holds."""
    return is_number(Column(place), 0, GREATEST, OUTSIDE)


def column_at(kind: str, number: int) -> Column:
    return Column(Place(kind, (number,)))


def column_of(place: Place) -> Column:
    """Returns the column of a place, if the machine has it; of a central word it depends on the machine."""
    if place.kind == "H" and place.numbers[0] > CLOCK:
        raise Failure(f"{place.short} is no channel: it is 0 to {CLOCK:o}")
    if not place.exists:
        raise Failure(f"there is no {place.short}")
    return Column(place)


def number_of(text: str, place: Place, symbols: Any) -> int:
    """Returns a number beside a place. It may be a label or another name, of the processor if the place is of one."""
    processor = place.numbers[0] if place.kind in OF_A_PROCESSOR else None
    if re.fullmatch("[0-7]+", text):
        return octal(text)
    named = symbols.number(text) if processor is None else symbols.address(processor, text)
    if named is None:
        raise symbols.not_known(processor, text)
    return int(named)


def number_up_to(text: str, place: Place, symbols: Any) -> int:
    """Returns a number that may be at a place."""
    number = number_of(text, place, symbols)
    if number >= 8 ** place.digits:
        raise Failure(f"{text} is more than {place.short} can be")
    return number


# The forms of a test after a place: the kind of the place, or any; the words, where * is one word; and what makes the test.
OF_A_PLACE: Sequence[Tuple[str, str, Make]] = (
    ("M", "* changes", lambda *given: changes(cells(*given))), ("M", "* is written", lambda *given: written(cells(*given))),
    ("", "is written", lambda place, *_: written(column_of(place))),
    ("H", "changes state", lambda place, *_: never(place) if place.numbers[0] == CLOCK else changes(column_of(place), True, False)),
    ("", "changes", lambda place, *_: changes(column_of(place))),
    ("H", "is *", state_test), ("H", "is", state_test),
    *(("", f"{name} *{' *' * (name in ('inside', 'outside'))}", comparison) for name in COMPARISONS))
# The same after PP and the number of a processor.
OF_A_PROCESSOR_ALONE: Sequence[Tuple[str, Make]] = (
    ("waits", lambda number, *_: Waits(number)), ("returns wrongly", returns),
    ("performs *", lambda number, words, symbols: is_number(
        column_at("P", number), number_up_to(words[1], column_at("P", number).place, symbols), 0, PERFORMS, number)),
    ("in a block", lambda number, *_: is_number(column_at("PHASE", number), 0, 0, OUTSIDE)),
    ("not in a block", lambda number, *_: is_number(column_at("PHASE", number), 0, 0)))
