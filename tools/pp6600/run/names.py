"""What the addresses of processors are called, by listings, lists of symbols and sources."""

from __future__ import annotations

import bisect
import functools
import os
import re
from typing import Any, Dict, Iterable, List, Mapping, NamedTuple, Optional, Sequence, Tuple

from ..failure import Failure
from .forms import CELLS
from .turn import Processor

# from a label to a cell outside the program, if the label is outside too, as that of a buffer or of a list of names
FARTHEST = 0o77
EQUATES = ("=", "EQU")  # before the number of a name that is no label
EXIT = "X"  # at the end of the name of a subroutine's jump back
OF_A_PROCESSOR = ("M", "A", "P", "Q")
BEGINS_NAME = re.compile(r"[^\W\d]")
WITH_PLACES = ("SET", "DUMP", "WATCH", "UNWATCH")
NUMBER = re.compile("(-?[0-7]+)[bB]?")  # a B after a number says that it is octal
MOST_NEAR = 9  # names that are looked at for the nearest


def octal_number(text: str) -> Optional[int]:
    """Returns the number of a word of a listing, as 105 or 105B; None if it is no octal number."""
    digits = NUMBER.fullmatch(text)
    return int(digits[1], 8) if digits else None


class Names:
    """The names of addresses, of which each may have several, and of other numbers."""

    def __init__(self) -> None:
        self.labels: Dict[int, List[str]] = {}  # by address: the names, in their order
        self.equates: Dict[int, List[str]] = {}  # by number

    def add(self, name: str, number: int, is_label: bool = True) -> None:
        names = (self.labels if is_label else self.equates).setdefault(number, [])
        if name not in names:
            names.append(name)

    def firsts(self) -> Dict[int, str]:
        """Returns the first name of each address with a label."""
        return {address: names[0] for address, names in self.labels.items()}

    def number(self, name: str) -> Optional[int]:
        """Returns the number that has a name, in letters of either case; None if none has it."""
        return the_number(name, [number for names in (self.labels, self.equates) for number, own in names.items()
                                 if name.upper() in (one.upper() for one in own)])

    def numbers(self) -> Dict[str, int]:
        """Returns the number of each name."""
        return {name: number for names in (self.equates, self.labels) for number, own in names.items() for name in own}

    def __len__(self) -> int:
        return sum(len(own) for names in (self.labels, self.equates) for own in names.values())


def the_number(name: str, numbers: Iterable[int]) -> Optional[int]:
    """Returns the only one of the numbers that have a name; None if there is none."""
    found = sorted(set(numbers))
    if len(found) > 1:
        raise Failure(f"{name} is the name of {' and of '.join(f'{number:04o}' for number in found)}")
    return found[0] if found else None


def nearest(name: str, names: Iterable[str]) -> str:
    """Returns the name that may be meant by one that is not known, as the assembler finds it: of the nearest ones that which begins
    alike the longest; nothing if none is near."""
    import difflib  # few names are wrong
    near = difflib.get_close_matches(name.upper(), sorted(set(names)), MOST_NEAR)
    return max(near, key=lambda one: len(os.path.commonprefix([one, name.upper()])), default="")


class AddressNames:
    """What the addresses of one processor are called."""

    is_source = False  # which is loaded

    def __init__(self, names: Names, cells: Iterable[int]) -> None:
        """The cells of the program belong to the label before them, however far it is."""
        self.names, self.cells = names, frozenset(cells)

    @functools.cached_property
    def labels(self) -> Dict[int, str]:
        return self.names.firsts()

    @functools.cached_property
    def addresses(self) -> List[int]:
        return sorted(self.labels)

    def name(self, address: int, farthest: Optional[int] = None) -> str:
        """Returns an address by the nearest label before it, as START+3; if there is none, a name of this number, if any. Outside
        the program a label counts that is outside too, and near."""
        at = bisect.bisect_right(self.addresses, address) - 1
        label = self.addresses[at] if at >= 0 else -CELLS
        distance, most = address - label, (0 if label in self.cells else FARTHEST) if farthest is None else farthest
        if at < 0 or distance > most and address not in self.cells:
            return self.names.equates.get(address, [""])[0]
        return f"{self.labels[label]}{f'+{distance:o}' if distance else ''}"

    def address(self, name: str) -> Optional[int]:
        """Returns the number that has a name; None if none has it."""
        return self.names.number(name)

    def entries(self) -> Dict[int, int]:
        """Returns the cells of return addresses of its subroutines, by the addresses of their jumps back: NAME is such a cell if
        NAMEX is the one before it."""
        return {address: address + 1 for address, names in self.names.labels.items()
                if any(name + EXIT in names for name in self.names.labels.get(address + 1, ()))}

    def beside(self, address: int, words: Sequence[int]) -> str:
        """Returns the line of a source whose instruction is in a cell, or was; nothing without a source."""
        return ""

    def is_loaded(self, address: int, word: int) -> bool:
        """Returns whether a cell may have the word with which it was loaded."""
        return True

    def loading(self, number: int) -> Sequence[str]:
        """Returns the lines that load a source into a processor; none without a source."""
        return []


class AllSymbols(NamedTuple):
    """The symbols of some processors."""

    of: Mapping[int, Any] = {}  # by processor its symbols, or its source

    def name(self, processor: int, address: int) -> str:
        """Returns an address of a processor as START+3; nothing if no label is near."""
        symbols = self.of.get(processor)
        return str(symbols.name(address)) if symbols else ""

    def tables(self) -> Dict[int, Dict[str, Any]]:
        """Returns for each processor with symbols the names of its addresses, and the texts of its lines with their words."""
        return {number: {"names": {address: name for address in range(CELLS) if (name := symbols.name(address))},
                         "texts": symbols.texts()}
                for number, symbols in self.of.items()}

    def address(self, processor: int, text: str) -> Optional[int]:
        """Returns the address of a label of a processor, as START or START+3; None if there is no such label. A name of another
        number serves too."""
        if processor not in self.of:
            return None
        label, _, more = text.partition("+")
        number: Optional[int] = self.of[processor].address(label)
        distance = octal_number(more or "0")
        if distance is None or number is None:
            return None
        return (number + distance) % CELLS if number < CELLS else number + distance

    def number(self, text: str) -> Optional[int]:
        """Returns the number that a name has, of whichever processor it is; None if there is no such name."""
        return the_number(text, [number for processor in self.of if (number := self.address(processor, text)) is not None])

    def near(self, processor: Optional[int], text: str) -> str:
        """Returns the name of a processor, or of any, that may be meant by a word that is none; nothing if none is near, or the
        word is one."""
        name, known = text.partition("+")[0], [one for number, symbols in self.of.items() if processor in (None, number)
                                               for one in symbols.names.numbers()]
        is_wrong = BEGINS_NAME.match(text) and name.upper() not in (one.upper() for one in known)
        return nearest(name, known) if is_wrong else ""

    def not_known(self, processor: Optional[int], text: str) -> Failure:
        """Returns what is wrong with a word that is no octal number and no name, of a processor or of any."""
        near = self.near(processor, text)
        has_names = any(processor in (None, number) for number in self.of) and BEGINS_NAME.match(text) and "+" not in text
        return Failure(f"{text} is no name; the nearest is {near}" if near else f"{text} is no name" if has_names
                       else f"{text} is not octal")

    def cell(self, text: str, own: Optional[int]) -> Optional[Tuple[int, int]]:
        """Returns the processor and the address of a label, of the own processor or else of the only one that has it; None if there
        is none."""
        found = [(processor, address) for processor in self.of if (address := self.address(processor, text)) is not None
                 and address < CELLS]
        if len(found) > 1 and own not in dict(found):
            raise Failure(f"{text} is a name of {' and of '.join(f'PP {processor:02o}' for processor, _ in found)}")
        return next((one for one in found if len(found) == 1 or one[0] == own), None)

    def place_in_digits(self, words: Sequence[str]) -> List[str]:
        """Returns the words of a place, M 0 START or H CH, with digits for the names that are known."""
        kind, processor = [*words[:2], "", ""][:2]
        if kind in OF_A_PROCESSOR and octal_number(processor) is not None:
            return [*words[:2], *(self.digits(int(processor, 8), word) for word in words[2:])]
        return [kind, *(self.digits(None, word) for word in words[1:])] if kind in ("C", "H") else list(words)

    def digits(self, processor: Optional[int], word: str) -> str:
        """Returns the digits of a number that has a name, of a processor or of any; else the same word."""
        if octal_number(word) is not None:
            return word
        number = self.number(word) if processor is None else self.address(processor, word)
        return word if number is None else f"{number:o}"

    def in_digits(self, line: str) -> str:
        """Returns a line of the console that was typed, with digits for the names of its places; any other line as it is."""
        words = line.split()
        if len(words) <= 2 or words[0].upper() not in WITH_PLACES:
            return line
        changed = [words[0], *self.place_in_digits([words[1].upper(), *words[2:]])]
        return line if [word.upper() for word in changed] == [word.upper() for word in words] else " ".join(changed)

    def sources(self) -> List[Tuple[int, Any]]:
        """Returns the processors with a source, each with it."""
        return [(number, symbols) for number, symbols in self.of.items() if symbols.is_source]

    def is_loaded(self, processor: int, address: int, word: int) -> bool:
        """Returns whether a cell of a processor has the word that its source loaded there; without a source it may."""
        symbols = self.of.get(processor)
        return symbols is None or symbols.is_loaded(address, word)

    def loading(self, lines: Iterable[str]) -> List[str]:
        """Returns the lines of a script, after those that load the sources."""
        return [*(line for number, symbols in self.of.items() for line in symbols.loading(number)), *lines]

    def text(self, processor: int, address: int, word: int) -> str:
        """Returns the text of the line beside a cell, if the word is that of the line; or nothing."""
        symbols = self.of.get(processor)
        return str(symbols.text(address, word)) if symbols else ""

    def line_at_p(self, number: int, processor: Processor) -> str:
        """Returns the line of a source whose instruction is at P of a processor, or was there, after two blanks; nothing without
        one, and in a block transfer."""
        symbols = self.of.get(number)
        line = symbols.beside(processor.p, processor.words) if symbols and not processor.phase else ""
        return f"  {line}" if line else ""

    def beside(self, processor: int, address: int) -> str:
        """Returns the digits of an address, with its name after them if there is one."""
        return f"{address:04o} {self.name(processor, address)}".rstrip()

    def called(self, processor: int, address: int) -> str:
        """Returns the name of an address, or else its digits."""
        return self.name(processor, address) or f"{address:04o}"
