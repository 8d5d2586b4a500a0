"""Two versions of one processor's program, compared by their labels.

A cell of one version is the cell of the other with the same label, or as far behind it, up to the next label of either. A number is
the same in both if its digits are, or if it is the address of the same label."""

from typing import Container, Iterator, Sequence

from ..run.forms import CELLS
from ..run.names import AddressNames
from ..run.state import Difference, State

ADDRESSES = ("P", "A", "Q")  # registers that may hold an address
LONGEST_BUFFER = 0o777  # cells behind the last label that may be its own


class Versions:
    """The names of one processor in two runs."""

    def __init__(self, number: int, names: Sequence[AddressNames]) -> None:
        self.number, self.names = number, names
        one, other = names
        places = {label: address for address, label in reversed(other.labels.items())}
        self.pairs = [(first, places[label]) for first, label in one.labels.items() if label in places]
        self.cells = [(first + at, second + at) for first, second in self.pairs  # the addresses of each that both have
                      for at in range(min(cells_of_label(one, first), cells_of_label(other, second)))]

    def is_same(self, numbers: Sequence[int]) -> bool:
        """Returns whether two numbers are the same one."""
        if numbers[0] == numbers[1]:
            return True
        one, other = ((address_name(names, number) for names, number in zip(self.names, numbers)) if max(numbers) < CELLS
                      else ("", ""))
        return one == other != ""

    def replaces(self, difference: Difference) -> bool:
        """Returns whether a difference of two states is none here, or is found by the labels."""
        kind, number, *_ = difference[0].split()
        return number == f"{self.number:02o}" and (kind == "M" or kind in ADDRESSES
                                                   and self.is_same([int(one, 8) for one in difference[1:]]))

    def differences(self, states: Sequence[State]) -> Iterator[Difference]:
        """Yields the cells that differ, by the address and the label of the first run."""
        one, other = (state.memories[self.number] for state in states)
        for first, second in self.cells:
            words = one.number(first), other.number(second)
            if not self.is_same(words):
                yield f"M {self.number:02o} {first:04o} {self.names[0].name(first)}", f"{words[0]:04o}", f"{words[1]:04o}"

    def lengths(self) -> Iterator[str]:
        """Yields a line for each label that has more cells of its program in one run. If these have labels that the other run does
        not have, that alone is no difference."""
        known = [{pair[at] for pair in self.pairs} for at in (0, 1)]
        for pair in sorted(self.pairs):
            one, other = ([*sizes(*parts)] for parts in zip(self.names, pair, known))
            if not set(one) & set(other):
                yield f"{self.names[0].labels[pair[0]]} OF PP {self.number:02o} HAS {one[0]:o} AND {other[0]:o} CELLS"


def address_name(names: AddressNames, number: int) -> str:
    """Returns what a number is called as an address: however far it is from its label, but behind the last one within a buffer's
    size."""
    return names.name(number, CELLS if names.addresses and number < names.addresses[-1] else LONGEST_BUFFER)


def cells_of_label(names: AddressNames, first: int) -> int:
    """Returns how many cells belong to the label at an address: those up to the next one, or to the end of the memory."""
    return next((address for address in names.addresses if address > first), CELLS) - first


def sizes(names: AddressNames, first: int, known: Container[int]) -> Iterator[int]:
    """Yields how many cells of the program there are from a label up to the next one, and if that is not known up to the one after
    it, and so on; or up to the end."""
    for end in [*(address for address in names.addresses if address > first), CELLS]:
        yield sum(first <= cell < end for cell in names.cells)
        if end in known:
            return
