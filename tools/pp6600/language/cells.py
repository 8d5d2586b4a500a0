"""Words of 12 bits, and the SET lines that load them."""

import re
from typing import List, Mapping, Sequence

from ..failure import Failure
from ..run.forms import CELLS, ROW, ranges_of


def in_rows(words: Sequence[str], size: int = ROW) -> List[Sequence[str]]:
    return [words[at:at + size] for at in range(0, len(words), size)]


def set_lines(processor: int, first: int, words: Sequence[str]) -> List[str]:
    """Returns the lines that put words of four digits into the cells from the first on; after cell 7777 comes cell 0000."""
    if len(words) > CELLS:
        raise Failure(f"{len(words):o} (octal) words are more than the 10000 cells of a processor")
    return [f"SET M {processor:o} {(first + ROW * row) % CELLS:o} {' '.join(part)}"
            for row, part in enumerate(in_rows(words))]


def word_of(text: str) -> str:
    """Returns the four digits of an octal number."""
    if not re.fullmatch("0*[0-7]{1,4}", text):
        raise Failure(f"{text} is no octal number to 7777")
    return f"{int(text, 8):04o}"


def lines_of_cells(processor: int, cells: Mapping[int, str]) -> List[str]:
    """Returns the lines that put words into cells, by their addresses."""
    return [line for first, size in ranges_of(cells)
            for line in set_lines(processor, first, [cells[at] for at in range(first, first + size)])]
