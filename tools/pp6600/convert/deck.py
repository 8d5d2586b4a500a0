"""Text as a deck of cards."""

from typing import List, Sequence

from ..failure import naming_line
from ..language.display_code import words_of
from ..run.forms import COLUMNS_OF_CARD
from ..shell.command_line import Failure, Parser, read_lines, write_lines

MOST_CARDS = 2000
DESCRIPTION = """Turns each line of a text into a card of display code, two symbols a column, and writes a deck file, as
--deck takes it. Small letters become capitals, and an odd line ends in a blank. An empty line becomes a card of zeros.
A card has 80 columns, so a line has at most 160 symbols; a deck has at most 2000 cards (these numbers are decimal)."""


def cards(lines: Sequence[str]) -> List[str]:
    """Returns the line of a deck file for each line of a text."""
    if len(lines) > MOST_CARDS:
        raise Failure(f"a deck has at most {MOST_CARDS} (decimal) cards")
    found: List[str] = []
    for number, line in enumerate(lines, 1):
        with naming_line(number):
            words = words_of(line)
        if len(words) > COLUMNS_OF_CARD:
            raise Failure(f"line {number} (decimal) has more than 160 (decimal) symbols")
        found.append(" ".join(words) or "0")
    return found


def main() -> None:
    parser = Parser(DESCRIPTION)
    parser.add_argument("text", nargs="?", metavar="FILE", help="without it, standard input is the text")
    write_lines(cards(read_lines(parser.parse().text)))
