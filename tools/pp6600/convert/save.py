"""The cells of a processor at the end of a script, in each form that load takes, and as a deck or a panel."""

from typing import Callable, Dict, Iterable, List, Optional, Sequence

from ..devices.options import replayed
from ..language.cells import in_rows, set_lines
from ..language.symbol_options import SOURCE_OPTIONS, symbols_of
from ..run.forms import COLUMNS_OF_CARD, ROW
from ..shell.command_line import Failure, arguments, cell, processor, words_after, write_bytes, write_lines

PANEL_WORDS = 12  # decimal
DESCRIPTION = """Writes cells A to B of processor N at the end of a script, for load: without an option rows of octal words;
or as a deck or a panel of the simulator."""


def packed(words: Sequence[str]) -> bytes:
    """Returns bytes that hold two words in three, the upper bits first. After an odd number of words come four bits of 0."""
    return bytes.fromhex("".join(f"{int(word, 8):03x}" for word in words) + "0" * (len(words) % 2))


def listing(first: int, words: Sequence[str]) -> List[str]:
    """Returns rows that begin with their addresses."""
    return [f"{first + ROW * at:04o} {' '.join(row)}" for at, row in enumerate(in_rows(words))]


def panel(words: List[str]) -> List[str]:
    """Returns the words of a dead start panel, with zeros after them."""
    if len(words) > PANEL_WORDS:
        raise Failure(f"a panel has {PANEL_WORDS} (decimal) words, and these are {len(words)} (decimal)")
    return words + ["0000"] * (PANEL_WORDS - len(words))


BINARY: Dict[str, Callable[[Sequence[str]], bytes]] = {
    "packed": packed, "two-bytes": lambda words: b"".join(int(word, 8).to_bytes(2, "big") for word in words)}
# What the words of processor N from a cell on are in each form that is text.
LINES: Dict[Optional[str], Callable[[int, int, List[str]], Iterable[str]]] = {
    None: lambda number, first, words: map(" ".join, in_rows(words)), "listing": lambda number, first, words: listing(first, words),
    "as-deck": lambda number, first, words: map(" ".join, in_rows(words, COLUMNS_OF_CARD)),
    "as-panel": lambda number, first, words: panel(words), "set": set_lines}


def main() -> int:
    parser = arguments(DESCRIPTION, "[OPTION ..] N A B [SCRIPT]")
    parser.add_forms({"--packed": "binary: two words in three bytes, the upper bits first",
                      "--two-bytes": "binary: each word in two bytes, the upper bits first",
                      "--listing": "rows that begin with their addresses",
                      "--as-deck": "cards, a word a column, as the simulator's --deck takes them",
                      "--as-panel": "the words of a panel, as the simulator's --panel takes them",
                      "--set": "SET lines for processor N"})
    parser.add_argument("words", nargs="*", metavar="N A B SCRIPT", help="octal; without a script, standard input is it")
    asked = parser.parse(SOURCE_OPTIONS)
    if len(asked.words) < 3:
        raise Failure("give a processor, its first and its last cell, as save 0 100 177")
    (path,) = words_after(asked.words[3:], 1, "give a processor, two cells, one script")
    number, first, last = processor(asked.words[0]), cell(asked.words[1]), cell(asked.words[2])
    if last < first:
        raise Failure(f"cell {last:o} is before cell {first:o}")
    run, refusals = replayed(asked, symbols_of(asked), path)
    run.goto(run.tape.end)
    words = run.cells(number, first, last)
    run.end()
    if asked.form in BINARY:
        write_bytes(BINARY[asked.form](words))
    else:
        write_lines(LINES[asked.form](number, first, words))
    return refusals.status()
