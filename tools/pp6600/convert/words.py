"""Text as words of display code."""

from argparse import Namespace
from typing import List

from ..language.cells import in_rows, set_lines, word_of
from ..language.display_code import text_of, words_of
from ..shell.command_line import Failure, Parser, cell, processor, write_lines

DESCRIPTION = """Turns text into words of display code, two symbols a word, eight words a line. Small letters become
capitals, and an odd text ends in a blank. With --at N A it writes them as SET M lines, for processor N from cell A on.
With --back the words given are turned into text. All numbers are octal."""


def lines_of(asked: Namespace) -> List[str]:
    if not asked.text:
        raise Failure("give a text, as words HELLO.")
    text = " ".join(asked.text)
    if asked.back:
        return [text_of([int(word_of(word), 8) for word in text.split()])]
    words = words_of(text)
    if asked.at:
        return set_lines(processor(asked.at[0]), cell(asked.at[1]), words)
    return [" ".join(row) for row in in_rows(words)]


def main() -> None:
    parser = Parser(DESCRIPTION)
    kinds = parser.add_mutually_exclusive_group()
    kinds.add_argument("--at", nargs=2, metavar=("N", "A"), help="write SET M lines")
    kinds.add_argument("--back", action="store_true", help="turn words into text")
    parser.add_argument("text", nargs="*", metavar="TEXT", help="or the words")
    write_lines(lines_of(parser.parse()))
