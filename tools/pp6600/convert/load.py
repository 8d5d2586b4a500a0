"""Files of words, as SET lines."""

from argparse import Namespace
from typing import List, Sequence, Tuple

from ..failure import naming_line
from ..language.cells import lines_of_cells, set_lines, word_of
from ..language.listing import Listing, complain_of, is_listing, without_mark
from ..language.printed import Columns
from ..shell.command_line import Failure, Parser, bytes_of, cell, processor, read_lines, words_after, write_lines
from ..shell.ending import complain, flush
from .binary import packed_words, program_in, records_of, two_byte_words

DESCRIPTION = """Writes the SET lines that load the words of a file into the cells of processor N from cell A on; after
cell 7777 comes cell 0000. Without an option the file is text: octal numbers to 7777, one or many a line; what follows a *
is a note, to the end of the line. With --listing each line has an address, one or more octal words, and any text: the words
go where the addresses say, so A is left out. A B after a number is taken. What was read is said on standard error, and a line that
has an error flag or is not understood is an error."""


def octal_words(lines: Sequence[str]) -> List[str]:
    """Returns the words of the lines of a text, separated by blanks and tabs. What follows a * is a note."""
    if is_listing(lines):
        raise Failure("the first numbers of the lines are addresses: with --listing, and without A, the words go there")
    words: List[str] = []
    for number, line in enumerate(lines, 1):
        with naming_line(number):
            words += [word_of(text) for text in line.partition("*")[0].split()]
    return words


READERS = {"packed": packed_words, "two-bytes": two_byte_words}


def lines_of_binary(words: List[str]) -> Tuple[List[str], str]:
    """Returns the SET lines of a program of a binary file, or what records the file has."""
    if len(words) == 1:
        return [record.row for record in records_of(bytes_of(words[0]), words[0])], ""
    if len(words) != 3:
        raise Failure("give a file, as load --binary FILE, or a processor, a file and a name, as load --binary 0 FILE 1AJ")
    number, (path, name) = processor(words[0]), words[1:]
    record = program_in(records_of(bytes_of(path), path), name, path)
    return lines_of_cells(number, {at: f"{word:04o}" for at, word in record.cells.items()}), record.row


def lines_of(asked: Namespace) -> Tuple[List[str], str]:
    """Returns the SET lines, and what is said of them."""
    if asked.form == "binary":
        return lines_of_binary(asked.words)
    is_listing_asked = asked.form == "listing"
    if (asked.columns or asked.trust) and not is_listing_asked:
        raise Failure(f"--{'columns' if asked.columns else 'trust'} is for --listing")
    if not asked.words or not is_listing_asked and len(asked.words) < 2:
        raise Failure("give a processor and a cell, as load 0 100; or load --listing 0")
    number = processor(asked.words[0])
    if is_listing_asked:
        (path,) = words_after(asked.words[1:], 1, "--listing takes a processor, one file")
        listing = Listing.of_file(path, asked.columns, asked.trust)
        complain_of(path, listing)
        how = "" if asked.columns or not listing.columns else f", by --columns {listing.columns.shown} as guessed"
        return listing.set_lines(number), f"{listing.counts()}{how}"
    (path,) = words_after(asked.words[2:], 1, "give a processor, a cell, one file")
    first = cell(asked.words[1])
    if asked.form in READERS:
        return set_lines(number, first, [f"{word:04o}" for word in READERS[asked.form](bytes_of(path))]), ""
    return set_lines(number, first, octal_words(without_mark(read_lines(path)))), ""


def main() -> None:
    parser = Parser(DESCRIPTION, "[--packed | --two-bytes | --listing [--columns A,W,T] [--trust]] N [A] [FILE]")
    parser.add_forms({"--packed": "the file is binary: two words in three bytes, the upper bits first",
                      "--two-bytes": "the file is binary: each word in two bytes, the upper bits first",
                      "--listing": "the file is a listing, with addresses",
                      "--binary": "the file is a tape (.tap) or has words of 60 bits: list its records, or load its program NAME"})
    parser.add_argument("--columns", metavar="A,W,T", type=Columns.parse,
                        help="the columns of addresses, words and source lines of the listing, decimal, from 1; else guessed")
    parser.add_argument("--trust", action="store_true", help="load what is readable of a listing, and say what is in doubt")
    parser.add_argument("words", metavar="N A FILE", nargs="*",
                        help="the processor and the first cell, octal; without FILE, standard input is the file")
    lines, said = lines_of(parser.parse())
    if not lines:
        raise Failure("there is no word to load")
    write_lines(lines)
    if said:
        flush()
        complain(said)
