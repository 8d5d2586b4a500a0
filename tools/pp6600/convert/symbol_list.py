"""The names of a listing."""

from ..language.listing import ListingSymbols, complain_of
from ..language.printed import Columns
from ..shell.command_line import Failure, Parser, write_lines
from ..shell.text_files import named

DESCRIPTION = """Writes a line NAME ADDRESS for each label of a listing, by their addresses, and then a line NAME = NUMBER for each
name of a number. A line of a listing has an address, one or more octal words, and a source line. A label is the first word of the
source line, if it is alone, or before an operation (as LDN, CON or BSS) or a comment; or it ends with a colon. If the source lines
have columns, it is what begins in the first ones. A line before BSS or EQU may have no word."""


def main() -> None:
    parser = Parser(DESCRIPTION, "[--columns A,W,T] [--trust] [FILE]")
    parser.add_argument("--columns", metavar="A,W,T", type=Columns.parse,
                        help="the columns of addresses, words and source lines, decimal, from 1; else they are guessed")
    parser.add_argument("--trust", action="store_true", help="write the names of what is readable, and say what is in doubt")
    parser.add_argument("file", nargs="?", metavar="FILE", help="without it, standard input is the listing")
    asked = parser.parse()
    symbols = ListingSymbols.of_file(asked.file, asked.columns, asked.trust)
    complain_of(asked.file, symbols.listing)
    if not len(symbols.names):
        raise Failure(f"{named(asked.file)} has no label")
    write_lines(symbols.lines())
