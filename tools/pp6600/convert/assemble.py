"""A source in COMPASS notation, as words."""

import sys
from argparse import Namespace

from ..language.assembling import assembled_lines
from ..language.decks import texts_of
from ..language.listing import without_mark
from ..language.program import assembled
from ..language.symbol_options import TEXT_OPTIONS, Given
from ..shell.command_line import Failure, Parser, bytes_of, processor, write_lines
from ..shell.ending import complain, flush, shown_text
from ..shell.text_files import lines_in, named
from .against import against

DESCRIPTION = """Assembles a program of a peripheral processor, in COMPASS notation, and writes a line for each word: its address
and the word. What is wrong with the source is one line each on standard error, as FILE:LINE:COLUMN: and a text, and then nothing
else is written. The page ASSEMBLER.md has the notation."""
FORMS = {"--listing": "a listing: the address, the words and the line of the source",
         "--words": "a line for each word, as without an option"}
WRONG = 1


def compared(asked: Namespace) -> int:
    """Writes the words in which a source and a file differ. Returns the exit status."""
    lines = without_mark(lines_in(bytes_of(asked.file), asked.file))
    program = assembled(lines, texts_of(Given(asked.text, asked.system), lines))
    if program.complaints:
        print(*(shown_text(f"{named(asked.file)}:{complaint}") for complaint in program.complaints), sep="\n", file=sys.stderr)
    if program.faults:
        return WRONG
    name = program.units[0].name if asked.unit is None else asked.unit
    rows, said = against(program if asked.unit is None else program.unit(name), lines, asked.file, asked.against, name)
    write_lines(rows)
    flush()
    complain(said)
    return WRONG if rows else 0


def main() -> int:
    parser = Parser(DESCRIPTION,
                    "[--set N | --against FILE[#NAME] | --listing | --words] [--text DIR] [--system FILE] [--unit NAME] FILE")
    group = parser.add_mutually_exclusive_group()
    group.add_argument("--set", metavar="N", type=processor,
                       help="SET lines for processor N, and SET P if END says where it begins")
    group.add_argument("--against", metavar="FILE[#NAME]",
                       help="the words that are others in a listing or a binary file, then the status is 1")
    parser.add_forms(FORMS, group)
    asked = parser.parse(TEXT_OPTIONS, [
        ("--cross", {"action": "store_true",
                     "help": "after the listing each symbol, its value, and the lines that define and use it"}),
        ("--unit", {"metavar": "NAME", "help": "the program that an IDENT of the source names; else the first one"}),
        ("file", {"nargs": "?", "metavar": "FILE", "help": "the source; without it, standard input is the source"})])
    if asked.against is not None:
        return compared(asked)
    if asked.cross and asked.form != "listing":
        raise Failure("--cross is for --listing")
    form = "cross" if asked.cross else asked.form or ("words" if asked.set is None else "set")
    made = assembled_lines(bytes_of(asked.file), asked.file, form, asked.set or 0, Given(asked.text, asked.system), asked.unit)
    if made.complaints:
        print(*made.complaints, sep="\n", file=sys.stderr)
    if made.is_wrong:
        return WRONG
    write_lines(made.lines)
    return 0
