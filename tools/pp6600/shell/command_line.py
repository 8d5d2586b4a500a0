"""What a tool imports: how it ends, its options, and the scripts, files, octal numbers and places that it is given."""

from ..failure import Failure
from .ending import complain, run, write, write_bytes, write_lines
from .options import (
    SCRIPT_WORD, TURN_OPTION, Parser, arguments, cell, channel, count, octal, processor, simulator, words_after)
from .text_files import bytes_of, read_lines, script_lines

__all__ = ["SCRIPT_WORD", "TURN_OPTION", "Failure", "Parser", "arguments", "bytes_of", "cell", "channel", "complain", "count",
           "octal", "processor", "read_lines", "run", "script_lines", "simulator", "words_after", "write", "write_bytes",
           "write_lines"]
