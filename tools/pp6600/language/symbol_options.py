"""The options that name sources and symbols of processors. What reads them is imported when there are some."""

from __future__ import annotations

from argparse import Namespace
from typing import Any, Dict, Iterable, Mapping, NamedTuple, Optional, Sequence

from ..failure import Failure
from ..run.names import AllSymbols
from ..shell.options import Arguments, processor


class Given(NamedTuple):
    """Where the texts of a source are: the folder of its common decks, and the files of its system texts, in their order."""

    folder: Optional[str] = None
    systems: Sequence[str] = ()


FILES: Mapping[str, Any] = {"nargs": 2, "metavar": ("N", "FILE"), "action": "append", "default": []}
TEXT_OPTIONS: Arguments = [("--text", {"metavar": "DIR", "help": "the folder of common decks, which XTEXT reads: a file for each"}),
                           ("--system", {"metavar": "FILE", "action": "append", "default": [],
                                         "help": "a system text, whose names, macros and micros a source has; for each one"})]
SOURCE_OPTIONS: Arguments = [*TEXT_OPTIONS, ("--source", {**FILES, "help": "assemble FILE, or read a printed listing, and load it "
                             "into processor N before the script; show its lines and names; for each one"})]
SYMBOL_OPTIONS: Arguments = [
    ("--symbols", {**FILES, "help": "show addresses of processor N by the labels of a listing, or of lines "
                             "NAME ADDRESS; for each one"}), *SOURCE_OPTIONS]


def symbols_of(asked: Namespace) -> AllSymbols:
    """Returns the symbols and the sources that a command line names."""
    return symbols_from(getattr(asked, "symbols", ()), asked.source, Given(asked.text, asked.system))


def symbols_from(listings: Iterable[Sequence[str]], sources: Iterable[Sequence[str]], given: Given = Given()) -> AllSymbols:
    """Returns the symbols of pairs of a processor and a listing, and of a processor and a source, which has the given texts."""
    of: Dict[int, Any] = {}
    for number, path in [(processor(text), path) for text, path in listings]:
        from .listing import ListingSymbols
        if number in of:
            raise Failure(f"processor {number:o} is given symbols twice")
        of[number] = ListingSymbols.of_file(path)
    for number, path in [(processor(text), path) for text, path in sources]:
        from .sources import Source
        if number in of:
            raise Failure(f"processor {number:o} is given a source, and symbols or a source again")
        of[number] = Source.of_file(path, given)
    return AllSymbols(of)
