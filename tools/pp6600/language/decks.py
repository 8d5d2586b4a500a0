"""The texts that a source has: the common decks that it names by XTEXT or *CALL, files in a folder, and system texts, each a
file."""

import os
from typing import Iterator, List, Optional, Sequence

from ..engine.assembler import Text
from ..failure import Failure
from ..shell.ending import shown_text
from ..shell.text_files import read_lines
from .symbol_options import Given
from .listing import without_mark

NONE = Text(b"", b"")


def texts_of(given: Given, lines: Sequence[str]) -> List[Text]:
    """Returns the system texts of a source, and then the common decks that it may read."""
    systems = [lines_of_text(path) for path in given.systems]
    names = [shown_text(path).replace("\n", "\\n") for path in given.systems]  # a message is one line
    texts = [text_of(f"SYSTEM {name}", own) for name, own in zip(names, systems)]
    return texts + decks_of(given.folder, [line for own in (*systems, lines) for line in own])


def text_of(name: str, lines: Sequence[str]) -> Text:
    return Text(name.encode("utf-8"), "".join(f"{line}\n" for line in lines).encode("utf-8"))


def decks_of(folder: Optional[str], lines: Sequence[str]) -> List[Text]:
    """Returns the common decks in a folder whose names are in lines, or in those of such a deck: files with the name of the deck,
    whatever is after a point, in letters of either case. Without a folder there is none. With one there is a deck without a name
    too, which no line can read: so a deck that is not there is said to be missing in the folder."""
    try:
        names = [] if folder is None else sorted(os.listdir(folder))
    except OSError as error:
        raise Failure(f"can't read the folder {folder}: {error.strerror}") from error
    decks = ((name, deck) for name in reversed(names) for deck in (name.upper(), name.upper().partition(".")[0]) if deck)
    paths = {deck: os.path.join(str(folder), name) for name, deck in decks}
    found = [] if folder is None else [NONE]
    waiting = list(lines) if paths else []
    while waiting:
        for deck in words_in(waiting.pop()):
            if deck in paths:
                own = lines_of_text(paths.pop(deck))
                waiting += own
                found.append(text_of(deck, own))
    return found


def words_in(line: str) -> Iterator[str]:
    """Yields the words of a line that may name a deck."""
    words = line.upper().split()
    yield from words[1:] if words[:1] == ["*CALL"] else words if "XTEXT" in words else ()


def lines_of_text(path: str) -> List[str]:
    """Returns the lines of a common deck or a system text."""
    if os.path.exists(path) and not os.path.isfile(path):  # one that is a pipe would be waited for
        raise Failure(f"can't read {path}: it is no plain file")
    return without_mark(read_lines(path))
