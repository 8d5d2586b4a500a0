"""The source that an editor shows: for each processor a file with a line for each cell, which follows the machine.

Line 1 is cell 0000, so a breakpoint holds in code that is not loaded yet, or changes. All lines of a file have one length, and
only what has changed is written, in place: editors take a file that is replaced for one that was deleted.
"""

import functools
import os
import shutil
import tempfile
from typing import Any, Dict, List, Mapping, Optional, Sequence

from ...run.forms import CELLS, PROCESSORS
from ...run.state import Memory
from ...run.turn import NAMES, TWO_WORDS

WIDTH = len("0000  0000  LJM 00 0000")
MOST_TEXT = 60  # bytes of the user's own listing beside an instruction


def shown(cell: int, word: int, second: int) -> str:
    """Returns the address of a cell, its word and the instruction that this is; `second` is the word after it."""
    code = word >> 6
    return f"{cell:04o}  {word:04o}  {NAMES[code]} {word & 0o77:02o}{f' {second:04o}' if code in TWO_WORDS else ''}"


def instruction(memory: Memory, cell: int) -> str:
    """Returns the address of a cell, its word and the instruction that this is."""
    return shown(cell, memory.number(cell), memory.number(cell + 1))


@functools.lru_cache(maxsize=1 << 16)
def own_part(cell: int, word: int, second: int) -> bytes:
    """Returns the same as bytes, of one width. Most cells of all processors are alike, so it is seldom made."""
    return f"{shown(cell, word, second):{WIDTH}}".encode("ascii")


class Beside:
    """What is beside the instructions of a processor: the label of a cell, and the text of the user's own listing or source as long
    as the word is the one that it lists. All are of one width, in bytes."""

    def __init__(self, symbols: Any = None) -> None:
        """The symbols are those of `pp6600.language.listing`, or a source."""
        self.symbols = symbols
        columns = (symbols.labels.values(), [text for _, text in symbols.texts().values()]) if symbols else ()
        self.widths = [min(max((len(text.encode()) for text in texts), default=0), MOST_TEXT) for texts in columns]
        self.width = sum(2 + width for width in self.widths if width)

    def at(self, cell: int, word: int) -> bytes:
        """Returns the bytes beside a cell that has this word."""
        texts = self.symbols.labels.get(cell, ""), self.symbols.text(cell, word)
        whole = (text.encode()[:width].decode(errors="ignore").encode() for text, width in zip(texts, self.widths))
        return b"".join(b"  " + text.ljust(width) for text, width in zip(whole, self.widths) if width)


class Listings:
    """The files of a session, in a folder of their own."""

    def __init__(self) -> None:
        self.folder = tempfile.mkdtemp(prefix="pp6600-")
        self.files: Dict[int, Any] = {}
        self.cells: Dict[int, Optional[Sequence[int]]] = {}
        self.beside: List[Beside] = []
        for number in range(PROCESSORS):
            self.files[number] = open(self.path(number), "xb", buffering=0)
            if hasattr(os, "fchmod"):  # on Windows a file that can't be written can't be removed
                os.fchmod(self.files[number].fileno(), 0o444)  # editors then open it to be looked at

    def begin(self, symbols: Mapping[int, Any]) -> None:
        """Begins a run with the symbols of some processors, by their numbers. Other symbols make lines of another length."""
        old, self.beside = self.beside, [Beside(symbols.get(number)) for number in range(PROCESSORS)]
        for number, file in self.files.items():
            self.cells[number] = None
            if old and old[number].width != self.beside[number].width:
                file.truncate(0)

    def path(self, number: int) -> str:
        return os.path.join(self.folder, f"PP{number:02o}.pplist")

    def number_of(self, source: Mapping[str, Any]) -> Optional[int]:
        """Returns the processor whose listing a source is; None if it is another one."""
        path = source.get("path")
        real = os.path.realpath(path) if isinstance(path, str) else None
        return next((number for number in self.files if os.path.realpath(self.path(number)) == real), None)

    def source(self, number: int) -> Dict[str, str]:
        return {"name": f"PP{number:02o}.pplist", "path": self.path(number)}

    def line(self, number: int, memory: Memory, cell: int) -> bytes:
        """Returns the line of a cell of a processor, as long as any other."""
        word, beside = memory.number(cell), self.beside[number]
        own = own_part(cell, word, memory.number(cell + 1))
        return own + (beside.at(cell, word) if beside.width else b"") + b"\n"

    def text(self, number: int, memory: Memory) -> str:
        return b"".join(self.line(number, memory, cell) for cell in range(CELLS)).decode()

    def follow(self, number: int, memory: Memory) -> None:
        """Writes what has changed of a processor's cells, in its place. The word before may be the first one of an instruction of
        two."""
        old, self.cells[number] = self.cells[number], memory.numbers
        if old is None:
            self.write(number, 0, self.text(number, memory).encode())
        elif old != memory.numbers:
            changed = [at for at, (was, now) in enumerate(zip(old, memory.numbers)) if was != now]
            for cell in {(at - before) % CELLS for at in changed for before in (0, 1)}:
                self.write(number, cell, self.line(number, memory, cell))

    def write(self, number: int, cell: int, lines: bytes) -> None:
        """Writes lines in their place, from that of a cell on."""
        self.files[number].seek(cell * (WIDTH + self.beside[number].width + 1))
        self.files[number].write(lines)

    def remove(self) -> None:
        for file in self.files.values():
            file.close()
        self.files = {}
        shutil.rmtree(self.folder, ignore_errors=True)
