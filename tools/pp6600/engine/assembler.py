"""The proved assembler and disassembler of the library, called in this process by ctypes. docs/LIBRARY.md and the header, pp6600.h,
say what each call does."""

from __future__ import annotations

import ctypes
import functools
import os
from ctypes import byref, c_char_p, c_size_t, c_uint16, c_uint32
from typing import Any, Dict, Iterable, Mapping, NamedTuple, Optional, Sequence, Tuple

from ..failure import Failure
from .arguments import bytes_of, checked, pairs_of, wrong_type
from .choose import PLAIN, SUFFIXES, default_engine, libraries_beside

COMPLAINTS, WORDS, LISTING, LINES, NAMES, ROWS, UNITS = range(7)
DONE, ROOM = range(2)
CALLS = ("assemble_with", "load_lines", "disassemble")
LEAST_ROOM = 1 << 16  # bytes


class Text(NamedTuple):
    """A common deck: its name in capitals, and its lines. After the word SYSTEM and a blank the name is that of a system text."""

    name: bytes
    lines: bytes


class Cell(ctypes.Structure):
    _fields_ = [("address", c_uint16), ("word", c_uint16), ("line", c_uint32)]


class CommonDeck(ctypes.Structure):
    _fields_ = [("name", c_char_p), ("name_bytes", c_size_t), ("lines", c_char_p), ("line_bytes", c_size_t)]


def address_of(cell: Tuple[Any, ...]) -> int:
    """Returns the address of a cell, as C takes it."""
    address: int = cell[0].value
    return address


class Assembler:
    """The assembler of a library."""

    def __init__(self, path: str) -> None:
        try:
            library = ctypes.CDLL(path)
            self._calls: Dict[str, Any] = {name: getattr(library, f"pp6600_{name}") for name in CALLS}
        except (OSError, AttributeError) as error:
            raise Failure(f"the assembler of the library can't be loaded: {error}") from error
        for call in self._calls.values():
            call.restype = c_uint32

    def text(self, source: bytes, form: int, texts: Sequence[Text] = ()) -> Tuple[bytes, int]:
        """Returns what is written of a source in a form, and how many faults the source has. It may have common decks and system
        texts."""
        source, decks, number = bytes_of("source", source), pairs_of("texts", texts, bytes), checked("assemble_with", form)
        messages = c_size_t()
        given = (CommonDeck * len(decks))(*(CommonDeck(name, len(name), lines, len(lines)) for name, lines in decks))
        text = self._written("assemble_with", 4 * len(source), source, c_size_t(len(source)), given, c_size_t(len(decks)), *number,
                             after=(byref(messages),))
        return text, messages.value

    def load_lines(self, source: bytes, processor: int) -> bytes:
        """Returns the lines of the console that load the program of a source, which has no fault, into a processor."""
        source, messages = bytes_of("source", source), c_size_t()
        return self._written("load_lines", len(source), source, c_size_t(len(source)), *checked("load_lines", processor),
                             after=(byref(messages),))

    def disassembled(self, cells: Mapping[int, int], entries: Iterable[int]) -> bytes:
        """Returns a source of words by their addresses, whose code is what a processor reaches from the entries on."""
        if not isinstance(cells, Mapping):
            raise wrong_type("cells", "a mapping", cells)
        if not isinstance(entries, Iterable):
            raise wrong_type("entries", "addresses", entries)
        given = [Cell(*cell) for cell in sorted((checked("disassemble", *cell) for cell in cells.items()), key=address_of)]
        begins = [checked("disassemble", one)[0] for one in entries]
        return self._written("disassemble", 64 * len(given), (Cell * len(given))(*given), c_size_t(len(given)),
                             (c_uint16 * len(begins))(*begins), c_size_t(len(begins)))

    def _written(self, name: str, room: int, *arguments: object, after: Tuple[Any, ...] = ()) -> bytes:
        """Makes a call that writes a text, once more if there is not room enough for it."""
        count, status = c_size_t(room + LEAST_ROOM), ROOM
        while status == ROOM:
            into = ctypes.create_string_buffer(count.value)
            status = self._calls[name](*arguments, into, c_size_t(len(into)), byref(count), *after)
        if status != DONE:
            raise Failure(f"pp6600_{name} failed: status {status}")
        return ctypes.string_at(into, count.value)


class NoAssembler(Failure):
    """No library starts here, so there is no assembler."""


def assembler_here() -> Assembler:
    """Returns the assembler of the library that the tools run on. Fails where there is none."""
    name = default_engine()
    found = assembler_of(os.environ.get("PP6600_ENGINE") or name if os.path.basename(name) == "pp6600" else name)
    if not found:
        raise NoAssembler("this needs the assembler of the proved library, and no library starts here")
    return found


@functools.lru_cache(maxsize=None)
def assembler_of(name: str) -> Optional[Assembler]:
    """Returns the assembler of an engine, which is named as for `engine_of`."""
    if name == PLAIN or os.path.basename(name).startswith("pp6600-python"):
        return None
    for path in [name] if name.endswith(SUFFIXES) else libraries_beside(name):
        try:
            return Assembler(path)
        except Failure:
            continue
    return None
