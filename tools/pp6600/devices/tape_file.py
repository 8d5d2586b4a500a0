"""Tape files, in the form that SIMH and other simulators have.

A record is its number of bytes in four bytes, the lowest one first; then its bytes, and one of 0 if their number is odd; then the
number again. A number of 0 alone is a file mark. Two words are in three bytes, the upper bits first."""

from __future__ import annotations

from typing import Iterable, Iterator, List, Tuple

from ..failure import Failure
from ..shell.text_files import bytes_of

Block = Tuple[int, ...]  # a record by its words, or a file mark
MARK: Block = ()  # no record is without words
GAP, END_OF_TAPE = 0xFFFFFFFE, 0xFFFFFFFF  # in the place of a number: a gap, which is passed, and the end before that of the file
MOST_BYTES = 0xFFFFFF


def read_tape(path: str) -> List[Block]:
    """Returns the blocks of a tape file."""
    data = bytes_of(path)
    try:
        return [words_of(own, place) for place, own in raw_records(data)]
    except ValueError as fault:
        raise Failure(f"{path} is no tape file: {fault}") from fault


def write_tape(path: str, blocks: Iterable[Block]) -> None:
    """Writes blocks into a new tape file."""
    data = b"".join(map(bytes_of_block, blocks))
    try:
        with open(path, "xb") as file:
            file.write(data)
    except OSError as error:
        raise Failure(f"can't write {path}: {error.strerror}") from error


def raw_records(data: bytes) -> Iterator[Tuple[int, bytes]]:
    """Yields where each record of a tape file begins, and its bytes, none for a file mark; raises a ValueError that says what is
    wrong. The numbers of bytes are decimal."""
    place = 0
    while place < len(data):
        size = number_at(data, place)
        if size == END_OF_TAPE:
            return
        begin, end = place + 4, place + 4 + size + size % 2
        if size in (0, GAP):
            end = place  # these are four bytes in all
        elif size > MOST_BYTES:
            raise ValueError(f"at byte {place} it has {size:08X} (hexadecimal), which begins no record that can be read")
        elif number_at(data, end) != size:
            raise ValueError(f"the record at byte {place} has {size} bytes, and after them another number")
        if size != GAP:
            yield place, data[begin:begin + size]
        place = end + 4


def number_at(data: bytes, place: int) -> int:
    """Returns a number of a tape file."""
    if place + 4 > len(data):
        raise ValueError(f"it is cut off, for it has {len(data)} bytes, and a number at byte {place}")
    return int.from_bytes(data[place:place + 4], "little")


def words_of(data: bytes, place: int) -> Block:
    """Returns the words of a record. An odd word has four bits of 0 after it."""
    digits = data.hex()
    end = len(digits) // 3 * 3
    if digits[end:] not in ("", "0"):
        raise ValueError(f"the record at byte {place} has {len(data)} bytes, which are no words of 12 bits, two in three bytes")
    return tuple(int(digits[at:at + 3], 16) for at in range(0, end, 3))


def bytes_of_block(block: Block) -> bytes:
    """Returns a block of a tape file."""
    data = bytes.fromhex("".join(f"{word:03x}" for word in block) + "0" * (len(block) % 2))
    size = len(data).to_bytes(4, "little")
    return size + data + bytes(len(data) % 2) + size if block else size
