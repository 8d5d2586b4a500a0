"""Records of binary files: of a tape (.tap), as of a deadstart tape, or of a file of words. TOOLS.md says of each form how sure it
is.

A record is a row of words of 60 bits, each as five of 12 bits. A tape has it in blocks of at most 512 words (decimal). In form I,
of NOS, each block ends with 48 bits: how many words of 12 bits it has, with these four; its number in 24 bits; the level, which is
17 at the end of a file. In form SI, of SCOPE, a full block has words alone; the last one of a record is shorter, and ends with 5523
3645 2000 00LL, LL the level.

A record may begin with a prefix table, whose first word has 7700 and the number of words after it, and the second one the name. The
program of a peripheral processor has a header of one word: its name in three symbols, six bits of 0, its load address, 12 bits, and
how many words of 60 bits it has."""

from __future__ import annotations

from contextlib import suppress
from typing import Callable, Dict, Iterator, List, NamedTuple, Sequence, Tuple

from ..devices.tape_file import raw_records, words_of
from ..failure import Failure
from ..language.display_code import text_of
from ..run.forms import CELLS

FIVE = 5  # words of 12 bits in one of 60
FULL = 512 * FIVE  # words of 12 bits in a block (decimal)
TRAILER = 4
MARK_OF_SI = (0o5523, 0o3645, 0o2000)
PREFIX, WORDS_OF_PREFIX = 0o7700, 0o16
END_OF_FILE = 0o17
LABELS, BYTES_OF_LABEL = (b"VOL", b"HDR", b"EOF", b"EOV", b"UVL", b"UHL"), 80
DIGITS = 20  # octal, of a word of 60 bits
PROGRAM = "PP"
KINDS = {0o3400: "REL", 0o5000: "OVL", 0o5100: "ABS", 0o5300: "OVL", 0o5400: "OVL", 0o7000: "OPLD", 0o7001: "OPL", 0o7002: "OPLC",
         0o7600: "ULIB"}  # by the first twelve bits after the prefix table
Words = Sequence[int]  # of 12 bits


class Record(NamedTuple):
    """A record: the number of its file and its own, from 1; its words; and those of its prefix table."""

    file: int
    number: int
    words: Words
    prefix: Words = ()

    @property
    def name(self) -> str:
        """Its name: of its prefix table, or else of its header."""
        return name_in(self.prefix[FIVE:], 7) if self.prefix else name_in(self.words, 3)

    @property
    def is_program(self) -> bool:
        """Whether its first word can be the header of a program: the number of words is that of the record, with this one or
        without it."""
        if len(self.words) < 2 * FIVE or self.words[1] & 0o77 or not name_in(self.words, 3).isalnum():
            return False
        size = len(self.words) // FIVE
        return self.words[4] in (size, size - 1) and self.words[2] + len(self.words) - FIVE <= CELLS

    @property
    def kind(self) -> str:
        return PROGRAM if self.is_program else KINDS.get(self.words[0], "OTHER") if self.words else "EMPTY"

    @property
    def cells(self) -> Dict[int, int]:
        """The words of a program by their addresses, with the zeros that fill its last word of 60 bits."""
        return dict(enumerate(self.words[FIVE:], self.words[2]))

    @property
    def row(self) -> str:
        """What a list of records says of it."""
        where = f" AT {min(self.cells):04o} TO {max(self.cells):04o}" if self.is_program else ""
        return f"{self.file:o} {self.number:o} {self.name or '-':7} {self.kind:5} {len(self.words) // FIVE:o} WORDS{where}"


def name_in(words: Words, symbols: int) -> str:
    """Returns the name at the beginning of words: so many symbols of display code at most."""
    return text_of(words[:(symbols + 1) // 2])[:symbols].rstrip(": ")


def record_of(file: int, number: int, words: Words) -> Record:
    """Returns the record of words, without its prefix table."""
    size = (words[1] + 1) * FIVE if len(words) >= FIVE and words[0] == PREFIX else 0
    return (Record(file, number, tuple(words[size:]), tuple(words[:size])) if size <= len(words)
            else Record(file, number, tuple(words)))


def records_of(data: bytes, name: str) -> List[Record]:
    """Returns the records of a file. What is wrong with it is a failure of one line."""
    try:
        records = [one for one in raw_records(data) if not (one[1][:3] in LABELS and len(one[1]) == BYTES_OF_LABEL)]
        blocks = [words_of(own, place) for place, own in records]
    except ValueError as fault:
        if begins_as_tape(data):
            raise Failure(f"{name} is no tape file: {fault}") from fault
        return [record_of(1, 1, words_of_file(data, name))]
    found = list(joined(blocks, name))
    if not found:
        raise Failure(f"{name} has no record")
    return found


def program_in(records: Sequence[Record], name: str, file: str) -> Record:
    """Returns the first program of a peripheral processor with a name."""
    those = [one for one in records if one.name == name.upper()]
    found = next((one for one in those if one.is_program), None)
    if found is None:
        what = (f"{name} of {file} is a record of kind {those[0].kind}, and no" if those
                else f"{file} has no record {name} that is a")
        raise Failure(f"{what} program of a peripheral processor; load --binary {file} lists its records")
    return found


def begins_as_tape(data: bytes) -> bool:
    """Returns whether a file begins with a whole block of a tape, or with the part of one that is there."""
    size = int.from_bytes(data[:4], "little")
    end = 4 + size + size % 2
    return 0 < size <= 1 << 16 and (data[end:end + 4] == data[:4] or end + 4 > len(data))


def joined(blocks: Sequence[Words], name: str) -> Iterator[Record]:
    """Yields the records of the blocks of a tape. A block without words is a tape mark: between labels, or at the end of a file."""
    file, number = 1, 1
    words: List[int] = []
    for at, block in enumerate(blocks, 1):
        own, level, ends = opened(block, f"block {at} (decimal) of {name}") if block else ((), END_OF_FILE, True)
        words += own
        if ends and (words or level != END_OF_FILE):
            yield record_of(file, number, words)
            words, number = [], number + 1
        if level == END_OF_FILE and number > 1:
            file, number = file + 1, 1
    if words:
        raise Failure(f"{name} ends within record {number:o} of file {file:o}, octal")


def opened(block: Words, name: str) -> Tuple[Words, int, bool]:
    """Returns the words of a block, its level, and whether it ends a record."""
    own, end = block[:-TRAILER], block[-TRAILER:]
    if len(own) % FIVE == 0 and len(end) == TRAILER:
        if end[0] == len(block) and len(own) <= FULL:
            return own, end[3] if len(own) < FULL else 0, len(own) < FULL
        if tuple(end[:3]) == MARK_OF_SI:
            return own, end[3], True
    if len(block) % FIVE or len(block) > FULL:
        raise Failure(f"{name} has {len(block)} words of 12 bits (decimal): these are no words of 60 bits, nor is it of form I or "
                      f"SI")
    return block, 0, len(block) < FULL


# ---- files of words

def packed_words(data: bytes) -> List[int]:
    """Returns the words of bytes that hold two words in three, the upper bits first. After an odd number of words the last four
    bits are 0."""
    try:
        return list(words_of(data, 0))
    except ValueError:
        raise Failure(f"{len(data)} (decimal) bytes do not end with a word of 12 bits") from None


def two_byte_words(data: bytes) -> List[int]:
    """Returns the words of bytes that hold each word in two, the upper bits first."""
    if len(data) % 2:
        raise Failure(f"{len(data)} (decimal) bytes are not two for each word")
    for at in range(0, len(data), 2):
        if data[at] > 0o17:
            raise Failure(f"the two bytes from byte {at} (decimal, the first is 0) on have more than 12 bits")
    return [upper << 8 | lower for upper, lower in zip(data[::2], data[1::2])]


def eight_byte_words(data: bytes) -> List[int]:
    """Returns the words of bytes that hold each word of 60 bits in the lower bits of eight, the upper bits first."""
    if len(data) % 8 or max(data[::8], default=0) > 0o17:
        raise Failure("these are no words of 60 bits in eight bytes")
    words = [int.from_bytes(data[at:at + 8], "big") for at in range(0, len(data), 8)]
    return [word >> shift & 0o7777 for word in words for shift in (48, 36, 24, 12, 0)]


def swapped(data: bytes, size: int) -> bytes:
    """Returns bytes in the other order in each group of so many."""
    return b"".join(data[at:at + size][::-1] for at in range(0, len(data), size))


FORMS: Sequence[Callable[[bytes], List[int]]] = (
    packed_words, two_byte_words, lambda data: two_byte_words(swapped(data, 2)),
    eight_byte_words, lambda data: eight_byte_words(swapped(data, 8)))


def words_of_file(data: bytes, name: str) -> Words:
    """Returns the words of a file in the first form in which it begins as a record."""
    lines = data.split()
    if lines and not data.strip(b"01234567 \t\r\n"):
        if any(len(line) != DIGITS for line in lines):
            raise Failure(f"{name}: a word of a file of octal digits has twenty (decimal)")
        return [int(line[at:at + 4], 8) for line in lines for at in range(0, DIGITS, 4)]
    for read in FORMS:
        with suppress(Failure):
            words = read(data)
            whole = words[:len(words) // FIVE * FIVE]
            if whole[:2] == [PREFIX, WORDS_OF_PREFIX] or record_of(1, 1, whole).is_program:
                return whole
    raise Failure(f"{name} is no tape file, and begins in no known form with a prefix table or with the header of a program")
