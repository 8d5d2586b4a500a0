"""What the calls of the library take. C leaves out the bits of a number that a call has no room for, and reads whatever it is given
as if it were of the right type, so all is checked before a call is made."""

from __future__ import annotations

import functools
import itertools
import operator
import os
from ctypes import c_uint8, c_uint16, c_uint32, c_uint64
from typing import Any, Dict, Iterable, Mapping, Optional, Sequence, Sized, Tuple, Type

from ..failure import Failure

# The numbers that each call takes, in the order of pp6600.h, and how many bits each has.
NUMBERS: Dict[str, Dict[str, int]] = {
    "open": {"history": 32, "central": 32, "reader": 8, "printer": 8}, "numbers": {"first": 32}, "turns": {"most": 32},
    "origins": {"most": 32}, "again": {"count": 32}, "looks": {"most": 32}, "place": {"places": 32},
    "columns": {"most": 32}, "until": {"most": 32},
    "form": {"kind": 32, "place": 32, "first": 64, "last": 64}, "back": {"count": 32}, "forward": {"count": 32},
    "last_write": {"first": 32, "count": 32}, "assemble": {"form": 32}, "assemble_with": {"form": 32},
    "load_lines": {"processor": 32}, "disassemble": {"address": 16, "word": 16}, "text_of_status": {"status": 32},
    "instruction": {"code": 32}}
TYPES: Dict[int, Any] = {8: c_uint8, 16: c_uint16, 32: c_uint32, 64: c_uint64}
PLAIN = {int}
MOST_OF_SIZE = 1 << 63  # no buffer has more elements
BYTES, NO_NUMBERS = (bytes, bytearray, memoryview), (str, bytes, bytearray, memoryview, Mapping)


class OutOfRange(Failure, ValueError):
    """A number that a call does not take."""


def wrong_type(name: str, wanted: str, given: object) -> TypeError:
    """Returns the error of an argument of another type."""
    return TypeError(f"{name} must be {wanted}, not {type(given).__name__}")


def whole(name: str, given: Any) -> int:
    """Returns a whole number. Raises TypeError for anything else."""
    try:
        return operator.index(given)
    except TypeError:
        raise wrong_type(name, "a whole number", given) from None


def checked(call: str, *given: int) -> Tuple[Any, ...]:
    """Returns numbers of a call as C takes them. Raises TypeError for what is no whole number, and OutOfRange if one has more bits
    than the call takes, or is less than 0."""
    try:
        return converted(call, *given)
    except TypeError:  # that of the cache, which keeps no lists, names no argument
        return converted.__wrapped__(call, *given)


@functools.lru_cache(maxsize=1024, typed=True)
def converted(call: str, *given: int) -> Tuple[Any, ...]:
    """Returns the same, and keeps it for the next call."""
    found = []
    for (name, bits), one in zip(NUMBERS[call].items(), given):
        number = whole(name, one)
        if not 0 <= number < 1 << bits:
            raise OutOfRange(f"{name}: {number} is no number of {bits} bits")
        found.append(TYPES[bits](number))
    return tuple(found)


def counted(name: str, given: int) -> int:
    """Returns a count of elements. Raises TypeError for what is no whole number, and OutOfRange if it is no count."""
    count = whole(name, given)
    if not 0 <= count < MOST_OF_SIZE:
        raise OutOfRange(f"{name}: {count} is no count")
    return count


def text_of(name: str, given: Any) -> str:
    """Returns a text. Raises TypeError for anything else."""
    if not isinstance(given, str):
        raise wrong_type(name, "a text", given)
    return given


def path_of(name: str, given: Any) -> Optional[str]:
    """Returns a path, or None. Raises TypeError for anything else."""
    if given is None or isinstance(given, str):
        return given
    if not isinstance(given, os.PathLike):
        raise wrong_type(name, "a path", given)
    return os.fsdecode(given)


def bytes_of(name: str, given: Any) -> bytes:
    """Returns bytes. Raises TypeError for anything else."""
    if isinstance(given, bytes):
        return given
    if not isinstance(given, BYTES):
        raise wrong_type(name, "bytes", given)
    return bytes(given)


def sequence_of(name: str, wanted: str, given: Any) -> Tuple[Any, ...]:
    """Returns the elements of a sequence. Raises TypeError for a text, for bytes, and for what can be read only once."""
    if not isinstance(given, Sized) or not hasattr(given, "__getitem__") or isinstance(given, NO_NUMBERS):
        raise wrong_type(name, f"a sequence of {wanted}", given)
    return tuple(given)  # type: ignore[arg-type]


def are_plain(given: object, numbers: Iterable[object]) -> bool:
    """Returns whether a list or a tuple has plain numbers alone, which need no other look: a search may ask many times a turn."""
    return isinstance(given, (list, tuple)) and PLAIN.issuperset(map(type, numbers))


def places_of(given: Sequence[int]) -> Tuple[int, ...]:
    """Returns places by their numbers."""
    if are_plain(given, given):
        return tuple(given)
    return tuple([whole("places", place) for place in sequence_of("places", "numbers", given)])


def forms_of(given: Sequence[Sequence[int]]) -> Tuple[Tuple[int, ...], ...]:
    """Returns the forms of a condition, each of four numbers."""
    names = NUMBERS["form"]
    if isinstance(given, (list, tuple)) and all(isinstance(form, tuple) and len(form) == len(names) for form in given) and \
            are_plain(given, itertools.chain.from_iterable(given)):
        return tuple(given)
    found = []
    for form in sequence_of("condition", "forms", given):
        parts = sequence_of("a form", "numbers", form)
        if len(parts) != len(names):
            raise TypeError(f"a form must have {len(names)} numbers, {', '.join(names)}, not {len(parts)}")
        found.append(tuple([whole(name, part) for name, part in zip(names, parts)]))
    return tuple(found)


def pairs_of(name: str, given: Any, kind: Type[Any]) -> Tuple[Tuple[Any, ...], ...]:
    """Returns pairs whose parts are of a type. Raises TypeError for anything else."""
    found = []
    for pair in sequence_of(name, "pairs", given):
        parts = sequence_of(name, "pairs", pair)
        if len(parts) != 2 or not all(isinstance(part, kind) for part in parts):
            raise TypeError(f"{name} must be pairs of {kind.__name__}, not {pair!r:.60}")
        found.append(parts)
    return tuple(found)
