"""The files that a tool reads, and that it writes."""

import os
import sys
from typing import Iterator, List, Optional

from ..failure import Failure
from .ending import shown_text


MOST_BYTES = 1 << 28  # of a file: as many as the program reads
PIECE = 1 << 20


def bytes_of(path: Optional[str]) -> bytes:
    """Returns the bytes of a file, or of standard input if there is no path. Fails if there are more than MOST_BYTES."""
    if path is None and sys.stdin is None:
        raise Failure("standard input is closed or a folder: name a file, or give the text over a pipe")
    size, found = 0, []
    try:
        with open(path, "rb") if path is not None else sys.stdin.buffer as file:
            while piece := file.read(PIECE):
                size += len(piece)
                if size > MOST_BYTES:
                    raise Failure(f"can't read {named(path)}: it has more than {MOST_BYTES} (decimal) bytes")
                found.append(piece)
    except OSError as error:
        raise Failure(f"can't read {named(path)}: {error.strerror}") from error
    return b"".join(found)


def named(path: Optional[str]) -> str:
    """Returns how a message names a file."""
    return "standard input" if path is None else path


def lines_of(text: str) -> List[str]:
    return text.removesuffix("\n").split("\n") if text else []


def shown(line: str) -> str:
    """Returns a line of a script as it is shown: as text, without bytes that a terminal would obey."""
    return shown_text(line.encode("latin-1").decode("utf-8", "backslashreplace").rstrip())


def script_lines(path: Optional[str]) -> List[str]:
    """Returns the lines of a script. Each byte is a character, for the simulator judges them."""
    return lines_of(bytes_of(path).decode("latin-1"))


def input_lines() -> Iterator[str]:
    """Yields each line of standard input as it comes."""
    if sys.stdin is None:
        raise Failure("standard input is closed or a folder, so no line can be typed")
    try:
        for line in sys.stdin.buffer:
            yield line.decode("latin-1").removesuffix("\n")
    except OSError as error:
        raise Failure(f"can't read standard input: {error.strerror}") from error


def read_lines(path: Optional[str]) -> List[str]:
    """Returns the lines of a text."""
    return lines_in(bytes_of(path), path)


def lines_in(data: bytes, path: Optional[str]) -> List[str]:
    """Returns the lines of the text that these bytes of a file are."""
    try:
        text = data.decode("utf-8")
    except UnicodeDecodeError as error:
        raise Failure(f"{named(path)} is not text in UTF-8") from error
    return [line.rstrip("\r") for line in lines_of(text)]


def write_whole(path: str, data: bytes) -> None:
    """Writes a file whole, or leaves it as it was. What is no plain file, as a pipe, is written to as it is."""
    is_plain, target = not os.path.exists(path) or os.path.isfile(path), os.path.realpath(path)
    fresh = f"{target}.{os.urandom(4).hex()}.part" if is_plain else path
    try:
        with open(fresh, "xb" if is_plain else "wb") as file:
            file.write(data)
        if is_plain:
            os.replace(fresh, target)
    except OSError as error:
        raise Failure(f"can't write {path}: {error.strerror}") from error
    finally:
        if is_plain and os.path.exists(fresh):
            os.remove(fresh)
