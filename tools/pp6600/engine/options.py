"""The options of the program, as a session of the library takes them."""

from __future__ import annotations

import re
from typing import Any, Dict, Sequence

from .interface import Rejection

USAGE = "usage: pp6600 [--history N] [--central K] [--deck F] [--reader C] [--printer C] [--panel F] [SCRIPT]"
CENTRAL, CHANNELS, FILES = {"32": 32768, "64": 65536, "128": 131072}, ("reader", "printer"), ("deck", "panel")
NAMES = [f"--{name}" for name in ("history", "central", *CHANNELS, *FILES)]
FILE_BYTES = 1 << 20  # the most that the program reads


def options_of(words: Sequence[str]) -> Dict[str, Any]:
    """Returns what a session takes for the options of the program."""
    given: Dict[str, str] = {}
    rest = iter(words)
    for word in rest:
        name, equals, value = word.partition("=")
        value = value if equals else next(rest, "--")
        if word == "--help" or word.startswith("-h"):
            raise rejection(USAGE, 0)
        if name not in NAMES or name[2:] in given or not equals and value.startswith("-") and value != "-":
            raise rejection("BAD ARGUMENTS")
        given[name[2:]] = value
    history, central = (given.get(name, default).lstrip("0") for name, default in (("history", "10000"), ("central", "128")))
    if not re.fullmatch("[1-9][0-9]{0,3}|10000", history) or central not in CENTRAL:
        raise rejection("BAD ARGUMENTS")
    channels = {name: given[name] for name in CHANNELS if name in given}
    if not all(re.fullmatch("0*([0-7]|1[0-3])", text) for text in channels.values()):
        raise rejection("BAD CHANNEL")
    return {"history": int(history), "central": CENTRAL[central], **{name: int(text, 8) for name, text in channels.items()},
            **{name: bytes_of(given[name], name.upper()) for name in FILES if name in given}}


def bytes_of(path: str, name: str) -> bytes:
    """Returns the bytes of a file, up to one beyond the most that the program reads. No bytes would mean no file, so an empty file
    is an empty line."""
    try:
        file = open(path, "rb")
    except IsADirectoryError:  # which can be opened, but not read
        raise rejection("READ FAILED", 3) from None
    except OSError:
        raise rejection(f"CANNOT OPEN {name}") from None
    with file:
        try:
            return file.read(FILE_BYTES + 1) or b"\n"
        except OSError:
            raise rejection("READ FAILED", 3) from None


def rejection(text: str, status: int = 2) -> Rejection:
    """Returns what the program says of its options or files."""
    return Rejection(f"pp6600: {text}", status)
