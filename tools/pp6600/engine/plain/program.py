"""The words, the files and the exit statuses of the program."""

from __future__ import annotations

import contextlib
import os
import re
import signal
import sys
from typing import Any, Callable, Dict, Iterator, List, Optional, Sequence, Tuple, Union

from .lines import PlainConsole, Rejected, is_octal, reject_if, words_of
from .devices import COLUMNS
from .machine import Machine

OPTIONS = ("--history", "--central", "--deck", "--reader", "--printer", "--panel", "SCRIPT")
USAGE = "usage: pp6600 [--history N] [--central K] [--deck F] [--reader C] [--printer C] [--panel F] [SCRIPT]"
FILE_BYTES, SCRIPT_BYTES, SCRIPT_LINES, FILE_LINE = 1048576, 268435456, 1000000, 1023
CARDS, PANEL_WORDS, KEPT_OF_LINE, PIECE = 2000, 12, 1100, 65536

Words = Dict[str, str]
Source = Union[str, int]  # a path, or the number of an open file


class Help(Rejected):
    """The words of the command line ask for help."""


def read_words(words: Sequence[str]) -> Words:
    """Returns the words of the command line by their options; the script has the name SCRIPT."""
    given: Words = {}
    rest = iter(words)
    is_plain = False
    for word in rest:
        if not is_plain and (word == "--help" or word.startswith("-h")):
            raise Help
        if word == "--" and not is_plain:
            is_plain = True
            continue
        name, equals, value = word.partition("=")
        if is_plain or not is_option(word):
            name, value = "SCRIPT", word
        elif not equals:
            value = next(rest, "--")
            reject_if(is_option(value), 2, "BAD ARGUMENTS")
        reject_if(name not in OPTIONS or name in given, 2, "BAD ARGUMENTS")
        given[name] = value
    return given


def is_option(word: str) -> bool:
    """Returns whether a word begins as an option; - alone is a file name."""
    return len(word) > 1 and word.startswith("-")


def read_options(given: Words) -> Dict[str, int]:
    """Returns the history, the central size and the channels, as Machine takes them."""
    history, central = given.get("--history", "10000"), given.get("--central", "128")
    reject_if(not all(re.fullmatch("0*[0-9]{1,5}", number) for number in (history, central)), 2, "BAD ARGUMENTS")
    kept, size = int(history[-5:]), int(central[-5:])
    reject_if(not 1 <= kept <= 10000 or size not in (32, 64, 128), 2, "BAD ARGUMENTS")
    channels = given.get("--reader", "12"), given.get("--printer", "13")
    reject_if(not all(is_octal(channel) and int(channel, 8) <= 0o13 for channel in channels), 2, "BAD CHANNEL")
    reader, printer = (int(channel, 8) for channel in channels)
    return {"history": kept, "central": size * 1024, "reader": reader, "printer": printer}


class TooLong(Exception):
    """A file has more bytes or lines than are read."""


def pieces(source: Source, name: str) -> Iterator[bytes]:
    """Yields the bytes of a file as they come."""
    try:
        file = open(source, "rb", buffering=0, closefd=not isinstance(source, int))
    except IsADirectoryError:  # which can be opened, but not read
        raise Rejected(3, "READ FAILED") from None
    except OSError:
        raise Rejected(*((3, "READ FAILED") if isinstance(source, int) else (2, f"CANNOT OPEN {name}"))) from None
    with file:
        while True:
            try:
                piece = file.read(PIECE)
            except OSError:
                raise Rejected(3, "READ FAILED") from None
            reject_if(piece is None, 3, "READ FAILED")  # a read that does not wait, and finds nothing
            if not piece:
                return
            yield piece


def read_lines(source: Source, name: str, limit: int, most: int = FILE_BYTES) -> Iterator[bytes]:
    """Yields the lines that end within the limit of bytes, without LF and CR, each as soon as it is read, and at most so many. Of a
    line that is too long its beginning is enough."""
    rest = b""
    for piece in pieces(source, name):
        *lines, rest = (rest + piece[:limit]).split(b"\n")
        yield from map(without_return, lines[:most])
        most -= len(lines)
        if len(piece) > limit or most < 0 or most == 0 and rest:
            raise TooLong
        rest, limit = rest[:KEPT_OF_LINE], limit - len(piece)
    if rest:
        yield without_return(rest)


def without_return(line: bytes) -> bytes:
    return line[:-1] if line.endswith(b"\r") else line


def read_rows(path: str, name: str, most: int) -> Iterator[List[int]]:
    """Yields the numbers of each line of a deck or panel file; there are at most so many on a line."""
    try:
        for k, line in enumerate(read_lines(path, name, FILE_BYTES), 1):
            reject_if(len(line) > FILE_LINE, 2, f"{name} LINE {k} TOO LONG")
            words = words_of(line.decode("latin-1"))
            if words and not words[0].startswith("*"):
                reject_if(not all(map(is_octal, words)), 2, f"{name} LINE {k} NOT OCTAL")
                row = [int(word, 8) for word in words]
                reject_if(max(row) > 0o7777, 2, f"{name} LINE {k} TOO LARGE")
                reject_if(len(row) > most, 2, f"{name} LINE {k} TOO MANY WORDS")
                yield row
    except TooLong:
        raise Rejected(2, f"{name} FILE TOO LONG") from None


def read_panel(path: str) -> List[int]:
    panel: List[int] = []
    for row in read_rows(path, "PANEL", FILE_BYTES):
        panel += row
        reject_if(len(panel) > PANEL_WORDS, 2, "PANEL PANEL COUNT")
    reject_if(len(panel) < PANEL_WORDS, 2, "PANEL PANEL COUNT")
    return panel


def answer_with(lines: Sequence[str], write: Callable[[str], Any]) -> None:
    """Writes the lines of an answer."""
    try:
        write("".join(line + "\n" for line in lines))
    except OSError:
        raise Rejected(3, "WRITE FAILED") from None


def serve(console: PlainConsole, script: Source, write: Callable[[str], Any]) -> int:
    """Answers the lines of a script; returns the exit status."""
    status = 0
    try:
        for line in read_lines(script, "SCRIPT", SCRIPT_BYTES, SCRIPT_LINES):
            answer = console.answer(line)
            if answer and answer[0].startswith("ERR"):
                status = 1
            answer_with(answer, write)
    except TooLong:
        raise Rejected(3, "LINE LIMIT") from None
    return status


def console_of(given: Words, machine: Callable[..., Machine] = Machine) -> PlainConsole:
    """Returns the console of a machine with these options and their files."""
    options = read_options(given)
    deck = list(read_rows(given["--deck"], "DECK", COLUMNS)) if "--deck" in given else []
    panel = read_panel(given["--panel"]) if "--panel" in given else None
    reject_if(options["reader"] == options["printer"], 2, "SAME CHANNEL")
    reject_if(len(deck) > CARDS, 2, "DECK TOO LONG")
    return PlainConsole(machine(deck, panel, **options))


def perform(words: Sequence[str], standard_input: Source, write: Callable[[str], Any],
            make: Callable[[Words], PlainConsole]) -> int:
    """Does what the words ask for; returns the exit status."""
    try:
        given = read_words(words)
    except Help:
        with contextlib.suppress(OSError):
            write(USAGE + "\n")
        return 0
    return serve(make(given), given.get("SCRIPT", standard_input), write)


def run(words: Sequence[str], standard_input: Source, write: Callable[[str], Any],
        make: Callable[[Words], PlainConsole] = console_of) -> Tuple[int, str]:
    """Runs the program with the file of standard input. Returns the exit status and what goes to standard error."""
    try:
        return perform(words, standard_input, write, make), ""
    except Rejected as rejected:
        status, text = rejected.args
        return status, f"pp6600: {text}\n"
    except MemoryError:
        return 2, "pp6600: NO MEMORY\n"


def write_all(text: str) -> None:
    """Writes a text to standard output."""
    data = text.encode("ascii")
    while data:
        written = os.write(1, data)
        if not written:
            raise OSError("nothing is written")
        data = data[written:]


def version() -> Optional[str]:
    """Returns the line of the file VERSION of the package, or above the tools, or nothing."""
    package = os.path.dirname(os.path.dirname(os.path.dirname(os.path.abspath(__file__))))
    for folder in (package, os.path.dirname(os.path.dirname(package))):
        try:
            with open(os.path.join(folder, "VERSION"), encoding="ascii") as file:
                return file.readline().strip()
        except (OSError, ValueError):
            pass
    return None


def write_version() -> Tuple[int, str]:
    """Writes the version. Returns the exit status and what goes to standard error."""
    number = version()
    try:
        write_all(f"pp6600-python{' ' + number if number else ''}: not the proved program\n")
    except OSError:
        return 3, "pp6600: WRITE FAILED\n"
    return 0, ""


def main() -> None:
    """Runs the program with the words of the command line, and ends."""
    if signal.getsignal(signal.SIGINT) is signal.default_int_handler:
        signal.signal(signal.SIGINT, signal.SIG_DFL)
    words = sys.argv[1:]
    try:
        for word in words:
            os.fsencode(word).decode("utf-8")
        status, text = write_version() if words == ["--version"] else run(words, 0, write_all)
    except UnicodeDecodeError:
        status, text = 2, "pp6600: BAD ARGUMENTS\n"
    try:
        os.write(2, text.encode("ascii"))
    except OSError:
        pass  # the status reports the trouble even if its line can't be written
    os._exit(status)
