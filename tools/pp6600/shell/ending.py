"""How a tool ends: whatever goes wrong is one line on standard error and status 2, never a traceback."""

import codecs
import contextlib
import os
import signal
import sys
from typing import Any, Callable, Iterable, NoReturn, Optional, Tuple

from ..failure import Failure, Faults

FAILED = 2


def complain(message: object) -> None:
    """Writes one line to standard error, after the tool's name; the lines about a source as they are."""
    line = " ".join(shown_text(str(message)).split())
    lines = message.lines if isinstance(message, Faults) else [f"{os.path.basename(sys.argv[0])}: {line}"]
    try:
        print(*lines, sep="\n", file=sys.stderr, flush=True)
    except OSError:
        discard(sys.stderr)


def shown_text(text: str) -> str:
    """Returns a text without bytes that a terminal would obey, but for tabs and line ends."""
    return "".join(letter if letter.isprintable() or letter in "\t\n" else escaped(letter) for letter in text)


def escaped(letter: str) -> str:
    """Returns how a letter is shown that can't be written; a byte of a file's name that is not UTF-8 as that byte."""
    byte = letter.encode("utf-8", "surrogateescape") if "\udc80" <= letter <= "\udcff" else b""
    return f"\\x{byte.hex()}" if byte else letter.encode("unicode_escape", "surrogatepass").decode()


def escape(error: UnicodeError) -> Tuple[str, int]:
    """Returns what is written in the place of letters that standard output can't have."""
    assert isinstance(error, UnicodeEncodeError)
    return "".join(map(escaped, error.object[error.start:error.end])), error.end


codecs.register_error(escape.__name__, escape)


def discard(stream: Any) -> None:
    """Makes a stream that can't be written one that takes everything, so that Python does not try again at its end."""
    nowhere = os.open(os.devnull, os.O_WRONLY)
    os.dup2(nowhere, stream.fileno())
    os.close(nowhere)


def unwritten(error: OSError) -> Exception:
    """Returns what a fault of standard output is to the tool; nothing more is written there."""
    discard(sys.stdout)
    return error if isinstance(error, BrokenPipeError) else Failure(f"can't write to standard output: {error.strerror}")


def flush() -> None:
    """Writes what is still to be written to standard output."""
    try:
        sys.stdout.flush()
    except OSError as error:
        raise unwritten(error) from None


def write(line: str, at_once: bool = False) -> None:
    """Writes a line to standard output; at once, if a reader waits for it."""
    try:
        sys.stdout.write(f"{line}\n")
    except OSError as error:
        raise unwritten(error) from None
    if at_once:
        flush()


def write_bytes(data: bytes) -> None:
    """Writes bytes to standard output."""
    try:
        sys.stdout.buffer.write(data)
    except OSError as error:
        raise unwritten(error) from None
    flush()


def write_lines(lines: Iterable[str], otherwise: Optional[str] = None, at_once: bool = False) -> None:
    """Writes lines; if there is none, another one."""
    for line in lines:
        write(line, at_once)
        otherwise = None
    if otherwise:
        write(otherwise)


def open_streams() -> None:
    """Opens each closed standard stream to nowhere, so that no other file takes its number; and lets any text be written."""
    for stream in (sys.stdin, sys.stdout, sys.stderr):
        if stream is None:
            os.open(os.devnull, os.O_RDWR)
    if sys.stderr is None:
        sys.stderr = open(os.devnull, "w", encoding="utf-8")
    if sys.stdout is None:
        raise Failure("standard output is closed, so there is nowhere to write to")
    stdout: Any = sys.stdout
    stdout.reconfigure(errors=escape.__name__)


def run(main: Callable[[], Any]) -> NoReturn:
    """Runs a tool, and ends with the status that it returns (None: 0), or with a message and status 2."""
    if signal.getsignal(signal.SIGINT) is signal.default_int_handler:
        signal.signal(signal.SIGINT, signal.SIG_DFL)  # it ends the tool without a word
    try:
        try:
            open_streams()
            status = main()
        except SystemExit as end:  # a parser ends the tool early after --help
            status = end.code
        flush()
        sys.exit(status or 0)
    except BrokenPipeError:  # the reader of the output has had enough
        sys.exit(0)
    except Failure as failure:
        message: object = failure
    except MemoryError:
        message = "out of memory"
    except Exception as error:  # a fault that is the tool's own
        message = f"this is a fault of the tool; please report it: {type(error).__name__}: {error}"
    with contextlib.suppress(BrokenPipeError, Failure):
        if sys.stdout is not None:
            flush()
    complain(message)
    sys.exit(FAILED)
