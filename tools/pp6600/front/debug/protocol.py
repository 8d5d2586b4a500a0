"""Messages over standard input and output: JSON, each with its length before it."""

import json
import os
import queue
import re
import sys
import threading
from typing import Any, BinaryIO, Dict, Mapping, Optional, TextIO

from ...failure import Failure
from ...shell.ending import shown_text
from ...shell.text_files import named

NO_MESSAGE = "what the editor wrote is no message: it"
LONGEST_HEADER = 4096  # bytes of a line before a message
LENGTH = re.compile(rb"^[ \t]*content-length[ \t]*:[ \t]*([0-9]{1,8})[ \t\r]*$", re.I | re.M)  # at most 8 digits


class Wire:
    """The client at the other end. A thread reads its requests, so that they can be taken between the parts of a run."""

    def __init__(self, log: Optional[str] = None) -> None:
        self.seq = 0
        self.log, self.lock = opened(log) if log else None, threading.Lock()  # both threads write it
        self.requests: queue.Queue[Any] = queue.Queue()
        self.is_gone = False  # the client
        if sys.stdin is None:
            raise Failure("standard input is closed or a folder, so no editor can speak")
        # not sys.stdin: a thread that reads that at the end would abort Python
        self.input = os.fdopen(os.dup(sys.stdin.fileno()), "rb")
        self.output = os.dup(sys.stdout.fileno())
        sys.stdout = sys.stderr  # nothing else may come between the messages
        threading.Thread(target=self.listen, daemon=True).start()

    def listen(self) -> None:
        """Puts each request into the queue, then None or the failure that ended the input."""
        try:
            for request in iter(lambda: self.read(self.input), None):
                self.requests.put(request)
                if request["command"] == "disconnect":
                    break
            else:
                self.requests.put(None)
            self.is_gone = True
        except OSError as error:
            self.requests.put(Failure(f"can't read {named(None)}: {error.strerror}"))
        except Failure as failure:
            self.requests.put(failure)

    def read(self, stream: BinaryIO) -> Optional[Dict[str, Any]]:
        """Returns the next request, or None at the end of the input."""
        header = b""
        while (line := stream.readline(LONGEST_HEADER)).strip():
            header += line
        if not line and not header:
            return None
        length = LENGTH.search(header)
        if not length:
            raise Failure(f"{NO_MESSAGE} has no Content-Length")
        data = stream.read(int(length[1]))
        if len(data) < int(length[1]):
            raise Failure(f"{NO_MESSAGE} ends before its length")
        try:
            message = json.loads(data)
        except (ValueError, RecursionError) as error:
            raise Failure(f"{NO_MESSAGE} is not JSON") from error
        if not isinstance(message, dict) or message.get("type", "request") != "request" \
                or not isinstance(message.get("command"), str) or not isinstance(message.get("seq"), int):
            raise Failure(f"{NO_MESSAGE} is not a request")
        self.note(">", message)
        return message

    def write(self, **message: Any) -> None:
        self.seq += 1
        message = {"seq": self.seq, **message}
        data = json.dumps(message).encode("ascii")
        try:
            rest = memoryview(b"Content-Length: %d\r\n\r\n%s" % (len(data), data))
            while rest:
                rest = rest[os.write(self.output, rest):]
        except BrokenPipeError:  # the client has gone
            self.requests.put(None)
        except OSError as error:
            raise Failure(f"can't write to standard output: {error.strerror}") from None
        self.note("<", message)

    def event(self, name: str, **body: Any) -> None:
        self.write(type="event", event=name, **({"body": body} if body else {}))

    def say(self, text: str, category: str = "console") -> None:
        """Shows a line to the user."""
        self.event("output", category=category, output=f"{shown_text(text)}\n")

    def note(self, mark: str, message: Mapping[str, Any]) -> None:
        if self.log:
            with self.lock:
                print(mark, json.dumps(message), file=self.log, flush=True)


def opened(path: str) -> TextIO:
    try:
        return open(path, "a", encoding="ascii")
    except OSError as error:
        raise Failure(f"can't write {path}: {error.strerror}") from error
