"""A script, then lines of the keyboard."""

from typing import Any, Optional, Tuple

from ...devices.options import DEVICE_OPTIONS, devices_of, timeline
from ...language.symbol_options import SOURCE_OPTIONS, symbols_of
from ...run.session import Session
from ...shell.command_line import Failure, arguments, script_lines, simulator, words_after
from ...shell.keyboard import converse, edit_lines
from ...shell.script import show_lines

DESCRIPTION = """Shows a script with its answers, then goes on with the lines that are typed. At a terminal it has a
prompt, with the number of turns that are in effect, octal, and a history of lines, through rlwrap if it is there; Ctrl-D ends
it, Ctrl-C does not. There undo and redo, with a count or without, go back and forward as BACK and FORWARD do, but without their
limit: older actions are replayed. A line that is refused has the reason below its answer. With --save FILE it writes a script
that gives the session again: the lines of the script, and those typed that were not refused. The exit status is 0 if no line was
refused, else 1."""


class Transcript:
    """The file in which a session is saved, line by line, so that nothing is lost; or none."""

    def __init__(self, path: Optional[str]) -> None:
        self.path = path
        try:
            self.file: Any = path and open(path, "xb", buffering=0)
        except FileExistsError:
            raise Failure(f"{path} exists; give the name of a new file") from None
        except OSError as error:
            raise Failure(f"can't write {path}: {error.strerror}") from error

    def add_since(self, run: Session, place: Tuple[int, int]) -> None:
        """Adds what a run was sent since a place; or all if its script has begun anew, after a replay."""
        replays, sent = place
        if self.path and run.replays > replays:
            self.file.seek(0)
            self.file.truncate()
            sent = 0
        self.add(*run.sent[sent:])

    def add(self, *lines: str) -> None:
        if not self.path:
            return
        try:
            self.file.write("".join(f"{line}\n" for line in lines).encode("latin-1"))
        except OSError as error:
            raise Failure(f"can't write {self.path}: {error.strerror}") from error


def main() -> int:
    parser = arguments(DESCRIPTION, "[OPTION ..] [SCRIPT]")
    parser.add_argument("--save", metavar="FILE", help="write the session into a new file, as a script")
    parser.add_argument("script", metavar="SCRIPT", nargs="*", help="without it, only what is typed")
    asked = parser.parse(SOURCE_OPTIONS, DEVICE_OPTIONS)
    (script,) = words_after(asked.script, 1, "give one script")
    edit_lines()
    lines = symbols_of(asked).loading([] if script is None else script_lines(script))
    run, transcript, status = timeline(simulator(asked), devices_of(asked)), Transcript(asked.save), 0
    if script is not None or lines:
        status = show_lines(run, lines)
        transcript.add(*run.sent)
    status |= converse(run, transcript)
    return max(run.end(), status)
