"""Programs that make files and folders: a fault of the file system ends them with a message in plain words."""

import os
import subprocess
from typing import Any, Callable, List

from .command_line import Failure, run


def checked_program(path: str, *words: str) -> List[str]:
    """Returns the words that run a program that answers as the simulator does, with its whole path; fails if it does not."""
    try:
        done = subprocess.run(["pp6600", *words], executable=path, input=b"STEP 12\n", capture_output=True, timeout=60, check=False)
    except (OSError, ValueError, subprocess.TimeoutExpired):
        done = None
    if not done or done.stdout != b"TURNS 12 SLOT 00\n":
        raise Failure(f"{path} is not the simulator")
    return [os.path.abspath(path), *words]


def in_plain_words(main: Callable[[], Any]) -> Any:
    """Returns what main returns. A fault of the file system is a failure that names the file."""
    try:
        return main()
    except BrokenPipeError:  # the reader of the output has had enough
        raise
    except OSError as error:
        named = f"{error.filename}: " if error.filename else ""
        raise Failure(f"{named}{error.strerror or error}") from error


def run_over_files(main: Callable[[], Any]) -> None:
    """Runs a program as `run` does, of one that makes files."""
    run(lambda: in_plain_words(main))
