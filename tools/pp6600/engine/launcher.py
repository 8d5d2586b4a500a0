"""The commands pp6600 and pp6600-python of a package of pip. A checkout and an installation have a launcher of the shell."""

from __future__ import annotations

import os
import platform
import subprocess
import sys

from .choice import HOME, IN_PYTHON, words_to_run
from .plain import program


def main() -> None:
    """Runs a proved program, or the one in Python where none starts."""
    if sys.argv[1:] == ["--version"]:
        print(f"pp6600 {program.version() or ''}".rstrip())
        return
    words = words_to_run(os.path.join(HOME, "pp6600"))
    if words == IN_PYTHON:
        program.main()
    if platform.system() == "Windows":  # there execv does not wait
        sys.exit(subprocess.run([*words, *sys.argv[1:]], check=False).returncode)
    os.execv(words[0], ["pp6600", *sys.argv[1:]])
