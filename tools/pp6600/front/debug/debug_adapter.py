"""The debug adapter's beginning and end."""

import contextlib
import os
import signal
import sys

from ...shell.command_line import Parser
from .adapter import Adapter
from .protocol import Wire

DESCRIPTION = """Lets an editor debug the processors: it speaks the Debug Adapter Protocol over standard input and output. The
editor starts it; docs/PANEL.md says how VS Code, Emacs, Kate and Neovim are set up. A thread is a processor. The source of
each is a listing of its cells, which follows the machine."""


def main() -> None:
    parser = Parser(DESCRIPTION)
    parser.add_argument("--log", metavar="FILE",
                        help="add each message to this file: > before those of the editor, < before the answers")
    asked = parser.parse()
    for name in {"SIGTERM", "SIGHUP"} & set(dir(signal)):  # Windows has one of them
        signal.signal(getattr(signal, name), lambda *_: sys.exit(0))  # so that the listings are removed
    if signal.getsignal(signal.SIGINT) is signal.SIG_DFL:
        signal.signal(signal.SIGINT, signal.default_int_handler)
    try:
        with contextlib.closing(Adapter(Wire(asked.log))) as adapter:
            adapter.serve()
    except KeyboardInterrupt:
        signal.signal(signal.SIGINT, signal.SIG_DFL)
        os.kill(os.getpid(), signal.SIGINT)
