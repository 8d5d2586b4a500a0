"""Runs a tool by its name: python3 -m pp6600 until .. is tools/until."""

import importlib
import os
import sys
from typing import Any, Callable, List, NoReturn

from .engine.choice import version
from .failure import Failure
from .shell.ending import run, write

USAGE = """usage: python3 -m pp6600 TOOL [WORD ..]

The tools are {}.
python3 -m pp6600 TOOL --help shows what one does; the program itself is pp6600."""

# The modules of the tools.
MODULES = {**{name: f"convert.{name}" for name in ("assemble", "deck", "disassemble", "load", "save", "show", "words")},
           **{name: f"front.commands.{name}" for name in ("changes", "compare", "origin", "talk", "trace", "until", "waits")},
           "debug-adapter": "front.debug.debug_adapter", "film": "front.film.tool", "panel": "front.panel.panel",
           "state": "front.commands.state_screen", "symbols": "convert.symbol_list"}


def main_of(name: str) -> Callable[[], Any]:
    """Returns the function that runs a tool."""
    if name not in MODULES:
        raise Failure(f"{name or 'nothing'} is no tool; the tools are {', '.join(sorted(MODULES))}")
    main: Callable[[], Any] = importlib.import_module(f".{MODULES[name]}", __package__).main
    return main


def launch() -> NoReturn:
    """Runs the tool by whose name the program was called; in an installation it may be pp6600-until."""
    name = os.path.basename(sys.argv[0])
    run(lambda: main_of(name.replace("pp6600-", "", 1))())


def about(words: List[str]) -> bool:
    """Writes what --help or --version asks for before the name of a tool. Returns whether one of them does."""
    if words in (["--help"], ["-h"]):
        write(USAGE.format(", ".join(sorted(MODULES))))
    elif words == ["--version"]:
        write(f"pp6600 {version()}")
    else:
        return False
    return True


def main() -> None:
    """Runs the tool that the words of the command line name."""
    words = sys.argv[1:]
    if not about(words):
        sys.argv = words or [__package__ or ""]
        launch()


if __name__ == "__main__":
    run(main)
