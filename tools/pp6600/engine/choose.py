"""Which engine a tool runs on: the proved library, or the simulator in plain Python where there is none for the machine."""

from __future__ import annotations

import contextlib
import functools
import os
import sys
from typing import List, Optional, Sequence

from ..failure import Failure
from .choice import HOME, LIBRARY_HERE, THIS_IS
from .interface import Engine
from .options import options_of

PLAIN = "plain"  # names the simulator in plain Python
SUFFIXES = (".so", ".dll", ".dylib")


def default_engine() -> str:
    """Returns the engine that is used if none is named."""
    return os.environ.get("PP6600") or os.path.join(HOME, "pp6600")


def engine_of(name: str, words: Sequence[str]) -> Engine:
    """Begins a session on an engine, which is named by its library, or as plain, or by the program pp6600, which has its library
    beside it; the variable PP6600_ENGINE may name another for that. The words are the options of the program."""
    if os.path.basename(name) == "pp6600":
        name = os.environ.get("PP6600_ENGINE") or name
    path = None if name == PLAIN else library_named(name)
    if path is None:
        from .plain_engine import PlainEngine
        return PlainEngine(words)
    from .library import LibrarySession, Unloadable
    try:
        return LibrarySession(**options_of(words), path=path)
    except Unloadable as failure:
        raise Failure(f"{path} is not the library of the simulator: {failure.__cause__}") from failure


def is_proved(engine: Engine) -> bool:
    """Returns whether an engine is the proved library."""
    from .library import LibrarySession
    return isinstance(engine, LibrarySession)


@functools.lru_cache(maxsize=None)
def library_named(name: str) -> Optional[str]:
    """Returns the path of the library that a name means; None where it is the simulator in plain Python."""
    if name.endswith(SUFFIXES):
        return name
    if os.path.basename(name).startswith("pp6600-python"):
        return None
    from .library import loaded
    is_own = os.path.abspath(name) == os.path.join(HOME, "pp6600")
    for path in libraries_beside(name) if is_own or os.path.exists(name) else ():
        with contextlib.suppress(Failure):  # it can't be used on this machine
            loaded(path)
            return path
    if not is_own:
        raise Failure(f"{name} is not the simulator: there is no {LIBRARY_HERE or 'library'} beside it")
    if sys.stderr is not None:
        print(f"pp6600: there is no library of the proved program for this machine; {THIS_IS}", file=sys.stderr, flush=True)
    return None


def libraries_beside(name: str) -> List[str]:
    """Returns the paths of the libraries that belong to a program, the best first."""
    folder = os.path.dirname(os.path.abspath(name))
    led_to = os.path.dirname(os.path.realpath(name))  # by links
    # where ./prove puts what it makes of crates/pp6600/out
    built = os.path.normpath(os.path.join(led_to, "..", "..", "..", "targets", "out"))
    places = (folder, os.path.join(folder, "dist"), os.path.join(folder, "lib"), led_to, built)
    return [path for path in (os.path.join(place, LIBRARY_HERE) for place in places) if LIBRARY_HERE and os.path.exists(path)]
