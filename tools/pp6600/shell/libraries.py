"""What an installation has for programs of one's own: the header, the libraries by the names that compilers look for, what
pkg-config reads, and the package for Node."""

from __future__ import annotations

import os
from typing import Iterable, Union

from ..engine.choice import version
from .manifest import File, Manifest, SymbolicLink, files_below, read

# The libraries for each machine: their folder of a system for several machines, and the name of each there with that in dist. The
# number at the end is raised when a call is no longer what it was.
SHARED, VERSIONED = "libpp6600.so", "libpp6600.so.1"
MACHINES = {
    "lib/x86_64-linux-gnu": {VERSIONED: "libpp6600.so", "libpp6600.a": "libpp6600.a"},
    "lib/aarch64-linux-gnu": {VERSIONED: "libpp6600-aarch64.so", "libpp6600.a": "libpp6600-aarch64.a"},
    "lib/x86_64-w64-mingw32": {"pp6600.dll": "pp6600.dll", "libpp6600.dll.a": "libpp6600.dll.a"},
}
HEADER = "crates/pp_library/pp6600.h"
NODE, NODE_MODULE = "share/nodejs/pp6600", "tools/pp6600/front/film/web/engine/library.mjs"
NODE_COMMAND = "command.mjs"  # the program, which an installation has already
PACKAGE_CONFIG = """prefix=${{pcfiledir}}/{up}
libdir=${{pcfiledir}}/..
includedir=${{prefix}}/include

Name: pp6600
Description: The peripheral processors of the CDC 6600, which step forward and back
Version: {version}
Libs: -L${{libdir}} -lpp6600
Cflags: -I${{includedir}}
"""


def upward(folder: str) -> str:
    """Returns the way from a folder to the one that it lies below of."""
    return "/".join([".."] * len(folder.split("/")))


def for_c(top: str, own: str, programs: Iterable[str], separate: bool) -> Manifest:
    """Returns what compilers want of a checkout whose libraries are installed in the folder `own`. Of several machines, or if it is
    said, each has a folder of its own."""
    named = set(programs)
    found: Manifest = {}
    machines = {folder: names for folder, names in MACHINES.items() if named.issuperset(names.values())}
    for alone, names in machines.items():
        folder = alone if separate or len(machines) > 1 else "lib"
        config = PACKAGE_CONFIG.format(up=upward(f"{folder}/pkgconfig"), version=version())
        found.update({f"{folder}/{name}": SymbolicLink(f"{upward(folder)}/{own}/{file}") for name, file in names.items()})
        found.update({f"{folder}/{SHARED}": SymbolicLink(VERSIONED)} if VERSIONED in names else {})
        found.update({"include/pp6600.h": read(os.path.join(top, HEADER)), f"{folder}/pkgconfig/pp6600.pc": File(config.encode())})
    return found


def for_javascript(top: str, module: Union[str, File]) -> Manifest:
    """Returns the package for Node of a checkout, with the module for WebAssembly: a file, or where below the prefix it is
    installed."""
    found = {f"{NODE}/{name}": entry for name, entry in files_below(os.path.join(top, "share", "nodejs")).items()
             if name != NODE_COMMAND or isinstance(module, File)}
    package = read(os.path.join(top, "share", "nodejs", "package.json")).data.replace(b'"VERSION"', f'"{version()}"'.encode())
    return {**found, f"{NODE}/package.json": File(package), f"{NODE}/library.mjs": read(os.path.join(top, NODE_MODULE)),
            f"{NODE}/pp6600.wasm": SymbolicLink(f"{upward(NODE)}/{module}") if isinstance(module, str) else module}
