"""A manifest: paths, each with a file or a link."""

from __future__ import annotations

import os
from typing import Dict, Iterator, NamedTuple, Union


class File(NamedTuple):
    """The bytes of a file, and whether it is a program."""

    data: bytes
    runs: bool = False


class SymbolicLink(NamedTuple):
    """A link, to a path from where it is."""

    target: str


Entry = Union[File, SymbolicLink]
Manifest = Dict[str, Entry]


def read(path: str) -> File:
    """Returns a file of the system."""
    with open(path, "rb") as file:
        return File(file.read(), os.access(path, os.X_OK))


def entry_at(path: str) -> Entry:
    """Returns a file or a link of the system."""
    return SymbolicLink(os.readlink(path)) if os.path.islink(path) else read(path)


def files_below(folder: str) -> Manifest:
    """Returns the files and links below a folder, by their paths from there, without what Python keeps."""
    found = {}
    for above, folders, names in os.walk(folder):
        folders[:] = [name for name in folders if name != "__pycache__"]
        for name in names:
            path = os.path.join(above, name)
            found[os.path.relpath(path, folder).replace(os.sep, "/")] = entry_at(path)
    return found


def file_at(manifest: Manifest, path: str) -> File:
    """Returns the file at a path of a manifest, or to which the link there leads."""
    entry = manifest[path]
    if isinstance(entry, File):
        return entry
    return file_at(manifest, os.path.normpath(os.path.join(os.path.dirname(path), entry.target)))


def with_folders(path: str) -> Iterator[str]:
    """Yields a path, and the folders above it."""
    while path:
        yield path
        path = os.path.dirname(path)
