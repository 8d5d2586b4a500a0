"""Joins ES modules into one script: each becomes a function that returns what it exports, after those that it imports.

Indentation is left out, so no string has several lines, and so are comments, but for those behind code that have a quotation mark.
A module imports by
`import { a, b } from "./other.js";` on one line, and exports by `export` before a const, a class or a function. A cycle, another
form, or the import of a name that is not exported is an error."""

from __future__ import annotations

import os
import re
from typing import Dict, List, NamedTuple, Tuple

IMPORT = re.compile(r'^import \{ ([^}]+) \} from "(\.[^"]+)";\n', re.M)
EXPORT = re.compile(r"^export ((?:async )?function|class|const) (\w+)(.*)$", re.M)
MORE_NAMES = re.compile(r", ([A-Z][A-Z_0-9]*) = ")  # of `const A = 1, B = 2;`
LEFT_OUT = re.compile(r"^\s*//.*\n|^[ \t]+|[ \t]+// [^\"'`\n]*$", re.M)
UNKNOWN = re.compile(r"^(?:import|export)\b.*$", re.M)


class Module(NamedTuple):
    """A module: its text, the names that it imports from others by their paths, and those that it exports."""

    text: str
    imports: Dict[str, List[str]]
    exports: List[str]


class JoinError(ValueError):
    """The modules can't be joined."""


def joined(path: str) -> str:
    """Returns the script of a module and of all that it imports."""
    return joined_with_shared(path)[0]


def joined_with_shared(*paths: str) -> List[str]:
    """Returns what the scripts of modules have in common, and behind that the rest of each: both after each other are its
    script."""
    orders: List[Dict[str, Module]] = [{} for _ in paths]
    for path, order in zip(paths, orders):
        add(os.path.normpath(path), order, ())
    root = os.path.commonpath([os.path.dirname(one) for order in orders for one in order])
    texts = {one: function_of(one, module, root) for order in orders for one, module in order.items()}
    shared = [one for one in orders[0] if all(one in order for order in orders)]
    return ['"use strict";\n' + "".join(texts[one] for one in shared),
            *("".join(texts[one] for one in order if one not in shared) for order in orders)]


def function_of(path: str, module: Module, root: str) -> str:
    heads = "".join(f"const {{ {', '.join(names)} }} = {name_of(other, root)};\n" for other, names in module.imports.items())
    body = EXPORT.sub(r"\1 \2\3", IMPORT.sub("", module.text)).strip("\n") + "\n"
    return f"const {name_of(path, root)} = (() => {{\n{heads}{body}return {{ {', '.join(module.exports)} }};\n}})();\n"


def name_of(path: str, root: str) -> str:
    return "m_" + re.sub(r"\W", "_", os.path.splitext(os.path.relpath(path, root))[0])


def add(path: str, order: Dict[str, Module], above: Tuple[str, ...]) -> None:
    """Adds a module behind those that it imports."""
    if path in above:
        raise JoinError("a cycle: " + " -> ".join((*above[above.index(path):], path)))
    if path in order:
        return
    module = module_at(path)
    for other in module.imports:
        add(other, order, (*above, path))
    missing = [name for other, names in module.imports.items() for name in names if name not in order[other].exports]
    if missing:
        raise JoinError(f"{path}: no module exports {', '.join(missing)}")
    order[path] = module


def module_at(path: str) -> Module:
    with open(path, encoding="utf-8") as file:
        text = LEFT_OUT.sub("", file.read())
    unknown = UNKNOWN.findall(EXPORT.sub("", IMPORT.sub("", text)))
    if unknown:
        raise JoinError(f"{path}: {unknown[0]}")
    folder = os.path.dirname(path)
    imports = {os.path.normpath(os.path.join(folder, other)): re.split(r",\s+", names) for names, other in IMPORT.findall(text)}
    exports = [name for kind, first, rest in EXPORT.findall(text)
               for name in (first, *(MORE_NAMES.findall(rest) if kind == "const" else ()))]
    return Module(text, imports, exports)
