"""What uses what: the crates, by crates.txt, and the rooms of the tools, by their imports.

A room of tools/pp6600 imports the rooms below it alone. They are in the order of the table of docs/ARCHITECTURE.md, the uppermost
first."""

import ast
import glob
import os
import re

TOP = os.path.dirname(os.path.dirname(os.path.dirname(os.path.abspath(__file__))))
PACKAGE = os.path.join(TOP, "tools", "pp6600")
FOR_TESTS = re.compile("test_|pp_worked$|pp_mnemonics$|pp_meaning_laws$")


def crates():
    """Returns the crates that each crate uses, without those of the kit and those for tests."""
    with open(os.path.join(TOP, "crates.txt"), encoding="utf-8") as file:
        rows = [row.split(":") for row in file.read().splitlines()]
    listed = {name.split()[0]: words for name, words in rows}  # a static library has a second word
    return {crate: [used for used in words.split() if used in listed] for crate, words in listed.items()
            if not FOR_TESTS.match(crate)}


def order_of_rooms():
    """Returns the rooms in the order of their table, the uppermost first."""
    with open(os.path.join(TOP, "docs", "ARCHITECTURE.md"), encoding="utf-8") as file:
        return re.findall(r"^\| `(\w+)`", file.read().split("\n| Layer | ")[1].split("\n\n")[0], re.M)


def module_at(path):
    """Returns a module's name within the package, as run.session, of its path."""
    return os.path.relpath(path, PACKAGE)[:-len(".py")].replace(os.sep, ".")


def imported_by(module, text, modules):
    """Yields the modules of the package that a module with this text imports, also within functions."""
    folders = module.split(".")[:-1]
    for node in ast.walk(ast.parse(text)):
        if isinstance(node, ast.Import):
            yield from (name.name[len("pp6600."):] for name in node.names if name.name.startswith("pp6600."))
        if isinstance(node, ast.ImportFrom) and node.level:
            base = [*folders[:len(folders) + 1 - node.level], *(node.module or "").split(".")]
        elif isinstance(node, ast.ImportFrom) and (node.module or "").split(".")[0] == "pp6600":
            base = node.module.split(".")[1:]
        else:
            continue
        for name in node.names:
            parts = [part for part in base if part]
            tried = [".".join(part) for part in ([*parts, name.name], [*parts, name.name, "__init__"], parts, [*parts, "__init__"])]
            yield next((one for one in tried if one in modules), tried[0])


def imports():
    """Returns the pairs of a module of one room and a module of another room that it imports."""
    modules = {module_at(path): path for path in glob.glob(os.path.join(PACKAGE, "**", "*.py"), recursive=True)}
    found = set()
    for module, path in modules.items():
        with open(path, encoding="utf-8") as file:
            found.update((module, used) for used in imported_by(module, file.read(), modules))
    return {pair for pair in found if "." in pair[0] and "." in pair[1] and room_of(pair[0]) != room_of(pair[1])}


def room_of(module):
    return module.split(".")[0]


def rooms():
    """Returns the rooms that each room imports."""
    allowed = {(room_of(user), room_of(used)) for user, used in imports()}
    order = order_of_rooms()
    return {room: [used for used in order if (room, used) in allowed] for room in order}
