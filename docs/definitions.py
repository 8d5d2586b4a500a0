#!/usr/bin/env python3
"""Makes docs/DEFINITIONS.md and docs/definitions.html, the definitions that the theorem rests on: docs/definitions.py [--check]

docs/definitions.txt has the text of the first page. It names the functions whose contracts are the theorem. From there on the page
has each definition of crates/*/specs and each type of crates/*/src that a definition on the page uses, name by name, with the
comment above it, and with its examples of docs/examples.txt, which docs/evaluate --record makes.

These are faults:
- a name that stands for nothing, or a definition that belongs to no chapter;
- a definition of the text that is not on the page, a word of the kit without its line in the text, or a line without its word;
- a definition without a comment, or one of the machine whose comment names no fact of docs/MACHINE.md;
- a mark of a comment that is no fact there, or a fact there that no definition of the page names;
- with --check, docs/DEFINITIONS.md if it is not what would be made.

Faults are printed, and the status is 1. The pages are made all the same, but not with --check. docs/definitions.html is not
tracked: `make pages` makes it, and so does a release.
"""

import sys

if not getattr(sys.flags, "safe_path", False):
    del sys.path[0]  # nothing beside this file is taken for a module of Python's own
import os
import re

sys.dont_write_bytecode = True
FOLDER = os.path.dirname(os.path.abspath(__file__))
TOP = os.path.dirname(FOLDER)
with open(os.path.join(TOP, "tools", "pp6600", "own.py"), encoding="ascii") as own:
    exec(own.read())
find_first(book=FOLDER, evaluating=FOLDER, card=FOLDER)

from book.html import html  # noqa: E402
from book.names import Sources, Unresolved  # noqa: E402
from book.pages import Book, Text, markdown  # noqa: E402
from evaluating.examples import load  # noqa: E402


def read(top, *names):
    path = os.path.join(top, *names)
    if not os.path.exists(path):
        return ""
    with open(path, encoding="utf-8") as file:
        return file.read()


def faults_of_definitions(book):
    """Yields what is wrong with a definition: a name that stands for nothing, no sentence, no source, no chapter."""
    for definition, entry in book.entries.items():
        place = f"{definition.scope.path}:{definition.line}: {definition.name}"
        yield from (f"{place}: {name} stands for nothing" for name in sorted(book.reach.readings[definition].unresolved))
        chapter = int(entry.number.split(".")[0]) - 1
        if chapter == len(book.text.chapters):
            yield f"{place}: it belongs to no chapter of docs/definitions.txt"
        elif not definition.sentence():
            yield f"{place}: it has no sentence"
        elif book.text.chapters[chapter].is_machine and not definition.marks():
            yield f"{place}: it names no fact of docs/MACHINE.md"
    for contract in book.contracts:
        for name in sorted(book.reach.readings[contract].unresolved):
            yield f"{contract.scope.path}:{contract.line}: {contract.name}: {name} stands for nothing"


def faults_of_text(book):
    """Yields what is wrong with the names in docs/definitions.txt."""
    said = book.text.front + "".join(chapter.introduction for chapter in book.text.chapters)
    for name in re.findall(r"\[\[(\S+?)\]\]", said):
        if not book.named(name):
            yield f"docs/definitions.txt: [[{name}]] is not exactly one definition of the page"
    kit = {word.name for word in book.reach.kit()}
    yield from (f"docs/definitions.txt: no line says what {name} of the kit means" for name in sorted(kit - set(book.text.kit)))
    yield from (f"docs/definitions.txt: no definition uses {name} of the kit" for name in sorted(set(book.text.kit) - kit))


def made(top):
    """Returns the pages by their paths, and the faults."""
    try:
        book = Book(Sources(top), Text(read(top, "docs", "definitions.txt")), load(read(top, "docs", "examples.txt")))
    except Unresolved as name:
        return {}, [f"{name}: not found"]
    faults = [*faults_of_definitions(book), *faults_of_text(book), *book.facts.faults_of(book)]
    return {"docs/DEFINITIONS.md": markdown(book), "docs/definitions.html": html(book)}, faults


def main(words, top=TOP):
    if words not in ([], ["--check"]):
        print("docs/definitions.py: the only word it takes is --check", file=sys.stderr)
        return 2
    pages, faults = made(top)
    for path, page in pages.items():
        if not words:
            with open(os.path.join(top, path), "w", encoding="utf-8") as file:
                file.write(page)
        elif path.endswith(".md") and read(top, path) != page:
            faults.append(f"{path} is not what docs/definitions.py makes: run docs/definitions.py")
    print("".join(fault + "\n" for fault in faults), end="")
    return 1 if faults else 0


if __name__ == "__main__":
    sys.exit(main(sys.argv[1:]))
