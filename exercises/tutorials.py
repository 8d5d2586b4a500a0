"""The tutorials in the page of a class: their text, and sessions whose lines the page performs."""

import os
import re

from checking import HERE, read

NAMES = ("TUTORIAL.md", "TUTORIAL-2.md")
FENCED = re.compile(r"^(```\w+.*?\n.*?^```)$", re.M | re.S)
# pictures, links, what is bold or slanted
MARKS = re.compile(r"!\[[^\]]*\]\([^)]*\)|\[([^\[\]]*)\]\([^)]*\)|\*\*(.+?)\*\*|\*(\w[\w ]*)\*")


def tutorials():
    """Returns of each tutorial its title and its parts."""
    return [tutorial(read(os.path.join(HERE, os.pardir, "docs"), name).decode("utf-8")) for name in NAMES]


def tutorial(page):
    """Returns the title of a page, and its parts: each has the name of its kind and what it has to show."""
    title, text = page.split("\n", 1)
    parts, heading = [], ""
    for piece in filter(str.strip, FENCED.split(text)):
        more = [fenced(piece, heading)] if piece.startswith("```") else [shown(block)
                                                                         for block in re.split(r"\n\n+", piece.strip())]
        heading = next((part["text"] for part in reversed(more) if part["kind"] == "heading"), heading)
        parts += more
    return {"title": title.lstrip("# "), "parts": parts}


def fenced(piece, heading):
    """Returns a session, with the files with which it begins or null if it goes on; or another text between fences."""
    head, text = piece[3:-3].split("\n", 1)
    kind, *words = head.split()
    if kind != "session":
        return {"kind": "text", "text": text}
    lines = [entry.rstrip("\n").partition("\n") for entry in re.split(r"^> ", text, flags=re.M)[1:]]
    options = zip(words[::2], words[1::2])
    files = {word[2:]: read(os.path.join(HERE, os.pardir, "examples"), path).decode("latin-1") for word, path in options}
    return {"kind": "session", "lines": [[line, answer] for line, _, answer in lines], "name": heading,
            "files": None if words == ["continued"] else files}


def shown(block):
    """Returns a heading, a table or a paragraph without marks but those of what is code."""
    block = MARKS.sub(lambda mark: "".join(filter(None, mark.groups())), block)
    if block.startswith("#"):
        return {"kind": "heading", "text": block.lstrip("# ")}
    if block.startswith("|"):
        rows = [[cell.strip() for cell in line.strip("|").split("|")] for line in block.split("\n")]
        return {"kind": "table", "rows": [row for row in rows if not set("".join(row)) <= set("-")]}
    return {"kind": "paragraph", "items": [" ".join(item.split()) for item in re.split(r"^- ", block, flags=re.M) if item.strip()],
            "isList": block.startswith("- ")}
