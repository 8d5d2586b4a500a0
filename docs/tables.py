"""Reads the tables and blocks of the pages, for what is made from them: the card and the manual pages."""

import os
import re

HERE = os.path.dirname(os.path.abspath(__file__))


def text_of(page):
    """Returns the text of a page of docs/."""
    with open(os.path.join(HERE, page), encoding="utf-8") as file:
        return file.read()


def rows(page, header):
    """Returns the cells of each row of the table whose first line begins so; a bar in a cell has a backslash before it."""
    lines = text_of(page).splitlines()
    at = next(number for number, text in enumerate(lines) if text.startswith(header)) + 2
    found = []
    while at < len(lines) and lines[at].startswith("|"):
        found.append([cell.strip() for cell in re.split(r"(?<!\\)\|", lines[at])[1:-1]])
        at += 1
    return found


def block(page, heading):
    """Returns the lines of the first block of a section."""
    found = re.search(rf"^## {re.escape(heading)}\n.*?^```\n(.*?)^```", text_of(page), flags=re.M | re.S)
    return found[1].splitlines()


def without_links(text):
    """Returns Markdown with the texts of its links alone."""
    return re.sub(r"\[([^\]]*)\]\([^)]*\)", r"\1", text)
