"""Writes the manual pages of pp6600, of pp6600-python and of the tools.

    share/manual FOLDER     writes a page for each program into the folder
    share/manual --print    writes pp6600.1 to standard output, for man -l -

The pages of the simulators are share/NAME.1, with the tables of docs/CONSOLE.md and docs/MACHINE.md in the place of the lines that
name them. The page of a tool is made from what its --help prints. The version is that of VERSION, the date that of this version
in CHANGELOG.md.
"""

import contextlib
import functools
import io
import os
import re
import sys

from packaging import TOP

from pp6600.__main__ import MODULES, main_of
from pp6600.own import find_first

find_first(tables=os.path.join(TOP, "docs"))
from tables import block, rows, without_links

TABLE = re.compile(r'^\.\\" (table|list|block) of (\S+): (.*)$')


def read(*parts):
    with open(os.path.join(TOP, *parts), encoding="utf-8") as file:
        return file.read()


# ---- from Markdown to roff


def plain(text):
    """Returns text that roff shows as it is."""
    return text.replace("\\", "\\e").replace("-", "\\-")


def marked(text):
    """Returns a cell of a table or a sentence in roff: code and strong words are bold, links are their text.

    The marks of docs/MACHINE.md for the source of a fact are left out."""
    text = re.sub(r" \*\*\[(?:choice|manual)\]\*\*", "", text)
    text = without_links(plain(text))
    text = re.sub(r"\*\*([^*]+)\*\*|`([^`]+)`", lambda found: rf"\fB{found[1] or found[2]}\fP", text)
    return re.sub(r"\*([^*]+)\*", r"\\fI\1\\fP", text)


def line(text):
    """Returns a line of text that is no request."""
    return ("\\&" if text[:1] in (".", "'") else "") + text


def sentence(text):
    """Returns a cell as a sentence."""
    return text[:1].upper() + text[1:] + ("" if text.endswith((".", ":")) or not text else ".")


def table_rows(page, header):
    """Yields the items of a table: the first cell, and below it what the other cells say."""
    heads = [cell.strip() for cell in header.strip("|").split("|")]
    for first, *others in rows(page, header):
        yield f".TP\n{line(marked(first))}"
        named = zip(heads[1:], others)
        said = [sentence(cell) if head in ("What it does", "Meaning", "Cause", "The number") else f"{head}: {cell}."
                for head, cell in named if cell]
        yield line(marked(" ".join(said))) if said else "\\&"


def list_rows(page, header):
    """Yields the rows of a table, the cells but the last one in a column."""
    yield ".PD 0"
    for *firsts, last in rows(page, header):
        yield f".TP 24\n{line(marked(' '.join(firsts)))}\n{line(marked(last))}"
    yield ".PD"


def block_as_it_is(page, heading):
    """Yields the first block of a section as it is."""
    yield ".in +4n\n.EX"
    yield from (line(plain(text)) for text in block(page, heading))
    yield ".EE\n.in"


KINDS = {"table": table_rows, "list": list_rows, "block": block_as_it_is}


# ---- the pages


def heading(name):
    """Returns the first line of a page."""
    version = read("VERSION").strip()
    date = re.search(rf"^## {re.escape(version)}\b.* - (.*)$", read("CHANGELOG.md"), flags=re.M)[1]
    return f'.TH {name.upper()} 1 "{date}" "pp6600 {version}" "User Commands"'


def own_page(name):
    """Yields the lines of the page of a simulator."""
    yield heading(name)
    for text in read("share", f"{name}.1").splitlines():
        found = TABLE.match(text)
        if found:
            yield from KINDS[found[1]](found[2], found[3])
        elif text == '.\\" tools':
            for name in sorted(MODULES):
                yield f".TP\n\\fBpp6600\\-{name}\\fP\n{line(plain(summary(parts_of(help_of(name))[1])))}."
        else:
            yield text


@functools.lru_cache(maxsize=None)
def help_of(name):
    """Returns what a tool prints for --help under its installed name."""
    words, sys.argv, os.environ["COLUMNS"] = sys.argv, [f"pp6600-{name}", "--help"], "10000"
    with contextlib.redirect_stdout(io.StringIO()) as printed, contextlib.suppress(SystemExit):
        main_of(name)()
    sys.argv = words
    return printed.getvalue()


def parts_of(text):
    """Returns the usage, the description, and the items with their explanations, of what --help prints."""
    usage, _, rest = text.removeprefix("usage: ").partition("\n\n")
    description, items = [], []
    for row in rest.splitlines():
        item = re.match(r"  (\S.*?)(?:  +(\S.*))?$", row)
        if item:  # before Python 3.13 a value is named after each name of an option
            items.append([re.sub(r"(--?[\w-]+) (\S+)(?=, .* \2$)", r"\1", item[1]), item[2] or ""])
        elif row.startswith("   ") and items:
            items[-1][1] = f"{items[-1][1]} {row.strip()}".strip()
        elif row and not re.fullmatch(r"[a-z ]+:", row):
            description.append(row.strip())
    return " ".join(usage.split()), " ".join(description), items


def summary(description):
    """Returns the first sentence, up to a colon, without what is in parentheses."""
    return re.match(r".*?(?=[.:](?:\s|$))|.*", re.sub(r" \([^)]*\)", "", description))[0]


def in_lines(text):
    """Yields a paragraph, a sentence a line."""
    for part in re.split(r"(?<=[.])\s+(?=[A-Z])", text):
        yield line(plain(part))


def tool_page(name):
    """Yields the lines of the page of a tool."""
    usage, description, items = parts_of(help_of(name))
    full = f"pp6600-{name}"
    yield heading(full)
    first = summary(description)
    yield f".SH NAME\n{plain(full)} \\- {plain(first[:1].lower() + first[1:])}"
    yield f".SH SYNOPSIS\n.nh\n.ad l\n\\fB{plain(full)}\\fP {plain(usage.removeprefix(full).strip())}\n.ad\n.hy"
    yield ".SH DESCRIPTION"
    yield from in_lines(description)
    yield ".SH OPTIONS"
    for item, said in items:
        yield f".TP\n\\fB{plain(item)}\\fP\n{line(plain(sentence(said)))}"
    yield ".SH SEE ALSO\n.BR pp6600 (1)\n.PP\nThe page TOOLS.md in share/pp6600/docs has a session of each tool."


def main():
    if sys.argv[1:] == ["--print"]:
        print("\n".join(own_page("pp6600")))
    elif len(sys.argv) == 2 and os.path.isdir(sys.argv[1]):
        pages = {name: own_page(name) for name in ("pp6600", "pp6600-python")}
        pages.update({f"pp6600-{name}": tool_page(name) for name in MODULES})
        for name, lines in pages.items():
            with open(os.path.join(sys.argv[1], f"{name}.1"), "w", encoding="utf-8") as file:
                file.write("\n".join(lines) + "\n")
    else:
        sys.exit("usage: share/manual FOLDER | --print")
