#!/usr/bin/env python3
"""Makes CARD.md and card.html, the console on one page: card.html is one sheet of A4 when it is printed.

All that they say is in CONSOLE.md, MACHINE.md and TOOLS.md. Without a word it writes both, beside this file. With `--check` it
writes nothing, and fails if one of them is not what it makes.
"""

import sys

if __name__ == "__main__" and not getattr(sys.flags, "safe_path", False):
    del sys.path[0]  # nothing beside this file is taken for a module of Python's own
import os
import re
from html import escape

FOLDER = os.path.dirname(os.path.abspath(__file__))
with open(os.path.join(os.path.dirname(FOLDER), "tools", "pp6600", "own.py"), encoding="ascii") as own:
    exec(own.read())
find_first(tables=FOLDER)

from tables import HERE, block, rows, text_of, without_links

LINES = "| Line | What it does | Answer |"
OPTIONS = "| Word | Meaning | Without it |"
BEGIN = """\
# The console on one page

[CONSOLE](CONSOLE.md) and [MACHINE](MACHINE.md) explain it, and `docs/card.py` makes it from them; [card.html](card.html) is one
sheet of A4 to print. Numbers are octal, counts too, unless marked decimal. Letters of either case are equal; a line that begins
with `*` is a note.
"""
GRIDS = """\
**Relative jumps** (03 to 07), on the left: forward, d is the distance, 01 to 37; back, the row is its first digit, the column the
second. **Display code**, on the right, is read in the same way; 55 is a blank."""
USES = ("jumps", "operand d", "operand dm; exchange jump, central P", "operand in cell d",
        "operand in the cell whose address is in cell d", "operand in cell m plus the number in cell d (m if d is 00)",
        "central memory; jump to m if active, inactive, full, not full", "input, output, activate, disconnect, function")
HEAD = "   " + "    ".join("01234567")
STYLE = """\
@page { size: A4 portrait; margin: 9mm 10mm; }
* { box-sizing: border-box; }
body { font: 10pt/1.3 Helvetica, Arial, 'Liberation Sans', 'DejaVu Sans Condensed', sans-serif; color: #111; background: #fff;
  max-width: 215mm; margin: 8mm auto; padding: 0 4mm; }
h1 { font-size: 1.7em; margin: 0 0 .3em; }
p, ul { margin: .45em 0; }
ul { padding-left: 1.2em; }
a { color: inherit; }
table { border-collapse: collapse; width: 100%; margin: .5em 0; }
th, td { text-align: left; vertical-align: top; padding: .12em .5em; border-bottom: .4pt solid #999; }
th { border-bottom: 1pt solid #333; }
th:empty { padding: 0; }
code, pre { font-family: 'DejaVu Sans Mono', 'Liberation Mono', Menlo, Consolas, monospace; font-size: .9em; }
td code, p > code:only-child { white-space: nowrap; }
td { break-inside: avoid; }
pre { margin: .4em 0; padding: .35em .6em; border: .4pt solid #999; line-height: 1.2; white-space: pre; overflow-x: auto; }
@media screen and (max-width: 50em) { td code, p > code:only-child { white-space: normal; } }
@media print {
  body { font-size: 6.8pt; line-height: 1.2; max-width: none; margin: 0; padding: 0; }
  a { text-decoration: none; }
  pre { overflow: visible; }
}
"""


# ---- the text, from the other pages


def table(header, body):
    """Returns a table of Markdown."""
    return "\n".join([header, "|" + "---|" * (header.count("|") - 1), *(f"| {' | '.join(row)} |" for row in body)])


def facts():
    """Returns the list below the table of lines, and the places."""
    below = text_of("CONSOLE.md").split(LINES, 1)[1].split("\n\n", 2)[1]
    items = [item for item in re.split(r"^(?=- )", below, flags=re.M) if item and "leading zeros" not in item]
    places = ", ".join(f"{first} ({number})" for first, number, _ in rows("CONSOLE.md", "| Place | The number |"))
    said = re.sub(r"\*(\w+)\*", r"\1", without_links("".join(items))).rstrip("\n")
    return f"{said}\n- Places: {places}.\n- Tools, by their questions in [TOOLS](TOOLS.md): {tools()}."


def tools():
    """Returns the names of the tools that answer the questions of TOOLS.md."""
    named = [without_links(tool).split()[0].rstrip(",;") for _, tool in rows("TOOLS.md", "| Question | Tool |")]
    return ", ".join(dict.fromkeys(f"`{name}`" for name in named if not name.startswith("-")))


def functions():
    """Returns what the function codes do, of the reader and of the printer."""
    codes_of = {name: re.findall(r"^\| function code (\d+) \| [^|]* \| (?:inactive; )?(.*) \|$",
                                 text_of("MACHINE.md").split(f"\n## The {name}\n")[1].split("\n## ")[0], flags=re.M)
                for name in ("card reader", "printer")}
    said = (f"of the {name} {', '.join(f'{code} ({what})' for code, what in listed)}" for name, listed in codes_of.items())
    return f"**Function codes**: {'; '.join(said)}."


def errors():
    """Returns a table with three errors in a row."""
    found = sorted(re.fullmatch(r"`ERR (\d\d) (.*)`", row[0]).groups() for row in rows("CONSOLE.md", "| Answer | Cause |"))
    cells = [f"`{cell}`" for error in found for cell in error]
    third = -(-len(found) // 3) * 2
    columns = [cells[at:at + third] + [""] * (at + third - len(cells)) for at in (0, third, 2 * third)]
    return table("| `ERR` | | `ERR` | | `ERR` | |",
                 [[one for column in columns for one in column[at:at + 2]] for at in range(0, third, 2)])


def statuses():
    """Returns a table of the exit statuses above 1 with their texts."""
    texts = {}
    for text, status, _ in rows("CONSOLE.md", "| Text | Status | Cause |"):
        texts.setdefault(status, []).append(without_links(text).partition(", as in")[0])
    return table("| Exit status | Cause |",
                 [["0, 1", "no line was refused; one was"], *([status, ", ".join(said)] for status, said in texts.items())])


def codes():
    """Returns the grid of the codes: the row is the first digit, the column the second, and a `+` marks two words."""
    names = {}
    for numbers, called, _ in rows("MACHINE.md", "| Code | Name | Effect |"):
        listed = numbers.split(", ")
        names.update(zip(listed, called.split(", ") * (len(listed) if "," not in called else 1)))
    said = re.search(r"The codes ([0-7, to]+ and [0-7]+)\s+have two words", text_of("MACHINE.md").replace("\n", " "))[1]
    ranges = [part.split(" to ") for part in re.split(r", | and ", said)]
    long = {f"{code:02o}" for ends in ranges for code in range(int(ends[0], 8), int(ends[-1], 8) + 1)}
    grid = [[f"{names[code]}{'+' if code in long else ' '}" for code in (f"{row}{column}" for column in range(8))]
            for row in range(8)]
    return [HEAD, *(f"{row}  {' '.join(words)}  {USES[row]}" for row, words in enumerate(grid))]


def jumps():
    """Returns the grid of d of each distance back, 00 to 37."""
    grid = [[f"{0o77 - (8 * row + column):02o}" if row or column else "00" for column in range(8)] for row in range(4)]
    return ["   " + "  ".join("01234567"), *(f"{row}  {' '.join(numbers)}" for row, numbers in enumerate(grid))]


def display_code():
    """Returns the table of display code in two columns."""
    head, *lines = block("MACHINE.md", "Display code")
    return [f"{head}     {head}", *(f"{left:18}     {right}" for left, right in zip(lines[:4], lines[4:]))]


def fenced(lines):
    return "\n".join(["```", *(line.rstrip() for line in lines), "```"])


def card():
    """Returns the text of CARD.md."""
    usage = re.search(r"^`pp6600 \[.*`$", text_of("CONSOLE.md"), flags=re.M)[0]
    parts = (BEGIN.rstrip("\n"), table(LINES, rows("CONSOLE.md", LINES)), facts(), errors(), usage,
             table(OPTIONS, rows("CONSOLE.md", OPTIONS)),
             statuses(), "**Codes**: the row is the first digit, the column the second. A `+` marks two words; the second is m.",
             fenced(codes()),
             f"{GRIDS} {functions()}", fenced(f"{left:27}     {right}" for left, right in zip(jumps(), display_code())))
    return "\n\n".join(parts) + "\n"


# ---- the sheet


def inline(text):
    """Returns a line of Markdown in HTML: code, strong words and links."""
    parts = re.split(r"(`[^`]+`)", text)
    for at, part in enumerate(parts):
        if part.startswith("`"):
            parts[at] = f"<code>{escape(part[1:-1])}</code>"
        else:
            parts[at] = re.sub(r"\*\*([^*]+)\*\*", r"<strong>\1</strong>", escape(part, quote=False))
    return re.sub(r"\[((?:<code>[^<]*</code>|[^\]])*)\]\(([^)]*)\)", r'<a href="\2">\1</a>', "".join(parts))


def cells(row, kind):
    """Returns the cells of a row; a bar in one has a backslash before it."""
    found = [cell.strip().replace("\\|", "|") for cell in re.split(r"(?<!\\)\|", row.strip("|"))]
    return "".join(f"<{kind}>{inline(cell)}</{kind}>" for cell in found)


def table_in_html(part):
    """Returns a table; the second line of its block is the rule below the heads."""
    head, _, *body = part.splitlines()
    lines = [f"<tr>{cells(head, 'th')}</tr>", *(f"<tr>{cells(row, 'td')}</tr>" for row in body)]
    return "<table>\n" + "\n".join(lines) + "\n</table>"


def items(part):
    """Returns a list, each item of which may have several lines."""
    found = [" ".join(item.split()) for item in re.split(r"^- ", part, flags=re.M)[1:]]
    return "<ul>\n" + "\n".join(f"<li>{inline(item)}</li>" for item in found) + "\n</ul>"


def html(part):
    """Returns a block of Markdown in HTML."""
    if part.startswith("```"):
        return f"<pre>{escape(part.split(chr(10), 1)[1].rsplit(chr(10), 1)[0])}</pre>"
    if part.startswith("# "):
        return f"<h1>{inline(part[2:])}</h1>"
    if part.startswith("|"):
        return table_in_html(part)
    return items(part) if part.startswith("- ") else f"<p>{inline(' '.join(part.split()))}</p>"


def page(text):
    """Returns the sheet for the text of CARD.md."""
    parts = [part.strip("\n") for part in re.split(r"\n\n+", text.strip("\n"))]
    body = "\n".join(map(html, parts))
    return (f'<!DOCTYPE html>\n<html lang="en">\n<head>\n<meta charset="utf-8">\n<title>{escape(parts[0][2:])}</title>\n'
            f"<style>\n{STYLE}</style>\n</head>\n<body>\n{body}\n</body>\n</html>\n")


def main():
    text = card()
    made = {"CARD.md": text, "card.html": page(text)}
    if sys.argv[1:] == ["--check"]:
        stale = [name for name, wanted in made.items() if text_of(name) != wanted]
        return f"docs/{stale[0]} is not what docs/card.py makes" if stale else 0
    if sys.argv[1:]:
        return "usage: docs/card.py [--check]"
    for name, wanted in made.items():
        with open(os.path.join(HERE, name), "w", encoding="utf-8") as file:
            file.write(wanted)
    return 0


if __name__ == "__main__":
    sys.exit(main())
