"""Makes the page to print, with numbers, an index, a link at each name, and the place, the users and the examples of each
definition."""

import os
import re
from html import escape

import card
from book.facts import PAGE
from book.pages import LONG as FOLDED
from book.pages import MADE, Entry, filled, link, notes, place_of, slug

STYLE = """\
@page { margin: 15mm 12mm 17mm 8mm; @bottom-right { content: counter(page); font: 8pt Helvetica, Arial, sans-serif; } }
* { box-sizing: border-box; }
body { font: 10pt/1.35 Helvetica, Arial, 'Liberation Sans', 'DejaVu Sans', sans-serif; color: #111; background: #fff;
  max-width: 250mm; margin: 8mm auto; padding: 0 4mm 0 12mm; }
h1 { font-size: 1.8em; margin: 0 0 .4em; }
h2 { font-size: 1.4em; margin: 1.6em 0 .4em; }
h3 { font-size: 1em; margin: 1.3em 0 .15em; border-top: .4pt solid #999; padding-top: .35em; }
h3 small { font-weight: normal; color: #555; }
p, ul, blockquote { margin: .45em 0; }
ul { padding-left: 1.2em; }
blockquote { padding-left: 1em; border-left: 2pt solid #bbb; }
a { color: inherit; text-decoration-color: #aaa; }
table { border-collapse: collapse; width: 100%; margin: .5em 0; }
th, td { text-align: left; vertical-align: top; padding: .12em .5em; border-bottom: .4pt solid #999; }
th { border-bottom: 1pt solid #333; }
tr { break-inside: avoid; }
td:nth-child(3) { overflow-wrap: break-word; }
td { overflow-wrap: anywhere; }
code, pre { font-family: 'DejaVu Sans Mono', 'Liberation Mono', Menlo, Consolas, monospace; font-size: .88em; }
pre { font-size: .84em; margin: .3em 0; padding: .35em .6em; background: #f6f6f4; line-height: 1.3; }
pre span { display: block; white-space: pre-wrap; overflow-wrap: anywhere; min-height: 1.3em;
  padding-left: 4ch; text-indent: -4ch; }
pre.examples { background: none; border-left: 2pt solid #ddd; }
pre a { text-decoration: none; }
pre a:hover { text-decoration: underline; }
pre i { color: #666; }
img { max-width: 100%; }
.said { font-size: .85em; color: #444; }
.word { position: relative; }
.facts { position: absolute; left: -3.6em; top: 2.7em; width: 3em; text-align: right; font-size: .8em; }
.facts a { display: block; text-decoration: none; }
.index { columns: 4; font-size: .8em; line-height: 1.25; }
.index div { break-inside: avoid; overflow-wrap: anywhere; padding-left: 1em; text-indent: -1em; }
@media print {
  body { font-size: 8.4pt; max-width: none; margin: 0; padding: 0 0 0 8mm; }
  h2, h3 { break-after: avoid; }
  .chapter, .rows { break-before: page; }
  .rows { font-size: 6.5pt; line-height: 1.12; break-after: page; }
  .rows td { padding: 0 .4em; }
  .chapter > h2 { margin-top: 0; }
  .word { break-inside: avoid; }
  .long { break-inside: auto; }
  a { text-decoration: none; }
}
"""
LONG = 40  # lines: a longer definition may be on two sheets
MOST_USERS = 8


def code(text):
    """Returns lines of code in HTML, which keep their indentation where they are too long for the sheet."""
    lines = re.sub(r"((?<!\S)(?:--(?!\S)|//).*)", r"<i>\1</i>", text).splitlines()
    return "<pre>" + "".join(f"<span>{line}</span>" for line in lines) + "</pre>"


def numbered(text, book):
    """Returns HTML with the number of each definition after a link to it."""
    numbers = {entry.anchor: entry.number for entry in book.entries.values()}

    def with_number(found):
        return found.group() + (f" <small>{numbers[found[1]]}</small>" if found[1] in numbers else "")
    return re.sub(r'<a href="#([^"]+)">.*?</a>', with_number, text)


def block_of(block):
    """Returns a block of the text in HTML: a heading, a quotation, code, or what the card has too."""
    heading = re.match(r"(#+) (.*)", block)
    if heading:
        return f'<h{len(heading[1])} id="{slug(heading[2])}">{card.inline(heading[2])}</h{len(heading[1])}>'
    if re.match("</?details>", block):
        return block
    picture = re.fullmatch(r"!\[([^]]*)\]\(([^)]*)\)", block)
    if picture:
        return f'<p><img src="{picture[2]}" alt="{escape(picture[1])}"></p>'
    if block.startswith(">"):
        paragraphs = re.sub(r"^> ?", "", block, flags=re.M).split("\n\n")
        return "<blockquote>" + "".join(map(card.html, paragraphs)) + "</blockquote>"
    made = card.html(block).replace("<table>", '<table class="rows">' if block.startswith("| Code | Name") else "<table>")
    return code(made[len("<pre>"):-len("</pre>")]) if made.startswith("<pre>") else made


def text_of(text, book):
    """Returns a part of the text in HTML."""
    return numbered("\n".join(map(block_of, re.split(r"\n\n+", filled(text, book).strip("\n")))), book)


def facts_of(entry, book):
    """Returns the facts that a definition names, for the margin: each leads to its section, and has its text as a title."""
    found = [(mark, book.facts.facts[mark]) for mark in entry.definition.marks() if mark in book.facts.facts]
    links = "".join(f'<a href="{os.path.basename(PAGE)}#{slug(fact.heading)}" title="{escape(fact.text)}">{mark}</a>'
                    for mark, fact in found)
    return f'<div class="facts">{links}</div>\n' if found else ""


def users_of(entry):
    """Returns the users of a definition, the first of many."""
    names = [link(user) if isinstance(user, Entry) else f"the contract of `{user.name}`" for user in entry.users]
    more = len(names) - MOST_USERS
    return f"Used by {', '.join(names if more < 2 else names[:MOST_USERS])}{f' and {more} more' if more > 1 else ''}."


def examples_of(entry, book):
    """Returns the examples of a definition, and what the cases return that have none."""
    found = book.examples.get(entry.definition.whole_name, [])
    return "\n".join(f"-- no example of {one.without}" if one.without else f"{one.text}\n    = {one.value}" for one in found)


def summary_of(entry, book):
    """Returns what is shown of the part of a definition that is folded."""
    has_examples = entry.definition.whole_name in book.examples
    parts = [f"its {entry.lines()} lines"] * (entry.lines() > FOLDED) + ["source", "users"] + ["examples"] * has_examples
    return ", ".join(parts).capitalize()


def entry_of(entry, book):
    """Returns a definition with a link at each name, and all that the page says of it."""
    linked = [(book.entries.get(target), escape(piece, quote=False)) for piece, target in entry.pieces]
    shown = "".join(f'<a href="#{other.anchor}">{piece}</a>' if other not in (None, entry) else piece for other, piece in linked)
    said = card.inline(" ".join(notes(entry, book.entries)))
    examples = examples_of(entry, book)
    examples = code(escape(examples, quote=False)).replace("<pre>", '<pre class="examples">') + "\n" if examples else ""
    source = numbered(card.inline(f"{place_of(entry.definition)} {users_of(entry)}"), book)
    is_long = entry.lines() > FOLDED
    more = (f'<details class="said"><summary>{summary_of(entry, book)}</summary>\n{code(shown) * is_long}\n<p>{source}</p>\n'
            f"{examples}</details>\n")
    return (f'<div class="{"word long" if entry.lines() > LONG else "word"}">\n'
            f'<h3 id="{entry.anchor}"><small>{entry.number}</small> {card.inline(entry.title)}</h3>\n'
            f"{facts_of(entry, book)}<p>{card.inline(entry.definition.sentence())}</p>\n{code(shown) * (not is_long)}\n"
            + (f'<p class="said">{numbered(said, book)}</p>\n' if said else "") + f"{more}</div>")


def index(book):
    """Returns the names of all definitions and constructors in the order of the alphabet, with their numbers."""
    names = {(name, entry) for definition, entry in book.entries.items() for name in (definition.name, *definition.members)}
    rows = [f'<div><a href="#{entry.anchor}">{escape(name)}</a> {entry.number}</div>'
            for name, entry in sorted(names, key=lambda item: (item[0].lower(), item[0], item[1].number))]
    return '<div class="chapter">\n<h2>Index</h2>\n<div class="index">\n' + "\n".join(rows) + "\n</div>\n</div>"


def html(book):
    """Returns the page."""
    parts = [text_of(book.text.front, book)]
    for at, (chapter, definitions) in enumerate(zip(book.text.chapters, book.chapters), 1):
        heading = f'<h2 id="{slug(chapter.title)}">{at} {escape(chapter.title)}</h2>'
        parts += [f'<div class="chapter">\n{heading}', text_of(chapter.introduction, book)]
        parts += [entry_of(book.entries[definition], book) for definition in definitions] + ["</div>"]
    body = "\n".join(parts + [index(book)])
    return (f'<!DOCTYPE html>\n{MADE.strip()}\n<html lang="en">\n<head>\n<meta charset="utf-8">\n<title>The definitions</title>\n'
            f"<style>\n{STYLE}</style>\n</head>\n<body>\n{body}\n</body>\n</html>\n")
