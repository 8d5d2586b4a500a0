"""Makes the page in Markdown: the text of definitions.txt, and each definition with its sentence."""

import collections
import os
import re

from book.facts import PAGE, Facts
from book.names import NAMED, TOKEN, Field, Library, is_trait
from book.reach import Reach, contract
from evaluating.tables import made as made_table

MADE = "<!-- docs/definitions.py makes this page from docs/definitions.txt and the sources: change those. -->\n\n"
COMMENT = re.compile(r"^\s*(?:--|//)")
# words that readers need not
FOR_THE_PROVER = re.compile(r"^( *)(?:(?:abbrev|unfoldable|irreducible) )?(?:pub(?:\([a-z]+\))? )?(?=\S)", re.M)
LONG = 60  # lines: a longer definition is only in the printed page, or folded there

# A chapter of the text, with the files whose definitions it has. Those of the machine name their source.
Chapter = collections.namedtuple("Chapter", "title files is_machine introduction")


def slug(heading):
    """Returns the anchor of a heading."""
    return re.sub(r"[^\w -]", "", heading.lower()).replace(" ", "-")


class Text:
    """The text of definitions.txt: the first page, the chapters, and a line for each word of the kit.

    A line `contract: CRATE/src/FILE.rt NAME` shows the contract of a function, `contents` the table of the chapters, `kit` that of
    the words of the kit, `table: NAME` one of docs/evaluating/tables.py, and [[NAME]] or [[CRATE/FILE:NAME]] a link to a
    definition. A chapter has lines `files:` with patterns of CRATE/FILE, CRATE/src/FILE or CRATE/FILE:NAME, and one `facts:` if its
    definitions name their source.
    """

    def __init__(self, text):
        front, chapters, kit = re.split(r"^== .*\n", text, flags=re.M)
        self.front, self.chapters = front.strip() + "\n", []
        for block in re.split(r"^## ", chapters, flags=re.M)[1:]:
            title, _, rest = block.partition("\n")
            files = " ".join(re.findall(r"^files: (.*)\n", rest, re.M)).split()
            introduction = re.sub(r"^(files|facts): .*\n", "", rest, flags=re.M).strip()
            self.chapters.append(Chapter(title, files, "\nfacts: " in block, introduction))
        self.kit = dict(re.findall(r"^`(.+?)`: (.*)$", kit, re.M))


class Entry:
    """A definition on the page."""

    def __init__(self, definition, title, number):
        self.definition, self.title, self.anchor, self.number = definition, title, slug(title), number
        self.language = "rust" if definition.scope.module[1] == "src" and definition.kind != "ghost" else "antt"
        self.users = []  # contracts and entries
        self.pieces = []  # of its code: each with what it stands for
        self.left_out, self.only_named, self.ghosts, self.elsewhere = [], [], {}, {}  # what its notes say

    code = property(lambda self: "".join(piece for piece, _ in self.pieces))

    def lines(self):
        """Returns how many lines the definition has, without comments and the header of its module."""
        own = self.code[len(self.definition.header):]
        return sum(1 for line in own.splitlines() if line.strip() and not COMMENT.match(line))

    def read(self, reading, fields):
        """Cuts the code into pieces, without the ghost members that nothing reads."""
        text, at = reading.text, 0
        cuts = [(start, end, name) for name, start, end in (labels(text) if reading.is_guarded else ()) if name not in fields]
        stops = cuts + [(use.start, use.end, use) for use in reading.uses if use.end and not isinstance(use.target, Field)]
        self.left_out = [name for *_, name in cuts]
        self.pieces = [(line + "\n", None) for line in (reading.definition.header, reading.definition.fixity) if line]
        for start, end, what in sorted(stops, key=lambda stop: stop[:2]):
            if start >= at:
                self.pieces += [(text[at:start], None)] + ([] if isinstance(what, str) else [(text[start:end], what.target)])
                self.only_named += [text[start:end]] if getattr(what, "guard", None) == NAMED else []
                at = end
        self.pieces.append((text[at:], None))
        self.pieces = [(FOR_THE_PROVER.sub(r"\1", piece), target) for piece, target in self.pieces]


def labels(text):
    """Yields the name, the start and the end of each field of a record, with the space before it."""
    depth, before = 0, 0
    for token in TOKEN.finditer(text, text.index("record {")):
        depth += (token.group() in "([{") - (token.group() in ")]}")
        if before and depth == 1 and token.group() == ";":
            yield text[before:token.start()].split()[0], before, token.end()
        if depth == 1 and token.group() in ("{", ";"):
            before = token.end()


def titles(definitions, taken):
    """Returns a heading for each definition: its name, with its file and more where two headings would have one anchor."""
    found, used = {}, collections.Counter(taken)
    for level in ("", " ({0.place})", " ({0.place}, {0.kind})", " ({0.place}, line {0.line})"):
        left = {definition: ("`{0.name}`" + level).format(definition) for definition in definitions if definition not in found}
        used.update(map(slug, left.values()))
        found.update({definition: title for definition, title in left.items() if slug(title) and used[slug(title)] == 1})
    return found


class Book:
    """All that the page shows. The examples of docs/examples.txt are by CRATE/FILE:NAME."""

    def __init__(self, sources, text, examples=()):
        self.sources, self.text, self.entries, self.top, self.examples = sources, text, {}, sources.top, dict(examples)
        with open(os.path.join(sources.top, PAGE), encoding="utf-8") as file:
            self.facts = Facts(file.read())
        self.contracts = [contract(sources, *found) for found in re.findall(r"^contract: (\S+) (\w+)$", text.front, re.M)]
        self.reach = Reach(sources, self.contracts)
        self.chapters = self.reach.chapters([chapter.files for chapter in text.chapters])
        definitions = [definition for chapter in self.chapters for definition in chapter]
        headings = re.findall(r"^#+ (.*)", text.front, re.M) + [chapter.title for chapter in text.chapters]
        title = titles(definitions, map(slug, headings))
        for at, chapter in enumerate(self.chapters, 1):
            for number, definition in enumerate(chapter, 1):
                self.entries[definition] = Entry(definition, title[definition], f"{at}.{number}")
        own = collections.Counter(definition.name for definition in definitions)
        members = collections.Counter(member for definition in definitions for member in definition.members)
        for definition, entry in self.entries.items():
            entry.read(self.reach.readings[definition], self.reach.fields)
            users = self.reach.users[definition]
            entry.users = [user for user in self.contracts if user in users]
            entry.users += [other for user, other in self.entries.items() if user in users]
            entry.pieces = [(full_name(piece, target, own, members), target) for piece, target in entry.pieces]
            self.find_notes(entry, own, members)

    def find_notes(self, entry, own, members):
        """Finds the names that need a note: those that are written otherwise here, or that are those of several definitions."""
        for use in self.reach.readings[entry.definition].uses:
            if is_trait(use.target):
                name = entry.definition.text[use.start:use.end] or "Ghosts"  # in the header of a module
                entry.ghosts[name] = [self.entries[ghost] for ghost in use.target.ghosts.values() if ghost in self.entries]
        for piece, target in entry.pieces:
            if target in self.entries and target is not entry.definition and "◌" not in target.name:
                is_own = piece == target.name
                is_full = piece.split(".")[0] == target.name
                if own[piece] > 1 if is_own else not is_full and piece not in target.members:
                    entry.elsewhere.setdefault((target, is_own), {})[piece] = None

    def named(self, name):
        """Returns the entry of a name in the text, as `load` or `pp_step/Rows:load`, or None if there is not exactly one."""
        found = [entry for one, entry in self.entries.items() if name in (one.name, one.whole_name)]
        return found[0] if len(found) == 1 else None


def full_name(piece, target, own, members):
    """Returns a constructor with its type in front if its name alone does not say which type, and a word of the kit as the kit has
    it."""
    if isinstance(target, Library) and not {".", "◌"} & set(piece + target.name):
        return target.name
    name = piece.split(".")[-1]
    is_constructor = name in getattr(target, "members", ()) and own[target.name] == 1
    return f"{target.name}.{name}" if is_constructor and (piece != name or own[name] + members[name] > 1) else piece


def link(entry):
    return f"[`{entry.definition.name}`](#{entry.anchor})"


def quoted(names):
    return ", ".join(f"`{name}`" for name in names)


def place_of(definition):
    path = definition.scope.path
    return f"[{path[len('crates/'):]}, line {definition.line}](../{path}#L{definition.line})."


def notes(entry, entries):
    """Yields what the page says of the names in a definition."""
    found = []
    for (target, is_own), pieces in entry.elsewhere.items():
        of = ("of " if target.members else "") + link(entries[target])
        of = f"that of [{target.place}](#{entries[target].anchor})" if is_own else of
        found.append(f"{quoted(pieces)} {'is' if len(pieces) == 1 else 'are'} {of}")
    if found:
        yield f"Here {', '.join(found)}."
    for name, ghosts in entry.ghosts.items():
        yield f"`{name}` has {', '.join(map(link, ghosts))}."
    if entry.only_named:
        yield f"Only named: {quoted(dict.fromkeys(entry.only_named))}."
    if entry.left_out:
        yield f"Left out, because nothing here reads them: {quoted(entry.left_out)}."


def fact_links(entry, book):
    """Returns links to the facts that a definition names."""
    facts = book.facts.facts
    return ", ".join(f"[{mark}]({os.path.basename(PAGE)}#{slug(facts[mark].heading)})" for mark in entry.definition.marks()
                     if mark in facts)


def without_folds(text):
    """Returns a part of the text without what only the printed page has."""
    return re.sub(r"^<details>.*?^</details>\n*", "", text, flags=re.M | re.S)


def entry_page(entry, book):
    """Returns the part of the page that shows a definition. What is not code in a sentence has no marks of Markdown."""
    parts = re.split(r"(`[^`]+`)", entry.definition.sentence() or "(no sentence)")
    sentence = "".join(part if part.startswith("`") else re.sub(r"([*_<\\])", r"\\\1", part) for part in parts)
    facts = fact_links(entry, book)
    sentence += f" ({facts})" if facts else ""
    code = f"```{entry.language}\n{entry.code}\n```"
    if entry.lines() > LONG:
        return f"### {entry.title}\n\n{sentence}\n\nIts {entry.lines()} lines are in {place_of(entry.definition)}\n"
    return "\n\n".join([f"### {entry.title}", sentence, code, *notes(entry, book.entries)]) + "\n"


def contents(book):
    """Returns the table of the chapters."""
    rows = ["| Chapter | Definitions |", "|---|---|"]
    for at, (chapter, definitions) in enumerate(zip(book.text.chapters, book.chapters), 1):
        rows += [f"| {at}. [{chapter.title}](#{slug(chapter.title)}) | {len(definitions)} |"] if definitions else []
    return "\n".join(rows)


def kit_table(book):
    """Returns the table of the words of the kit."""
    rows = ["| Word | Meaning |", "|---|---|"]
    for _, name in book.reach.kit():
        word = name.replace("|", "\\|")
        rows.append(f"| `{word}` | {book.text.kit.get(name, '(no line)')} |")
    return "\n".join(rows)


def filled(text, book):
    """Returns a part of the text with its contracts, links, tables and counts."""
    def shown(found):
        one = next(one for one in book.contracts if one.name == found[1])
        return f"```rust\n{one.text}\n```\n\n{place_of(one)}"

    def linked(found):
        entry = book.named(found[1])
        return link(entry) if entry else f"`{found[1]}`"

    text = re.sub(r"^contract: \S+ (\w+)$", shown, text, flags=re.M)
    text = re.sub(r"\[\[(\S+?)\]\]", linked, text)
    text = re.sub(r"^table: (\S+)$", lambda found: made_table(book.top, found[1]), text, flags=re.M)
    for key, made in (("contents", contents), ("kit", kit_table)):
        text = re.sub(rf"^{key}$", lambda _, made=made: made(book), text, flags=re.M)
    return text.replace("{words}", str(len(book.entries)))


def markdown(book):
    """Returns the page."""
    parts = [MADE + filled(without_folds(book.text.front), book)]
    for chapter, definitions in zip(book.text.chapters, book.chapters):
        parts.append(f"## {chapter.title}\n\n{filled(without_folds(chapter.introduction), book)}\n")
        parts += [entry_page(book.entries[definition], book) for definition in definitions]
    return "\n".join(parts)
