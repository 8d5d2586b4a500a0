"""Reads the definitions of the sources: those of specs/*.antt, and the types, constants and ghost members of src/*.rt."""

import re

from book.facts import MARKS, marks_in
from book.layout import indented

BLOCK_COMMENT = re.compile(r"^ *(?:--|//+)!? ?", re.M)
USE = re.compile(r"^\s*(?:ghost )?((?:unfoldable )?pub )?(?:ghost )?use ([^\s;{]+?)(?:\.\{(.*)\})?(?: as (\S+?))?;?$")
START = re.compile(r"(?=(?:abbrev|unfoldable|irreducible|pub|record|data) |\S+ : )"
                   r"(?:(?:abbrev|unfoldable|irreducible) )?(?:pub )?(?:(record|data) )?(\S+)")
MEMBER = re.compile(r"^  (?:pub )?(\S+) : (.*\n?(?: {4,}.*\n?)*)", re.M)
RUST_ITEM = re.compile(r"(?P<above>(?:^(?:///|#\[).*\n)*)^(?:pub(?:\([^)\n]*\))? )?"
                       r"(?P<kind>enum|struct|trait|type|const) (?P<name>\w+)", re.M)
GHOST = re.compile(r"(?P<above>(?:^ +//.*\n)*)^ +(?P<text>ghost (?P<name>\w+):[^;]*;)$", re.M)
VARIANT = re.compile(r"^    ([A-Z]\w*)(?:\s*\{([^}]*)\}|\(([^)]*)\))?", re.M)
BRACKETS = re.compile(r"\([^()]*\)")
CLAUSE = re.compile(r"^(?!--|[\])}])\S", re.M)



class Scope:
    """A source file: what it defines, and what it calls the definitions of other files."""

    def __init__(self, module, path):
        self.module, self.path = module, path
        self.definitions = {}  # by each name that is declared, constructors too
        self.imports = {}  # the name here: the module and the name there
        self.modules = {}  # the name of a module here: the module
        self.public = set()  # the imports that other files may import from here
        self.crates = {}  # a type of another crate that a Rust file uses: that crate
        self.marks = []  # the facts that its comments name

    def add_use(self, line):
        is_public, module, names, alias = USE.match(line).groups()
        if names is None:
            self.modules[alias or module.rsplit(".", 1)[-1]] = module
        for path, here in used_names(module, names or ""):
            within, _, there = path.rpartition(".")
            self.imports[here or there] = (within, there)
            self.public |= {here or there} if is_public else set()


def used_names(module, names):
    """Yields the whole name of each part of a `use`, and what it is called here; in a group `a.{b, c.d}` a part may be a path or a
    group."""
    depth, part = 0, ""
    for letter in names + ",":
        depth += (letter == "{") - (letter == "}")
        if letter != "," or depth:
            part += letter
            continue
        name, _, group = part.strip().partition(".{")
        there, _, here = name.partition(" as ")
        if group:
            yield from used_names(f"{module}.{name}", group[:-1])
        elif name:
            yield f"{module}.{there}", here
        part = ""


class Constructor:
    """A constructor of a type, and how many arguments it takes."""

    def __init__(self, owner, name, arity):
        self.type, self.name, self.arity, self.whole_name = owner, name, arity, f"{owner.name}.{name}"


class Definition:
    """A definition as it is written, without the attributes for the compiler."""

    def __init__(self, kind, name, scope, line, comment, text, header="", fixity=""):
        self.kind, self.name, self.scope, self.line = kind, name, scope, line
        self.comment, self.text, self.header, self.fixity = comment, text, header, fixity
        self.members = {}  # constructors of a type by their names
        self.ghosts = {}  # ghost members of a trait

    crate = property(lambda self: self.scope.path.split("/")[1])
    place = property(lambda self: re.sub(r"^crates/(\w+)/(?:specs/)?(.*)\.\w+$", r"\1/\2", self.scope.path))
    whole_name = property(lambda self: f"{self.place}:{self.name}")

    def clauses(self):
        """Yields where the signature and each clause begins and ends."""
        starts = [line.start() for line in CLAUSE.finditer(self.text)] + [len(self.text)]
        yield from (part for part in zip(starts, starts[1:]) if not self.text.startswith("unfolding ", part[0]))

    def add_members(self):
        """Reads the constructors. Those of data take what the arrows outside of brackets say, and those of an enum their fields."""
        text = re.sub(r"//.*", "", self.text)
        if self.kind == "data":
            arities = {name: BRACKETS.sub("", BRACKETS.sub("", signature)).count("→") for name, signature in MEMBER.findall(text)}
        else:
            arities = {name: len(re.findall(r"\w[^,]*", inner or outer)) for name, inner, outer in VARIANT.findall(text)}
        self.members = {name: Constructor(self, name, arity) for name, arity in arities.items()}

    def marks(self):
        """Returns the marks of facts in the comment above the definition."""
        return [mark for marks in MARKS.findall(self.said()) for mark in marks.split(", ")]

    def said(self):
        return " ".join(BLOCK_COMMENT.sub("", self.comment).split())

    def sentence(self):
        """Returns the comment above the definition as a sentence, without the marks of facts."""
        text = MARKS.sub("", self.said()).strip()
        if re.match(r"(?:a|[a-z][a-z']+)[ ,;:]", text):
            text = text[0].upper() + text[1:]
        return text if not text or text[-1] in ".:?" else text + "."


def parsed_spec(text, scope):
    """Adds what a spec file defines and imports to its scope."""
    header, comment, fixity, current, is_header_open = "", [], "", None, False
    scope.marks = marks_in(text)
    for number, raw in enumerate(text.splitlines(), 1):
        if is_header_open or raw.startswith("module _"):
            header = header + "\n" + raw if is_header_open else raw
            is_header_open, comment, current = not raw.endswith("where"), [], None
            continue
        header = "" if raw[:1].strip() else header
        line = raw[2:] if header else raw
        start = START.match(line)
        if not line.strip() or line.startswith("-- ----"):
            comment, current = [], current if not line.strip() else None
        elif line.startswith("--"):
            comment.append(line)
        elif USE.match(line):
            scope.add_use(line)
        elif line.startswith("infix"):
            fixity = line
        elif start and not line.startswith("pub mod "):
            current = Definition(start[1] or "function", start[2], scope, number, "\n".join(comment), line, header, fixity)
            scope.definitions[start[2]] = current
            comment, fixity = [], ""
        elif current:
            current.text += "\n" + "\n".join(comment + [line])
            comment = []
    for definition in list(scope.definitions.values()):
        definition.text = indented(definition.text)
        if definition.kind == "data":
            definition.add_members()
            scope.definitions.update(definition.members)


def rust_end(text, start):
    """Returns the end of a Rust item: its last brace, or the semicolon of an item on one line."""
    line = text.find("\n", start)
    return line if text[line - 1] in ";}" else text.index("\n}", start) + 2


def parsed_rust(text, scope):
    """Adds the types, constants and traits of a source file to its scope, and what it imports for its clauses."""
    scope.marks = marks_in(text)
    for line in re.findall(r"^\s*ghost use .*", text, re.M):
        scope.add_use(line)
    for crate, names in re.findall(r"^use (pp_\w+)::([^;]*);", text, re.M):
        scope.crates.update(dict.fromkeys(re.findall(r"\b[A-Z]\w*", names), crate))
    for item in RUST_ITEM.finditer(text):
        start, end = item.end("above"), rust_end(text, item.end())
        written = re.sub(r"^ *#\[.*\n| by \{[^{}]*\}", "", text[start:end], flags=re.M)  # nor how the logic stores ghost data
        comment = "\n".join(re.findall(r"^///.*", item["above"], re.M))
        found = Definition(item["kind"], item["name"], scope, text.count("\n", 0, start) + 1, comment, written)
        scope.definitions[found.name] = found
        if found.kind == "enum":
            found.add_members()
        for ghost in GHOST.finditer(text, start, end) if found.kind == "trait" else ():
            at = text.count("\n", 0, ghost.start("text")) + 1
            written = re.sub(r"^    ", "", ghost["text"], flags=re.M)
            found.ghosts[ghost["name"]] = Definition("ghost", f"{found.name}.{ghost['name']}", scope, at, ghost["above"], written)
