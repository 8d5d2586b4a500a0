"""Finds what each name in a definition stands for: another definition, a word of the kit, or a field that is read."""

import collections
import glob
import os
import re

from book.expressions import FIXITIES, FIXITY, TOKEN, Parser, Stuck
from book.sources import VARIANT, Constructor, Definition, Scope, parsed_rust, parsed_spec

VARIABLE = re.compile(r"[^\s(){};,\[\]=.→×λ]+")
NUMBER = re.compile(r"(?:0o)?\d+")
OURS = re.compile(r"Rattle\.(pp_\w+)\.specs\.(?:declared\.)?(.*)")
BUILT_IN = set("→ × = : . , λ | ↦ _ ⊥ Type Unit tt absurd record data where let in pub abbrev unfoldable module".split())
RUST = set("bool u8 u16 u32 u64 usize Self Option Vec String".split())
SMALL_CONSTRUCTORS = ("zero", "suc", "true", "false", "[]", "◌∷◌", "inl", "inr")
NAMED = "named"  # the guard of a type that is only named, as an argument of Ghosts

# A word of the kit; a field that is read; and the use of one of these or of a definition, from one place of a text to another.
# A use with a guard is in a field of a record of ghost members, and counts if that field is read somewhere.
Library = collections.namedtuple("Library", "module name")
Field = collections.namedtuple("Field", "name")
Use = collections.namedtuple("Use", "start end guard target")


class Unresolved(Exception):
    """A name that stands for nothing."""


def is_trait(target):
    return isinstance(target, Definition) and target.kind == "trait"


def owner(target):
    """Returns the type of a constructor, and all else as it is."""
    return target.type if isinstance(target, Constructor) else target


class Sources:
    """Every definition of the repository."""

    def __init__(self, top):
        self.top, self.scopes = top, {}
        for pattern, parsed in (("specs/**/*.antt", parsed_spec), ("src/**/*.rt", parsed_rust)):
            for path in sorted(glob.glob(os.path.join(top, "crates", "pp_*", pattern), recursive=True)):
                relative = os.path.relpath(path, top)
                crate, kind, *names = os.path.splitext(relative)[0].split(os.sep)[1:]
                scope = Scope((crate, kind, ".".join(names)), relative.replace(os.sep, "/"))
                with open(path, encoding="utf-8") as file:
                    parsed(file.read(), scope)
                self.scopes[scope.module] = scope
        declared = [getattr(one, "fixity", "") for scope in self.scopes.values() for one in scope.definitions.values()]
        # how strongly each operator binds, and on which side first
        self.fixity = {name: (int(strength), side) for side, strength, names in FIXITY.findall("\n".join([FIXITIES, *declared]))
                       for name in names.replace("◌", "").split()}

    def find(self, module, name):
        """Returns what a name of a module stands for."""
        ours = OURS.match(module)
        if not ours:
            return Library(module, name)
        if ".declared." in module:
            return self.declared(ours[1], ours[2].split("."), name)
        scope = self.scopes.get((ours[1], "specs", ours[2]))
        if scope and name in scope.definitions:
            return scope.definitions[name]
        if scope and name in scope.public:
            return self.find(*scope.imports[name])
        raise Unresolved(f"{module}.{name}")

    def declared(self, crate, parts, name):
        """Returns the Rust definition of FILE.TYPE.TheVariants.NAME, FILE.TheConstants.NAME, FILE.TYPE.Ghosts or FILE.TYPE.NAME."""
        if parts[-1] == "TheConstants":
            parts = parts[:-1] + [name]
        *file, kind = parts[:-1] if parts[-1] in ("TheVariants", "TheInside") else parts
        scope = self.scopes.get((crate, "src", ".".join(file)))
        if not scope or kind not in scope.definitions:
            raise Unresolved(".".join([crate, *file, kind]))
        found = scope.definitions[kind]
        return found.members.get(name, found) if parts[-1] == "TheVariants" else found

    def rust_type(self, scope, name):
        """Returns the type with a name in a Rust file: that of this file or crate, or of the crate that the file uses it from."""
        crates = (scope.module[0], scope.crates.get(name))
        others = [other for crate in crates for other in self.scopes.values() if other.module[:2] == (crate, "src")]
        for other in [scope, *others]:
            if name in other.definitions:
                return other.definitions[name]
        raise Unresolved(name)


class Names:
    """What the names of a scope stand for."""

    def __init__(self, sources, scope):
        self.sources, self.scope = sources, scope
        names = [*scope.imports, *scope.definitions]
        self.whole = {part: name for name in names for part in name.split("◌") if part}  # of an operator, each part

    def target(self, word):
        """Returns what a name or a part of an operator stands for, or None."""
        name = self.whole.get(word)
        if name in self.scope.definitions:
            return self.scope.definitions[name]
        return self.sources.find(*self.scope.imports[name]) if name else None

    def resolved(self, word, bound=()):
        """Returns what a word stands for, and the fields that it reads of that: of a bound name only these."""
        if word not in bound and word in self.whole:
            return self.target(word), []
        head, *fields = word.split(".")
        if not head or head in bound or head in BUILT_IN or NUMBER.fullmatch(head):
            return None, fields
        found = self.target(head)
        if isinstance(found, Definition) and fields and fields[0] in found.members:
            return found.members[fields[0]], fields[1:]
        if not found and head in self.scope.modules and fields:
            return self.sources.find(self.scope.modules[head], fields[0]), fields[1:]
        if not found:
            raise Unresolved(head)
        return found, fields

    def constructor(self, word):
        """Returns the constructor or the word of the kit that a word of a pattern is, or None if the word is a variable."""
        try:
            target, fields = self.resolved(word)
        except Unresolved:
            return None
        if isinstance(target, Library):
            return target if target.name[:1].isupper() or target.name in SMALL_CONSTRUCTORS else None
        return target if isinstance(target, Constructor) and not fields else None


def find_token(text, start, wanted):
    """Returns where a token is, from a place on, outside of the brackets that are opened after it."""
    depth = 0
    for token in TOKEN.finditer(text, start):
        if not depth and token.group() == wanted:
            return token.start()
        depth += (token.group() in "([{") - (token.group() in ")]}")
    raise Unresolved(f"{wanted} after {text[start:start + 40]!r}")


class Reading:
    """What a definition uses, and the names in it that stand for nothing."""

    def __init__(self, sources, definition):
        self.definition, self.text, self.fixity = definition, definition.text, sources.fixity
        self.names = Names(sources, definition.scope)
        self.uses, self.unresolved, self.is_guarded = [], set(), False
        bound = self.keep(Parser(definition.header.replace("module _", ""), self.fixity), Parser.binders)
        self.uses = [use._replace(start=0, end=0) for use in self.uses]
        if definition.kind == "contract":
            self.contract()
        elif definition.kind == "ghost":
            self.read(self.text.index("{") + 1, self.text.rindex("}"), {"Self"})
        elif definition.kind in ("record", "data"):
            self.members(bound)
        elif definition.scope.module[1] == "specs":
            self.equations(bound)
        elif not is_trait(definition):
            self.rust(sources)

    def read(self, start, end, bound):
        """Reads an expression from one place to another, where names are bound."""
        self.keep(Parser(self.text, self.fixity, start, end, bound), Parser.whole)

    def keep(self, parser, read):
        """Keeps the uses in what a parser reads, and returns the names that are bound after it."""
        try:
            read(parser)
        except Stuck as what:
            self.unresolved.add(str(what))
        for seen in parser.seen:
            try:
                target, fields = self.names.resolved(seen.word, seen.bound)
            except Unresolved as name:
                self.unresolved.add(str(name))
                continue
            guard, place = seen.guard if self.is_guarded else None, seen.place + len(seen.word)
            end = place - sum(len(field) + 1 for field in fields)
            self.uses += [Use(seen.place, end, guard, owner(target))] if target else []
            self.uses += [Use(end, place, guard, Field(field)) for field in fields if field and not field.isdigit()]
        return parser.bound

    def contract(self):
        """Reads the clauses of a function."""
        bound = {"result", "self", *re.findall(r"\b(\w+):", self.text)}
        for clause in re.finditer(r"^ +(?:ensures|requires)\*? *\w* \{", self.text, re.M):
            self.read(clause.end(), find_token(self.text, clause.end(), "}"), bound)

    def members(self, bound):
        """Reads the arguments of a type, and its fields or constructors."""
        name = re.search(r"\b(?:record|data) (\S+)", self.text)
        labels = list(re.finditer(r"^  (?:pub )?(\S+) :", self.text, re.M))
        starts = [label.start() for label in labels] + [len(self.text)]
        self.uses.append(Use(*name.span(1), None, self.definition))
        bound = self.keep(Parser(self.text, self.fixity, name.end(), starts[0], bound), Parser.binders)
        for label, end in zip(labels, starts[1:]):
            bound |= {label[1]}
            self.read(label.end(), end, bound)

    def equations(self, bound):
        """Reads a signature and its clauses."""
        (_, end), *clauses = self.definition.clauses()
        result = self.text[:end].rpartition("→")[2].rpartition(" : ")[2].split()[0]
        self.is_guarded = is_trait(self.names.target(result))
        first = len(self.uses)
        self.read(self.text.index(" : ") + 3, end, bound)
        if self.is_guarded:
            self.uses[first:] = [use if is_trait(use.target) else use._replace(guard=NAMED) for use in self.uses[first:]]
        for start, end in clauses:
            equals = find_token(self.text, start, "=")
            self.read(equals + 1, end, bound | self.variables(start, equals))

    def variables(self, start, end):
        """Reads the patterns of a clause, and returns the names that they bind."""
        own, bound = {self.definition.name, *self.definition.name.split("◌")}, set()
        for token in TOKEN.finditer(self.text, start, end):
            word = token.group()
            if word not in own | BUILT_IN and VARIABLE.match(word):
                target = owner(self.names.constructor(word))
                self.uses += [Use(token.start(), token.end(), None, target)] if target else []
                bound |= set() if target else {word}
        return bound

    def rust(self, sources):
        """Reads the types that a Rust definition names, and its ghost fields."""
        text = re.sub(r"//[^\n]*", lambda comment: " " * len(comment.group()), self.text)
        for ghost in re.finditer(r"\bghost \w+: \{", text):
            end = find_token(text, ghost.end(), "}")
            self.read(ghost.end(), end, {"Self"})
            text = text[:ghost.start()] + " " * (end - ghost.start()) + text[end:]
        generics = re.match(r"[^({;]*?\w+<([^>]*)>", text)
        known = {self.definition.name, *RUST, *re.findall(r"\w+", generics[1] if generics else "")}
        variants = {variant.start(1) for variant in VARIANT.finditer(text) if self.definition.kind == "enum"}
        for token in re.finditer(r"\b[A-Z]\w*", text):
            if token.start() not in variants and token.group() not in known:
                try:
                    target = sources.rust_type(self.definition.scope, token.group())
                    self.uses.append(Use(token.start(), token.end(), None, target))
                except Unresolved as name:
                    self.unresolved.add(str(name))
