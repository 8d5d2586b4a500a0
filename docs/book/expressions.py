"""Reads an expression, a pattern or a clause of a definition as a tree, and keeps each word of it that may be a name."""

import re
from collections import namedtuple
from typing import Any, Dict, FrozenSet, Iterable, List, Optional, Tuple

TOKEN = re.compile(r'"(?:\\.|[^"\\])*"|(?<!\S)(?:--|//)[^\n]*|\[\]|[(){};,\[\]]|[^\s(){};,\[\]"]+')
NO_NAME = re.compile(r'"|[(){};,\[\]]$')  # a text, a bracket or a mark
FIXITY = re.compile(r"infix([lr]?) (\d+)((?: ◌\S+◌)+)")
Fixity = Dict[str, Tuple[int, str]]  # of each operator: how strongly it binds, and on which side first
# The operators of the kit.
FIXITIES = """infixr 75 ◌^◌  infixl 70 ◌*◌ ◌/◌ ◌%◌  infixr 67 ◌∷◌  infixl 65 ◌+◌ ◌-◌ ◌++◌  infix 50 ◌≤◌ ◌<◌  infix 40 ◌==◌
    infixl 35 ◌&&◌  infixl 30 ◌||◌  infix 4 ◌≡◌ ◌≢◌  infixr 2 ◌×◌  infixr 1 ◌⊎◌  infixr 0 ◌→◌"""

# A name with the fields that are read of it, a number or a text in quotes, as it is written; a function or an operator and its
# arguments; and so on. A binder has the names and the type of (x y : A).
Name = namedtuple("Name", "word")
Apply = namedtuple("Apply", "head given")
Pair = namedtuple("Pair", "parts")
Field = namedtuple("Field", "base fields")
Record = namedtuple("Record", "base fields")  # the base is a record of which some fields are replaced, or None
If = namedtuple("If", "test yes no")
Let = namedtuple("Let", "name value body")
Lambda = namedtuple("Lambda", "patterns body")
Binder = namedtuple("Binder", "names type")
IMPLICIT = Binder([], None)  # an argument in braces, which is not written by who calls the function
STOPS = {")", "]", "}", ",", ";", "=", ":", "then", "else", "in", "", ".", "|"}
# What begins with a keyword: its kind, the words before its second and third part, and how strongly the third binds.
KEYWORDS = {"let": (Let, "=", "in", 0), "if": (If, "then", "else", 5)}


# A word with its place in the text, the names that are bound there, and the field of the outermost record in which it is.
Seen = namedtuple("Seen", "word place bound guard")


class Stuck(Exception):
    """What can't be read or computed."""


class Parser:
    """Reads the tokens of a text from one place to another, with names that are bound before."""

    def __init__(self, text: str, fixity: Fixity, start: int = 0, end: Optional[int] = None, bound: Iterable[str] = ()):
        tokens = [token for token in TOKEN.finditer(text, start, len(text) if end is None else end)
                  if not token.group().startswith(("--", "//"))]
        self.words, self.places = [token.group() for token in tokens] + [""], [token.start() for token in tokens]
        self.at, self.fixity, self.depth, self.guard = 0, fixity, 0, None
        self.bound: FrozenSet[str] = frozenset(bound)
        self.seen: List[Seen] = []

    @property
    def word(self) -> str:
        """The next word, or nothing at the end."""
        return self.words[self.at]

    def take(self, wanted: Optional[str] = None) -> str:
        """Returns the next word, and goes on behind it."""
        word = self.word
        if word != wanted and (wanted is not None or not word):
            raise Stuck(f"a text with {word or 'the end'} in place of {wanted or ('more' if wanted is None else 'its end')}")
        if word and not NO_NAME.match(word):
            self.seen.append(Seen(word, self.places[self.at], self.bound, self.guard))
        self.at += bool(word)
        return word

    def bind(self, since: int) -> None:
        """Binds the words that were seen since then: they are no uses of names."""
        self.bound |= {seen.word.rstrip(".") for seen in self.seen[since:]}
        del self.seen[since:]

    def has(self, word: str) -> bool:
        """Tells whether this word is the next, and if so goes on behind it."""
        return self.word == word and bool(self.take())

    def behind(self, word: str, least: int = 0) -> Any:
        """Reads a word and the expression behind it."""
        self.take(word)
        return self.expression(least)

    def clause(self) -> Tuple[Any, Any]:
        """Reads a whole clause: what is before the equals sign and what is after it."""
        left = self.expression()
        self.take("=")
        return left, self.whole()

    def binders(self) -> None:
        """Reads brackets that bind names, and the type behind a colon, if there is one."""
        while self.word in ("(", "{"):
            self.atom()
        if self.word == ":":
            self.behind(":")

    def whole(self) -> Any:
        """Reads an expression to the end of the text."""
        found = self.expression()
        self.take("")
        return found

    def expression(self, least: int = 0) -> Any:
        """Reads operands with operators between them that bind at least this strongly."""
        left = self.operand()
        while self.word in self.fixity and self.fixity[self.word][0] >= least:
            strength, side = self.fixity[self.word]
            left = Apply(Name(self.take()), [left, self.expression(strength + (side != "r"))])
        return left

    def operand(self) -> Any:
        """Reads a function with its arguments, or what begins with a keyword."""
        if self.has("λ"):
            return self.function()
        if self.word in KEYWORDS:
            kind, second, third, least = KEYWORDS[self.take()]
            since, first = len(self.seen), self.expression()
            if kind is Let:
                self.bind(since)
            return kind(first, self.behind(second), self.behind(third, least))
        head, given = self.atom(), []
        while self.word not in self.fixity and self.word not in STOPS:
            given += [part] if (part := self.atom()) is not IMPLICIT else []
        return Apply(head, given) if given else head

    def function(self) -> Lambda:
        """Reads what follows `λ`. The last pattern ends with a dot."""
        patterns: List = []
        while not self.word.endswith("."):
            since, pattern = len(self.seen), self.atom()
            if isinstance(pattern, Binder):
                pattern = Name(pattern.names[0])
            else:
                self.bind(since)
            patterns.append(pattern)
        since, last = len(self.seen), self.take()[:-1]
        self.bind(since)
        return Lambda(patterns + ([Name(last)] if last else []), self.expression())

    def atom(self) -> Any:
        """Reads a name, a record, or what is in brackets."""
        if self.word in STOPS:
            raise Stuck(f"a text with {self.word or 'an end'} in place of an expression")
        word = self.take()
        if word == "{":
            self.bracket("}")
            return IMPLICIT
        if word == "record":
            return self.record()
        found = self.bracket(")") if word == "(" else Name(word)
        return Field(found, self.take()[1:].split(".")) if re.match(r"\..", self.word) else found

    def record(self) -> Record:
        """Reads what follows `record`."""
        base, fields = self.atom() if self.word != "{" else None, []
        self.take("{")
        outer, self.depth = self.bound, self.depth + 1
        while not self.has("}"):
            name = self.take()
            self.seen.pop()
            self.guard = name if self.depth == 1 else self.guard
            fields.append((name, self.behind("=")))
            self.bound = outer
            self.has(";")
        self.depth -= 1
        self.guard = self.guard if self.depth else None
        return Record(base, fields)

    def bracket(self, end: str) -> Any:
        """Reads what follows an opening bracket, up to this end. Names before a colon are bound from there on."""
        outer, since, self.depth = self.bound, len(self.seen), self.depth + 1
        parts, names, kind = [self.expression()], [], None
        if self.word == ":":
            names = [name.word for name in ([parts[0].head, *parts[0].given] if isinstance(parts[0], Apply) else parts)]
            self.bind(since)
            kind = self.behind(":")
        while self.has(","):
            parts += [self.expression()] if self.word != end else []
        self.take(end)
        self.bound, self.depth = outer.union(names), self.depth - 1
        return Binder(names, kind) if names else parts[0] if len(parts) == 1 else Pair(parts)
