"""Makes a function of Python from each definition that is used.

A clause becomes an `if`, and a function that is passed on takes its arguments one by one. Definitions are total and have no
effects, so when and how often one is computed can't be seen. Four things rest on that: a constant is computed once; some functions
remember their results; an argument of some is computed when it is read; and a pattern `x ∷ xs` that is built again is the list that
it took apart. Types are not checked.

A statement is true or false. One about each or some x is computed if x is one of a few constructors. The data of a record of facts, and
what a constructor of a fact takes, are a witness that is asked for.
"""

import functools
import re
from collections import namedtuple
from typing import Any, Callable, Dict, List, Sequence

from book.expressions import Apply, Binder, If, Let, Name, Pair, Parser
from book.names import NUMBER, Library, Unresolved
from book.sources import MEMBER, Constructor, Definition
from evaluating.kit import KIT, VALUES
from evaluating.lists import Stuck, listed

# Without memory a session of n turns would take n * n steps, since each definition replays it from its start.
REMEMBERED = ("replay", "turn", "finished", "lines_of_file", "program", "session_with")
LAZY = {"hit_or": 1}  # the argument that is computed when it is read: the rest of a run of turns, which may stop early
ESCAPES = {"n": "\n", "t": "\t", "r": "\r"}
# The constructors that are not tuples with their names: the test of each, and its parts.
PATTERNS = {"zero": ["{} == 0"], "suc": ["{} > 0", "({} - 1)"], "true": ["{}"], "false": ["not {}"],
            "[]": ["{} is NIL"], "∷": ["{} is not NIL", "{}.head", "{}.tail"]}
BUILT_AGAIN = re.compile(r"Cons\(([\w.\[\]]+)\.head, \1\.tail\)")

Locals = Dict[str, str]  # what each name that is bound is in Python
# What a name is in Python: its function, how many arguments it takes, a call with {0}, {1} .. in their places, and its first
# arguments if they are not written: of a constructor its name, of a definition of the same module those of the module.
Word = namedtuple("Word", "function arity call own", defaults=[()])


def remembering(memory: Dict, function: Callable) -> Callable:
    """Returns a function that remembers its results by which values, in memory, its arguments are. It keeps those alive."""
    @functools.wraps(function)
    def remembered(*given: Any) -> Any:
        key = (function, *map(id, given))
        if key not in memory:
            memory[key] = (function(*given), given)
        return memory[key][0]
    return remembered


def word_of(function: str, arity: int, own: Sequence[str] = (), call: str = "{}({})") -> Word:
    """Returns the word of a function, of which a call is written so."""
    return Word(function, arity, call.format(function, ", ".join(f"{{{at}}}" for at in range(arity))), own)


def kit_word(name: str) -> Word:
    """Returns what a word of the kit is."""
    meaning = KIT.get(name, f"stuck('the word {name} of the kit')")
    if callable(meaning):
        return word_of(f"kit_{name}", meaning.__code__.co_argcount)
    names = [f"x{at}" for at in sorted(set(re.findall(r"{(\d)}", meaning)))]
    return Word(f"(lambda {', '.join(names)}: {meaning.format(*names)})", len(names), meaning)


def block(head: str, lines: List[str]) -> List[str]:
    """Returns lines of Python below the line that they belong to."""
    return [head, *("    " + line for line in lines)]


def applied(text: str, given: Sequence[str]) -> str:
    """Returns the text of a function that takes its arguments one by one."""
    return text + "".join(f"({one})" for one in given)


def fields_text(fields: List[str]) -> str:
    """Returns the text of fields that are read, by their names or, of a pair, their numbers."""
    return "".join(f"[{field}]" if field.isdigit() else f"[{field!r}]" for field in fields if field)


def names_in(header: str) -> List[str]:
    """Returns the names that a header binds, as `module _ (x y : A) where`."""
    return [name for binder in re.findall(r"\(([^:()]+) :", header) for name in binder.split()]


def parameters(definition: Definition) -> List[str]:
    """Returns the names of the arguments of a record, those of its module first."""
    return names_in(definition.header + definition.text.split(" where", 1)[0].rsplit(" : ", 1)[0])


class Function:
    """A definition, which becomes a function of Python with the arguments _0, _1 .."""

    def __init__(self, maker: Any, definition: Definition):
        self.maker, self.definition, self.names, self.count = maker, definition, maker.names(definition.scope), 0
        (_, end), *clauses = definition.clauses()
        sides = [Parser(definition.text[start:stop], maker.fixity).clause() for start, stop in clauses]
        self.clauses = [(left.given if isinstance(left, Apply) else [], body) for left, body in sides]
        self.module = names_in(definition.header)
        self.result = Parser(definition.text[definition.text.index(" : ") + 3:end], maker.fixity).expression()
        arrows, counts = 0, [len(patterns) for patterns, _ in self.clauses]
        while isinstance(self.result, Apply) and self.result.head == Name("→"):
            left, self.result = self.result.given
            arrows += len(left.names) if isinstance(left, Binder) else 1
        self.given = [f"_{at}" for at in range(len(self.module) + max(arrows, *counts))]
        self.name = self.fresh(f"{definition.name}_{len(maker.functions)}")

    def fresh(self, name: str) -> str:
        """Returns a new name in Python."""
        self.count += 1
        return re.sub(r"\W", "_", f"{name}_{self.count}")

    # ---- the whole function

    def whole(self) -> str:
        """Returns the text of the function."""
        name = self.definition.name
        kind = ["@once"] if not self.given else ["@remembered"] if name in REMEMBERED else []
        lines = [line for patterns, body in self.clauses for line in self.clause(patterns, body)]
        lines.append(f"stuck({f'no clause of {name} fits'!r})")
        return "\n".join([*kind, *block(f"def {self.name}({', '.join(self.given)}):", lines), ""])

    def clause(self, patterns: List, body: Any) -> List[str]:
        """Returns the lines of a clause."""
        scope, tests = dict(zip(self.module, self.given)), []
        for at, pattern in enumerate(patterns, len(self.module)):
            is_lazy = LAZY.get(self.definition.name) == at
            tests += self.match(pattern, f"{self.given[at]}()" if is_lazy else self.given[at], scope)
        rest = self.given[len(self.module) + len(patterns):]
        return block(f"if {' and '.join(tests) or True}:", self.lines(body, scope, rest))

    def match(self, pattern: Any, value: str, scope: Locals) -> List[str]:
        """Returns what a pattern tests of a value of this text, and adds the names that it binds to the scope."""
        head, given = pattern if isinstance(pattern, Apply) else (pattern, getattr(pattern, "parts", []))
        places = [f"{{}}[{at}]" for at in range(1, len(given) + 1)]
        if isinstance(pattern, Pair):
            test, places = "", ["{}[0]", *places]
        elif head.word in PATTERNS:
            test, *places = PATTERNS[head.word]
        elif what := self.names.constructor(head.word):
            test = f"{{}}[0] == {getattr(what, 'whole_name', what.name)!r}"  # a word of the kit has no type
        else:
            scope[head.word] = value
            return []
        tests = [test.format(value)] if test else []
        for part, place in zip(given, places):
            tests += self.match(part, place.format(value), scope)
        return tests

    def lines(self, tree: Any, scope: Locals, rest: List[str]) -> List[str]:
        """Returns the lines that return the value of an expression with the other arguments of the definition."""
        if isinstance(tree, Let):
            name = self.fresh(tree.name.word)
            return [f"{name} = {self.text(tree.value, scope)}", *self.lines(tree.body, {**scope, tree.name.word: name}, rest)]
        if isinstance(tree, If):
            yes = block(f"if {self.text(tree.test, scope)}:", self.lines(tree.yes, scope, rest))
            return yes + self.lines(tree.no, scope, rest)
        return ["return " + self.returned(Apply(tree, list(map(Name, rest))) if rest else tree, {**scope, **dict(zip(rest, rest))})]

    def returned(self, tree: Any, scope: Locals) -> str:
        """Returns the text of what a clause or a branch of it returns."""
        return self.text(tree, scope)

    # ---- an expression: of_KIND returns the text of a tree of this kind, with these parts

    def text(self, tree: Any, scope: Locals) -> str:
        """Returns the text of an expression."""
        return getattr(self, f"of_{type(tree).__name__.lower()}")(scope, *tree)

    def texts(self, trees: Sequence, scope: Locals) -> List[str]:
        """Returns the texts of some expressions."""
        return [self.text(tree, scope) for tree in trees]

    def of_name(self, scope: Locals, word: str) -> str:
        if word.startswith('"'):
            return self.maker.constant(listed(map(ord, re.sub(r"\\(.)", lambda one: ESCAPES.get(one[1], one[1]), word[1:-1]))))
        try:
            return str(int(word, 0)) if NUMBER.fullmatch(word) else self.call(scope, word, [])
        except ValueError:
            raise Stuck(f"{word}, which is no number") from None

    def of_binder(self, *_: Any) -> str:
        return "stuck('a statement about each or some x')"

    def of_field(self, scope: Locals, base: Any, fields: List[str]) -> str:
        return self.text(base, scope) + fields_text(fields)

    def of_pair(self, scope: Locals, parts: List) -> str:
        return f"({', '.join(self.texts(parts, scope))})"

    def of_record(self, scope: Locals, base: Any, fields: List) -> str:
        parts = [f"**{self.text(base, scope)}"] if base is not None else []
        return f"{{{', '.join(parts + [f'{name!r}: {self.text(value, scope)}' for name, value in fields])}}}"

    def of_if(self, scope: Locals, *parts: Any) -> str:
        return "({1} if {0} else {2})".format(*self.texts(parts, scope))

    def of_let(self, scope: Locals, name: Name, value: Any, body: Any) -> str:
        return applied(self.of_lambda(scope, [name], body), [self.text(value, scope)])

    def of_lambda(self, scope: Locals, patterns: List, body: Any) -> str:
        names, scope = [self.fresh("x") for _ in patterns], dict(scope)
        for pattern, name in zip(patterns, names):
            self.match(pattern, name, scope)
        return f"({''.join(f'lambda {name}: ' for name in names)}{self.text(body, scope)})"

    def of_each(self, scope: Locals, word: str, binder: Binder, body: Any) -> str:
        """Returns the text of a statement about each x, `→`, or some x, `×`."""
        values, x = self.values(binder.type), self.fresh("x")
        if not values or len(binder.names) > 1:
            return self.of_binder()
        made = self.text(body, {**scope, binder.names[0]: x})
        return f"{'all' if word == '→' else 'any'}({made} for {x} in {self.maker.constant(values)})"

    def values(self, kind: Any) -> List[tuple]:
        """Returns the values of a type whose constructors take no arguments."""
        try:
            target = self.names.resolved(kind.word, {})[0] if isinstance(kind, Name) else None
        except Unresolved:
            return []
        members = list(getattr(target, "members", {}).values())
        if any(member.arity for member in members):
            return []
        return [(member.whole_name,) for member in members] or VALUES.get(getattr(target, "name", ""), [])

    def of_apply(self, scope: Locals, head: Any, given: List) -> str:
        if isinstance(given[0], Binder):
            return self.of_each(scope, head.word, *given)
        if head == Name("→"):
            return "(not {} or {})".format(*self.texts(given, scope))
        if isinstance(head, Apply):
            return self.of_apply(scope, head.head, head.given + given)
        if isinstance(head, Name):
            return BUILT_AGAIN.sub(r"\1", self.call(scope, head.word, given))
        return applied(self.text(head, scope), self.texts(given, scope))

    # ---- names

    def call(self, scope: Locals, word: str, given: List) -> str:
        """Returns the text of a name with arguments; where fields are read of it, these come first."""
        target, fields = self.names.resolved(word, scope)
        if fields:
            base = word[:-len(".".join(["", *fields]))]
            return applied(self.call(scope, base, []) + fields_text(fields), self.texts(given, scope))
        what = self.word(target) if target else Word("", 0, scope[word]) if word in scope else kit_word(word)
        parts = list(what.own)
        for at, one in enumerate(given, len(parts)):
            is_lazy = target and LAZY.get(target.name) == at
            parts.append(f"once(lambda: {self.text(one, scope)})" if is_lazy else self.text(one, scope))
        if len(parts) < what.arity:
            return f"Partial({', '.join([what.function, str(what.arity - len(parts)), *parts])})"
        return applied(what.call.format(*parts) if what.arity else what.call, parts[what.arity:])

    def word(self, target: Any) -> Word:
        """Returns what a word of the kit, a constructor or a definition is."""
        if isinstance(target, Library):
            return kit_word(target.name.strip("◌"))
        if isinstance(target, Constructor):
            return word_of("together", 1 + target.arity, [repr(target.whole_name)], "({1},)")
        if target.kind == "const":
            return Word("", 0, re.search(r"= ([\d_]+);", target.text)[1])
        is_facts = target.kind in ("record", "data") and parameters(target)
        if target.kind != "function" and not is_facts:
            return Word("", 0, f"Partial(stuck, 1, '{target.name}, which is a type or a relation')")
        is_near = (target.scope, target.header) == (self.definition.scope, self.definition.header)
        try:
            function = self.maker.function(target)
        except (Unresolved, Stuck) as what:
            return Word("", 0, f"stuck({f'{target.name}: {what}'!r})")
        return word_of(function.name, len(function.given), self.given[:len(self.module)] if is_near else [])


class Facts(Function):
    """A record of facts, which becomes a function that tells whether all hold. A field of which later ones speak is data."""

    def __init__(self, maker: Any, definition: Definition):  # pylint: disable=super-init-not-called
        self.maker, self.definition, self.names, self.count = maker, definition, maker.names(definition.scope), 0
        self.module, self.result, self.clauses = names_in(definition.header), Name("Type"), []
        self.given = [f"_{at}" for at in range(len(parameters(definition)))]
        self.name = self.fresh(f"{definition.name}_{len(maker.functions)}")
        self.scope = dict(zip(parameters(definition), self.given))
        self.members = MEMBER.findall(re.sub(r"^ *--.*\n", "", definition.text, flags=re.M) + "\n")

    def whole(self) -> str:
        later = {name: "".join(fact for _, fact in self.members[at + 1:]) for at, (name, _) in enumerate(self.members)}
        data = {name: f"found[{name!r}]" for name in later if re.search(rf"(?<![\w.]){name}\b", later[name])}
        trees = [Parser(fact, self.maker.fixity).whole() for name, fact in self.members if name not in data]
        facts = self.texts(trees, {**self.scope, **data})
        return self.with_witness([f"return {' and '.join(facts)}"], "found" if data else "")

    def with_witness(self, lines: List[str], names: str) -> str:
        """Returns the text of the function, which begins with its witness if it asks for one."""
        asks = [f"{names} = witness({', '.join([repr(self.definition.name), *self.given])})"] if names else []
        return "\n".join([*block(f"def {self.name}({', '.join(self.given)}):", [*asks, *lines]), ""])


class Ways(Facts):
    """A fact with constructors, which becomes a function of Python that tells whether all holds that the witness's one takes."""

    def whole(self) -> str:
        lines = [line for name, signature in self.members for line in block(f"if way == {name!r}:", [self.way(signature)])]
        return self.with_witness([*lines, "return False"], "way, found")

    def way(self, signature: str) -> str:
        """Returns the line that returns whether all facts hold that a constructor takes."""
        tree, scope, facts = Parser(signature, self.maker.fixity).whole(), dict(self.scope), ["True"]
        while isinstance(tree, Apply) and tree.head == Name("→"):
            left, tree = tree.given
            parts = [left.head, *left.given] if isinstance(left, Apply) else [left]
            if isinstance(parts[0], Binder):
                scope.update((name, f"found[{name!r}]") for part in parts for name in part.names)
            else:
                facts.append(self.text(left, scope))
        return f"return {' and '.join(facts)}"
