"""Asks for the value of an expression, for the steps of a processor, and for a run of the program."""

import functools
import os
import re
from typing import Any, Callable, Dict, Iterator, List, Optional, Set, Tuple

from book.expressions import Apply, Parser
from book.names import Names, Sources, Unresolved
from book.sources import Definition, Scope
from evaluating import lists
from evaluating.functions import Facts, Function, Ways, remembering
from evaluating.kit import KIT, NONE, text_of
from evaluating.lists import NIL, Stuck, items, listed, replicate
from evaluating.runs import Run

# Of several definitions with one name, the only one of the first crate has it alone, or else the only one outside of the second;
# those of inner files count as the second's, and a definition comes before the constructors with its name. What the crates
# beside the program define comes last.
PROGRAM, MAIN, WORKED = "pp6600", "pp_machine", "pp_worked"


def crates_of_the_program(top: str) -> Set[str]:
    """Returns the crates that the program is made of."""
    with open(os.path.join(top, "crates.txt"), encoding="utf-8") as file:
        below = {name: found.split() for name, found in re.findall(r"^(\w+)[^:\n]*:(.*)$", file.read(), re.M)}
    found, ahead = set(), [PROGRAM]
    while ahead:
        name = ahead.pop()
        ahead += below.get(name, []) if name not in found else []
        found.add(name)
    return found


def rank(one: Any, near: Set[str]) -> int:
    """Returns the rank of what has a name: the first has it alone, if it is the only one of its rank."""
    owner = getattr(one, "type", one)
    is_beside = owner.crate not in near
    is_far = owner.crate == WORKED or is_beside or "/Inner" in owner.place
    return 6 * is_beside + 3 * (owner is not one) + (2 if is_far else owner.crate != MAIN)


class Definitions:
    """Every definition of the repository by its name: NAME, CRATE/FILE:NAME or, of a constructor, TYPE.NAME."""

    kind = Function

    def __init__(self, top: str):
        self.sources, self.scope = Sources(top), Scope(("", "specs", ""), "")
        self.fixity = self.sources.fixity
        scopes = [scope for scope in self.sources.scopes.values() if "tests" not in scope.module[2]]
        owners = [one for scope in scopes for one in scope.definitions.values() if isinstance(one, Definition)]
        found: Dict[str, Dict[Any, int]] = {}
        near = crates_of_the_program(top) | {WORKED}
        for one in [*owners, *(member for owner in owners for member in owner.members.values())]:
            found.setdefault(one.name, {})[one] = rank(one, near)
            self.scope.definitions[one.whole_name] = one
        self.first = {name: [one for one, own in ranks.items() if own == min(ranks.values())] for name, ranks in found.items()}
        self.shared = {name for name, ranks in found.items() if sum(own % 3 < 2 for own in ranks.values()) > 1}
        self.scope.definitions.update((name, first[0]) for name, first in self.first.items() if len(first) == 1)
        for name in [f"◌{name}◌" if name in self.fixity else name for name in KIT]:
            self.scope.imports[name] = ("Rattle.std.specs.Prelude", name)
            self.scope.definitions.pop(name, None)
        self.names = functools.lru_cache(None)(functools.partial(Names, self.sources))  # what the names of a scope stand for
        self.memory: Dict = {}  # what remembered functions have returned
        self.python = {**vars(lists), **{f"kit_{name}": function for name, function in KIT.items()}, "NONE": NONE,
                       "once": functools.lru_cache(None), "remembered": functools.partial(remembering, self.memory),
                       "witness": self.witness}
        self.witnesses: Dict[str, Callable] = {}  # what a fact asks for and does not compute, by its name
        self.functions: Dict[Definition, Function] = {}
        self.queue: List[Function] = []

    def named(self, name: str) -> Definition:
        """Returns the definition of a name."""
        if name in self.scope.definitions:
            return self.scope.definitions[name]
        several = ", ".join(sorted(one.whole_name for one in self.first.get(name, [])))
        raise Unresolved(f"{name} is one of {several}" if several else f"{name} stands for nothing")

    def name_of(self, definition: Definition) -> str:
        """Returns the shortest name of a definition."""
        is_alone = self.scope.definitions.get(definition.name) is definition
        return definition.name if is_alone else definition.whole_name

    def constant(self, value: Any) -> str:
        """Returns the name of a value in the functions that are made."""
        name = f"constant_{len(self.python)}"
        self.python[name] = value
        return name

    def kind_of(self, definition: Definition) -> Any:
        """Returns what makes a function of this definition."""
        return {"record": Facts, "data": Ways}.get(definition.kind, self.kind)

    def function(self, definition: Definition) -> Function:
        """Returns the function of a definition, which is made before anything is computed."""
        if definition not in self.functions:
            self.functions[definition] = self.kind_of(definition)(self, definition)
            self.queue.append(self.functions[definition])
        return self.functions[definition]

    def witness(self, name: str, *given: Any) -> Any:
        """Returns what a fact asks for, with these arguments."""
        if name not in self.witnesses:
            raise Stuck(f"{name}, which asks for a value")
        return self.witnesses[name](*given)

    def finish(self) -> None:
        """Makes the functions that are used, and those that they use."""
        while self.queue:
            function = self.queue.pop()
            try:
                text = function.whole()
            except (Unresolved, Stuck) as what:
                text = f"def {function.name}(*_):\n    stuck({f'{function.definition.name}: {what}'!r})\n"
            exec(compile(text, f"<{function.name}>", "exec"), self.python)  # pylint: disable=exec-used

    def value(self, text: str, scope: Scope) -> Any:
        """Returns the value of an expression, with the names of a scope."""
        asked = self.kind(self, Definition("function", "asked", scope, 0, "", "asked : Type\nasked = " + text.replace("\n", "\n ")))
        made = asked.text(asked.clauses[0][1], {})
        self.finish()
        return eval(made, self.python)  # pylint: disable=eval-used

    def call(self, name: str, *given: Any) -> Any:
        """Returns the value of a definition with these arguments."""
        function = self.function(self.named(name))
        self.finish()
        return self.python[function.name](*given)

    def ask(self, text: str) -> Any:
        """Returns the value of an expression."""
        if not text.strip():
            raise Stuck("nothing: write an expression, as 'add18 0o777776 1'")
        try:
            value = self.value(text, self.scope)
            if isinstance(value, lists.Partial) and getattr(self.head(text), "kind", "") in ("record", "data"):
                raise Stuck(f"{text}, which is a type or a relation")
            return value
        except Unresolved as fault:
            self.named(str(fault))  # says which definitions have the name, if several have it
            raise
        except ZeroDivisionError:
            raise Stuck("a division by 0") from None
        except (TypeError, KeyError, IndexError, AttributeError, ValueError):
            raise Stuck("an argument has another type than its definition says") from None

    def head(self, text: str) -> Optional[Definition]:
        """Returns the definition that an expression calls, if it calls one."""
        tree = Parser(text, self.fixity).whole()
        word = getattr(tree.head if isinstance(tree, Apply) else tree, "word", "")
        try:
            found = self.names(self.scope).target(word)
        except Unresolved:
            return None
        return found if isinstance(found, Definition) else None


# ---- the program

CUT = "a run that a failed read cuts short: IsCut says what that is, and `program` has whole runs only"


@functools.lru_cache(maxsize=None)
def definitions_of(top: str) -> Definitions:
    """Returns the definitions of a checkout as they are, which are read once."""
    return Definitions(top)


def content(path: tuple) -> tuple:
    """Returns what a path names, if there is one."""
    try:
        with open(text_of(path[1]) if path != NONE else "", "rb") as file:
            return ("Found.Content", listed(file.read()))
    except OSError as fault:
        if fault.filename is None or isinstance(fault, IsADirectoryError):  # it was opened, and could not be read
            raise Stuck(CUT) from None
        return ("Found.Missing",)


def meaning(definitions: Definitions, words: tuple) -> tuple:
    """Returns what the words mean: what they ask for, help, or bad arguments, the first that `Means` allows."""
    asked = definitions.call("asked_by", words[1])
    asked = asked if asked[0] == "Ok" else ("Err", definitions.call("of_arguments", asked[1]))
    for found in (asked, ("Err", ("Trouble.Help",)), ("Err", ("Trouble.BadArguments",))):
        if definitions.call("Means", words, found):
            return found
    raise Stuck("words of which `Means` allows no meaning")


class Files:
    """The files that the options name. Each is opened when it is first asked for, while the run lasts."""

    def __init__(self, path_of: Callable):
        self.path_of, self.is_over = path_of, False
        self.found: Dict[tuple, tuple] = {}
        self.opened: List[dict] = []

    def __call__(self, kind: tuple) -> tuple:
        path = self.path_of(kind) if kind not in self.found else NONE
        if self.is_over or kind in self.found:
            return self.found.get(kind, ("Found.Missing",))
        self.opened.extend([{"kind": kind, "path": path[1]}] if path != NONE else [])
        self.found[kind] = content(path)
        return self.found[kind]


def performed(definitions: Definitions, words: List[str], read: Callable[[], bytes]) -> Tuple[bytes, bytes, int]:
    """Returns what `program` writes to standard output and to standard error, and its exit status; `read` reads standard input."""
    definitions.memory.clear()
    texts = ("Words.Texts", listed(listed(os.fsencode(word)) for word in ["pp6600", *words]))
    means = meaning(definitions, texts)
    asked = means[1] if means[0] == "Ok" else None
    files = Files(lambda kind: definitions.call("path_of", asked, kind))
    try:
        typed = read() if asked and definitions.call("path_of", asked, ("FileKind.Script",)) == NONE else b""
    except OSError:
        raise Stuck(CUT) from None
    given = {"words": texts, "files": files, "input": listed(typed)}
    course = definitions.call("program", given, means)
    files.is_over = True
    if not course["reads_input"]:  # then nothing is known of it
        typed, given = b"", {**given, "input": NIL}
    if list(items(course["opened"])) != files.opened:
        raise Stuck("a run whose course opens other files, or in another order")
    output, errors, status = course["answers"], NIL, definitions.call("exit_of", course["ended"])
    if course["ended"][0] == "Err":
        line = definitions.call("line_of", course["ended"][1])
        output, errors = (line, NIL) if course["ended"][1] == ("Trouble.Help",) else (output, line)
    Run(definitions, given, means, course, typed).check(output, errors, status)
    return bytes(items(output)), bytes(items(errors)), status


# ---- the steps of a processor

# The places of a processor: how they are typed, their names in PpPlace, the fields with their numbers in what it sees of the
# machine, the digits of their addresses and of their numbers, and the largest number.
PLACES = (("P", "P", "p", 0, 4, 0o7777), ("A", "A", "a", 0, 6, 0o777777), ("Q", "Q", "q", 0, 4, 0o7777),
          ("PHASE", "Phase", "phase", 0, 4, 0o7777), ("M", "Cell", "cells", 4, 4, 0o7777), ("S", "State", "states", 2, 1, 3),
          ("H", "Register", "registers", 2, 4, 0o7777), ("C", "Central", "central", 6, 20, 2 ** 60 - 1),
          ("XP", "FrameWord", "frame", 2, 20, 2 ** 60 - 1))
CENTRAL = 0o400000  # words of central memory


def place_and_number(word: str, view: dict) -> Tuple[tuple, int]:
    """Returns what A=5 or `M 20=5` says of a processor that sees this."""
    found = re.fullmatch(r"([A-Z]+)(?: +([0-7]+))?=([0-7]+)", word.upper())
    for short, name, field, digits, _, largest in PLACES:
        if found and found[1] == short and bool(digits) == bool(found[2]):
            number, at = int(found[3], 8), [int(found[2], 8)] if found[2] else []
            if at and at[0] >= sum(1 for _ in items(view[field])):
                raise Stuck(f"{word!r}: there is no {short} {at[0]:o}")
            if number > largest or name == "FrameWord" and at == [0] and number % 2 ** 18:
                raise Stuck(f"{word!r}: no number of {short} is {number:o}")
            return (f"PpPlace.{name}", *at), number
    raise Stuck(f"{word!r}: write an instruction word, as 3520, or a place and its number, as A=777777 or 'M 20=5'")


def stepped(definitions: Definitions, words: List[str], steps: int) -> Iterator[Any]:
    """Yields what each step writes, of a program at P, or at 0100, of a blank processor with these numbers."""
    view = {**definitions.call("pp_worked/Processors:blank"), "central": replicate(CENTRAL, 0)}
    program = [int(word, 8) for word in words if re.fullmatch("[0-7]{1,4}", word)]
    others: Dict[tuple, int] = {("PpPlace.P",): 0o100}
    for word in (word for word in words if not re.fullmatch("[0-7]{1,4}", word)):
        place, number = place_and_number(word, view)
        if place in others and place != ("PpPlace.P",) or sum(other.upper().startswith("P=") for other in words) > 1:
            raise Stuck(f"{word!r}: the place is given twice")
        others[place] = number
    cells = definitions.call("cells_from", others["PpPlace.P",], listed(program))
    writes = listed([*others.items(), *items(cells)])
    for _ in range(steps):
        view = definitions.call("pp_step/View:over", view, writes)
        writes = definitions.call("pp_writes", view)
        yield writes


def written(write: Tuple[tuple, int]) -> str:
    """Returns a place with its number, as A = 000005 or M 0020 = 0005."""
    (name, *address), number = write
    short, *_, digits, width, _ = next(place for place in PLACES if name == f"PpPlace.{place[1]}")
    return f"{' '.join([short, *(f'{one:0{digits}o}' for one in address)])} = {number:0{width}o}"
