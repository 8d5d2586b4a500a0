"""Records an example for each case of each definition on the page, and computes those of docs/examples.txt again.

A case is a clause of a definition, or a branch of one. docs/chosen.txt has sessions and expressions by the chapter in which they
are to be preferred; the worked rows of pp_worked come after them. While these are computed, each call is heard, and of all calls of
one case the one that reads best is kept. An example is an expression, so it can be typed and computed again.
"""

import functools
import os
import re
import tempfile
from typing import Any, Callable, Dict, Iterator, List, NamedTuple, Optional, Tuple

from book.expressions import Name
from book.names import Unresolved, find_token
from book.pages import Book, Text
from book.sources import Definition
from evaluating.asking import Definitions, performed
from evaluating.functions import Function, Locals
from evaluating.lists import Stuck
from evaluating.showing import Shower, has_texts
from evaluating.writing import Writer

CHOSEN, FILE = "docs/chosen.txt", "docs/examples.txt"
HEAD = """# Made by docs/evaluate --record from docs/chosen.txt and crates/pp_worked. Of each definition, for each of its cases: an
# expression and its value; or what a case returns that has no example. docs/evaluate --check computes each again."""
LONGEST, GOOD_SIZE, MOST_PARTS = 600, 48, 160  # characters and parts of an example
LOOKED_AT = 30  # calls of each case in a source that are all looked at, and from then on fewer and fewer


class Example(NamedTuple):
    """An expression and its value, and of a case without one what the case returns."""
    text: str
    value: str
    without: str = ""


class Source(NamedTuple):
    """What is computed: an expression, or a session with its words, files and lines; the chapter in which it is preferred."""
    chapter: str
    text: str = ""
    words: List[str] = []
    files: Dict[str, bytes] = {}
    script: bytes = b""


def chosen(text: str) -> Iterator[Source]:
    """Yields the sources of docs/chosen.txt, whose head says how they are written."""
    for block in re.split(r"^## ", text, flags=re.M)[1:]:
        chapter, _, rest = block.partition("\n")
        yield from (Source(chapter, text=line) for line in re.findall(r"^= (.*)$", rest, re.M))
        for session in re.findall(r"^session.*\n(?:(?:[>]|deck|panel).*\n)*", rest, re.M):
            words = session.split("\n", 1)[0].split()[1:]
            files = re.findall(r"^(deck|panel): (.*)$", session, re.M)
            lines = [line + "\n" for line in re.findall(r"^> ?(.*)$", session, re.M)]
            contents = {name: (data.replace(" / ", "\n") + "\n").encode("latin-1") for name, data in files}
            yield Source(chapter, "", words, contents, "".join(lines).encode("latin-1"))


def worked(top: str, definitions: Definitions) -> Iterator[Tuple[str, str, Any]]:
    """Yields the worked rows: their names, their statements, and the scopes of these."""
    for module, scope in sorted(definitions.sources.scopes.items()):
        if module[:2] == ("pp_worked", "src"):
            with open(os.path.join(top, scope.path), encoding="utf-8") as file:
                text = file.read()
            for function in re.finditer(r"^pub fn (\w+)\b.*?(?=^\{)", text, re.M | re.S):
                for clause in re.finditer(r"^ +ensures\*? *(\w*) \{", function[0], re.M):
                    end = find_token(function[0], clause.end(), "}")
                    yield f"{module[2]}.{function[1]}.{clause[1]}", " ".join(function[0][clause.end():end].split()), scope


class Case:
    """A clause of a definition, or a branch of it, with the expression that it returns."""

    def __init__(self, definition: Definition, tree: Any):
        self.definition, self.tree = definition, tree


class HeardFunction(Function):
    """A function that tells the definitions which case of it returned what."""

    def returned(self, tree: Any, scope: Locals) -> str:
        case = Case(self.definition, tree)
        self.maker.cases.setdefault(self.definition, []).append(case)
        hear = self.maker.constant(functools.partial(self.maker.hear, case))
        return f"{hear}([{', '.join(self.given)}], {super().returned(tree, scope)})"


class HeardDefinitions(Definitions):
    """Definitions of which each call is heard: hear(case, arguments, value)."""

    kind = HeardFunction

    def __init__(self, top: str, hear: Callable):
        super().__init__(top)
        self.hear, self.cases = hear, {}  # the cases of each definition


class Recorder:
    """Hears each call, and keeps the best ones of each case."""

    def __init__(self, top: str, change: Callable = lambda definitions: None):
        self.top, self.definitions = top, HeardDefinitions(top, self.hear)
        change(self.definitions)
        with open(os.path.join(top, "docs", "definitions.txt"), encoding="utf-8") as file:
            book = Book(self.definitions.sources, Text(file.read()))
        titles = [chapter.title for chapter in book.text.chapters]
        self.chapter = {one: title for title, own in zip(titles, book.chapters) for one in own if self.is_computed(one)}
        self.source: Optional[Source] = None  # what is computed, if calls of it are to be kept
        self.calls: Dict[Case, int] = {}
        self.last: Dict[Definition, Case] = {}  # the case of the last call that has returned
        self.typed: Dict[Case, List[Example]] = {}
        self.best: Dict[Case, List[Tuple[tuple, Example]]] = {}
        for definition in self.chapter:
            self.definitions.function(definition)
        self.definitions.finish()

    def is_computed(self, definition: Definition) -> bool:
        """Tells whether a definition is a function, and no type or statement."""
        try:
            result = self.definitions.function(definition).result if definition.kind == "function" else None
        except (Unresolved, Stuck):
            return False
        return result is not None and getattr(result, "head", None) != Name("Type")

    def hear(self, case: Case, given: List[Any], value: Any) -> Any:
        """Hears that a call with these arguments returned a value."""
        self.last[case.definition] = case
        if self.source and case.definition in self.chapter:
            count = self.calls[case] = self.calls.get(case, 0) + 1
            if count <= LOOKED_AT or not count & (count - 1):
                self.keep(case, given, value)
        return value

    def keep(self, case: Case, given: List[Any], value: Any) -> None:
        """Keeps a call if it is one of the best of its case."""
        shower = Shower(self.definitions, has_texts(case.definition), MOST_PARTS)
        name = self.definitions.name_of(case.definition)
        try:
            parts = list(map(shower.part, given))
            example = Example(self.call(name, parts), shower.text(value))
        except Stuck:
            return
        size = len(example.text) + len(example.value)
        if size <= LONGEST and example.text != example.value:
            is_dull = example.value in ("[]", "0", "None", "false") or example.value in parts
            is_other = self.source.chapter != self.chapter[case.definition]
            score = (is_other, is_dull, sum(one in ("0", "[]") for one in parts), abs(size - GOOD_SIZE))
            best = self.best.setdefault(case, [])
            if all(example != other for _, other in best):
                best.append((score, example))
                best.sort()
                del best[3:]

    @staticmethod
    def call(name: str, parts: List[str]) -> str:
        """Returns the text of a call."""
        operator = name.split(":")[-1].strip("◌")
        return f"{parts[0]} {operator} {parts[1]}" if "◌" in name else " ".join([name, *parts])

    def perform(self, source: Source) -> None:
        """Computes a source."""
        self.source, self.calls = source, {}
        if source.text:
            case, example = self.value(source.text)
            self.typed.setdefault(case, []).append(example)
            return
        with tempfile.TemporaryDirectory() as folder:
            here = os.getcwd()
            os.chdir(folder)
            try:
                for name, data in source.files.items():
                    with open(name, "wb") as file:
                        file.write(data)
                performed(self.definitions, source.words, lambda: source.script)
            finally:
                os.chdir(here)

    def value(self, text: str) -> Tuple[Case, Example]:
        """Returns the value of an expression as an example, and the case of the call that it is."""
        definition = self.definitions.head(text)
        self.definitions.memory.clear()  # so that the call is heard
        value = self.definitions.ask(text)
        return self.last.get(definition), Example(text, Shower(self.definitions, has_texts(definition)).text(value))

    def examples(self, definition: Definition) -> List[Example]:
        """Returns the examples of a definition, for each of its cases in their order."""
        self.source, found = None, []
        for case in self.definitions.cases[definition]:
            own = self.typed.get(case, []) or [one for _, one in self.best.get(case, ()) if self.is_right(case, one)][:1]
            found += own or [Example("", "", self.returns(case))]
        return found

    def returns(self, case: Case) -> str:
        """Returns what a case returns, as it is written, or the beginning of that."""
        text = Writer(self.definitions.fixity).text(case.tree)
        return text if len(text) <= 100 else text[:100].rsplit(" ", 1)[0] + " .."

    def fault(self, example: Example, left: List[Case]) -> List[str]:
        """Returns what is wrong with an example, and takes its case out of those that are left."""
        try:
            case, found = self.value(example.text) if example.text else (None, example)
        except (Stuck, Unresolved) as what:
            return [f"{example.text}: can't compute {what}"]
        left[:] = [one for one in left if one is not case and self.returns(one) != example.without]
        return [f"{example.text} is {found.value}"] if found != example else []

    def is_right(self, case: Case, example: Example) -> bool:
        """Tells whether an example, as it is written, is one of its case."""
        try:
            return self.value(example.text) == (case, example)
        except (Stuck, Unresolved):
            return False


def load(text: str) -> Dict[str, List[Example]]:
    """Returns the examples of docs/examples.txt by their definitions."""
    found: Dict[str, List[Example]] = {}
    for block in re.split(r"^== ", text, flags=re.M)[1:]:
        name, *lines = block.strip("\n").split("\n")
        for line, after in zip(lines, [*lines[1:], ""]):
            is_without = line.startswith("without: ")
            example = Example("", "", line[len("without: "):]) if is_without else Example(line, after[len("  = "):])
            found.setdefault(name, []).extend([example] if not line.startswith("  = ") else [])
    return found


def record(top: str) -> int:
    """Writes docs/examples.txt, and prints how many cases have no example."""
    recorder, faults = Recorder(top), []
    with open(os.path.join(top, CHOSEN), encoding="utf-8") as file:
        for source in chosen(file.read()):
            try:
                recorder.perform(source)
            except (Stuck, Unresolved) as what:
                faults.append(f"{CHOSEN}: {source.text or source.script}: can't compute {what}")
    recorder.source = Source("")
    for _, text, scope in worked(top, recorder.definitions):
        recorder.calls.clear()
        try:
            recorder.definitions.value(text, scope)
        except Stuck:
            pass  # a statement about each x
    lines, without = [HEAD], []
    for definition in recorder.chapter:
        found = recorder.examples(definition)
        lines.append(f"== {definition.whole_name}")
        lines += [f"without: {one.without}" if one.without else f"{one.text}\n  = {one.value}" for one in found]
        without += [f"{definition.whole_name}: {one.without}" for one in found if one.without]
    with open(os.path.join(top, FILE), "w", encoding="utf-8") as file:
        file.write("\n".join(lines) + "\n")
    count = sum(len(recorder.definitions.cases[definition]) for definition in recorder.chapter)
    print("\n".join([*faults, *without, f"{len(without)} of {count} cases have no example"]))
    return 1 if faults else 0


def faults_of(top: str, text: str, change: Callable = lambda definitions: None) -> List[str]:
    """Returns what is wrong with the examples of a text, after it has computed each. The definitions may be changed before."""
    recorder, examples, faults = Recorder(top, change), load(text), []
    for definition in recorder.chapter:
        own = examples.pop(definition.whole_name, [])
        if definition not in recorder.definitions.cases:
            faults.append(f"{definition.whole_name}: can't be read")
            continue
        left = list(recorder.definitions.cases[definition])
        for example in own:
            faults += recorder.fault(example, left)
        faults += [f"{definition.whole_name}: no line for the case {recorder.returns(case)}" for case in left]
    return faults + [f"{name}: no computable definition on the page" for name in examples]
